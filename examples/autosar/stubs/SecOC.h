/* What the SecOC module of a vendor declares: types and callouts of its freshness management (R19-11 to R23-11). */
#ifndef SECOC_H
#define SECOC_H

#include "Std_Types.h"

/* The freshness can't be given now. SecOC asks again. */
#define E_BUSY ((Std_ReturnType)0x02u)

typedef uint8 SecOC_VerificationResultType;

#define SECOC_VERIFICATIONSUCCESS ((SecOC_VerificationResultType)0x00u)
#define SECOC_VERIFICATIONFAILURE ((SecOC_VerificationResultType)0x01u)
#define SECOC_FRESHNESSFAILURE ((SecOC_VerificationResultType)0x02u)
#define SECOC_AUTHENTICATIONBUILDFAILURE ((SecOC_VerificationResultType)0x03u)

typedef struct {
    uint16 freshnessValueID;
    SecOC_VerificationResultType verificationStatus;
    uint16 secOCDataId;
} SecOC_VerificationStatusType;

Std_ReturnType SecOC_GetTxFreshness(uint16 SecOCFreshnessValueID, uint8 *SecOCFreshnessValue,
                                    uint32 *SecOCFreshnessValueLength);

Std_ReturnType SecOC_GetTxFreshnessTruncData(uint16 SecOCFreshnessValueID, uint8 *SecOCFreshnessValue,
                                             uint32 *SecOCFreshnessValueLength, uint8 *SecOCTruncatedFreshnessValue,
                                             uint32 *SecOCTruncatedFreshnessValueLength);

Std_ReturnType SecOC_GetRxFreshness(uint16 SecOCFreshnessValueID, const uint8 *SecOCTruncatedFreshnessValue,
                                    uint32 SecOCTruncatedFreshnessValueLength, uint16 SecOCAuthVerifyAttempts,
                                    uint8 *SecOCFreshnessValue, uint32 *SecOCFreshnessValueLength);

void SecOC_SPduTxConfirmation(uint16 SecOCFreshnessValueID);

#endif
