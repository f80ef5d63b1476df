/* What NvM declares of reading and writing one block. */
#ifndef NVM_H
#define NVM_H

#include "Std_Types.h"

typedef uint16 NvM_BlockIdType;
typedef uint8 NvM_RequestResultType;

#define NVM_REQ_OK ((NvM_RequestResultType)0x00u)
#define NVM_REQ_NOT_OK ((NvM_RequestResultType)0x01u)
#define NVM_REQ_PENDING ((NvM_RequestResultType)0x02u)

Std_ReturnType NvM_ReadBlock(NvM_BlockIdType BlockId, void *NvM_DstPtr);
Std_ReturnType NvM_WriteBlock(NvM_BlockIdType BlockId, const void *NvM_SrcPtr);
Std_ReturnType NvM_GetErrorStatus(NvM_BlockIdType BlockId, NvM_RequestResultType *RequestResultPtr);

#endif
