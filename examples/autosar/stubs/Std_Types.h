/* The platform and standard types of AUTOSAR that the shims use. For trying without a vendor's stack. */
#ifndef STD_TYPES_H
#define STD_TYPES_H

/* FvM_Cfg.h takes values that are good for trying alone. */
#define FVM_TRYING

#include <stddef.h>
#include <stdint.h>

typedef uint8_t boolean;
typedef uint8_t uint8;
typedef uint16_t uint16;
typedef uint32_t uint32;
typedef uint64_t uint64;

typedef uint8 Std_ReturnType;

#define E_OK ((Std_ReturnType)0x00u)
#define E_NOT_OK ((Std_ReturnType)0x01u)

#endif
