/* What tests/c uses of <stdint.h>: see stddef.h. */
#ifndef BARE_STDINT_H
#define BARE_STDINT_H
typedef unsigned char uint8_t;
typedef unsigned short uint16_t;
typedef unsigned int uint32_t;
typedef unsigned long uint64_t;
typedef unsigned long uintptr_t;
#endif
