/* What tests/c uses of <stddef.h>, for a compiler for x86-64 that comes without the headers of a C library. */
#ifndef BARE_STDDEF_H
#define BARE_STDDEF_H
typedef unsigned long size_t;
#define NULL ((void *)0)
#endif
