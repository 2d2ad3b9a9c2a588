/* What tests/c uses of <stdlib.h>: see stddef.h. */
#ifndef BARE_STDLIB_H
#define BARE_STDLIB_H
#include <stddef.h>
void exit(int status) __attribute__((noreturn));
unsigned long strtoul(const char *text, char **end, int base);
#endif
