/* What tests/c uses of <sys/mman.h>, as Linux on x86-64 numbers it: see ../stddef.h. */
#ifndef BARE_MMAN_H
#define BARE_MMAN_H
#include <stddef.h>
#define PROT_NONE 0
#define PROT_READ 1
#define PROT_WRITE 2
#define MAP_PRIVATE 2
#define MAP_ANONYMOUS 32
#define MAP_FAILED ((void *)-1)
void *mmap(void *at, size_t bytes, int may, int kind, int file, long offset);
int mprotect(void *at, size_t bytes, int may);
#endif
