/* What tests/c and examples/ use of <stdio.h>: see stddef.h. */
#ifndef BARE_STDIO_H
#define BARE_STDIO_H
#include <stddef.h>
typedef struct _IO_FILE FILE;
extern FILE *stdin, *stdout, *stderr;
int printf(const char *form, ...);
int fprintf(FILE *out, const char *form, ...);
int snprintf(char *to, size_t room, const char *form, ...);
void perror(const char *what);
FILE *fopen(const char *name, const char *mode);
int fclose(FILE *file);
int ferror(FILE *file);
int fflush(FILE *file);
size_t fread(void *to, size_t size, size_t count, FILE *in);
size_t fwrite(const void *from, size_t size, size_t count, FILE *out);
#endif
