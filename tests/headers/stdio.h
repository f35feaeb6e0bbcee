/* The part of the C library's stdio.h that the tests use. */
#ifndef TESTS_STDIO_H
#define TESTS_STDIO_H
#include <linkage.h>
#include <stddef.h>
typedef struct _IO_FILE FILE;
C_NAME FILE *stdin;
C_NAME FILE *stdout;
C_NAME FILE *stderr;
C_NAME int printf(const char *format, ...);
C_NAME int fprintf(FILE *file, const char *format, ...);
C_NAME int fflush(FILE *file);
C_NAME size_t fread(void *to, size_t size, size_t count, FILE *file);
C_NAME size_t fwrite(const void *from, size_t size, size_t count, FILE *file);
#endif
