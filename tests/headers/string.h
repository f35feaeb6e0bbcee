/* The part of the C library's string.h that the tests use. */
#ifndef TESTS_STRING_H
#define TESTS_STRING_H
#include <linkage.h>
#include <stddef.h>
C_NAME void *memcpy(void *to, const void *from, size_t length);
C_NAME void *memset(void *at, int value, size_t length);
C_NAME int memcmp(const void *one, const void *other, size_t length);
C_NAME int strcmp(const char *one, const char *other);
C_NAME size_t strlen(const char *word);
#endif
