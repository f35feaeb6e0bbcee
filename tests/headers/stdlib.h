/* The part of the C library's stdlib.h that the tests use. */
#ifndef TESTS_STDLIB_H
#define TESTS_STDLIB_H
#include <linkage.h>
#include <stddef.h>
C_NAME void exit(int status);
C_NAME int atoi(const char *word);
#endif
