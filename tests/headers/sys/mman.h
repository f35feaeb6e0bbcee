/* The part of sys/mman.h that the tests use, with the numbers of Linux. */
#ifndef TESTS_SYS_MMAN_H
#define TESTS_SYS_MMAN_H
#include <linkage.h>
#include <stddef.h>
#define PROT_NONE 0
#define PROT_READ 1
#define PROT_WRITE 2
#define MAP_PRIVATE 2
#define MAP_ANONYMOUS 32
#define MAP_FAILED ((void *)-1)
C_NAME void *mmap(void *at, size_t length, int protection, int flags, int file, long offset);
C_NAME int mprotect(void *at, size_t length, int protection);
#endif
