/* The size type of the compiler that is at work, for one that comes without headers. */
#ifndef TESTS_STDDEF_H
#define TESTS_STDDEF_H
typedef __SIZE_TYPE__ size_t;
#ifdef __cplusplus
#define NULL 0
#else
#define NULL ((void *)0)
#endif
#endif
