/* Marks a name of the C library, so that C++ links it too. */
#ifndef TESTS_LINKAGE_H
#define TESTS_LINKAGE_H
#ifdef __cplusplus
#define C_NAME extern "C"
#else
#define C_NAME extern
#endif
#endif
