/* The part of signal.h that the tests use, with the numbers of Linux. */
#ifndef TESTS_SIGNAL_H
#define TESTS_SIGNAL_H
#include <linkage.h>
#define SIGALRM 14
#define SIG_ERR ((void (*)(int))-1)
typedef int sig_atomic_t;
C_NAME void (*signal(int number, void (*handler)(int)))(int);
#endif
