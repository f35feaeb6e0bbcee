/* The part of sys/time.h that the tests use, with the numbers of Linux. */
#ifndef TESTS_SYS_TIME_H
#define TESTS_SYS_TIME_H
#include <linkage.h>
#define ITIMER_REAL 0
struct timeval {
    long tv_sec;
    long tv_usec;
};
struct itimerval {
    struct timeval it_interval;
    struct timeval it_value;
};
C_NAME int setitimer(int which, const struct itimerval *value, struct itimerval *before);
#endif
