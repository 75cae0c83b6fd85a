/* Preloaded before a program, gives it a clock that goes on by a second each time that it is read. */
#include <time.h>

int clock_gettime(clockid_t clock, struct timespec *time)
{
    static time_t seconds = 1000;
    (void)clock;
    time->tv_sec = seconds++;
    time->tv_nsec = 0;
    return 0;
}
