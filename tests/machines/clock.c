/* A clock that goes before or behind: loaded before the C library, it adds CLOCK_SECONDS to the time of day. Other clocks stay. */
#define _GNU_SOURCE
#include <stdlib.h>
#include <sys/syscall.h>
#include <time.h>
#include <unistd.h>

static long difference(void)
{
    const char *seconds = getenv("CLOCK_SECONDS");
    return seconds ? atol(seconds) : 0;
}

int clock_gettime(clockid_t clock, struct timespec *moment)
{
    int result = (int)syscall(SYS_clock_gettime, clock, moment);
    if (!result && clock == CLOCK_REALTIME) moment->tv_sec += difference();
    return result;
}

time_t time(time_t *place)
{
    struct timespec moment = {0, 0};
    clock_gettime(CLOCK_REALTIME, &moment);
    if (place) *place = moment.tv_sec;
    return moment.tv_sec;
}
