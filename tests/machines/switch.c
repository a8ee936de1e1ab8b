/* A switch between the networks of machines on this one. Each way from one machine to another has a delay and a loss of its own.

   It is called with the number of machines, and reads commands, one a line. Each is answered by a line, `ok` or the fault.

   - `add MACHINE PROCESS` gives the network of a process the interface of a machine, eth0.
   - `remove MACHINE` takes it away.
   - `way FROM TO MICROSECONDS PPM` sets the delay of a way, and how many frames of a million are lost there.

   Machines count from 1. The address of an interface is 02:00:00:00:00:MACHINE. A frame to another address goes to all. */
#define _GNU_SOURCE
#include <errno.h>
#include <fcntl.h>
#include <linux/if_tun.h>
#include <net/if.h>
#include <net/if_arp.h>
#include <poll.h>
#include <sched.h>
#include <stdint.h>
#include <stdio.h>
#include <stdlib.h>
#include <string.h>
#include <sys/ioctl.h>
#include <sys/prctl.h>
#include <sys/socket.h>
#include <time.h>
#include <unistd.h>

enum { MOST = 8, BYTES = 9216, ROOM = 2048, ALL = 1000000, ADDRESS = 6 };

struct frame { uint64_t due; int length; char *bytes; };
struct way { long delay, lost; struct frame frames[ROOM]; unsigned first, count; };

static int taps[MOST + 1];
static struct way ways[MOST + 1][MOST + 1];
static int machines;

static uint64_t now(void)
{
    struct timespec time;
    clock_gettime(CLOCK_MONOTONIC, &time);
    return (uint64_t)time.tv_sec * 1000000000u + (uint64_t)time.tv_nsec;
}

/* Opens the interface in the network of a process. This thread's own network is entered again. */
static int opened(int machine, int process)
{
    char path[64];
    struct ifreq wanted = {.ifr_name = "eth0", .ifr_flags = IFF_TAP | IFF_NO_PI};
    int own = open("/proc/thread-self/ns/net", O_RDONLY | O_CLOEXEC), tap = -1;
    snprintf(path, sizeof path, "/proc/%d/ns/net", process);
    int other = open(path, O_RDONLY | O_CLOEXEC);
    if (own >= 0 && other >= 0 && !setns(other, CLONE_NEWNET)) {
        tap = open("/dev/net/tun", O_RDWR | O_NONBLOCK | O_CLOEXEC);
        int fails = tap < 0 || ioctl(tap, TUNSETIFF, &wanted);
        memset(&wanted.ifr_hwaddr, 0, sizeof wanted.ifr_hwaddr);
        wanted.ifr_hwaddr.sa_family = ARPHRD_ETHER;
        wanted.ifr_hwaddr.sa_data[0] = 2;
        wanted.ifr_hwaddr.sa_data[ADDRESS - 1] = (char)machine;
        fails = fails || ioctl(tap, SIOCSIFHWADDR, &wanted);
        int fault = errno;
        if (fails && tap >= 0) close(tap);
        if (fails) tap = -1;
        if (setns(own, CLONE_NEWNET)) abort();
        errno = fault;
    }
    int fault = errno;
    if (own >= 0) close(own);
    if (other >= 0) close(other);
    errno = fault;
    return tap;
}

static void command(char *line)
{
    int one, two, fails = 0;
    long delay, lost;
    if (sscanf(line, "add %d %d", &one, &two) == 2 && one >= 1 && one <= machines && taps[one] < 0) {
        fails = (taps[one] = opened(one, two)) < 0;
    } else if (sscanf(line, "remove %d", &one) == 1 && one >= 1 && one <= machines) {
        if (taps[one] >= 0) close(taps[one]);
        taps[one] = -1;
    } else if (sscanf(line, "way %d %d %ld %ld", &one, &two, &delay, &lost) == 4 && one >= 1 && one <= machines && two >= 1 && two <= machines) {
        ways[one][two].delay = delay;
        ways[one][two].lost = lost;
    } else {
        fails = 1, errno = EINVAL;
    }
    printf("%s\n", fails ? strerror(errno) : "ok");
    fflush(stdout);
}

/* A frame sets out on its way, unless it is lost or the way is full. */
static void send_on(struct way *way, const char *bytes, int length)
{
    if (way->count == ROOM || random() % ALL < way->lost) return;
    struct frame *frame = &way->frames[(way->first + way->count++) % ROOM];
    *frame = (struct frame){now() + (uint64_t)way->delay * 1000u, length, memcpy(malloc((size_t)length), bytes, (size_t)length)};
}

static void take(int from)
{
    char bytes[BYTES];
    int length;
    while (taps[from] >= 0 && (length = (int)read(taps[from], bytes, sizeof bytes)) > ADDRESS) {
        int to = bytes[0] == 2 ? bytes[ADDRESS - 1] : 0;
        for (int other = 1; other <= machines; other++)
            if (other != from && (to < 1 || to > machines || to == other)) send_on(&ways[from][other], bytes, length);
    }
}

/* Hands over the frames that are due, and returns when the next one is. */
static uint64_t deliver(void)
{
    uint64_t next = UINT64_MAX, moment = now();
    for (int from = 1; from <= machines; from++)
        for (int to = 1; to <= machines; to++) {
            struct way *way = &ways[from][to];
            for (; way->count && way->frames[way->first].due <= moment; way->count--, way->first = (way->first + 1) % ROOM) {
                struct frame *frame = &way->frames[way->first];
                /* A machine whose queue is full loses the frame, as one does. */
                if (taps[to] >= 0 && write(taps[to], frame->bytes, (size_t)frame->length) < 0) errno = 0;
                free(frame->bytes);
            }
            if (way->count && way->frames[way->first].due < next) next = way->frames[way->first].due;
        }
    return next;
}

int main(int count, char **words)
{
    static char line[256];
    size_t filled = 0;
    machines = count == 2 ? atoi(words[1]) : 0;
    if (machines < 2 || machines > MOST) return 2;
    prctl(PR_SET_TIMERSLACK, 1);
    prctl(PR_SET_PDEATHSIG, 9);
    srandom(1);
    for (int machine = 0; machine <= MOST; machine++) taps[machine] = -1;
    for (;;) {
        struct pollfd polled[MOST + 1] = {{0, POLLIN, 0}};
        for (int machine = 1; machine <= machines; machine++) polled[machine] = (struct pollfd){taps[machine], POLLIN, 0};
        uint64_t next = deliver(), moment = now(), wait = next > moment ? next - moment : 0;
        struct timespec time = {(time_t)(wait / 1000000000u), (long)(wait % 1000000000u)};
        if (ppoll(polled, (nfds_t)machines + 1, next == UINT64_MAX ? NULL : &time, NULL) < 0 && errno != EINTR) return 1;
        for (int machine = 1; machine <= machines; machine++)
            if (polled[machine].revents) take(machine);
        if (!polled[0].revents) continue;
        ssize_t length = read(0, line + filled, sizeof line - 1 - filled);
        if (length <= 0) return 0;
        filled += (size_t)length;
        for (char *end; (end = memchr(line, '\n', filled));) {
            *end++ = 0;
            command(line);
            filled -= (size_t)(end - line);
            memmove(line, end, filled);
        }
    }
}
