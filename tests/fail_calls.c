/* Makes system calls fail, wait or be left out. Some of these calls give a program files, memory, threads, a port and
   connections. Others read and write them, and others let one thread wake another. Loaded before the C library by
   tests/harness/failing_calls.py.

   The file in FAULTS says what becomes of which calls, as `struct faults`. It is shared memory: the process that
   runs the program may write to it at any time, and reads there how many calls were met. */
#define _GNU_SOURCE
#include "next_call.h"
#include <errno.h>
#include <fcntl.h>
#include <linux/futex.h>
#include <netinet/in.h>
#include <netinet/tcp.h>
#include <pthread.h>
#include <stdarg.h>
#include <stdint.h>
#include <stdio.h>
#include <stdlib.h>
#include <string.h>
#include <sys/file.h>
#include <sys/mman.h>
#include <sys/socket.h>
#include <sys/stat.h>
#include <sys/syscall.h>
#include <time.h>
#include <unistd.h>

/* The number of rules, and the least descriptor beyond those of the program. */
enum { RULES = 2, LEAST_DESCRIPTOR = 200 };

/* Kinds of calls, a bit each. */
enum { WRITE = 1, SYNC = 2, READ = 4, OPEN = 8, LOCK = 16, ADVICE = 32, PORT = 64, THREAD = 128, ACCEPT = 256, WAKE = 512, REQUEST = 1024, RECEIVE = 2048, SEND = 4096, PROMPT = 8192, TOP = 16384, NAME = 32768 };

/* Which thread makes a call. The first write or sync of a thread gives it a role: it is the committer if it writes a
   batch, or else the checkpointer. The first thread of the program has no role. */
enum { ANYBODY, COMMITTER, CHECKPOINTER };

/* What becomes of a call:
   - MADE: it is made.
   - NOTHING, HALF, ALL: it fails, and nothing, half or all of its write is made.
   - SHORT: half of it is made, and it reports half.
   - LEFT_OUT: it isn't made, and reports that it was.
   - HELD: it waits until it is released, and is then made. */
enum { MADE, NOTHING, HALF, ALL, SHORT, LEFT_OUT, HELD };

/* The rule for these calls by such a thread: from the first one to the last, one in each `step`. A rule of no kinds
   does nothing. */
struct rule {
    int64_t kinds, thread, first, last, step, way, error;
    /* How many such calls were begun, and how many of them the rule met. */
    int64_t begun, met;
};

struct faults {
    /* How long each sync takes in addition to its own time, in microseconds. */
    int64_t delay;
    struct rule rules[RULES];
};

/* The byte of a file at which its journal begins. */
enum { JOURNAL_AT = 53248 };

static struct faults *faults;
static int gate = -1;
static __thread int role = ANYBODY;

static int open_high(const char *name) {
    int opened = (int) syscall(SYS_openat, AT_FDCWD, name, O_RDWR | O_CLOEXEC);
    int high = opened < 0 ? -1 : fcntl(opened, F_DUPFD_CLOEXEC, LEAST_DESCRIPTOR);
    if (opened >= 0) syscall(SYS_close, opened);
    return high;
}

__attribute__((constructor)) static void begin(void) {
    const char *name = getenv("FAULTS");
    char beside[4096];
    if (!name) return;
    snprintf(beside, sizeof beside, "%s.gate", name);
    gate = open_high(beside);
    int opened = open_high(name);
    void *shared = mmap(NULL, sizeof *faults, PROT_READ | PROT_WRITE, MAP_SHARED, opened, 0);
    if (shared != MAP_FAILED) faults = shared;
}

static int64_t now(int64_t *number) { return __atomic_load_n(number, __ATOMIC_SEQ_CST); }

static int64_t one_more(int64_t *number) { return __atomic_add_fetch(number, 1, __ATOMIC_SEQ_CST); }

static void sleep_so_long(int64_t microseconds) {
    struct timespec time = { microseconds / 1000000, microseconds % 1000000 * 1000 };
    syscall(SYS_nanosleep, &time, NULL);
}

static int is_of(int descriptor, mode_t type) {
    struct stat found;
    return !fstat(descriptor, &found) && (found.st_mode & S_IFMT) == type;
}

/* The rule that a call of this kind meets, if any. */
static struct rule *rule_of(int kind) {
    struct rule *met = NULL;
    for (int at = 0; faults && at < RULES; at += 1) {
        struct rule *rule = &faults->rules[at];
        if (!(now(&rule->kinds) & kind) || (rule->thread != ANYBODY && rule->thread != role)) continue;
        int64_t number = one_more(&rule->begun);
        if (number < rule->first || number > rule->last || (number - rule->first) % rule->step) continue;
        one_more(&rule->met);
        met = rule;
    }
    return met;
}

/* What becomes of a call of this kind. If a rule holds it, it waits first. If it fails, `errno` is set. */
static int way_of(int kind) {
    struct rule *rule = rule_of(kind);
    if (!rule) return MADE;
    int way = (int) rule->way;
    if (way == HELD) {
        char byte;
        syscall(SYS_read, gate, &byte, 1);
        return MADE;
    }
    errno = (int) rule->error;
    return way;
}

static int fails(int way) { return way == NOTHING || way == HALF || way == ALL; }

static void take_role(int is_batch) {
    if (role == ANYBODY && syscall(SYS_gettid) != getpid()) role = is_batch ? COMMITTER : CHECKPOINTER;
}

/* A write to the file. `way` says how much of it is made. */
#define WRITES_AT(name, offset) \
    ssize_t name(int descriptor, const void *bytes, size_t size, offset at) { \
        NEXT(name); \
        if (!is_of(descriptor, S_IFREG)) return next(descriptor, bytes, size, at); \
        take_role(size > 1 && at >= JOURNAL_AT); \
        int way = way_of(WRITE), failed = errno; \
        if (way == LEFT_OUT) return (ssize_t) size; \
        int is_half = (way == HALF || way == SHORT) && size > 1; \
        ssize_t made = way == NOTHING ? -1 : next(descriptor, bytes, is_half ? size / 2 : size, at); \
        if (!fails(way)) return made; \
        errno = failed; \
        return -1; \
    }
WRITES_AT(pwrite, off_t)
WRITES_AT(pwrite64, off64_t)

#define READS_AT(name, offset) \
    ssize_t name(int descriptor, void *bytes, size_t size, offset at) { \
        NEXT(name); \
        if (!is_of(descriptor, S_IFREG)) return next(descriptor, bytes, size, at); \
        int way = way_of(READ); \
        if (fails(way)) return -1; \
        return next(descriptor, bytes, way == SHORT && size > 1 ? size / 2 : size, at); \
    }
READS_AT(pread, off_t)
READS_AT(pread64, off64_t)

/* A sync of a file or a folder. If it fails, it may have synced all or nothing. */
#define SYNCS(name) \
    int name(int descriptor) { \
        NEXT(name); \
        if (faults && now(&faults->delay)) sleep_so_long(now(&faults->delay)); \
        take_role(0); \
        int way = way_of(SYNC), failed = errno; \
        if (way == LEFT_OUT) return 0; \
        if (way == ALL) next(descriptor); \
        if (!fails(way)) return next(descriptor); \
        errno = failed; \
        return -1; \
    }
SYNCS(fsync)
SYNCS(fdatasync)

/* Opening the top folder, which tests whether enough files may be open, has a kind of its own. Opening /dev/null,
   for a stream, has none. */
#define OPENS(name) \
    int name(const char *path, int flags, ...) { \
        NEXT(name); \
        va_list more; \
        va_start(more, flags); \
        int mode = flags & (O_CREAT | O_TMPFILE) ? va_arg(more, int) : 0; \
        va_end(more); \
        if (strcmp(path, "/dev/null") && fails(way_of(strcmp(path, "/") ? OPEN : TOP))) return -1; \
        return next(path, flags, mode); \
    }
OPENS(open)
OPENS(open64)

/* With this call a program finds the name by which it has a file open. */
ssize_t readlink(const char *path, char *name, size_t size) {
    NEXT(readlink);
    return fails(way_of(NAME)) ? -1 : next(path, name, size);
}

int flock(int descriptor, int operation) {
    NEXT(flock);
    return fails(way_of(LOCK)) ? -1 : next(descriptor, operation);
}

/* It returns the number of an error. */
#define ADVISES(name, length) \
    int name(int descriptor, length at, length size, int advice) { \
        NEXT(name); \
        if (is_of(descriptor, S_IFREG) && advice == POSIX_FADV_DONTNEED && fails(way_of(ADVICE))) return errno; \
        return next(descriptor, at, size, advice); \
    }
ADVISES(posix_fadvise, off_t)
ADVISES(posix_fadvise64, off64_t)

int socket(int family, int type, int protocol) {
    NEXT(socket);
    return fails(way_of(PORT)) ? -1 : next(family, type, protocol);
}

/* If its address is left out, the port is bound for every address of this machine. */
int bind(int descriptor, const struct sockaddr *address, socklen_t size) {
    NEXT(bind);
    int way = way_of(PORT);
    if (way == LEFT_OUT && address->sa_family == AF_INET) {
        struct sockaddr_in anywhere = *(const struct sockaddr_in *) address;
        anywhere.sin_addr.s_addr = htonl(INADDR_ANY);
        return next(descriptor, (const struct sockaddr *) &anywhere, sizeof anywhere);
    }
    return fails(way) ? -1 : next(descriptor, address, size);
}

int listen(int descriptor, int backlog) {
    NEXT(listen);
    return fails(way_of(PORT)) ? -1 : next(descriptor, backlog);
}

int accept4(int descriptor, struct sockaddr *address, socklen_t *size, int flags) {
    NEXT(accept4);
    return fails(way_of(ACCEPT)) ? -1 : next(descriptor, address, size, flags);
}

ssize_t recv(int descriptor, void *bytes, size_t size, int flags) {
    NEXT(recv);
    return fails(way_of(RECEIVE)) ? -1 : next(descriptor, bytes, size, flags);
}

ssize_t send(int descriptor, const void *bytes, size_t size, int flags) {
    NEXT(send);
    return fails(way_of(SEND)) ? -1 : next(descriptor, bytes, size, flags);
}

/* With this call small answers leave at once. They don't wait for the answers sent before. */
int setsockopt(int descriptor, int level, int option, const void *value, socklen_t size) {
    NEXT(setsockopt);
    int is_prompt = level == IPPROTO_TCP && option == TCP_NODELAY && size >= sizeof(int) && *(const int *) value;
    return is_prompt && fails(way_of(PROMPT)) ? -1 : next(descriptor, level, option, value, size);
}

/* It returns the number of an error. */
int pthread_create(pthread_t *thread, const pthread_attr_t *attributes, void *(*start)(void *), void *argument) {
    NEXT(pthread_create);
    return fails(way_of(THREAD)) ? errno : next(thread, attributes, start, argument);
}

void *malloc(size_t size) {
    NEXT(malloc);
    return fails(way_of(REQUEST)) ? NULL : next(size);
}

void *realloc(void *block, size_t size) {
    NEXT(realloc);
    return fails(way_of(REQUEST)) ? NULL : next(block, size);
}

/* Among other things, this call wakes threads. */
long syscall(long number, ...) {
    NEXT(syscall);
    long given[6];
    va_list more;
    va_start(more, number);
    for (int at = 0; at < 6; at += 1) given[at] = va_arg(more, long);
    va_end(more);
    int is_wake = number == SYS_futex && ((int) given[1] & FUTEX_CMD_MASK) == FUTEX_WAKE;
    if (is_wake && faults && way_of(WAKE) == LEFT_OUT) return 0;
    return next(number, given[0], given[1], given[2], given[3], given[4], given[5]);
}
