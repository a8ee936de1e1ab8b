/* Loaded before a program of Python (LD_PRELOAD): one call to the system fails, or hangs.
 *
 *   FAULT_IN      The module of the process, such as "hpb.commands.front" or "hpb.front.viewers", or the name of a program.
 *   FAULT_FROM    The path of a file. Calls are counted from its first opening on; if this is empty, from the start.
 *   FAULT         call:number:error, such as read:17:5. With :times behind it, that many calls fail, beginning with this one. If the
 *                 error is 0, the call never returns. Without FAULT, calls are only counted.
 *   FAULT_COUNTS  A file of 64-bit numbers, made beforehand. It gets how often each call was made, in the order of CALLS and
 *                 REQUESTS. The last number is how many calls failed.
 *   FAULT_SITES   In the place of FAULT and FAULT_COUNTS: see `sites.h`. If FAULT_FROM is empty, sites begin with the function `main`.
 *   FAULT_COPIES  See `copies.h`.
 *
 * All arguments of these calls are whole numbers and pointers, which the calling convention of x86-64 passes in the same way.
 */
#define _GNU_SOURCE
#include <dlfcn.h>
#include <errno.h>
#include <fcntl.h>
#include <stdatomic.h>
#include <stdint.h>
#include <stdlib.h>
#include <string.h>
#include <sys/mman.h>
#include <sys/syscall.h>
#include <unistd.h>

#define CALLS(X) \
    X(read) X(write) X(recv) X(send) X(sendto) X(accept4) X(connect) X(socket) X(socketpair) X(bind) X(listen) X(getsockname) \
    X(getsockopt) X(setsockopt) X(shutdown) X(close) X(open) X(open64) X(openat) X(fstat) X(fstat64) X(stat) X(stat64) X(lstat) \
    X(lstat64) X(lseek) X(lseek64) X(pread64) X(pwrite64) X(fsync) X(fdatasync) X(ftruncate64) X(rename) X(unlink) X(link) X(readlink) X(fchown) X(flock) X(fcntl) X(fcntl64) \
    X(ioctl) X(epoll_create1) X(epoll_ctl) X(epoll_wait) X(poll) X(select) X(pipe2) X(dup) X(fork) X(waitpid) X(wait4) \
    X(prctl) X(unshare) X(setrlimit) X(setrlimit64) X(mmap) X(pthread_create) X(pthread_sigmask) X(sigwait) X(sigaction) X(setpriority) X(nice) X(syscall) \
    X(getpeername) X(memfd_create) X(dup2) X(execve) X(setsid) X(kill) X(getrlimit) X(getrlimit64) \
    X(opendir) X(fdopendir) X(readdir64) X(getcwd) X(mmap64) X(openat64) X(fopen64)

/* Requests for memory; each may be refused. With PYTHONMALLOC=malloc the program makes no others. */
#define REQUESTS(X) X(malloc) X(calloc) X(realloc)

enum {
#define NUMBER(name) CALL_##name,
    CALLS(NUMBER)
    REQUESTS(NUMBER)
    COUNT
};

static const char *const names[] = {
#define NAME(name) #name,
    CALLS(NAME)
    REQUESTS(NAME)
};

typedef long call(long, long, long, long, long, long, long);
static call *real[COUNT];
static _Atomic uint64_t *counts;
static const char *from;
static int is_active, chosen = -1, error;
static uint64_t number, times = 1;

#include "copies.h"
#include "sites.h"

/* Whether this process runs the wanted module. */
static int is_mine(const char *wanted) {
    char line[4096];
    int file = syscall(SYS_openat, AT_FDCWD, "/proc/self/cmdline", O_RDONLY | O_CLOEXEC);
    long length = syscall(SYS_read, file, line, sizeof line - 1);
    syscall(SYS_close, file);
    if (length <= 0) return 0;
    line[length] = 0;
    for (char *word = line; word < line + length; word += strlen(word) + 1) {
        const char *name = strrchr(word, '/');
        if (!strcmp(name ? name + 1 : word, wanted)) return 1;
    }
    return 0;
}

__attribute__((constructor)) static void begin(void) {
    for (int i = 0; i < CALL_malloc; i++) real[i] = (call *)dlsym(RTLD_NEXT, names[i]);
    const char *path = getenv("FAULT_COUNTS"), *who = getenv("FAULT_IN"), *fault = getenv("FAULT");
    const char *sites = getenv("FAULT_SITES");
    from = getenv("FAULT_FROM");
    if (!(path || sites) || !who || !from || !is_mine(who)) return;
    int file = real[CALL_open]((long)(sites ? sites : path), O_RDWR | O_CLOEXEC, 0, 0, 0, 0, 0);
    size_t length = sites ? sizeof *sweep : (COUNT + 1) * sizeof *counts;
    void *room = (void *)real[CALL_mmap](0, length, PROT_READ | PROT_WRITE, MAP_SHARED, file, 0, 0);
    real[CALL_close](file, 0, 0, 0, 0, 0, 0);
    if (room == MAP_FAILED) abort();
    is_active = !*from && !sites;
    if (sites) {
        begin_sweep(room);
        return;
    }
    counts = room;
    if (!fault) return;
    char name[64] = "";
    const char *end = strchr(fault, ':');
    if (!end || (size_t)(end - fault) >= sizeof name) abort();
    memcpy(name, fault, end - fault);
    for (int i = 0; i < COUNT; i++)
        if (!strcmp(name, names[i])) chosen = i;
    if (chosen < 0) abort();
    number = strtoull(end + 1, (char **)&end, 10);
    error = strtol(end + 1, (char **)&end, 10);
    if (*end == ':') times = strtoull(end + 1, NULL, 10);
}

static int fails(int which, long first, long second, const void *caller) {
    if (!counts && !sweep) return 0;
    if (!is_active && !*from) {
        if (is_looking || !is_in_main()) return 0;
        is_looking = 1;
        if (getenv("FAULT_COPIES")) make_copies(atoi(getenv("FAULT_COPIES")));
        is_looking = 0;
        is_active = 1;
    } else if (!is_active) {
        int is_open = which == CALL_open || which == CALL_open64 || which == CALL_openat;
        const char *path = (const char *)(which == CALL_openat ? second : first);
        if (!is_open || !path || strcmp(path, from)) return 0;
        is_active = 1;
    }
    /* Of all uses of syscall, only this one counts. */
    if (which == CALL_syscall && first != SYS_pidfd_open) return 0;
    if (sweep) return is_active && (error = error_here(which, names[which], caller));
    uint64_t made = atomic_fetch_add(&counts[which], 1) + 1;
    if (which != chosen || made < number || made >= number + times) return 0;
    atomic_fetch_add(&counts[COUNT], 1);
    while (!error) real[CALL_poll](0, 0, -1, 0, 0, 0, 0);
    return 1;
}

/* Some calls return a pointer. */
static int is_pointer(int which) {
    return which == CALL_opendir || which == CALL_fdopendir || which == CALL_readdir64 || which == CALL_getcwd || which == CALL_fopen64;
}

static long refused(int which, long a) {
    if (which == CALL_close) real[which](a, 0, 0, 0, 0, 0, 0);
    if (which == CALL_pthread_create || which == CALL_pthread_sigmask || which == CALL_sigwait) return error;
    errno = error;
    return is_pointer(which) ? 0 : -1;
}

/* Makes a call. If it starts a thread, the thread gets to know how it came to be. */
static long made(int which, long a, long b, long c, long d, long e, long f, long g) {
    if (which == CALL_pthread_create && sweep) {
        d = (long)new_birth((void *(*)(void *))c, (void *)d);
        c = (long)be_born;
    }
    return real[which](a, b, c, d, e, f, g);
}

#define WRAPPED(name) \
    __attribute__((visibility("default"))) long wrapped_##name(long a, long b, long c, long d, long e, long f, long g) __asm__(#name); \
    long wrapped_##name(long a, long b, long c, long d, long e, long f, long g) { \
        if (fails(CALL_##name, a, b, __builtin_return_address(0))) return refused(CALL_##name, a); \
        return made(CALL_##name, a, b, c, d, e, f, g); \
    }
#undef fork
CALLS(WRAPPED)

/* Memory is requested before `begin` has run, and by `begin` itself. */
static int may_fail(void) { return is_active || (sweep && !*from); }

void *__libc_malloc(size_t);
void *__libc_calloc(size_t, size_t);
void *__libc_realloc(void *, size_t);

void *malloc(size_t size) {
    if (may_fail() && fails(CALL_malloc, 0, 0, __builtin_return_address(0))) return errno = ENOMEM, NULL;
    return __libc_malloc(size);
}

void *calloc(size_t count, size_t size) {
    if (may_fail() && fails(CALL_calloc, 0, 0, __builtin_return_address(0))) return errno = ENOMEM, NULL;
    return __libc_calloc(count, size);
}

void *realloc(void *old, size_t size) {
    if (may_fail() && fails(CALL_realloc, 0, 0, __builtin_return_address(0))) return errno = ENOMEM, NULL;
    return __libc_realloc(old, size);
}
