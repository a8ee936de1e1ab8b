/* Writes a line for each system call that opens, locks, reads, writes, syncs, names or closes a file, a folder or a
   stream. Loaded before the C library by tests/harness/file_calls.py. The lines go to the file in CALLS, each at once:

       THREAD CALL RESULT NUMBERS.. TEXT

   The result is negative if the call failed. Written bytes are in hexadecimal, without the zeros at the end. One call
   is made at a time, and its line is written before the next one is made. So the lines are in the order of the calls of
   all threads.

   A program that asks for less can be seen, too. LIE names calls that are neither made nor written, and that report
   success:

   - sync: each sync of a file
   - folder: the sync of a folder
   - body: the sync after a write of more than one byte
   - gate: the sync after a write of one byte
   - lock: locks
   - advice: the advice to drop pages from memory */
#define _GNU_SOURCE
#include "next_call.h"
#include <errno.h>
#include <fcntl.h>
#include <pthread.h>
#include <stdarg.h>
#include <stdio.h>
#include <stdlib.h>
#include <string.h>
#include <sys/mman.h>
#include <sys/socket.h>
#include <sys/stat.h>
#include <sys/syscall.h>
#include <sys/uio.h>
#include <unistd.h>

/* Beyond the descriptors that the program has. */
enum { LEAST_DESCRIPTOR = 200 };

static pthread_mutex_t one_at_a_time = PTHREAD_MUTEX_INITIALIZER;
static int lines = -1;
static size_t last_written;

static ssize_t put(const char *text, size_t size) {
    NEXT(write);
    return next(lines, text, size);
}

__attribute__((constructor)) static void begin(void) {
    const char *name = getenv("CALLS");
    int opened = name ? (int) syscall(SYS_openat, AT_FDCWD, name, O_WRONLY | O_CREAT | O_APPEND | O_CLOEXEC, 0600) : -1;
    if (opened < 0) return;
    lines = fcntl(opened, F_DUPFD_CLOEXEC, LEAST_DESCRIPTOR);
    syscall(SYS_close, opened);
    put("0 begin 0 -\n", 12);
}

static int lies(const char *about) {
    const char *lie = getenv("LIE");
    return lie && !strcmp(lie, about);
}

static int is_folder(int descriptor) {
    struct stat found;
    return !fstat(descriptor, &found) && S_ISDIR(found.st_mode);
}

/* Writes the bytes in hexadecimal, without the zeros at their end. Nothing is allocated: a line is written in parts. */
static void put_bytes(const unsigned char *bytes, size_t size) {
    static const char digits[] = "0123456789abcdef";
    char part[4096];
    size_t used = 0;
    while (size && !bytes[size - 1]) size -= 1;
    for (size_t at = 0; at < size; at += 1) {
        part[used++] = digits[bytes[at] >> 4];
        part[used++] = digits[bytes[at] & 15];
        if (used == sizeof part) { put(part, used); used = 0; }
    }
    put(part, used);
}

/* Writes the line of a call: its result, some numbers, and then a text or bytes. */
static void tell(const char *call, long result, const char *numbers, const char *text, const void *bytes, size_t size) {
    char line[512];
    int failed = errno;
    if (lines < 0) return;
    put(line, (size_t) snprintf(line, sizeof line, "%ld %s %ld %s ", (long) syscall(SYS_gettid), call, result, numbers));
    if (text) put(text, strlen(text));
    if (bytes) put_bytes(bytes, size);
    put("\n", 1);
    errno = failed;
}

static const char *numbers(char *room, const char *form, ...) {
    va_list values;
    va_start(values, form);
    vsnprintf(room, 128, form, values);
    va_end(values);
    return room;
}

#define MADE(type, made, call, text, bytes, size, ...) \
    do { \
        char room[128]; \
        pthread_mutex_lock(&one_at_a_time); \
        type result = made; \
        tell(call, result < 0 ? -errno : (long) result, numbers(room, __VA_ARGS__), text, bytes, size); \
        pthread_mutex_unlock(&one_at_a_time); \
        return result; \
    } while (0)

static int mode_of(int flags, va_list more) {
    return flags & (O_CREAT | O_TMPFILE) ? va_arg(more, int) : 0;
}

#define OPENS(name) \
    int name(const char *path, int flags, ...) { \
        NEXT(name); \
        va_list more; \
        va_start(more, flags); \
        int mode = mode_of(flags, more); \
        va_end(more); \
        MADE(int, next(path, flags, mode), "open", path, NULL, 0, "%d", flags); \
    }
OPENS(open)
OPENS(open64)

#define OPENS_AT(name) \
    int name(int folder, const char *path, int flags, ...) { \
        NEXT(name); \
        va_list more; \
        va_start(more, flags); \
        int mode = mode_of(flags, more); \
        va_end(more); \
        MADE(int, next(folder, path, flags, mode), "open", path, NULL, 0, "%d", flags); \
    }
OPENS_AT(openat)
OPENS_AT(openat64)

int close(int descriptor) {
    NEXT(close);
    MADE(int, next(descriptor), "close", NULL, NULL, 0, "%d", descriptor);
}

int flock(int descriptor, int operation) {
    NEXT(flock);
    if (lies("lock")) return 0;
    MADE(int, next(descriptor, operation), "lock", NULL, NULL, 0, "%d %d", descriptor, operation);
}

/* It returns the number of an error. */
#define ADVISES(name, length) \
    int name(int descriptor, length at, length size, int advice) { \
        NEXT(name); \
        if (lies("advice") && advice == POSIX_FADV_DONTNEED) return 0; \
        MADE(int, next(descriptor, at, size, advice), "advise", NULL, NULL, 0, "%d %ld %ld %d", descriptor, (long) at, (long) size, advice); \
    }
ADVISES(posix_fadvise, off_t)
ADVISES(posix_fadvise64, off64_t)

/* A read can block, so another call may be made meanwhile. Streams are read by this call. */
ssize_t read(int descriptor, void *bytes, size_t size) {
    NEXT(read);
    ssize_t had = next(descriptor, bytes, size);
    MADE(ssize_t, had, "take", NULL, NULL, 0, "%d %zu", descriptor, size);
}

#define READS_AT(name, offset) \
    ssize_t name(int descriptor, void *bytes, size_t size, offset at) { \
        NEXT(name); \
        MADE(ssize_t, next(descriptor, bytes, size, at), "read", NULL, NULL, 0, "%d %ld %zu", descriptor, (long) at, size); \
    }
READS_AT(pread, off_t)
READS_AT(pread64, off64_t)

#define WRITES_AT(name, offset) \
    ssize_t name(int descriptor, const void *bytes, size_t size, offset at) { \
        NEXT(name); \
        last_written = size; \
        MADE(ssize_t, next(descriptor, bytes, size, at), "write", NULL, bytes, size, "%d %ld %zu", descriptor, (long) at, size); \
    }
WRITES_AT(pwrite, off_t)
WRITES_AT(pwrite64, off64_t)

ssize_t write(int descriptor, const void *bytes, size_t size) {
    NEXT(write);
    MADE(ssize_t, next(descriptor, bytes, size), "put", NULL, bytes, size, "%d %zu", descriptor, size);
}

ssize_t send(int descriptor, const void *bytes, size_t size, int flags) {
    NEXT(send);
    MADE(ssize_t, next(descriptor, bytes, size, flags), "put", NULL, bytes, size, "%d %zu", descriptor, size);
}

static int is_left_out(int descriptor) {
    if (is_folder(descriptor)) return lies("folder");
    return lies("sync") || (lies("body") && last_written > 1) || (lies("gate") && last_written == 1);
}

int fsync(int descriptor) {
    NEXT(fsync);
    if (is_left_out(descriptor)) return 0;
    MADE(int, next(descriptor), "sync", NULL, NULL, 0, "%d all", descriptor);
}

int fdatasync(int descriptor) {
    NEXT(fdatasync);
    if (is_left_out(descriptor)) return 0;
    MADE(int, next(descriptor), "sync", NULL, NULL, 0, "%d data", descriptor);
}

#define CUTS(name, offset) \
    int name(int descriptor, offset size) { \
        NEXT(name); \
        MADE(int, next(descriptor, size), "cut", NULL, NULL, 0, "%d %ld", descriptor, (long) size); \
    }
CUTS(ftruncate, off_t)
CUTS(ftruncate64, off64_t)

/* Both names in one text. */
static const char *both(char *room, const char *old, const char *new) {
    snprintf(room, 8192, "%s %s", old, new);
    return room;
}

int link(const char *old, const char *new) {
    NEXT(link);
    char names[8192];
    MADE(int, next(old, new), "link", both(names, old, new), NULL, 0, "-");
}

int rename(const char *old, const char *new) {
    NEXT(rename);
    char names[8192];
    MADE(int, next(old, new), "rename", both(names, old, new), NULL, 0, "-");
}

int unlink(const char *name) {
    NEXT(unlink);
    MADE(int, next(name), "unlink", name, NULL, 0, "-");
}

/* Calls that the file of an auction shouldn't get. If a program makes one, it gets a line like the others. */
#define OTHER(type, name, arguments, values, descriptor) \
    type name arguments { \
        NEXT(name); \
        MADE(type, next values, #name, NULL, NULL, 0, "%d", descriptor); \
    }
OTHER(off_t, lseek, (int descriptor, off_t at, int from), (descriptor, at, from), descriptor)
OTHER(ssize_t, readv, (int descriptor, const struct iovec *parts, int count), (descriptor, parts, count), descriptor)
OTHER(ssize_t, writev, (int descriptor, const struct iovec *parts, int count), (descriptor, parts, count), descriptor)
OTHER(ssize_t, pwritev, (int descriptor, const struct iovec *parts, int count, off_t at), (descriptor, parts, count, at), descriptor)
OTHER(int, fallocate, (int descriptor, int mode, off_t at, off_t size), (descriptor, mode, at, size), descriptor)
OTHER(int, posix_fallocate, (int descriptor, off_t at, off_t size), (descriptor, at, size), descriptor)
OTHER(int, sync_file_range, (int descriptor, off64_t at, off64_t size, unsigned flags), (descriptor, at, size, flags), descriptor)
OTHER(int, syncfs, (int descriptor), (descriptor), descriptor)
OTHER(int, fchmod, (int descriptor, mode_t mode), (descriptor, mode), descriptor)
OTHER(int, dup, (int descriptor), (descriptor), descriptor)

void *mmap(void *place, size_t size, int use, int flags, int descriptor, off_t at) {
    NEXT(mmap);
    char room[128];
    void *result = next(place, size, use, flags, descriptor, at);
    if (descriptor >= 0) tell("mmap", 0, numbers(room, "%d", descriptor), NULL, NULL, 0);
    return result;
}
