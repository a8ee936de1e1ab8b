/* Loaded before a program (LD_PRELOAD): replaces a file by another one while the program opens it.
 *
 *   SWAPPED      The path of the file.
 *   SWAPPED_BY   The path of the other one, on the same file system.
 *   SWAP_AT      Which of the calls that name the file, counted from 1. The swap comes right before that call.
 */
#define _GNU_SOURCE
#include <dlfcn.h>
#include <fcntl.h>
#include <stdarg.h>
#include <stdatomic.h>
#include <stdio.h>
#include <stdlib.h>
#include <string.h>
#include <sys/stat.h>

static atomic_ulong made;

/* The variables are looked up each time: few calls name the file. */
static void before(const char *path) {
    const char *file = getenv("SWAPPED"), *other = getenv("SWAPPED_BY"), *at = getenv("SWAP_AT");
    if (!file || !other || !at || !path || strcmp(path, file)) return;
    if (atomic_fetch_add(&made, 1) + 1 == strtoul(at, NULL, 10) && rename(other, file)) abort();
}

int open(const char *path, int flags, ...) {
    va_list more;
    va_start(more, flags);
    mode_t mode = flags & O_CREAT ? va_arg(more, mode_t) : 0;
    va_end(more);
    before(path);
    int (*real)(const char *, int, ...) = (int (*)(const char *, int, ...))dlsym(RTLD_NEXT, "open");
    return real(path, flags, mode);
}

int statx(int folder, const char *restrict path, int flags, unsigned mask, struct statx *restrict found) {
    before(path);
    int (*real)(int, const char *, int, unsigned, struct statx *) =
        (int (*)(int, const char *, int, unsigned, struct statx *))dlsym(RTLD_NEXT, "statx");
    return real(folder, path, flags, mask, found);
}
