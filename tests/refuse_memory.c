/* Refuses requests for memory: the one of the number in REFUSED, and each after the number in ALLOWED. With MARKED only
   those count that are made between the first lines CALL and CAME of standard output. At the end the number of requests is
   written to the file in REQUESTS. `harness.refusals` loads it before the C library. */
#define _GNU_SOURCE
#include <dlfcn.h>
#include <stddef.h>
#include <stdio.h>
#include <stdlib.h>
#include <string.h>
#include <sys/syscall.h>
#include <unistd.h>

/* Whether requests count: before a call that is marked, in it, and behind it. */
enum { BEFORE, DURING, BEHIND };

static long requests;
static int stage = -1;

static long number_in(const char *name, long otherwise) {
    const char *text = getenv(name);
    return text ? atol(text) : otherwise;
}

static int now(void) {
    if (stage < 0) stage = number_in("MARKED", 0) ? BEFORE : DURING;
    return stage;
}

static int is_refused(void) {
    static long refused = -1, allowed;
    long made;
    if (refused < 0) {
        allowed = number_in("ALLOWED", -1);
        refused = number_in("REFUSED", 0);
    }
    if (now() != DURING) return 0;
    made = __atomic_add_fetch(&requests, 1, __ATOMIC_SEQ_CST);
    return made == refused || (allowed >= 0 && made > allowed);
}

void *malloc(size_t size) {
    static void *(*next)(size_t);
    if (!next) next = (void *(*)(size_t)) dlsym(RTLD_NEXT, "malloc");
    return is_refused() ? NULL : next(size);
}

void *realloc(void *block, size_t size) {
    static void *(*next)(void *, size_t);
    if (!next) next = (void *(*)(void *, size_t)) dlsym(RTLD_NEXT, "realloc");
    return is_refused() ? NULL : next(block, size);
}

static int is_line(const void *bytes, size_t count, const char *line) {
    return count == strlen(line) && memcmp(bytes, line, count) == 0;
}

ssize_t write(int descriptor, const void *bytes, size_t count) {
    if (descriptor == STDOUT_FILENO && getenv("MARKED")) {
        if (now() == BEFORE && is_line(bytes, count, "CALL\n")) stage = DURING;
        else if (stage == DURING && is_line(bytes, count, "CAME\n")) stage = BEHIND;
    }
    return syscall(SYS_write, descriptor, bytes, count);
}

__attribute__((destructor)) static void tell(void) {
    const char *name = getenv("REQUESTS");
    long made = requests;
    FILE *file;
    stage = BEHIND;
    file = name ? fopen(name, "w") : NULL;
    if (file) {
        fprintf(file, "%ld\n", made);
        fclose(file);
    }
}

/* A program that may start threads ends by this call, and then nothing else is called at its end. */
void _exit(int status) {
    tell();
    for (;;) syscall(SYS_exit_group, status);
}
