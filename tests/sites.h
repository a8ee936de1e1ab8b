/* Call sites of a program of Python 3.11, for `faults.c`. A call is known by its kind, its thread and its callers. These are the functions of C
 * up to the interpreter, and from there the Python frames up to the package's own code. So the same call is the same site each time it is made, and
 * in each process. A thread is known by the places of the package that led to its start.
 *
 *   FAULT_SITES  A file with a `struct sweep`, made beforehand, which the tests share with processes while they run. Each process has a lane
 *                of it, which is the first one unless `copies.h` names another. If the lane's state is ARMED, the next call fails whose site
 *                and error weren't tried before in any lane, and the state is FAILED then.
 */
#include <stdio.h>
#include <unwind.h>

enum { MOST_ERRORS = 4, MOST_TRIED = 1 << 17, MOST_DONE = 1 << 20, MOST_CODES = 1 << 12, MOST_WORDS = 64, MOST_TEXT = 2048, MOST_C = 24, MOST_PYTHON = 64, MOST_LANES = 64, MOST_ONLY = 64, MOST_BIRTH = 4, OPTIMIZED = 1 };
enum { AT_REST, ARMED, FAILED, COUNTING };

/* The faults of one process after the other: how many, and the key and place of the last one. */
struct lane {
    _Atomic uint32_t state;
    uint32_t unused;
    uint64_t key;
    _Atomic uint64_t failed;
    char text[MOST_TEXT];
};

struct sweep {
    struct lane lanes[MOST_LANES];
    /* Of all sites those are tried whose key leaves the rest `part` if it is divided by `parts`. If `only` has any, it is those alone. */
    uint32_t parts, part;
    uint64_t only[MOST_ONLY];
    /* The errors by which each call may fail, ended by 0. */
    int32_t errors[COUNT][MOST_ERRORS];
    _Atomic uint64_t tried[MOST_TRIED];
    /* Places, as their addresses tell them, at which nothing is left to try. Copies of a process have the same addresses. */
    _Atomic uint64_t done[MOST_DONE];
};

/* The parts of Python's own structures that are looked at. */
struct text { char head[16]; long length; char more[24]; char bytes[]; };
struct code { char head[48]; int flags; char next[20]; int first_line; char more[36]; struct text *file, *name, *full_name; char rest[48]; char instructions[]; };
struct frame { char head[32]; struct code *code; void *object; struct frame *previous; char *instruction; };
struct entry { uint8_t is_traced; struct frame *frame; struct entry *previous; };
struct thread { char head[56]; struct entry *entry; };

struct site {
    uint64_t key;
    int c_count, python_count;
    void *c[MOST_C];
    struct frame *python[MOST_PYTHON];
    uintptr_t end;
};

/* How a thread came to be: what it runs, and the functions of the package that led to its start, the innermost first. */
struct birth {
    void *(*run)(void *);
    void *argument;
    uint64_t key;
    struct { const struct code *code; long instruction; } places[MOST_BIRTH];
};

static struct sweep *sweep;
static struct lane *lane;
static __thread struct birth *birth;
static struct thread *(*this_thread)(void);
/* The addresses of Python's own code. */
static uintptr_t first_code, last_code;
/* Whether this thread looks at a site: what it then calls itself has none. */
static __thread int is_looking;

static uint64_t mixed(uint64_t key, uint64_t value) {
    key = (key ^ value) * 0x9E3779B97F4A7C15u;
    return key ^ key >> 32;
}

/* Whether a frame is that of a function of the package. The bodies of modules and of classes are none. */
static int is_own(const struct frame *frame) {
    static __thread struct { struct code *code; int is_own; } known[MOST_CODES];
    struct code *code = frame->code;
    unsigned place = (uintptr_t)code / 16 % MOST_CODES;
    if (known[place].code != code) {
        known[place].code = code;
        known[place].is_own = code->flags & OPTIMIZED && strstr(code->file->bytes, "/hpb/");
    }
    return known[place].is_own;
}

/* The same in each process. */
static uint64_t mixed_with(uint64_t key, const struct frame *frame) {
    const struct text *file = frame->code->file;
    long from = file->length > 24 ? file->length - 24 : 0;
    for (long i = from; i < file->length; i++) key = mixed(key, file->bytes[i]);
    key = mixed(key, frame->code->first_line);
    return mixed(key, frame->instruction - frame->code->instructions);
}

static void *be_born(void *made) {
    birth = made;
    return birth->run(birth->argument);
}

/* The birth of a thread that this one starts. It is never freed. */
static struct birth *new_birth(void *(*run)(void *), void *argument) {
    struct thread *thread = this_thread ? this_thread() : NULL;
    struct frame *frame = thread && thread->entry ? thread->entry->frame : NULL;
    struct birth *made = (void *)real[CALL_mmap](0, sizeof *made, PROT_READ | PROT_WRITE, MAP_PRIVATE | MAP_ANONYMOUS, -1, 0, 0);
    if (made == MAP_FAILED) abort();
    *made = (struct birth){ .run = run, .argument = argument, .key = birth ? birth->key : 3 };
    for (int count = 0; frame; frame = frame->previous) {
        if (!is_own(frame)) continue;
        made->key = mixed_with(made->key, frame);
        if (count == MOST_BIRTH) continue;
        made->places[count].code = frame->code;
        made->places[count++].instruction = frame->instruction - frame->code->instructions;
    }
    return made;
}

static _Unwind_Reason_Code take_c(struct _Unwind_Context *context, void *argument) {
    struct site *site = argument;
    if (site->c_count == MOST_C || (site->end && _Unwind_GetCFA(context) > site->end)) return _URC_END_OF_STACK;
    site->c[site->c_count++] = (void *)_Unwind_GetIP(context);
    return _URC_NO_REASON;
}

/* A place of a program as addresses tell it: nearly always another one for another site, and found fast. Of the stack it has the words that
 * lead into Python's code, as far as the interpreter's own frame. Some are left there from earlier calls: that costs time, and nothing else.
 */
static uint64_t place_of(int which, struct thread *thread, const void *caller) {
    struct frame *frame = thread && thread->entry ? thread->entry->frame : NULL;
    uint64_t place = mixed(mixed(birth ? birth->key : 2, which), (uintptr_t)caller);
    const uintptr_t *stack = __builtin_frame_address(0);
    for (int i = 0; i < MOST_WORDS && frame && stack + i < (uintptr_t *)thread->entry; i++)
        if (stack[i] >= first_code && stack[i] < last_code) place = mixed(place, stack[i] + i);
    for (; frame; frame = frame->previous) {
        place = mixed(mixed(place, (uintptr_t)frame->code), (uintptr_t)frame->instruction);
        if (is_own(frame)) break;
    }
    return place | 1;
}

/* Whether the key was put into the table. It is there then. */
static int was_added(uint64_t key, _Atomic uint64_t *table, uint64_t most) {
    for (uint64_t place = key % most;; place = (place + 1) % most) {
        uint64_t found = 0;
        if (atomic_compare_exchange_strong(&table[place], &found, key)) return 1;
        if (found == key) return 0;
    }
}

static int is_in(uint64_t key, const _Atomic uint64_t *table, uint64_t most) {
    uint64_t found;
    for (uint64_t place = key % most; (found = table[place]); place = (place + 1) % most)
        if (found == key) return 1;
    return 0;
}

/* Whether nothing is left to try at a place. Of 16 times it says no in one, since places may be mistaken for each other. */
static int is_done(uint64_t place) {
    static __thread unsigned times;
    return ++times % 16 && is_in(place, sweep->done, MOST_DONE);
}

/* The site of a call that this thread makes now. */
static void look_at_site(struct site *site, int which, struct thread *thread) {
    struct frame *frame = thread && thread->entry ? thread->entry->frame : NULL;
    *site = (struct site){ .key = mixed(birth ? birth->key : 1, which), .end = frame ? (uintptr_t)thread->entry : 0 };
    for (; frame && site->python_count < MOST_PYTHON; frame = frame->previous) {
        site->key = mixed_with(site->key, frame);
        site->python[site->python_count++] = frame;
        if (is_own(frame)) break;
    }
    _Unwind_Backtrace(take_c, site);
    for (int i = 0; i < site->c_count; i++) {
        struct dl_find_object found;
        if (!_dl_find_object(site->c[i], &found)) site->key = mixed(site->key, (char *)site->c[i] - (char *)found.dlfo_map_start);
    }
}

static char *tell_place(char *text, const char *end, const char *before, const struct code *code, long instruction) {
    if (end - text < 500) return text;
    return text + snprintf(text, end - text, "\n%s%.300s %.80s %d %ld", before, code->file->bytes, code->name->bytes, code->first_line, instruction);
}

/* Writes a site as a text: the call, the functions of C, and the frames of Python with file, function, first line and instruction. */
static void tell_site(const struct site *site, const char *call, int error) {
    char *text = lane->text, *end = text + MOST_TEXT;
    text += snprintf(text, end - text, "%s fails by %d;", call, error);
    for (int i = 0; i < site->c_count && end - text > 100; i++) {
        Dl_info info;
        if (dladdr(site->c[i], &info) && info.dli_sname) text += snprintf(text, end - text, " %.60s", info.dli_sname);
    }
    for (int i = 0; i < site->python_count; i++) {
        const struct frame *frame = site->python[i];
        text = tell_place(text, end, "", frame->code, frame->instruction - frame->code->instructions);
    }
    for (int i = 0; birth && i < MOST_BIRTH && birth->places[i].code; i++)
        text = tell_place(text, end, "begun by ", birth->places[i].code, birth->places[i].instruction);
}

/* Whether a key is one of those that are to be tried. */
static int is_wanted(uint64_t key) {
    for (int i = 0; i < MOST_ONLY && sweep->only[i]; i++)
        if (sweep->only[i] == key) return 1;
    return !sweep->only[0] && (key >> 1) % sweep->parts == sweep->part;
}

/* Whether this call is to fail by this error, as the first one of its lane since it was armed, and in all lanes the first one with this key. If
 * another thread of the process was first, the site is tried when it is come to again.
 */
static int is_taken(uint64_t key) {
    uint32_t armed = ARMED, failed = FAILED;
    if (!atomic_compare_exchange_strong(&lane->state, &armed, FAILED)) return 0;
    if (was_added(key, sweep->tried, MOST_TRIED)) return 1;
    atomic_compare_exchange_strong(&lane->state, &failed, ARMED);
    return 0;
}

/* The error by which this call fails, or 0. */
static int error_here(int which, const char *call, const void *caller) {
    uint32_t state = atomic_load(&lane->state);
    if ((state != ARMED && state != COUNTING) || is_looking || !sweep->errors[which][0]) return 0;
    struct thread *thread = this_thread ? this_thread() : NULL;
    uint64_t place = place_of(which, thread, caller);
    if (is_done(place)) return 0;
    int error = 0, is_left = 0, saved = errno;
    is_looking = 1;
    struct site site;
    look_at_site(&site, which, thread);
    for (const int32_t *next = sweep->errors[which]; *next && next < sweep->errors[which] + MOST_ERRORS && !error; next++) {
        uint64_t key = mixed(site.key, *next) | 1;
        if (!is_wanted(key)) continue;
        if (state == COUNTING) {
            atomic_fetch_add(&lane->failed, was_added(key, sweep->tried, MOST_TRIED));
            continue;
        }
        if (is_in(key, sweep->tried, MOST_TRIED)) continue;
        is_left = 1;
        if (is_taken(key)) {
            lane->key = key;
            tell_site(&site, call, *next);
            atomic_fetch_add(&lane->failed, 1);
            error = *next;
        }
    }
    if (!is_left && state == ARMED) was_added(place, sweep->done, MOST_DONE);
    is_looking = 0;
    errno = saved;
    return error;
}

static void begin_sweep(void *room) {
    sweep = room;
    lane = sweep->lanes;
    this_thread = (struct thread *(*)(void))dlsym(RTLD_DEFAULT, "PyGILState_GetThisThreadState");
    struct dl_find_object found;
    if (this_thread && !_dl_find_object((void *)this_thread, &found)) {
        first_code = (uintptr_t)found.dlfo_map_start;
        last_code = (uintptr_t)found.dlfo_map_end;
    }
}

static void take_lane(int number) {
    if (number < 0 || number >= MOST_LANES) abort();
    lane = &sweep->lanes[number];
}

/* Whether this thread is in the function `main` of the package. */
static int is_in_main(void) {
    struct thread *thread = this_thread ? this_thread() : NULL;
    struct frame *frame = thread && thread->entry ? thread->entry->frame : NULL;
    for (; frame; frame = frame->previous)
        if (is_own(frame) && !strcmp(frame->code->name->bytes, "main")) return 1;
    return 0;
}
