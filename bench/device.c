/* Makes the device's calls of an engine for a number of batches, and nothing else.
 *
 *     device FILE LAYOUT JOURNAL BATCHES RECORDS EVERY
 *
 * FILE has just been formatted in this layout, 1 pages or 2 cells, with a journal of JOURNAL frames. A batch has RECORDS records.
 * EVERY is the number of batches between two checkpoints. With 0, one is made only when the journal is full; with -1, none is ever
 * made. It prints the number of calls, the seconds that they took, and the seconds of the first JOURNAL batches. The order of
 * the calls is in docs/FORMATS.md, and pages and cells are in docs/DEVICE.md. */
#include <fcntl.h>
#include <stdio.h>
#include <stdlib.h>
#include <string.h>
#include <time.h>
#include <unistd.h>

enum { PAGE = 4096, CELL = 512, CELLS = 3, BODY_AT = 16 };
enum { SLOT_PAGE = 3, SLOT_PAGES = 5, CHUNKS = 4, JOURNAL_PAGE = 13, MOST_FRAMES = 1024, MOST_RECORDS = 64 };

static int file;
static long calls;
static long stride, body, journal, covered, next_batch, clean_end;
static int newest, slot_is_open[2] = {1, 0}, frame_is_open[MOST_FRAMES];
static unsigned char page[PAGE];

static void fail(const char *what) {
    perror(what);
    exit(1);
}

static void put(off_t at, const void *bytes, size_t count) {
    calls++;
    if (pwrite(file, bytes, count, at) != (ssize_t)count) fail("pwrite");
}

static void put_gate(off_t at, unsigned char gate) { put(at, &gate, 1); }

static off_t frame_at(long frame) { return (off_t)JOURNAL_PAGE * PAGE + frame * stride; }

static void sync_file(void) {
    calls++;
    if (fdatasync(file) != 0) fail("fdatasync");
}

static void batch(void) {
    long frame = next_batch % journal;
    memcpy(page, &next_batch, sizeof next_batch);
    put(frame_at(frame) + BODY_AT, page, body);
    sync_file();
    put_gate(frame_at(frame), 0xA5);
    sync_file();
    frame_is_open[frame] = 1;
    next_batch++;
}

/* Closes the frames of covered batches; then they are clean. */
static void retire(void) {
    if (clean_end == covered + journal) return;
    for (; clean_end < covered + journal; clean_end++) {
        long frame = clean_end % journal;
        if (frame_is_open[frame]) put_gate(frame_at(frame), 0);
        frame_is_open[frame] = 0;
    }
    sync_file();
}

static void checkpoint(void) {
    int slot = 1 - newest;
    long first = SLOT_PAGE + slot * SLOT_PAGES;
    if (slot_is_open[slot]) put_gate((off_t)first * PAGE, 0);
    sync_file();
    for (long chunk = 1; chunk <= CHUNKS; chunk++) put((off_t)(first + chunk) * PAGE, page, PAGE);
    sync_file();
    put_gate((off_t)first * PAGE, 0xA5);
    sync_file();
    slot_is_open[slot] = 1;
    newest = slot;
    covered = next_batch;
    retire();
}

static double now(void) {
    struct timespec time;
    if (clock_gettime(CLOCK_MONOTONIC, &time) != 0) fail("clock_gettime");
    return time.tv_sec + time.tv_nsec / 1e9;
}

/* The sizes of a layout's frames and bodies. A batch in cells takes as many cells as it needs. */
static void lay_out(long layout, long records) {
    stride = layout == 1 ? PAGE : CELLS * CELL;
    body = layout == 1 ? PAGE - BODY_AT : CELL - BODY_AT + (records + 1) / 31 * CELL;
}

int main(int count, char **words) {
    if (count != 7) {
        fprintf(stderr, "device FILE LAYOUT JOURNAL BATCHES RECORDS EVERY\n");
        return 2;
    }
    long layout = atol(words[2]), batches = atol(words[4]), records = atol(words[5]), every = atol(words[6]);
    journal = atol(words[3]);
    if (layout < 1 || layout > 2 || journal < 4 || journal > MOST_FRAMES || records < 1 || records > MOST_RECORDS) {
        fprintf(stderr, "a layout is 1 or 2, a journal has 4 to 1024 frames, a batch 1 to 64 records\n");
        return 2;
    }
    lay_out(layout, records);
    file = open(words[1], O_RDWR);
    if (file < 0) fail(words[1]);
    memset(page, 0x5A, sizeof page);
    clean_end = journal;
    double start = now(), first = 0;
    for (long made = 1; made <= batches; made++) {
        if (every >= 0 && clean_end == next_batch) checkpoint();
        batch();
        if (every > 0 && made % every == 0) checkpoint();
        if (made == journal) first = now() - start;
    }
    printf("%ld %.9f %.9f\n", calls, now() - start, first);
    return 0;
}
