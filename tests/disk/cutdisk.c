/* A disk whose power can be cut: a file system in memory that knows of each change whether it was synced.
 *
 *     cutdisk FOLDER        mounts an empty one there, and serves it until it is unmounted or ended
 *
 * The unsynced changes of a file are its writes and changes of length since its last sync: fsync, fdatasync, or a write by O_SYNC or
 * O_DSYNC. Those of a folder are the names that were made, linked, moved or removed since its last sync. A cut may leave any part of
 * these changes:
 *
 * - Each unit of a file (a sector of 512 bytes, or a page of 4,096) is as it was at some moment since the sync. Units don't depend on
 *   each other. The length is one that the file had or passed. Bytes that were never written are zeros.
 * - Changes of names are kept up to some change in their order, or each is kept or lost by itself. A rename is kept or lost as a whole.
 *
 * Modes, owners and times are kept at once. sync_file_range and closing a file keep nothing.
 *
 * The file `.disk` in the top folder, which no listing shows, takes commands. Write one, then read the answer:
 *
 *     reset           makes the disk empty, with power, whatever was before
 *     settle          syncs everything
 *     arm N           cuts the power at the N-th change or sync from now on: a change is begun, a sync is not
 *     cut             cuts the power now: each call fails by EIO
 *     image SEED      turns the power on, with contents that the cut may have left; another seed gives other contents of the same cut
 *     count           answers how many changes and syncs there were
 *     log             answers a line for each of them
 *     lie none        from now on the disk is honest
 *     lie sync        .. no sync of a file keeps anything
 *     lie last        .. a cut loses the last write before a sync
 *     lie folder      .. no sync of a folder keeps anything
 *
 * All calls bypass the page cache of the system, so that a read shows the disk's contents. */
#define _GNU_SOURCE
#define FUSE_USE_VERSION 34
#include <errno.h>
#include <fcntl.h>
#include <fuse_lowlevel.h>
#include <limits.h>
#include <stdarg.h>
#include <stdbool.h>
#include <stdint.h>
#include <stdio.h>
#include <stdlib.h>
#include <string.h>
#include <sys/stat.h>
#include <sys/statvfs.h>
#include <time.h>
#include <unistd.h>

enum { SECTOR = 512, PAGE = 4096, BLOCKS = 1 << 18, MOST_ANSWERED = 512 };
/* Node 0 stands for none. The kernel's numbers consist of the number of the image and, in the lower bits, that of the node. */
enum { TOP = 1, CONTROL = 2, FIRST = 3, NODES_SHIFT = 20 };
static const char CONTROL_NAME[] = ".disk";

struct bytes { unsigned char *at; size_t size; };
/* So many bytes written at an offset. Without data, the file was set to this length. */
struct change { size_t at, size; unsigned char *data; };
struct node {
    mode_t mode; uid_t uid; gid_t gid; struct timespec changed;
    struct bytes seen, durable;
    struct change *changes; size_t count;
};
struct entry { size_t folder, node; char name[NAME_MAX + 1]; };
struct table { struct entry *at; size_t count; };
/* Names that are made or removed together: one, or both names of a rename. */
struct step { struct entry entry; bool removes; };
struct move { struct step steps[2]; size_t count; };
struct disk {
    struct node *nodes; size_t count;
    struct table seen, durable;
    struct move *moves; size_t moved;
};

enum lie { NO_LIE, LIES_OF_SYNCS, LIES_OF_THE_LAST, LIES_OF_FOLDERS };
enum stage { ON, LAST, OFF };

static struct disk live, at_cut;
static bool is_off, has_cut;
static uint64_t image = 1, calls, armed;
static enum lie lie;
static char *history, *answer;
static size_t history_size, history_room, answer_size;

static void *room(void *old, size_t size) {
    void *made = realloc(old, size ? size : 1);
    if (!made) abort();
    return made;
}

/* Bytes, tables and disks. */

static void lengthen(struct bytes *bytes, size_t size) {
    bytes->at = room(bytes->at, size);
    if (size > bytes->size) memset(bytes->at + bytes->size, 0, size - bytes->size);
    bytes->size = size;
}

static struct bytes copy_bytes(const struct bytes *from) {
    struct bytes made = { room(NULL, from->size), from->size };
    if (from->size) memcpy(made.at, from->at, from->size);
    return made;
}

static void change_bytes(struct bytes *bytes, const struct change *change) {
    if (!change->data) { lengthen(bytes, change->at); return; }
    if (bytes->size < change->at + change->size) lengthen(bytes, change->at + change->size);
    memcpy(bytes->at + change->at, change->data, change->size);
}

static void forget_changes(struct node *node) {
    for (size_t place = 0; place < node->count; place++) free(node->changes[place].data);
    free(node->changes);
    node->changes = NULL;
    node->count = 0;
}

static void note_change(struct node *node, struct change change) {
    node->changes = room(node->changes, (node->count + 1) * sizeof change);
    node->changes[node->count++] = change;
    change_bytes(&node->seen, &change);
}

static struct entry *find_entry(struct table *table, size_t folder, const char *name) {
    for (size_t place = 0; place < table->count; place++)
        if (table->at[place].folder == folder && !strcmp(table->at[place].name, name)) return &table->at[place];
    return NULL;
}

static void take_step(struct table *table, const struct step *step) {
    struct entry *found = find_entry(table, step->entry.folder, step->entry.name);
    if (step->removes) {
        if (found && found->node == step->entry.node) *found = table->at[--table->count];
    } else if (found) {
        *found = step->entry;
    } else {
        table->at = room(table->at, (table->count + 1) * sizeof step->entry);
        table->at[table->count++] = step->entry;
    }
}

static void take_move(struct table *table, const struct move *move) {
    for (size_t place = 0; place < move->count; place++) take_step(table, &move->steps[place]);
}

static void note_move(const struct move *move) {
    live.moves = room(live.moves, (live.moved + 1) * sizeof *move);
    live.moves[live.moved++] = *move;
    take_move(&live.seen, move);
}

static struct table copy_table(const struct table *from) {
    struct table made = { room(NULL, from->count * sizeof *from->at), from->count };
    if (from->count) memcpy(made.at, from->at, from->count * sizeof *from->at);
    return made;
}

static void free_disk(struct disk *disk) {
    for (size_t place = 0; place < disk->count; place++) {
        forget_changes(&disk->nodes[place]);
        free(disk->nodes[place].seen.at);
        free(disk->nodes[place].durable.at);
    }
    free(disk->nodes);
    free(disk->seen.at);
    free(disk->durable.at);
    free(disk->moves);
    *disk = (struct disk) { 0 };
}

static size_t new_node(struct disk *disk, mode_t mode, uid_t uid, gid_t gid) {
    disk->nodes = room(disk->nodes, (disk->count + 1) * sizeof *disk->nodes);
    disk->nodes[disk->count] = (struct node) { .mode = mode, .uid = uid, .gid = gid };
    clock_gettime(CLOCK_REALTIME, &disk->nodes[disk->count].changed);
    return disk->count++;
}

/* Syncs. */

static void settle_file(struct node *node, bool loses_last) {
    for (size_t place = 0; place < node->count; place++)
        if (!loses_last || place + 1 < node->count || !node->changes[place].data) change_bytes(&node->durable, &node->changes[place]);
    forget_changes(node);
}

/* Syncs the changes of this folder. A rename concerns two folders, so earlier changes of the other one may have to go first. */
static void settle_folder(struct disk *disk, size_t folder) {
    bool *is_meant = room(NULL, disk->count), *goes = room(NULL, disk->moved);
    size_t left = 0;
    memset(is_meant, 0, disk->count);
    is_meant[folder] = true;
    for (size_t place = disk->moved; place-- > 0;) {
        const struct move *move = &disk->moves[place];
        goes[place] = false;
        for (size_t step = 0; step < move->count; step++) goes[place] |= is_meant[move->steps[step].entry.folder];
        for (size_t step = 0; goes[place] && step < move->count; step++) is_meant[move->steps[step].entry.folder] = true;
    }
    for (size_t place = 0; place < disk->moved; place++) {
        if (goes[place]) take_move(&disk->durable, &disk->moves[place]);
        else disk->moves[left++] = disk->moves[place];
    }
    disk->moved = left;
    free(is_meant);
    free(goes);
}

static void settle_all(struct disk *disk) {
    for (size_t place = 0; place < disk->count; place++) settle_file(&disk->nodes[place], false);
    for (size_t place = 0; place < disk->moved; place++) take_move(&disk->durable, &disk->moves[place]);
    disk->moved = 0;
}

/* The contents after a cut. */

static uint64_t dice;

static uint64_t throw_dice(uint64_t below) {
    uint64_t mixed = (dice += 0x9E3779B97F4A7C15u);
    mixed = (mixed ^ (mixed >> 30)) * 0xBF58476D1CE4E5B9u;
    mixed = (mixed ^ (mixed >> 27)) * 0x94D049BB133111EBu;
    return (mixed ^ (mixed >> 31)) % below;
}

/* How a cut chooses: the size of a unit; how many of eight units keep their last contents; and whether names are kept in their
   order. With `only`, the single unit with this number, counted over all files, is the only one lost or kept. */
struct choice { size_t unit, eighths; bool in_order; uint64_t only; size_t met, kept; };

static bool touches(const struct change *change, size_t from, size_t to) {
    return change->data ? change->at < to && change->at + change->size > from : change->at < to;
}

static size_t versions_of(const struct node *node, size_t from, size_t to) {
    size_t met = 0;
    for (size_t place = 0; place < node->count; place++) met += touches(&node->changes[place], from, to);
    return met;
}

static bool is_kept(struct choice *choice) {
    bool is_only = ++choice->met == choice->only;
    bool kept = choice->only ? is_only == (choice->eighths == 0) : throw_dice(8) < choice->eighths;
    choice->kept += kept;
    return kept;
}

/* One unit: its synced bytes, changed by some of the changes that touch it. */
static void fill_unit(unsigned char *unit, const struct node *node, size_t from, struct choice *choice) {
    size_t to = from + choice->unit, met = versions_of(node, from, to), taken = 0;
    memset(unit, 0, choice->unit);
    if (node->durable.size > from)
        memcpy(unit, node->durable.at + from, node->durable.size < to ? node->durable.size - from : choice->unit);
    if (!met) return;
    size_t wanted = is_kept(choice) ? met : throw_dice(met);
    for (size_t place = 0; taken < wanted; place++) {
        const struct change *change = &node->changes[place];
        if (!touches(change, from, to)) continue;
        taken++;
        size_t first = change->at > from ? change->at : from, end = to;
        if (!change->data) { memset(unit + (first - from), 0, end - first); continue; }
        if (change->at + change->size < to) end = change->at + change->size;
        memcpy(unit + (first - from), change->data + (first - change->at), end - first);
    }
}

static size_t length_after(size_t size, const struct change *change) {
    if (!change->data) return change->at;
    return change->at + change->size > size ? change->at + change->size : size;
}

/* One of the lengths that the file had since its sync, or the end of a page that it passed while growing. */
static size_t length_left(const struct node *node, struct choice *choice) {
    size_t *lengths = room(NULL, sizeof *lengths), count = 1, size = node->durable.size;
    lengths[0] = size;
    for (size_t place = 0; place < node->count; place++) {
        size_t after = length_after(size, &node->changes[place]);
        for (size_t end = (size / PAGE + 1) * PAGE; end < after; end += PAGE) {
            lengths = room(lengths, (count + 1) * sizeof *lengths);
            lengths[count++] = end;
        }
        if (after != size) {
            lengths = room(lengths, (count + 1) * sizeof *lengths);
            lengths[count++] = size = after;
        }
    }
    size_t left = count == 1 || is_kept(choice) ? lengths[count - 1] : lengths[throw_dice(count - 1)];
    free(lengths);
    return left;
}

static struct bytes file_left(const struct node *node, struct choice *choice) {
    struct bytes left = { NULL, 0 };
    if (!node->count) return copy_bytes(&node->durable);
    size_t size = length_left(node, choice);
    lengthen(&left, (size + choice->unit - 1) / choice->unit * choice->unit);
    for (size_t from = 0; from < size; from += choice->unit) fill_unit(left.at + from, node, from, choice);
    lengthen(&left, size);
    return left;
}

static struct table names_left(const struct disk *disk, struct choice *choice) {
    struct table left = copy_table(&disk->durable);
    for (size_t place = 0; place < disk->moved; place++) {
        if (is_kept(choice)) take_move(&left, &disk->moves[place]);
        else if (choice->in_order) break;
    }
    return left;
}

static struct disk disk_left(const struct disk *disk, struct choice *choice) {
    struct disk left = { .nodes = room(NULL, disk->count * sizeof *disk->nodes), .count = disk->count };
    for (size_t place = 0; place < disk->count; place++) {
        const struct node *node = &disk->nodes[place];
        left.nodes[place] = *node;
        left.nodes[place].changes = NULL;
        left.nodes[place].count = 0;
        left.nodes[place].seen = file_left(node, choice);
        left.nodes[place].durable = copy_bytes(&left.nodes[place].seen);
    }
    left.seen = names_left(disk, choice);
    left.durable = copy_table(&left.seen);
    return left;
}

/* How many units, lengths and names there are to choose from. */
static size_t choices_in(const struct disk *disk, size_t unit) {
    struct choice all = { .unit = unit, .eighths = 8 };
    uint64_t kept = dice;
    struct disk left = disk_left(disk, &all);
    free_disk(&left);
    dice = kept;
    return all.met;
}

static struct choice choose(const struct disk *disk, uint64_t seed) {
    static const size_t EIGHTHS[] = { 0, 1, 4, 7, 8 };
    dice = seed * 2 + 1;
    struct choice choice = { .unit = throw_dice(2) ? PAGE : SECTOR, .in_order = throw_dice(2) };
    uint64_t way = throw_dice(8);
    if (way < 5) choice.eighths = EIGHTHS[way];
    else choice.eighths = way == 5 ? 0 : 8;
    size_t all = choices_in(disk, choice.unit);
    if (way >= 5 && all) choice.only = 1 + throw_dice(all);
    return choice;
}

/* The history of calls, and commands. */

static const char *name_of(size_t node) {
    for (size_t place = 0; place < live.seen.count; place++)
        if (live.seen.at[place].node == node) return live.seen.at[place].name;
    return node == TOP ? "/" : "?";
}

static void note_line(const char *line) {
    size_t size = strlen(line);
    if (history_size + size + 1 > history_room) history = room(history, history_room = 2 * history_room + size + 1);
    memcpy(history + history_size, line, size);
    history_size += size;
}

/* Whether a call is carried out, is the last one before the power is cut, or fails. It also logs the call. */
static enum stage begin_call(const char *format, ...) {
    va_list words;
    char line[2 * NAME_MAX + 64];
    if (is_off) return OFF;
    calls++;
    is_off = armed && --armed == 0;
    va_start(words, format);
    vsnprintf(line, sizeof line, format, words);
    va_end(words);
    note_line(line);
    note_line(is_off ? " CUT\n" : "\n");
    return is_off ? LAST : ON;
}

static void answer_by(const char *format, ...) {
    va_list words;
    answer = room(answer, MOST_ANSWERED);
    va_start(words, format);
    answer_size = vsnprintf(answer, MOST_ANSWERED, format, words);
    va_end(words);
}

static void power_on(void) {
    is_off = false;
    armed = 0;
    image++;
}

static void forget_cut(void) {
    if (has_cut) free_disk(&at_cut);
    has_cut = false;
}

static void reset(void) {
    free_disk(&live);
    forget_cut();
    lie = NO_LIE;
    calls = history_size = 0;
    for (size_t place = 0; place < FIRST; place++) new_node(&live, place == CONTROL ? S_IFREG | 0600 : S_IFDIR | 01777, 0, 0);
    power_on();
    answer_by("empty\n");
}

static void make_image(uint64_t seed) {
    if (!has_cut) at_cut = live;
    else free_disk(&live);
    has_cut = true;
    struct choice choice = choose(&at_cut, seed);
    live = disk_left(&at_cut, &choice);
    power_on();
    answer_by("image %llu: units of %zu bytes, names %s, %zu of %zu kept\n", (unsigned long long) seed, choice.unit,
              choice.in_order ? "in order" : "in any order", choice.kept, choice.met);
    note_line(answer);
}

static int choose_lie(const char *word) {
    static const char *const WORDS[] = { "none", "sync", "last", "folder" };
    for (size_t place = 0; place < sizeof WORDS / sizeof *WORDS; place++)
        if (!strcmp(word, WORDS[place])) { lie = (enum lie) place; answer_by("%s\n", word); return 0; }
    return EINVAL;
}

static void answer_history(void) {
    answer = room(answer, history_size);
    if (history_size) memcpy(answer, history, history_size);
    answer_size = history_size;
}

static int command(const char *text) {
    unsigned long long number;
    char word[16];
    if (!strcmp(text, "reset")) reset();
    else if (!strcmp(text, "settle")) { settle_all(&live); answer_by("settled\n"); }
    else if (!strcmp(text, "cut")) { forget_cut(); is_off = true; answer_by("%llu\n", (unsigned long long) calls); }
    else if (!strcmp(text, "count")) answer_by("%llu%s\n", (unsigned long long) calls, is_off ? " CUT" : "");
    else if (!strcmp(text, "log")) answer_history();
    else if (sscanf(text, "arm %llu", &number) == 1) { forget_cut(); armed = number; answer_by("armed\n"); }
    else if (sscanf(text, "image %llu", &number) == 1) make_image(number);
    else if (sscanf(text, "lie %15s", word) == 1) return choose_lie(word);
    else return EINVAL;
    return 0;
}

/* Calls of the kernel. */

static fuse_ino_t number_of(size_t node) { return node == TOP || node == CONTROL ? node : (image << NODES_SHIFT) + node; }

/* The node with a number. If that is from an earlier image, the node is gone, and this is 0. */
static size_t node_of(fuse_ino_t number) {
    size_t node = number & ((1u << NODES_SHIFT) - 1);
    if (number == TOP || number == CONTROL) return number;
    return number >> NODES_SHIFT == image && node < live.count ? node : 0;
}

/* The reason why a call to a node fails before it begins, or 0. */
static int refused(size_t node) {
    if (is_off && node != CONTROL) return EIO;
    return node ? 0 : ESTALE;
}

static struct stat stat_of(size_t place) {
    const struct node *node = &live.nodes[place];
    struct stat made = { .st_ino = number_of(place), .st_mode = node->mode, .st_uid = node->uid, .st_gid = node->gid, .st_blksize = PAGE };
    made.st_size = node->seen.size;
    made.st_blocks = (node->seen.size + SECTOR - 1) / SECTOR;
    made.st_atim = made.st_mtim = made.st_ctim = node->changed;
    made.st_nlink = S_ISDIR(node->mode) ? 2 : 0;
    for (size_t entry = 0; entry < live.seen.count; entry++) made.st_nlink += live.seen.at[entry].node == place;
    return made;
}

static struct fuse_entry_param entry_of(size_t node) {
    return (struct fuse_entry_param) { .ino = number_of(node), .generation = 1, .attr = stat_of(node) };
}

static void do_init(void *data, struct fuse_conn_info *connection) {
    (void) data;
    connection->want &= ~(FUSE_CAP_READDIRPLUS | FUSE_CAP_AUTO_INVAL_DATA);
}

static void do_lookup(fuse_req_t request, fuse_ino_t parent, const char *name) {
    size_t folder = node_of(parent);
    struct fuse_entry_param found = entry_of(CONTROL);
    if (folder == TOP && !strcmp(name, CONTROL_NAME)) { fuse_reply_entry(request, &found); return; }
    int fault = refused(folder);
    struct entry *entry = fault ? NULL : find_entry(&live.seen, folder, name);
    if (!entry) { fuse_reply_err(request, fault ? fault : ENOENT); return; }
    found = entry_of(entry->node);
    fuse_reply_entry(request, &found);
}

static void do_getattr(fuse_req_t request, fuse_ino_t number, struct fuse_file_info *info) {
    (void) info;
    size_t node = node_of(number);
    int fault = number == TOP ? 0 : refused(node);
    if (fault) { fuse_reply_err(request, fault); return; }
    struct stat found = stat_of(node);
    fuse_reply_attr(request, &found, 0);
}

static int make_long(size_t place, size_t size) {
    enum stage stage = begin_call("length %s %zu", name_of(place), size);
    if (stage == OFF) return EIO;
    note_change(&live.nodes[place], (struct change) { .at = size });
    return stage == LAST ? EIO : 0;
}

static void do_setattr(fuse_req_t request, fuse_ino_t number, struct stat *wanted, int which, struct fuse_file_info *info) {
    size_t place = node_of(number);
    int fault = refused(place);
    if (!fault && place != CONTROL && which & FUSE_SET_ATTR_SIZE) fault = make_long(place, wanted->st_size);
    if (fault) { fuse_reply_err(request, fault); return; }
    struct node *node = &live.nodes[place];
    if (which & FUSE_SET_ATTR_MODE) node->mode = (node->mode & S_IFMT) | (wanted->st_mode & ~S_IFMT);
    if (which & FUSE_SET_ATTR_UID) node->uid = wanted->st_uid;
    if (which & FUSE_SET_ATTR_GID) node->gid = wanted->st_gid;
    do_getattr(request, number, info);
}

static struct step step_of(size_t folder, const char *name, size_t node, bool removes) {
    struct step made = { .entry = { .folder = folder, .node = node }, .removes = removes };
    snprintf(made.entry.name, sizeof made.entry.name, "%s", name);
    return made;
}

/* Makes a file or folder of this name. Returns its node, or 0 with the fault. */
static size_t make_node(fuse_req_t request, fuse_ino_t parent, const char *name, mode_t mode, int *fault) {
    const struct fuse_ctx *by = fuse_req_ctx(request);
    size_t folder = node_of(parent);
    *fault = refused(folder);
    if (!*fault && find_entry(&live.seen, folder, name)) *fault = EEXIST;
    if (!*fault && strlen(name) > NAME_MAX) *fault = ENAMETOOLONG;
    if (*fault) return 0;
    enum stage stage = begin_call("make %s", name);
    size_t node = new_node(&live, mode, by->uid, by->gid);
    note_move(&(struct move) { .steps = { step_of(folder, name, node, false) }, .count = 1 });
    *fault = stage == LAST ? EIO : 0;
    return node;
}

static void reply_made(fuse_req_t request, size_t node, int fault) {
    if (fault) { fuse_reply_err(request, fault); return; }
    struct fuse_entry_param made = entry_of(node);
    fuse_reply_entry(request, &made);
}

static void do_mknod(fuse_req_t request, fuse_ino_t parent, const char *name, mode_t mode, dev_t device) {
    (void) device;
    int fault = S_ISREG(mode) ? 0 : EPERM;
    size_t node = fault ? 0 : make_node(request, parent, name, mode, &fault);
    reply_made(request, node, fault);
}

static void do_mkdir(fuse_req_t request, fuse_ino_t parent, const char *name, mode_t mode) {
    int fault;
    size_t node = make_node(request, parent, name, S_IFDIR | mode, &fault);
    reply_made(request, node, fault);
}

static void do_create(fuse_req_t request, fuse_ino_t parent, const char *name, mode_t mode, struct fuse_file_info *info) {
    int fault;
    size_t node = make_node(request, parent, name, S_IFREG | mode, &fault);
    if (fault) { fuse_reply_err(request, fault); return; }
    struct fuse_entry_param made = entry_of(node);
    info->direct_io = 1;
    fuse_reply_create(request, &made, info);
}

static bool has_entries(size_t folder) {
    for (size_t place = 0; place < live.seen.count; place++)
        if (live.seen.at[place].folder == folder) return true;
    return false;
}

static void remove_name(fuse_req_t request, fuse_ino_t parent, const char *name, bool is_folder) {
    size_t folder = node_of(parent);
    int fault = refused(folder);
    struct entry *found = fault ? NULL : find_entry(&live.seen, folder, name);
    if (!fault && !found) fault = ENOENT;
    if (!fault && is_folder && has_entries(found->node)) fault = ENOTEMPTY;
    if (!fault) {
        enum stage stage = begin_call("remove %s", name);
        note_move(&(struct move) { .steps = { step_of(folder, name, found->node, true) }, .count = 1 });
        fault = stage == LAST ? EIO : 0;
    }
    fuse_reply_err(request, fault);
}

static void do_unlink(fuse_req_t request, fuse_ino_t parent, const char *name) { remove_name(request, parent, name, false); }

static void do_rmdir(fuse_req_t request, fuse_ino_t parent, const char *name) { remove_name(request, parent, name, true); }

static void do_rename(fuse_req_t request, fuse_ino_t parent, const char *name, fuse_ino_t new_parent, const char *new_name, unsigned flags) {
    size_t folder = node_of(parent), new_folder = node_of(new_parent);
    int fault = refused(folder) ? refused(folder) : refused(new_folder);
    struct entry *found = fault ? NULL : find_entry(&live.seen, folder, name);
    if (!fault && !found) fault = ENOENT;
    if (!fault && flags & ~RENAME_NOREPLACE) fault = EINVAL;
    struct entry *other = fault ? NULL : find_entry(&live.seen, new_folder, new_name);
    if (!fault && flags && other) fault = EEXIST;
    if (!fault && !(other && other->node == found->node)) {
        enum stage stage = begin_call("rename %s %s", name, new_name);
        size_t node = found->node;
        note_move(&(struct move) { .steps = { step_of(folder, name, node, true), step_of(new_folder, new_name, node, false) }, .count = 2 });
        fault = stage == LAST ? EIO : 0;
    }
    fuse_reply_err(request, fault);
}

static void do_link(fuse_req_t request, fuse_ino_t number, fuse_ino_t parent, const char *name) {
    size_t node = node_of(number), folder = node_of(parent);
    int fault = refused(node) ? refused(node) : refused(folder);
    if (!fault && find_entry(&live.seen, folder, name)) fault = EEXIST;
    if (!fault) {
        enum stage stage = begin_call("link %s %s", name_of(node), name);
        note_move(&(struct move) { .steps = { step_of(folder, name, node, false) }, .count = 1 });
        fault = stage == LAST ? EIO : 0;
    }
    reply_made(request, node, fault);
}

static void do_open(fuse_req_t request, fuse_ino_t number, struct fuse_file_info *info) {
    int fault = refused(node_of(number));
    info->direct_io = 1;
    if (fault) fuse_reply_err(request, fault);
    else fuse_reply_open(request, info);
}

static void do_read(fuse_req_t request, fuse_ino_t number, size_t size, off_t at, struct fuse_file_info *info) {
    (void) info;
    size_t place = node_of(number);
    int fault = refused(place);
    if (fault) { fuse_reply_err(request, fault); return; }
    bool is_control = place == CONTROL;
    const char *bytes = is_control ? answer : (const char *) live.nodes[place].seen.at;
    size_t end = is_control ? answer_size : live.nodes[place].seen.size;
    size_t from = (size_t) at < end ? (size_t) at : end;
    fuse_reply_buf(request, bytes + from, end - from < size ? end - from : size);
}

static void reply_command(fuse_req_t request, const char *data, size_t size) {
    char text[64] = "";
    int fault = size < sizeof text ? 0 : EINVAL;
    if (!fault) memcpy(text, data, size);
    if (!fault) fault = command(text);
    if (fault) fuse_reply_err(request, fault);
    else fuse_reply_write(request, size);
}

static void do_write(fuse_req_t request, fuse_ino_t number, const char *data, size_t size, off_t at, struct fuse_file_info *info) {
    size_t place = node_of(number);
    if (place == CONTROL) { reply_command(request, data, size); return; }
    int fault = refused(place);
    if (!fault) {
        enum stage stage = begin_call("write %s %lld %zu", name_of(place), (long long) at, size);
        struct node *node = &live.nodes[place];
        struct change change = { .at = at, .size = size, .data = memcpy(room(NULL, size), data, size) };
        note_change(node, change);
        clock_gettime(CLOCK_REALTIME, &node->changed);
        if (stage == ON && info->flags & (O_SYNC | O_DSYNC) && lie != LIES_OF_SYNCS) settle_file(node, lie == LIES_OF_THE_LAST);
        fault = stage == LAST ? EIO : 0;
    }
    if (fault) fuse_reply_err(request, fault);
    else fuse_reply_write(request, size);
}

static void do_fallocate(fuse_req_t request, fuse_ino_t number, int mode, off_t at, off_t size, struct fuse_file_info *info) {
    (void) info;
    size_t place = node_of(number);
    int fault = refused(place);
    if (!fault && mode) fault = EOPNOTSUPP;
    if (!fault && live.nodes[place].seen.size < (size_t) (at + size)) fault = make_long(place, at + size);
    fuse_reply_err(request, fault);
}

static void do_fsync(fuse_req_t request, fuse_ino_t number, int is_of_data, struct fuse_file_info *info) {
    (void) is_of_data, (void) info;
    size_t place = node_of(number);
    int fault = refused(place);
    if (!fault && begin_call("sync %s", name_of(place)) == LAST) fault = EIO;
    if (!fault && lie != LIES_OF_SYNCS) settle_file(&live.nodes[place], lie == LIES_OF_THE_LAST);
    fuse_reply_err(request, fault);
}

static void do_fsyncdir(fuse_req_t request, fuse_ino_t number, int is_of_data, struct fuse_file_info *info) {
    (void) is_of_data, (void) info;
    size_t place = node_of(number);
    int fault = refused(place);
    if (!fault && begin_call("sync folder %s", name_of(place)) == LAST) fault = EIO;
    if (!fault && lie != LIES_OF_FOLDERS) settle_folder(&live, place);
    fuse_reply_err(request, fault);
}

static void do_readdir(fuse_req_t request, fuse_ino_t number, size_t size, off_t at, struct fuse_file_info *info) {
    (void) info;
    size_t folder = node_of(number), filled = 0;
    int fault = refused(folder);
    if (fault) { fuse_reply_err(request, fault); return; }
    char *made = room(NULL, size);
    for (size_t place = at; place < live.seen.count; place++) {
        const struct entry *entry = &live.seen.at[place];
        if (entry->folder != folder) continue;
        struct stat found = stat_of(entry->node);
        size_t needed = fuse_add_direntry(request, made + filled, size - filled, entry->name, &found, place + 1);
        if (needed > size - filled) break;
        filled += needed;
    }
    fuse_reply_buf(request, made, filled);
    free(made);
}

static void do_statfs(fuse_req_t request, fuse_ino_t number) {
    (void) number;
    struct statvfs made = { .f_bsize = PAGE, .f_frsize = PAGE, .f_blocks = BLOCKS, .f_bfree = BLOCKS / 2, .f_bavail = BLOCKS / 2, .f_namemax = NAME_MAX };
    fuse_reply_statfs(request, &made);
}

static const struct fuse_lowlevel_ops CALLS = {
    .init = do_init, .lookup = do_lookup, .getattr = do_getattr, .setattr = do_setattr, .mknod = do_mknod, .mkdir = do_mkdir,
    .create = do_create, .unlink = do_unlink, .rmdir = do_rmdir, .rename = do_rename, .link = do_link, .open = do_open, .read = do_read,
    .write = do_write, .fallocate = do_fallocate, .fsync = do_fsync, .fsyncdir = do_fsyncdir, .readdir = do_readdir, .statfs = do_statfs,
};

int main(int count, char **words) {
    char *options[] = { words[0], "-o", geteuid() ? "fsname=cutdisk" : "fsname=cutdisk,allow_other,default_permissions" };
    struct fuse_args given = FUSE_ARGS_INIT(3, options);
    if (count != 2) {
        fprintf(stderr, "usage: cutdisk FOLDER\n");
        return 2;
    }
    reset();
    struct fuse_session *session = fuse_session_new(&given, &CALLS, sizeof CALLS, NULL);
    if (!session || fuse_set_signal_handlers(session) || fuse_session_mount(session, words[1])) return 1;
    int status = fuse_session_loop(session);
    fuse_session_unmount(session);
    fuse_remove_signal_handlers(session);
    fuse_session_destroy(session);
    return status != 0;
}
