/* A client of `hpb serve` in one file, to copy from: docs/CLIENTS.md, and docs/PROTOCOL.md, "Sending ahead".
 *
 *     cc -O2 -o client client.c
 *     printf 'BID x a 100\nBID y b 150\n\nSHOW\n\n' | ./client 5000 60
 *
 * It reads groups of lines without tickets from standard input; an empty line ends a group. It sends the lines of a group ahead, up
 * to 16 in flight. Then it writes the outcome of each line, in their order, and an empty line. An outcome is
 *
 * - the answer;
 * - `OK ?` for a command that was accepted and whose number isn't known any more;
 * - `UNANSWERED sent` or `UNANSWERED unsent`, if no answer came in so many seconds (here 60).
 *
 * It gives the tickets. If its connection is lost, it connects again, and sends the lines without an answer again, so that each
 * command counts once. Names have to be those of a definition, so that a line has at most 69 bytes. It needs POSIX, and has no TLS. */
#define _POSIX_C_SOURCE 200809L
#include <arpa/inet.h>
#include <errno.h>
#include <fcntl.h>
#include <netinet/in.h>
#include <netinet/tcp.h>
#include <poll.h>
#include <signal.h>
#include <stdbool.h>
#include <stdio.h>
#include <stdlib.h>
#include <string.h>
#include <sys/socket.h>
#include <time.h>
#include <unistd.h>

enum { MOST_IN_FLIGHT = 16, MOST_TEXT = 128, MOST_ANSWER = 256, MOST_GROUP = 4096, MOST_ROWS = 65, MOST_LOST = 64, MOST_WRONG = 3 };
enum { UNKNOWN = -1 };

/* A line that was asked for. Questions have no row. */
typedef enum { WAITS, IN_FLIGHT, AGAIN, DONE } State;

typedef struct {
    char kind, bidder[MOST_TEXT], rest[MOST_TEXT]; /* `rest`: a bid's node and amount, or a whole question */
    struct Row *row;
    long ticket; /* 0 for none yet */
    State state;
    bool was_lost, was_sent;
    int wrong;
    char outcome[MOST_ANSWER];
} Item;

/* The tickets of a bidder, or of the auctioneer, whose row has no name. A row is stalled when a command of it was refused with
 * others behind it. */
typedef struct Row {
    char bidder[MOST_TEXT];
    long last, next;
    int in_flight;
    bool is_stalled, is_looked_up, is_unsure;
    struct { long ticket; char line[MOST_TEXT]; } lost[MOST_LOST];
    int losses;
} Row;

/* A line in flight: an item, or the question for a row's tickets. */
typedef struct { Item *item; Row *row; } Sent;

static int port, connection = -1, tries, flying, rows_used, items_used;
static double patience;
static Sent flight[MOST_IN_FLIGHT];
static Row rows[MOST_ROWS];
static Item items[MOST_GROUP];
static char received[4 * MOST_ANSWER];
static size_t received_bytes;
static double heard;

static double now(void)
{
    struct timespec time;
    clock_gettime(CLOCK_MONOTONIC, &time);
    return (double)time.tv_sec + (double)time.tv_nsec / 1e9;
}

static void rest_for(double seconds)
{
    if (seconds > 0)
        poll(NULL, 0, (int)(seconds * 1000) + 1);
}

static bool is_question(const Item *item)
{
    return item->row == NULL;
}

/* The line of an item, with its ticket. */
static void line_of(const Item *item, char *line)
{
    switch (item->kind) {
    case 'B': snprintf(line, MOST_TEXT, "BID %.16s %ld %.60s", item->bidder, item->ticket, item->rest); break;
    case 'W': snprintf(line, MOST_TEXT, "WAIVE %.16s %ld", item->bidder, item->ticket); break;
    case 'C': snprintf(line, MOST_TEXT, "CLOSE %ld", item->ticket); break;
    case 'S': snprintf(line, MOST_TEXT, "STAGE %ld", item->ticket); break;
    default: snprintf(line, MOST_TEXT, "%s", item->rest);
    }
}

/* Rows. */

static Row *row_of(const char *bidder)
{
    for (int place = 0; place < rows_used; place++)
        if (strcmp(rows[place].bidder, bidder) == 0)
            return &rows[place];
    if (rows_used == MOST_ROWS) {
        fputs("client: more bidders than an auction has\n", stderr);
        exit(2);
    }
    Row *row = &rows[rows_used++];
    memset(row, 0, sizeof *row);
    snprintf(row->bidder, sizeof row->bidder, "%s", bidder);
    row->last = row->next = UNKNOWN;
    return row;
}

static void forget(Row *row)
{
    row->last = row->next = UNKNOWN;
}

/* Tickets up to this one are used, so lost lines under them can't count any more. */
static void is_used(Row *row, long ticket)
{
    int kept = 0;
    if (ticket > row->last)
        row->last = ticket;
    for (int place = 0; place < row->losses; place++)
        if (row->lost[place].ticket > row->last)
            row->lost[kept++] = row->lost[place];
    row->losses = kept;
}

/* Whether another line was lost under the same ticket: then a 13 doesn't tell which of the two was kept. */
static bool is_unsure(const Item *item)
{
    char line[MOST_TEXT];
    line_of(item, line);
    for (int place = 0; place < item->row->losses; place++)
        if (item->row->lost[place].ticket == item->ticket && strcmp(item->row->lost[place].line, line) != 0)
            return true;
    return false;
}

static void note_loss(Item *item)
{
    Row *row = item->row;
    if (row->losses == MOST_LOST) {
        memmove(row->lost, row->lost + 1, sizeof row->lost[0] * (MOST_LOST - 1));
        row->losses--;
    }
    row->lost[row->losses].ticket = item->ticket;
    line_of(item, row->lost[row->losses++].line);
    item->was_lost = true;
}

/* With nothing in flight, the next ticket follows the last one. The auctioneer's is asked for each time. */
static void settle(Row *row)
{
    for (int place = 0; place < items_used; place++)
        if (items[place].row == row && items[place].state == AGAIN)
            items[place].state = WAITS;
    row->is_stalled = row->is_unsure = false;
    row->next = row->last == UNKNOWN || row->bidder[0] == '\0' ? UNKNOWN : row->last + 1;
}

/* The connection. */

/* Lines without an answer go out again: under their ticket, or under a new one if they would have got 15. */
static void lose(void)
{
    if (connection < 0)
        return;
    close(connection);
    connection = -1;
    received_bytes = 0;
    for (int place = 0; place < flying; place++) {
        Item *item = flight[place].item;
        if (item == NULL)
            continue;
        item->state = WAITS;
        if (!is_question(item)) {
            note_loss(item);
            if (item->row->is_stalled)
                item->ticket = 0;
        }
    }
    flying = 0;
    for (int place = 0; place < rows_used; place++) {
        Row *row = &rows[place];
        row->in_flight = 0;
        row->is_looked_up = row->is_unsure = false;
        if (row->is_stalled)
            settle(row);
    }
}

/* Whether the connection leads to itself, and sends everything back. That may happen at a port that nobody serves. */
static bool leads_to_itself(int made)
{
    struct sockaddr_in here, there;
    socklen_t here_size = sizeof here, there_size = sizeof there;
    return getsockname(made, (struct sockaddr *)&here, &here_size) != 0 || getpeername(made, (struct sockaddr *)&there, &there_size) != 0
        || (here.sin_port == there.sin_port && here.sin_addr.s_addr == there.sin_addr.s_addr);
}

static bool is_made(int made, const struct sockaddr_in *address)
{
    int fault = 0, on = 1;
    socklen_t size = sizeof fault;
    struct pollfd waits = {.fd = made, .events = POLLOUT};
    fcntl(made, F_SETFL, O_NONBLOCK);
    if (connect(made, (const struct sockaddr *)address, sizeof *address) != 0) {
        if (errno != EINPROGRESS || poll(&waits, 1, 5000) != 1)
            return false;
        if (getsockopt(made, SOL_SOCKET, SO_ERROR, &fault, &size) != 0 || fault != 0)
            return false;
    }
    return !leads_to_itself(made) && setsockopt(made, IPPROTO_TCP, TCP_NODELAY, &on, sizeof on) == 0;
}

/* Connects once, after a pause that doubles each time, up to two seconds. */
static void reach(double end)
{
    struct sockaddr_in address = {.sin_family = AF_INET, .sin_port = htons((unsigned short)port), .sin_addr.s_addr = htonl(INADDR_LOOPBACK)};
    double pause = tries == 0 ? 0 : tries > 5 ? 2 : 0.05 * (double)(1 << tries), left = end - now();
    rest_for(pause < left ? pause : left);
    tries++;
    int made = socket(AF_INET, SOCK_STREAM, 0);
    if (made < 0)
        return;
    if (!is_made(made, &address)) {
        close(made);
        return;
    }
    connection = made;
    heard = now();
}

static void put(const char *line)
{
    char text[MOST_TEXT + 1];
    size_t size = (size_t)snprintf(text, sizeof text, "%s\n", line), done = 0;
    while (connection >= 0 && done < size) {
        ssize_t wrote = send(connection, text + done, size - done, MSG_NOSIGNAL);
        if (wrote >= 0)
            done += (size_t)wrote;
        else if (errno == EAGAIN || errno == EWOULDBLOCK)
            poll(&(struct pollfd){.fd = connection, .events = POLLOUT}, 1, 1000);
        else if (errno != EINTR)
            lose();
    }
}

/* Sending. */

static void fly(Item *item, Row *row, const char *line)
{
    flight[flying++] = (Sent){item, row};
    put(line);
}

/* Asks for a row's tickets, if they aren't known and nothing else of the row is in flight. */
static void look_up(Row *row)
{
    char line[MOST_TEXT];
    if (row->next != UNKNOWN || row->is_looked_up || row->in_flight)
        return;
    row->is_looked_up = true;
    snprintf(line, sizeof line, row->bidder[0] ? "WHO %.16s" : "SHOW", row->bidder);
    fly(NULL, row, line);
}

/* Whether a command may go out now: a bid behind others, anything else only alone. It gets a ticket if it has none. */
static bool is_due(Item *item)
{
    Row *row = item->row;
    if (row->is_stalled)
        return false;
    if (item->ticket)
        return true;
    if (row->is_unsure || row->next == UNKNOWN || (item->kind != 'B' && row->in_flight))
        return false;
    item->ticket = row->next++;
    return true;
}

/* Sends whatever may go out, in order. A row that has to wait holds up only itself. */
static void send_all(void)
{
    bool held[MOST_ROWS] = {false};
    char line[MOST_TEXT];
    for (int place = 0; place < items_used && flying < MOST_IN_FLIGHT && connection >= 0; place++) {
        Item *item = &items[place];
        if (item->state != WAITS)
            continue;
        if (!is_question(item)) {
            Row *row = item->row;
            if (held[row - rows] || !is_due(item)) {
                if (!held[row - rows])
                    look_up(row);
                held[row - rows] = true;
                continue;
            }
            row->in_flight++;
            row->is_unsure = row->is_unsure || is_unsure(item);
        }
        item->state = IN_FLIGHT;
        item->was_sent = true;
        line_of(item, line);
        fly(item, NULL, line);
    }
}

/* Answers. */

static void done(Item *item, const char *answer)
{
    item->state = DONE;
    snprintf(item->outcome, sizeof item->outcome, "%s", answer);
    tries = 0;
}

/* The rules count the same bid once, whatever tickets it has. Any other command that was lost gets no new ticket, as it might count
 * twice. */
static void number_anew(Item *item, const char *answer)
{
    Row *row = item->row;
    row->is_stalled = row->in_flight > 0;
    if (++item->wrong >= MOST_WRONG || (item->was_lost && item->kind != 'B')) {
        done(item, answer);
        return;
    }
    item->ticket = 0;
    item->state = AGAIN;
}

static void take_command(Item *item, const char *answer)
{
    Row *row = item->row;
    int number = 0;
    row->in_flight--;
    if (sscanf(answer, "ERR %d", &number) != 1) {
        is_used(row, item->ticket);
        done(item, answer);
    } else if (number == 13) {
        /* The line was sent before: it was kept, and so was a later one. */
        bool was_kept = item->was_lost && !is_unsure(item);
        forget(row);
        if (was_kept)
            done(item, "OK ?");
        else
            number_anew(item, answer);
    } else if (number == 15 && row->is_stalled) {
        item->ticket = 0;
        item->state = AGAIN;
    } else if (number == 15) {
        forget(row);
        number_anew(item, answer);
    } else {
        if (number == 14)
            forget(row);
        else
            row->is_stalled = row->in_flight > 0;
        done(item, answer);
    }
    if (row->in_flight == 0)
        settle(row);
}

/* The answer to `WHO`, or to `SHOW` for the auctioneer, gives the tickets. A refusal is the answer to all commands of the row. */
static void take_look_up(Row *row, const char *answer)
{
    long ticket, round, stage;
    char state[MOST_TEXT];
    row->is_looked_up = false;
    if (sscanf(answer, "WHO %*s ELIGIBILITY %*s ACTIVITY %*s TICKET %ld", &ticket) == 1) {
        row->last = ticket;
        row->next = ticket + 1;
    } else if (sscanf(answer, "ROUND %ld STAGE %ld %127s", &round, &stage, state) == 3) {
        row->next = round + stage - 1 + (strcmp(state, "CLOSED") == 0);
        row->last = row->next - 1;
    } else {
        for (int place = 0; place < items_used; place++)
            if (items[place].row == row && items[place].state == WAITS)
                done(&items[place], answer);
    }
}

static void take(const char *answer)
{
    /* After 93 nothing is accepted there, and 95 ends the session: lines without an answer are sent again elsewhere. */
    if (flying == 0 || strncmp(answer, "ERR 91", 6) == 0 || strncmp(answer, "ERR 93", 6) == 0 || strncmp(answer, "ERR 95", 6) == 0) {
        lose();
        return;
    }
    Sent sent = flight[0];
    memmove(flight, flight + 1, sizeof flight[0] * (size_t)--flying);
    if (sent.item == NULL)
        take_look_up(sent.row, answer);
    else if (is_question(sent.item))
        done(sent.item, answer);
    else
        take_command(sent.item, answer);
}

static void take_lines(void)
{
    char *end;
    while (connection >= 0 && (end = memchr(received, '\n', received_bytes)) != NULL) {
        char answer[MOST_ANSWER];
        size_t size = (size_t)(end - received);
        snprintf(answer, sizeof answer, "%.*s", (int)size, received);
        received_bytes -= size + 1;
        memmove(received, end + 1, received_bytes);
        take(answer);
    }
    if (received_bytes == sizeof received)
        lose();
}

/* Waits for answers, until the end, or until nothing was heard for too long. */
static void read_on(double end)
{
    double silent = heard + patience / 3, until = silent < end ? silent : end, left = until - now();
    struct pollfd waits = {.fd = connection, .events = POLLIN};
    if (poll(&waits, 1, left > 0 ? (int)(left * 1000) + 1 : 0) != 1) {
        if (now() >= silent)
            lose();
        return;
    }
    ssize_t size = recv(connection, received + received_bytes, sizeof received - received_bytes, 0);
    if (size > 0) {
        received_bytes += (size_t)size;
        heard = now();
        take_lines();
    } else if (size == 0 || (errno != EAGAIN && errno != EWOULDBLOCK && errno != EINTR)) {
        lose();
    }
}

static bool all_done(void)
{
    for (int place = 0; place < items_used; place++)
        if (items[place].state != DONE)
            return false;
    return true;
}

/* Gives up lines without an answer in time. Nobody knows whether they count, so their rows' tickets are asked for before the next
 * command. */
static void give_up(void)
{
    for (int place = 0; place < items_used; place++) {
        Item *item = &items[place];
        if (item->state == DONE)
            continue;
        done(item, item->was_sent ? "UNANSWERED sent" : "UNANSWERED unsent");
        if (item->row)
            forget(item->row);
    }
    /* Answers to these lines would be taken for answers to the next group. */
    lose();
}

static void run_group(void)
{
    double end = now() + patience;
    heard = now();
    while (!all_done() && now() < end) {
        if (connection < 0)
            reach(end);
        if (connection >= 0)
            send_all();
        if (connection >= 0)
            read_on(end);
    }
    if (!all_done())
        give_up();
    for (int place = 0; place < items_used; place++)
        puts(items[place].outcome);
    puts("");
    fflush(stdout);
    items_used = 0;
}

static void add(char *line)
{
    Item *item = &items[items_used++];
    memset(item, 0, sizeof *item);
    if (sscanf(line, "BID %127s %127[^\n]", item->bidder, item->rest) == 2 || sscanf(line, "WAIVE %127s", item->bidder) == 1) {
        item->kind = line[0];
        item->row = row_of(item->bidder);
    } else if (strcmp(line, "CLOSE") == 0 || strcmp(line, "STAGE") == 0) {
        item->kind = line[0];
        item->row = row_of("");
    } else {
        snprintf(item->rest, sizeof item->rest, "%.127s", line);
    }
}

int main(int count, char **words)
{
    char line[2 * MOST_TEXT];
    if (count != 3 || (port = atoi(words[1])) < 1 || port > 65535 || (patience = atof(words[2])) <= 0) {
        fputs("usage: client PORT SECONDS\n", stderr);
        return 2;
    }
    signal(SIGPIPE, SIG_IGN);
    while (fgets(line, sizeof line, stdin)) {
        line[strcspn(line, "\n")] = '\0';
        if (line[0] == '\0' || items_used == MOST_GROUP)
            run_group();
        if (line[0] != '\0')
            add(line);
    }
    if (items_used)
        run_group();
    return ferror(stdout) ? 1 : 0;
}
