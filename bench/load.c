/* Puts load on a server: one thread with many sessions, and up to PIPELINE commands outstanding in each.
 *
 *     load KIND PORT SESSIONS SECONDS WARM MOST LEVELS BIDDERS [PIPELINE [FLOOD]]
 *
 * KIND is hpb, front, redis-incr, redis-set, redis-rpush, postgres or postgres-prepared. The server listens at 127.0.0.1. Each kind
 * gets the same bids. They are from an auction with a full binary tree of LEVELS levels (bench/auctions.py), in which each session
 * bids for its share of the BIDDERS. To hpb a bid is a line, to Redis a write with the line as its value, and to PostgreSQL a row.
 * At a front the sessions are the names s0, s1, .., and one more, which bids nothing, is the auctioneer.
 *
 * PIPELINE is 1 to 16 (default 1). As soon as an answer frees a place, the next bid is sent. If several places are free, one send
 * fills them.
 *
 * FLOOD is for hpb alone (default none). With questions or bids, one more session has 16 of these outstanding, whatever PIPELINE
 * is. With silent, it is connected and says nothing. In all three cases that session has half of the bidders, and its answers don't
 * count among the others.
 *
 * Answers of the first WARM seconds aren't counted. It ends SECONDS after that, or after MOST bids in all. It prints six numbers:
 *
 * - how many answers were counted;
 * - how many seconds they took;
 * - their 50th and 99th percentile from sending to reading, in microseconds;
 * - how many requests were answered in all, including closes, floods and the first seconds;
 * - how many of them were a flood's, in the seconds that count.
 *
 * All sessions stay connected until standard input ends. */
#include <arpa/inet.h>
#include <errno.h>
#include <fcntl.h>
#include <netinet/in.h>
#include <netinet/tcp.h>
#include <stdio.h>
#include <stdlib.h>
#include <string.h>
#include <sys/epoll.h>
#include <sys/socket.h>
#include <time.h>
#include <unistd.h>

enum { MOST_SESSIONS = 1024, MOST_BIDDERS = 64, MOST_NODES = 127, MOST_OUTSTANDING = 16 };
enum { ROOM = 8192, REQUEST = 512, LINE = 128 };

/* The price of a bid on one licence in the first round, and by how many percent it rises with each round. The auction's rules want
 * one percent more. */
enum { FIRST_PRICE = 1000, RAISE = 3 };

enum flood { NONE, SILENT, QUESTIONS, BIDS };

struct session {
    int socket;
    int first_bidder, bidders;
    int bids;       /* in this round */
    int questions;  /* that it has asked */
    int places;     /* how many requests it may have outstanding */
    int oldest, outstanding;    /* outstanding requests, in the ring of the times when they were sent */
    double sent[MOST_OUTSTANDING];
    size_t read;
    char answer[ROOM];
};

struct bid {
    int bidder, ticket, node;
    long amount;
};

struct kind {
    const char *name;
    /* Exchanges the first messages of a session. */
    void (*begin)(struct session *);
    /* Writes a bid as a request, and returns its length. */
    int (*write)(char *, struct bid);
    /* The length of the first answer if it is whole, or 0 if more of it has to come. */
    size_t (*whole)(const char *, size_t);
    /* Whether that answer says that the bid is kept. */
    int (*is_kept)(const char *, size_t);
    int has_rounds;
    int has_auctioneer;
};

/* The time that counts, the greatest number of bids, and the results. */
struct figures {
    double from, end, last;
    long most, bids, counted, all, flooded;
    double *times;
};

static const char *const floods[] = {[NONE] = "none", [SILENT] = "silent", [QUESTIONS] = "questions", [BIDS] = "bids"};

static struct session sessions[MOST_SESSIONS];
/* The session that floods, and the one that is closing a round. */
static struct session *flooder, *closer;
static enum flood flood;
static int tickets[MOST_BIDDERS];
static int count, connections, nodes, round_number = 1, must_close;
static int commands, questions; /* outstanding ones, of all sessions */
static long price = FIRST_PRICE;
static struct figures figures;

static void fail(const char *what) {
    perror(what);
    exit(1);
}

static double now(void) {
    struct timespec time;
    if (clock_gettime(CLOCK_MONOTONIC, &time) != 0) fail("clock_gettime");
    return time.tv_sec + time.tv_nsec / 1e9;
}

/* hpb */

static int write_line(char *text, struct bid bid) {
    return snprintf(text, LINE, "BID b%d %d n%d %ld\n", bid.bidder, bid.ticket, bid.node, bid.amount);
}

static size_t whole_line(const char *text, size_t length) {
    const char *end = memchr(text, '\n', length);
    return end == NULL ? 0 : (size_t)(end - text) + 1;
}

static int is_ok(const char *text, size_t length) { return length > 3 && memcmp(text, "OK ", 3) == 0; }

/* Redis */

static int write_incr(char *text, struct bid bid) {
    (void)bid;
    return snprintf(text, REQUEST, "*2\r\n$4\r\nINCR\r\n$4\r\nbids\r\n");
}

static int write_set(char *text, struct bid bid) {
    char line[LINE], key[LINE];
    int length = write_line(line, bid) - 1, key_length = snprintf(key, sizeof key, "b%dn%d", bid.bidder, bid.node);
    return snprintf(text, REQUEST, "*3\r\n$3\r\nSET\r\n$%d\r\n%s\r\n$%d\r\n%.*s\r\n", key_length, key, length, length, line);
}

static int write_rpush(char *text, struct bid bid) {
    char line[LINE];
    int length = write_line(line, bid) - 1;
    return snprintf(text, REQUEST, "*3\r\n$5\r\nRPUSH\r\n$4\r\nbids\r\n$%d\r\n%.*s\r\n", length, length, line);
}

static int is_no_error(const char *text, size_t length) { return length > 1 && (text[0] == ':' || text[0] == '+'); }

/* PostgreSQL, by its protocol 3. A message has a letter, four bytes of length, and its contents. */

static char *put_word(char *at, unsigned word) {
    unsigned wire = htonl(word);
    memcpy(at, &wire, 4);
    return at + 4;
}

static char *put_half(char *at, unsigned half) {
    *at++ = (char)(half >> 8);
    *at++ = (char)half;
    return at;
}

static char *put_text(char *at, const char *text) { return stpcpy(at, text) + 1; }

/* Leaves room for the head of a message, to be filled in at the end. */
static char *open_message(char *at, char letter) {
    *at = letter;
    return at + 5;
}

static char *close_message(char *message, char *end) {
    put_word(message + 1, (unsigned)(end - message - 1));
    return end;
}

static int write_insert(char *text, struct bid bid) {
    char *at = open_message(text, 'Q');
    at += sprintf(at, "INSERT INTO bids VALUES (%d, %d, %d, %ld)", bid.bidder, bid.ticket, bid.node, bid.amount) + 1;
    return (int)(close_message(text, at) - text);
}

static char *put_number(char *at, long number) {
    int length = sprintf(at + 4, "%ld", number);
    return put_word(at, (unsigned)length) + length;
}

static char *put_sync(char *at) { return close_message(at, open_message(at, 'S')); }

static int write_execute(char *text, struct bid bid) {
    char *at = open_message(text, 'B');
    at = put_text(put_text(at, ""), "bid");
    at = put_half(put_half(at, 0), 4);
    at = put_number(put_number(put_number(put_number(at, bid.bidder), bid.ticket), bid.node), bid.amount);
    at = close_message(text, put_half(at, 0));
    char *execute = at;
    at = close_message(execute, put_word(put_text(open_message(execute, 'E'), ""), 0));
    return (int)(put_sync(at) - text);
}

static size_t message_length(const char *message) {
    unsigned wire;
    memcpy(&wire, message + 1, 4);
    return 1 + (size_t)ntohl(wire);
}

/* An answer ends with the message that the server is ready for the next request. */
static size_t whole_answer(const char *text, size_t length) {
    size_t at = 0;
    while (at + 5 <= length && at + message_length(text + at) <= length) {
        int is_last = text[at] == 'Z';
        at += message_length(text + at);
        if (is_last) return at;
    }
    return 0;
}

/* The row was inserted if the answer has a message that the command is complete. After a failure it has an error instead. */
static int is_complete(const char *text, size_t length) {
    int found = 0;
    for (size_t at = 0; at < length; at += message_length(text + at)) {
        if (text[at] == 'E') return 0;
        if (text[at] == 'C') found = 1;
    }
    return found;
}

static void send_all(struct session *session, const char *text, size_t length) {
    ssize_t sent = send(session->socket, text, length, MSG_NOSIGNAL);
    if (sent != (ssize_t)length) fail("send");
}

static void await_ready(struct session *session) {
    while (session->read == 0 || whole_answer(session->answer, session->read) == 0) {
        ssize_t got = recv(session->socket, session->answer + session->read, ROOM - session->read, 0);
        if (got <= 0) fail("the server ended the connection, or refused it");
        session->read += (size_t)got;
        if (session->answer[0] == 'E') {
            fprintf(stderr, "the server refused the connection\n");
            exit(1);
        }
    }
    session->read = 0;
}

/* A front learns each session's name from a token, as tests/fronts.py makes them. */
static void begin_front(struct session *session) {
    char text[LINE];
    send_all(session, text, (size_t)snprintf(text, sizeof text, "TOKEN token-of-s%d-in-a-trial\n", (int)(session - sessions)));
    while (whole_line(session->answer, session->read) == 0) {
        ssize_t got = recv(session->socket, session->answer + session->read, ROOM - session->read, 0);
        if (got <= 0) fail("the front ended the connection");
        session->read += (size_t)got;
    }
    if (memcmp(session->answer, "WELCOME ", 8) != 0) {
        fprintf(stderr, "the front refused a token\n");
        exit(1);
    }
    session->read = 0;
}

static void begin_postgres(struct session *session) {
    char text[ROOM], *at = put_word(text + 4, 3 << 16);
    at = put_text(put_text(at, "user"), "bench");
    at = put_text(put_text(at, "database"), "postgres");
    *at++ = 0;
    put_word(text, (unsigned)(at - text));
    send_all(session, text, (size_t)(at - text));
    await_ready(session);
}

static void begin_prepared(struct session *session) {
    begin_postgres(session);
    char text[ROOM], *at = open_message(text, 'P');
    at = put_text(put_text(at, "bid"), "INSERT INTO bids VALUES ($1, $2, $3, $4)");
    at = put_sync(close_message(text, put_half(at, 0)));
    send_all(session, text, (size_t)(at - text));
    await_ready(session);
}

static const struct kind kinds[] = {
    {"hpb", NULL, write_line, whole_line, is_ok, 1, 0},
    {"front", begin_front, write_line, whole_line, is_ok, 1, 1},
    {"redis-incr", NULL, write_incr, whole_line, is_no_error, 0, 0},
    {"redis-set", NULL, write_set, whole_line, is_no_error, 0, 0},
    {"redis-rpush", NULL, write_rpush, whole_line, is_no_error, 0, 0},
    {"postgres", begin_postgres, write_insert, whole_answer, is_complete, 0, 0},
    {"postgres-prepared", begin_prepared, write_execute, whole_answer, is_complete, 0, 0},
};

/* Bids */

static int licences_of(int node) {
    int licences = (nodes + 1) / 2;
    for (; node > 0; node = (node - 1) / 2) licences /= 2;
    return licences;
}

/* Each bidder of a session bids on all licences, then each on the next node, and so on. So all keep their eligibility. */
static struct bid next_bid(struct session *session) {
    struct bid bid;
    bid.bidder = session->first_bidder + session->bids % session->bidders;
    bid.node = session->bids / session->bidders;
    bid.ticket = ++tickets[bid.bidder];
    bid.amount = price * licences_of(bid.node);
    session->bids++;
    return bid;
}

static int has_bid_all(const struct session *session) { return session->bids == session->bidders * nodes; }

static int asks(const struct session *session) { return session == flooder && flood == QUESTIONS; }

/* The counter of outstanding requests to which a session belongs. */
static int *outstanding_of(const struct session *session) { return asks(session) ? &questions : &commands; }

/* Asks about the auction and about one of its nodes, in turn. */
static int write_question(char *text, int number) {
    if (number % 2 == 0) return snprintf(text, REQUEST, "SHOW\n");
    return snprintf(text, REQUEST, "NODE n%d\n", number / 2 % nodes);
}

static int is_told(const char *text, size_t length) {
    return (length > 6 && memcmp(text, "ROUND ", 6) == 0) || (length > 5 && memcmp(text, "NODE ", 5) == 0);
}

static int write_next(const struct kind *kind, struct session *session, char *text) {
    return asks(session) ? write_question(text, session->questions++) : kind->write(text, next_bid(session));
}

/* Whether a session has a request to send. If the round has to be closed, it sends bids on all licences alone, so that all bidders
 * keep their eligibility. */
static int has_next(const struct kind *kind, struct session *session) {
    if (asks(session)) return 1;
    if (has_bid_all(session)) {
        if (kind->has_rounds) return 0;
        session->bids = 0;
    }
    return !must_close || session->bids < session->bidders;
}

/* How many requests a session may send now. */
static int free_places(const struct session *session, double at) {
    long left = at < figures.end ? figures.most - figures.bids - commands : 0;
    int places = session->places - session->outstanding;
    return left < places ? (int)left : places;
}

static void send_requests(struct session *session, const char *text, int length, int requests) {
    double at = now();
    for (int r = 0; r < requests; r++) session->sent[(session->oldest + session->outstanding++) % MOST_OUTSTANDING] = at;
    *outstanding_of(session) += requests;
    send_all(session, text, (size_t)length);
}

/* Fills all free places by one send. */
static void fill(const struct kind *kind, struct session *session, double at) {
    char text[MOST_OUTSTANDING * REQUEST];
    int length = 0, requests = 0, places = free_places(session, at);
    for (; requests < places && has_next(kind, session); requests++) length += write_next(kind, session, text + length);
    if (requests > 0) send_requests(session, text, length, requests);
}

static void fill_all(const struct kind *kind, double at) {
    for (int s = 0; s < connections; s++) fill(kind, &sessions[s], at);
}

static void send_close(struct session *session) {
    char text[LINE];
    closer = session;
    send_requests(session, text, snprintf(text, sizeof text, "CLOSE %d\n", round_number), 1);
}

static void begin_round(void) {
    closer = NULL;
    must_close = 0;
    round_number++;
    price += price * RAISE / 100;
    for (int s = 0; s < connections; s++) sessions[s].bids = 0;
}

/* Sessions */

static void connect_session(struct session *session, int port) {
    struct sockaddr_in address = {.sin_family = AF_INET, .sin_port = htons((unsigned short)port)};
    address.sin_addr.s_addr = htonl(INADDR_LOOPBACK);
    session->socket = socket(AF_INET, SOCK_STREAM, 0);
    if (session->socket < 0) fail("socket");
    if (connect(session->socket, (struct sockaddr *)&address, sizeof address) != 0) fail("connect");
    int yes = 1;
    if (setsockopt(session->socket, IPPROTO_TCP, TCP_NODELAY, &yes, sizeof yes) != 0) fail("setsockopt");
}

static void share_bidders(int bidders) {
    if (flooder != NULL) {
        flooder->first_bidder = bidders / 2;
        flooder->bidders = bidders - bidders / 2;
        bidders /= 2;
    }
    for (int s = 0; s < count; s++) {
        sessions[s].first_bidder = bidders * s / count;
        sessions[s].bidders = bidders * (s + 1) / count - sessions[s].first_bidder;
    }
}

static void connect_all(const struct kind *kind, int port, int poll) {
    for (int s = 0; s < connections; s++) {
        connect_session(&sessions[s], port);
        if (kind->begin != NULL) kind->begin(&sessions[s]);
        if (fcntl(sessions[s].socket, F_SETFL, O_NONBLOCK) != 0) fail("fcntl");
        struct epoll_event event = {.events = EPOLLIN, .data.u32 = (unsigned)s};
        if (epoll_ctl(poll, EPOLL_CTL_ADD, sessions[s].socket, &event) != 0) fail("epoll_ctl");
    }
}

/* Answers */

static void refuse(const char *text, size_t length) {
    fprintf(stderr, "not kept: %.*s\n", (int)length, text);
    exit(1);
}

/* Whether more of a session's answers has come. */
static int receive(struct session *session) {
    ssize_t got = recv(session->socket, session->answer + session->read, ROOM - session->read, 0);
    if (got < 0 && (errno == EAGAIN || errno == EINTR)) return 0;
    if (got <= 0) fail("the server ended a session");
    session->read += (size_t)got;
    return 1;
}

static void count_answer(const struct session *session, double sent, double at) {
    figures.all++;
    if (session == closer) return;
    if (!asks(session)) figures.bids++;
    if (at < figures.from || at >= figures.end) return;
    if (session == flooder) {
        figures.flooded++;
        return;
    }
    figures.times[figures.counted++] = at - sent;
    figures.last = at;
}

/* The answer to a session's oldest request. It has to say that the bid was kept, or to answer the question. */
static void take_answer(const struct kind *kind, struct session *session, const char *text, size_t length, double at) {
    int is_right = asks(session) ? is_told(text, length) : kind->is_kept(text, length);
    if (session->outstanding == 0 || !is_right) refuse(text, length);
    double sent = session->sent[session->oldest];
    session->oldest = (session->oldest + 1) % MOST_OUTSTANDING;
    session->outstanding--;
    *outstanding_of(session) -= 1;
    count_answer(session, sent, at);
}

/* Takes all whole answers, one after another. The beginning of the next one stays. */
static void take_answers(const struct kind *kind, struct session *session, double at) {
    size_t taken = 0, whole;
    while ((whole = kind->whole(session->answer + taken, session->read - taken)) > 0) {
        take_answer(kind, session, session->answer + taken, whole, at);
        taken += whole;
    }
    session->read -= taken;
    memmove(session->answer, session->answer + taken, session->read);
    if (session->outstanding == 0 && session->read > 0) refuse(session->answer, session->read);
}

static void serve_session(const struct kind *kind, struct session *session) {
    if (!receive(session)) return;
    double at = now();
    take_answers(kind, session, at);
    if (session == closer && session->outstanding == 0) {
        begin_round();
        fill_all(kind, at);
        return;
    }
    if (kind->has_rounds && session->outstanding == 0 && has_bid_all(session)) must_close = 1;
    fill(kind, session, at);
    /* Before a round is closed, all its bids are answered: an amount is right only in its own round. */
    if (must_close && commands == 0 && free_places(session, at) > 0)
        send_close(kind->has_auctioneer ? &sessions[count] : session);
}

/* Measuring */

static int by_size(const void *one, const void *other) {
    double first = *(const double *)one, second = *(const double *)other;
    return (first > second) - (first < second);
}

static void tell(void) {
    double *times = figures.times;
    long counted = figures.counted;
    if (counted == 0) {
        fprintf(stderr, "nothing was counted\n");
        exit(1);
    }
    qsort(times, (size_t)counted, sizeof *times, by_size);
    double middle = times[counted / 2], late = times[counted - 1 - counted / 100];
    printf("%ld %.6f %.1f %.1f ", counted, figures.last - figures.from, middle * 1e6, late * 1e6);
    printf("%ld %ld\n", figures.all, figures.flooded);
    fflush(stdout);
}

static void run(const struct kind *kind, int poll, double warm, double seconds, long most) {
    struct epoll_event events[MOST_SESSIONS];
    double start = now(), from = start + warm;
    figures = (struct figures){.from = from, .end = from + seconds, .last = from, .most = most};
    figures.times = malloc((size_t)most * sizeof *figures.times);
    if (figures.times == NULL) fail("malloc");
    fill_all(kind, start);
    while (commands + questions > 0) {
        int ready = epoll_wait(poll, events, MOST_SESSIONS, -1);
        if (ready < 0 && errno != EINTR) fail("epoll_wait");
        for (int e = 0; e < ready; e++) serve_session(kind, &sessions[events[e].data.u32]);
    }
    tell();
    free(figures.times);
}

/* While all sessions are still connected, the program that started this one can see how much the server has used. */
static void hold(void) {
    char byte;
    while (read(STDIN_FILENO, &byte, 1) > 0) {}
}

/* Arguments */

static const struct kind *find_kind(const char *name) {
    for (size_t k = 0; k < sizeof kinds / sizeof *kinds; k++)
        if (strcmp(name, kinds[k].name) == 0) return &kinds[k];
    return NULL;
}

static int find_flood(const char *name) {
    for (int f = NONE; f <= BIDS; f++)
        if (strcmp(name, floods[f]) == 0) return f;
    return -1;
}

/* First come the sessions that are counted; after them the auctioneer, or the session that floods. */
static void give_places(const struct kind *kind, int pipeline) {
    connections = count + kind->has_auctioneer;
    for (int s = 0; s < count; s++) sessions[s].places = pipeline;
    if (flood == NONE) return;
    flooder = &sessions[connections++];
    flooder->places = flood == SILENT ? 0 : MOST_OUTSTANDING;
}

static int is_in_range(const struct kind *kind, int levels, int bidders, int pipeline, int wanted) {
    if (kind == NULL || levels < 1 || nodes > MOST_NODES || bidders > MOST_BIDDERS || count < 1) return 0;
    if (pipeline < 1 || pipeline > MOST_OUTSTANDING || wanted < 0) return 0;
    return wanted == NONE ? count <= bidders : strcmp(kind->name, "hpb") == 0 && count <= bidders / 2;
}

int main(int words, char **word) {
    if (words < 9 || words > 11) {
        fprintf(stderr, "load KIND PORT SESSIONS SECONDS WARM MOST LEVELS BIDDERS [PIPELINE [FLOOD]]\n");
        return 2;
    }
    const struct kind *kind = find_kind(word[1]);
    int levels = atoi(word[7]), bidders = atoi(word[8]);
    int pipeline = words > 9 ? atoi(word[9]) : 1, wanted = words > 10 ? find_flood(word[10]) : NONE;
    count = atoi(word[3]);
    nodes = (1 << levels) - 1;
    if (!is_in_range(kind, levels, bidders, pipeline, wanted)) {
        fprintf(stderr, "no such kind or flood, or levels, bidders, sessions or pipeline out of range\n");
        return 2;
    }
    flood = (enum flood)wanted;
    int poll = epoll_create1(0);
    if (poll < 0) fail("epoll_create1");
    give_places(kind, pipeline);
    share_bidders(bidders);
    connect_all(kind, atoi(word[2]), poll);
    run(kind, poll, atof(word[5]), atof(word[4]), atol(word[6]));
    hold();
    for (int s = 0; s < connections; s++) close(sessions[s].socket);
    return 0;
}
