/* A server without rules that answers each line `OK n` once it is on the disk. It shows how much the sockets and the device's calls
 * allow to a single thread.
 *
 *     bare FILE JOURNAL PORT SESSIONS
 *
 * FILE has just been formatted in pages, with a journal of JOURNAL frames. It takes SESSIONS connections at PORT of 127.0.0.1, and
 * ends once all are closed. Up to 64 waiting lines make a batch: a write of a page's body, a sync of the data, a write of one byte,
 * a sync of the data. No checkpoint is ever made. It prints LISTENING and the port, and at its end CLOSED and the number of lines. */
#include <arpa/inet.h>
#include <fcntl.h>
#include <netinet/tcp.h>
#include <poll.h>
#include <stdio.h>
#include <stdlib.h>
#include <string.h>
#include <sys/socket.h>
#include <unistd.h>

enum { PAGE = 4096, BODY_AT = 16, JOURNAL_PAGE = 13, MOST_RECORDS = 64, MOST_SESSIONS = 32, ROOM = 8192, ANSWER = 16 };

struct session {
    size_t lines;       /* lines without an answer */
    char answers[MOST_RECORDS * ANSWER];
    size_t written;
};

static struct pollfd sockets[MOST_SESSIONS];
static struct session sessions[MOST_SESSIONS];
static int file;
static long journal, batches, answered;
static unsigned char page[PAGE];

static void fail(const char *what) {
    perror(what);
    exit(1);
}

static void put(off_t at, const void *bytes, size_t count) {
    if (pwrite(file, bytes, count, at) != (ssize_t)count) fail("pwrite");
    if (fdatasync(file) != 0) fail("fdatasync");
}

static void commit(void) {
    unsigned char gate = 0xA5;
    off_t at = (off_t)(JOURNAL_PAGE + batches++ % journal) * PAGE;
    put(at + BODY_AT, page + BODY_AT, PAGE - BODY_AT);
    put(at, &gate, 1);
}

static int listen_at(int port) {
    int one = 1, socket_of = socket(AF_INET, SOCK_STREAM, 0);
    struct sockaddr_in at = {.sin_family = AF_INET, .sin_port = htons(port), .sin_addr.s_addr = htonl(INADDR_LOOPBACK)};
    setsockopt(socket_of, SOL_SOCKET, SO_REUSEADDR, &one, sizeof one);
    if (socket_of < 0 || bind(socket_of, (struct sockaddr *)&at, sizeof at) != 0 || listen(socket_of, MOST_SESSIONS) != 0) fail("listen");
    return socket_of;
}

static void take(int listener, int count) {
    int one = 1;
    for (int i = 0; i < count; i++) {
        sockets[i] = (struct pollfd){.fd = accept(listener, NULL, NULL), .events = POLLIN};
        if (sockets[i].fd < 0) fail("accept");
        setsockopt(sockets[i].fd, IPPROTO_TCP, TCP_NODELAY, &one, sizeof one);
    }
}

/* Reads what has come. Returns 0 if the connection is closed. */
static int read_lines(int i) {
    char bytes[ROOM];
    ssize_t count = read(sockets[i].fd, bytes, sizeof bytes);
    for (ssize_t at = 0; at < count; at++) sessions[i].lines += bytes[at] == '\n';
    return count > 0;
}

/* Makes a batch of the waiting lines, and answers them. */
static long answer(int count) {
    long taken = 0;
    for (int i = 0; i < count; i++)
        for (; sessions[i].lines > 0 && taken < MOST_RECORDS; sessions[i].lines--, taken++)
            sessions[i].written += snprintf(sessions[i].answers + sessions[i].written, ANSWER, "OK %ld\n", ++answered);
    if (taken == 0) return 0;
    commit();
    for (int i = 0; i < count; i++) {
        size_t written = sessions[i].written;
        if (written > 0 && send(sockets[i].fd, sessions[i].answers, written, MSG_NOSIGNAL) != (ssize_t)written) fail("send");
        sessions[i].written = 0;
    }
    return taken;
}

int main(int count, char **words) {
    if (count != 5) {
        fprintf(stderr, "bare FILE JOURNAL PORT SESSIONS\n");
        return 2;
    }
    int port = atoi(words[3]), all = atoi(words[4]);
    journal = atol(words[2]);
    if (journal < 4 || all < 1 || all > MOST_SESSIONS) {
        fprintf(stderr, "a journal has 4 frames or more, and 1 to 32 sessions are taken\n");
        return 2;
    }
    file = open(words[1], O_RDWR);
    if (file < 0) fail(words[1]);
    memset(page, 0x5A, sizeof page);
    int listener = listen_at(port);
    printf("LISTENING %d\n", port);
    fflush(stdout);
    take(listener, all);
    for (int left = all; left > 0;) {
        /* If lines are left over from the last batch, nothing is waited for. */
        int waits = 1;
        for (int i = 0; i < all; i++) waits = waits && sessions[i].lines == 0;
        if (poll(sockets, all, waits ? -1 : 0) < 0) fail("poll");
        for (int i = 0; i < all; i++)
            if (sockets[i].fd >= 0 && sockets[i].revents != 0 && !read_lines(i)) {
                close(sockets[i].fd);
                sockets[i].fd = -1;
                left--;
            }
        answer(all);
    }
    printf("CLOSED %ld\n", answered);
    return 0;
}
