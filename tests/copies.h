/* Copies of a program of Python that share its imports, for `faults.c`: at its function `main` the process waits for messages, and copies of it
 * go on from there.
 *
 *   FAULT_COPIES  The number of a socket (SOCK_SEQPACKET). If it is closed at the other end the process ends. Copies that still run are killed.
 *
 * The message "begin 7 1 2\nFOLDER" comes with two descriptors. A copy goes on in that folder and in lane 7 of the sweep, has these descriptors
 * under the numbers 1 and 2, and the answer is its number. The message "end NUMBER" asks whether that copy has ended. The answer is -1, or its
 * status of wait(2).
 */
#include <poll.h>
#include <signal.h>
#include <sys/prctl.h>
#include <sys/socket.h>
#include <sys/wait.h>

enum { MOST_MESSAGE = 4096, MOST_DESCRIPTORS = 8, MOST_ENDED = 1024, MOST_COPIES = 64, SPARE = 100 };

static struct { int number, status; } ended[MOST_ENDED];
static int ended_count, copies[MOST_COPIES];
static void take_lane(int number);

/* Forgets the status of a process whose number is that of a new copy now. */
static void forget(int number) {
    for (int i = 0; i < MOST_ENDED; i++)
        if (ended[i].number == number) ended[i].number = 0;
}

/* Takes the statuses of all processes that have ended, among them those that a copy has left behind. */
static int status_of(int number) {
    int status, found;
    while ((found = waitpid(-1, &status, WNOHANG)) > 0) {
        ended[ended_count % MOST_ENDED].number = found;
        ended[ended_count++ % MOST_ENDED].status = status;
    }
    for (int i = 0; i < MOST_ENDED; i++)
        if (ended[i].number == number) return ended[i].status;
    return -1;
}

/* Puts the descriptors that came with a message under the numbers that it names. Returns the folder, the rest of the message. */
static const char *take_descriptors(struct msghdr *message, char *words) {
    int given[MOST_DESCRIPTORS], count = 0;
    struct cmsghdr *part = CMSG_FIRSTHDR(message);
    if (part) count = (part->cmsg_len - CMSG_LEN(0)) / sizeof(int);
    if (part) memcpy(given, CMSG_DATA(part), count * sizeof(int));
    for (int i = 0; i < count; i++) {
        int moved = fcntl(given[i], F_DUPFD, SPARE);
        syscall(SYS_close, given[i]);
        given[i] = moved;
    }
    for (int i = 0; i < count; i++) {
        dup2(given[i], strtol(words, &words, 10));
        syscall(SYS_close, given[i]);
    }
    return words + 1;
}

static void drop_descriptors(struct msghdr *message) {
    struct cmsghdr *part = CMSG_FIRSTHDR(message);
    for (size_t at = CMSG_LEN(0); part && at + sizeof(int) <= part->cmsg_len; at += sizeof(int)) {
        int given;
        memcpy(&given, (char *)part + at, sizeof given);
        syscall(SYS_close, given);
    }
}

/* Returns in each copy, and never in the process itself. */
static void make_copies(int socket) {
    prctl(PR_SET_CHILD_SUBREAPER, 1);
    for (;;) {
        char text[MOST_MESSAGE];
        union { char bytes[CMSG_SPACE(MOST_DESCRIPTORS * sizeof(int))]; struct cmsghdr first; } room;
        struct iovec words = { text, sizeof text - 1 };
        struct msghdr message = { .msg_iov = &words, .msg_iovlen = 1, .msg_control = room.bytes, .msg_controllen = sizeof room.bytes };
        long length = recvmsg(socket, &message, 0);
        if (length < 0 && errno == EINTR) continue;
        if (length <= 0) {
            for (int i = 0; i < MOST_COPIES; i++)
                if (copies[i] && status_of(copies[i]) < 0) kill(copies[i], SIGKILL);
            syscall(SYS_exit_group, 0);
        }
        text[length] = 0;
        int answer;
        if (!strncmp(text, "begin", 5)) {
            char *words = text + 5;
            int number = strtol(words, &words, 10);
            copies[number] = answer = (int)real[CALL_fork](0, 0, 0, 0, 0, 0, 0);
            if (!answer) {
                const char *folder = take_descriptors(&message, words);
                if (chdir(folder)) abort();
                take_lane(number);
                syscall(SYS_close, socket);
                return;
            }
            forget(answer);
            drop_descriptors(&message);
        } else {
            answer = status_of(atoi(text + 4));
        }
        if (send(socket, &answer, sizeof answer, MSG_NOSIGNAL) < 0) syscall(SYS_exit_group, 0);
    }
}
