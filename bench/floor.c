/*
 * The floor: what a message costs the system at least. An LMTP server with a thread for each connection, which makes one read and one send a message (two
 * reads where a message doesn't come in one piece) and stores nothing.
 *
 *     floor [--port 0] [--recipients 1] [--idle-port P] [--idle direct|chain] [--fetch 0] [--keep 0]
 *
 * Its lines tell the ports that it listens on; the system picks one where 0 is asked for. Each message is to have so many recipients and to come whole, its
 * commands with its data, and nothing behind it before it is answered: it ends where the bytes read so far end with CRLF . CRLF, and its replies are
 * prepared.
 *
 * With an idle port it has sessions too, which are told `* n EXISTS` of each message right before it is answered. The thread that reads the message writes to
 * each session's socket itself (`direct`), or wakes a thread of each session, which does (`chain`). A session selects and idles as the program's do; a FETCH is
 * answered with so many bytes as `--fetch` says, from one block of memory, and any other command with its OK.
 *
 * With `--keep 1` it copies what each read brings into a block of its own, and gives none back: what a message costs at least where it is kept in memory.
 *
 * It runs until a signal ends it.
 */
#define _GNU_SOURCE
#include "measuring.h"
#include <getopt.h>
#include <linux/futex.h>
#include <limits.h>
#include <pthread.h>
#include <stdatomic.h>
#include <sys/syscall.h>

enum { ROOM = 256 * 1024, MOST_RECIPIENTS = 100, MOST_IDLERS = 64, END = 5 };

/* What is asked for. */
static long port, recipients = 1, idle_port = -1, fetched, keeps;
static int is_chain;

/* The replies to a message, and the answer to a FETCH up to its last line. */
static char replies[64 * (2 + 2 * MOST_RECIPIENTS)];
static size_t replies_length;
static char *bodies;

/* How many messages came. In a chain the threads of the sessions sleep on this number. */
static atomic_uint messages;

/* The sessions that idle and that the reader of a message writes to; the lock keeps their lines in the messages' order. */
static pthread_mutex_t idlers_lock = PTHREAD_MUTEX_INITIALIZER;
static int idlers[MOST_IDLERS];
static int idlers_count;

static void make_replies(void) {
    int length = sprintf(replies, "250 2.1.0 Sender OK\r\n");
    for (long more = 0; more < recipients; more++)
        length += sprintf(replies + length, "250 2.1.5 Recipient OK\r\n");
    length += sprintf(replies + length, "354 Start mail input\r\n");
    for (long more = 0; more < recipients; more++)
        length += sprintf(replies + length, "250 2.1.5 Delivered\r\n");
    replies_length = (size_t)length;
}

static void make_bodies(void) {
    size_t length = (size_t)fetched;
    bodies = malloc(length + 1);
    if (!bodies)
        die("out of memory");
    memset(bodies, 'x', length);
    for (size_t end = LINE; end <= length; end += LINE)
        memcpy(bodies + end - 2, "\r\n", 2);
}

static int is_said(int stream, const char *text) {
    return is_sent(stream, text, strlen(text));
}

/* ---- sessions */

static int is_told(int stream, unsigned number) {
    char line[32];
    return is_sent(stream, line, (size_t)sprintf(line, "* %u EXISTS\r\n", number));
}

/* Writes to each session. One that is gone is left out from then on. */
static void tell_idlers(unsigned number) {
    int kept = 0;
    for (int at = 0; at < idlers_count; at++)
        if (is_told(idlers[at], number))
            idlers[kept++] = idlers[at];
    idlers_count = kept;
}

/* A message came: the sessions are told, or woken to tell it. */
static void count_message(void) {
    if (is_chain) {
        atomic_fetch_add(&messages, 1);
        syscall(SYS_futex, &messages, FUTEX_WAKE_PRIVATE, INT_MAX, NULL, NULL, 0);
        return;
    }
    pthread_mutex_lock(&idlers_lock);
    tell_idlers(atomic_fetch_add(&messages, 1) + 1);
    pthread_mutex_unlock(&idlers_lock);
}

/* Sleeps until another message than this came, and gives its number. */
static unsigned next_behind(unsigned told) {
    unsigned now;
    while ((now = atomic_load(&messages)) == told)
        syscall(SYS_futex, &messages, FUTEX_WAIT_PRIVATE, told, NULL, NULL, 0);
    return now;
}

/* Idles from this number of messages on, until the client is found gone. */
static void idle_in_chain(int stream, unsigned told) {
    int is_there = is_said(stream, "+ idling\r\n");
    while (is_there) {
        told = next_behind(told);
        is_there = is_told(stream, told);
    }
}

/* Has the readers of messages write to this session, until it says anything or is closed. */
static void idle_directly(int stream) {
    char byte;
    pthread_mutex_lock(&idlers_lock);
    if (idlers_count == MOST_IDLERS)
        die("too many sessions idle");
    idlers[idlers_count++] = stream;
    is_said(stream, "+ idling\r\n");
    pthread_mutex_unlock(&idlers_lock);
    recv(stream, &byte, 1, 0);
}

static void leave_idlers(int stream) {
    pthread_mutex_lock(&idlers_lock);
    int kept = 0;
    for (int at = 0; at < idlers_count; at++)
        if (idlers[at] != stream)
            idlers[kept++] = idlers[at];
    idlers_count = kept;
    pthread_mutex_unlock(&idlers_lock);
}

/* Does one command, a line without its end; whether the session goes on. */
static int is_done(int stream, char *line) {
    char answer[128];
    char *rest = line;
    const char *tag = strsep(&rest, " ");
    unsigned stand = atomic_load(&messages);
    if (!rest)
        return 0;
    if (strcmp(rest, "IDLE") == 0) {
        if (is_chain)
            idle_in_chain(stream, stand);
        else
            idle_directly(stream);
        return 0;
    }
    if (strncmp(rest, "SELECT", 6) == 0)
        is_told(stream, stand);
    if (strncmp(rest, "FETCH", 5) == 0)
        is_sent(stream, bodies, (size_t)fetched);
    snprintf(answer, sizeof answer, "\r\n%.64s OK done\r\n", tag);
    return is_said(stream, strncmp(rest, "FETCH", 5) == 0 ? answer : answer + 2);
}

/* Does the whole lines of these bytes; whether the session goes on. What was done is taken out. */
static int are_done(int stream, char *bytes, size_t *length) {
    char *at = bytes, *end;
    int goes_on = 1;
    while (goes_on && (end = memmem(at, (size_t)(bytes + *length - at), "\r\n", 2)) != NULL) {
        *end = 0;
        goes_on = is_done(stream, at);
        at = end + 2;
    }
    *length = (size_t)(bytes + *length - at);
    memmove(bytes, at, *length);
    return goes_on;
}

static void *run_session(void *its_stream) {
    int stream = (int)(long)its_stream;
    char bytes[4096];
    size_t length = 0;
    ssize_t count;
    is_said(stream, "* OK floor\r\n");
    while (length < sizeof bytes && (count = recv(stream, bytes + length, sizeof bytes - length, 0)) > 0) {
        length += (size_t)count;
        if (!are_done(stream, bytes, &length))
            break;
    }
    leave_idlers(stream);
    close(stream);
    return NULL;
}

/* ---- mail */

/* The last bytes that came on a connection, over all its reads. */
struct tail {
    char bytes[END];
};

static void note(struct tail *tail, const char *bytes, size_t count) {
    size_t newer = count < END ? count : END;
    memmove(tail->bytes, tail->bytes + newer, END - newer);
    memcpy(tail->bytes + END - newer, bytes + count - newer, newer);
}

/* Where the last kept block is. Without it the compiler would see that nobody reads a block, and make none. */
static char *volatile kept;

/* Keeps these bytes for as long as the process lives. */
static void keep(const char *bytes, size_t count) {
    char *block = malloc(count);
    if (!block)
        die("out of memory");
    memcpy(block, bytes, count);
    kept = block;
}

/* Reads until what came ends with this text, at most five bytes; whether it did before the connection's end. */
static int is_read_to(int stream, char *room, const char *text) {
    struct tail tail = {{0}};
    ssize_t count;
    while ((count = recv(stream, room, ROOM, 0)) > 0) {
        if (keeps)
            keep(room, (size_t)count);
        note(&tail, room, (size_t)count);
        if (ends_with(tail.bytes, END, text))
            return 1;
    }
    return 0;
}

static void *run_connection(void *its_stream) {
    int stream = (int)(long)its_stream;
    char *room = malloc(ROOM);
    if (!room)
        die("out of memory");
    is_said(stream, "220 floor LMTP\r\n");
    int goes_on = is_read_to(stream, room, "\r\n") && is_said(stream, "250-floor\r\n250 8BITMIME\r\n");
    while (goes_on && is_read_to(stream, room, "\r\n.\r\n")) {
        if (idle_port >= 0)
            count_message();
        goes_on = is_sent(stream, replies, replies_length);
    }
    free(room);
    close(stream);
    return NULL;
}

/* ---- listeners */

/* Who comes to a port, and what is done with it in a thread of its own. */
struct listener {
    int stream;
    void *(*run)(void *stream);
};

static int listening(long wanted, const char *what) {
    struct sockaddr_in address = loopback(wanted);
    socklen_t length = sizeof address;
    int again = 1, stream = socket(AF_INET, SOCK_STREAM, 0);
    setsockopt(stream, SOL_SOCKET, SO_REUSEADDR, &again, sizeof again);
    if (stream < 0 || bind(stream, (struct sockaddr *)&address, length) != 0 || listen(stream, 128) != 0)
        die("it can't listen there");
    getsockname(stream, (struct sockaddr *)&address, &length);
    printf("%s 127.0.0.1:%d\n", what, ntohs(address.sin_port));
    fflush(stdout);
    return stream;
}

static void start_thread(void *(*run)(void *), void *its) {
    pthread_t thread;
    if (pthread_create(&thread, NULL, run, its) != 0)
        die("there is no thread");
    pthread_detach(thread);
}

static void *take_all(void *its_listener) {
    struct listener *listener = its_listener;
    int stream;
    while ((stream = accept(listener->stream, NULL, NULL)) >= 0) {
        send_at_once(stream);
        start_thread(listener->run, (void *)(long)stream);
    }
    die("nobody can be let in");
}

/* Which of the two ways of telling a session this word means. */
static int idles_in_chain(const char *way) {
    if (strcmp(way, "direct") != 0 && strcmp(way, "chain") != 0)
        die("a session is told directly or by a chain");
    return strcmp(way, "chain") == 0;
}

static int is_possible(void) {
    return port >= 0 && port < 65536 && idle_port < 65536 && recipients > 0 && recipients <= MOST_RECIPIENTS && fetched >= 0;
}

int main(int count, char **words) {
    long *targets[] = {&port, &recipients, &idle_port, &fetched, &keeps};
    static const struct option options[] = {
        {"port", 1, NULL, 0}, {"recipients", 1, NULL, 1}, {"idle-port", 1, NULL, 2}, {"fetch", 1, NULL, 3},
        {"keep", 1, NULL, 4}, {"idle", 1, NULL, 'i'},    {NULL, 0, NULL, 0},
    };
    int option;
    while ((option = getopt_long(count, words, "", options, NULL)) != -1) {
        if (option == '?')
            die("the words can't be read");
        if (option == 'i')
            is_chain = idles_in_chain(optarg);
        else
            *targets[option] = strtol(optarg, NULL, 10);
    }
    if (optind != count || !is_possible())
        die("the numbers can't be worked with");
    make_replies();
    make_bodies();
    struct listener mail = {listening(port, "LMTP"), run_connection}, sessions = {-1, run_session};
    if (idle_port >= 0) {
        sessions.stream = listening(idle_port, "IMAP");
        start_thread(take_all, &sessions);
    }
    take_all(&mail);
}
