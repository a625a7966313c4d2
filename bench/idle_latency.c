/*
 * How soon sessions that idle are told of a message.
 *
 *     idle_latency --port P --idle-port P [--idlers 1] [--count 1500] [--size 1024] [--pause 2000] [--login 0] [--pid PID]
 *
 * So many sessions idle on one user's port; with `--login 1` each logs in first, as `u0` with any password. Messages to that user, who is `u0`, come one by one over one connection, each in one call with its commands, and
 * so many microseconds after all that the last one brought was read. One thread does it all, with poll. A first message isn't measured.
 *
 * The one line that is written, of words NAME=NUMBER, tells in microseconds, each with a half, nine in ten and all but one in a hundred of the messages below
 * it: `told`, from right before the call that sends the message, and so the last byte of its data, to right behind the read of `* n EXISTS` at the last session;
 * `answered`, from there to right behind the read of its `250`; `behind`, from the read of the `250` to that of the last `* n EXISTS`, 0 where that was read
 * before; and `cpu`, the processor time that the process PID took for a message (nan where no PID is given).
 */
#define _GNU_SOURCE
#include "measuring.h"
#include <getopt.h>
#include <poll.h>

enum { MOST_IDLERS = 64, REPLIES = 4 };

/* What is asked for. */
static long port, idle_port, idler_count = 1, count = 1500, size = 1024, pause_microseconds = 2000, logs_in, pid;

/* One connection, and what is awaited on it. */
struct peer {
    int stream;
    char input[4096];
    size_t length;
    /* When the read was through that brought the rest of what was awaited. */
    double at;
};

/* The connection that mail comes on, and behind it the sessions. */
static struct peer peers[1 + MOST_IDLERS];

/* The message with its commands. */
static char *message;
static size_t message_length;

/* What was measured of each message. */
struct times {
    double *told, *answered, *behind;
};

static void make_message(void) {
    static const char commands[] = "MAIL FROM:<s@a.example>\r\nRCPT TO:<u0@example.org>\r\nDATA\r\n";
    size_t data_length;
    char *data = made_data((size_t)size, &data_length);
    message_length = sizeof commands - 1 + data_length;
    message = malloc(message_length);
    if (!message)
        die("out of memory");
    memcpy(message, commands, sizeof commands - 1);
    memcpy(message + sizeof commands - 1, data, data_length);
    free(data);
}

/* Reads once, behind what was read before. */
static void read_more(struct peer *peer) {
    if (peer->length == sizeof peer->input - 1)
        die("more is said than was awaited");
    peer->length += read_some(peer->stream, peer->input + peer->length, sizeof peer->input - 1 - peer->length);
    peer->input[peer->length] = 0;
}

static void read_to(struct peer *peer, const char *end) {
    while (!ends_with(peer->input, peer->length, end))
        read_more(peer);
}

static void greet(struct peer *peer) {
    peer->stream = connected(port);
    send_all(peer->stream, "LHLO c.example\r\n", 16);
    do
        read_more(peer);
    while (!is_greeting(peer->input));
    peer->length = 0;
}

/* Logs in where that is asked for: the greeting is read, and then to the tagged line of the answer. What was read is dropped. */
static void log_in(struct peer *peer) {
    static const char command[] = "l LOGIN u0 x\r\n";
    if (!logs_in)
        return;
    read_to(peer, "\r\n");
    send_all(peer->stream, command, sizeof command - 1);
    do {
        read_more(peer);
    } while (!strstr(peer->input, "\nl ") || !ends_with(peer->input, peer->length, "\r\n"));
    if (!strstr(peer->input, "\nl OK"))
        die("a session can't log in");
    peer->length = 0;
}

/* Has a session select its mailbox and idle, and gives how many messages it was told of. */
static long idle(struct peer *peer) {
    static const char commands[] = "s SELECT INBOX\r\ni IDLE\r\n";
    long stand = 0;
    peer->stream = connected(idle_port);
    log_in(peer);
    send_all(peer->stream, commands, sizeof commands - 1);
    read_to(peer, "+ idling\r\n");
    const char *line = strstr(peer->input, " EXISTS\r\n");
    while (line && line > peer->input && line[-1] != ' ')
        line--;
    if (!line || sscanf(line, "%ld EXISTS", &stand) != 1)
        die("a session isn't told how many messages stand");
    peer->length = 0;
    return stand;
}

/* Whether all replies to a message are there. Its last one has to be a 250. */
static int is_answered(const struct peer *peer) {
    const char *line = peer->input;
    for (int more = 1; more < REPLIES; more++) {
        line = strchr(line, '\n');
        if (!line)
            return 0;
        line++;
    }
    if (!ends_with(line, strlen(line), "\r\n"))
        return 0;
    if (strncmp(line, "250", 3) != 0)
        die("a message is refused");
    return 1;
}

/* Whether a session was told this line, whatever came before or behind it. */
static int is_told(const struct peer *peer, const char *exists) {
    const char *line = strstr(peer->input, exists);
    return line && (line == peer->input || line[-1] == '\n');
}

/* Reads once on this connection. Whether all that is awaited on it is there; then it is noted when, and it isn't polled any more. */
static int is_through(struct peer *peer, struct pollfd *polled, const char *exists) {
    read_more(peer);
    double now = seconds_of(CLOCK_MONOTONIC);
    if (!(peer == peers ? is_answered(peer) : is_told(peer, exists)))
        return 0;
    peer->at = now;
    peer->length = 0;
    peer->input[0] = 0;
    *polled = (struct pollfd){.fd = -1};
    return 1;
}

/* Reads until the message is answered and each session was told of it. */
static void await_all(const char *exists) {
    struct pollfd polled[1 + MOST_IDLERS];
    long left = 1 + idler_count;
    for (long at = 0; at <= idler_count; at++)
        polled[at] = (struct pollfd){.fd = peers[at].stream, .events = POLLIN};
    while (left > 0) {
        if (poll(polled, (nfds_t)(1 + idler_count), 30000) <= 0)
            die("nothing comes");
        /* Sessions come first: where all is there at once the time of a read isn't taken for the server's. */
        for (long at = idler_count; at >= 0; at--)
            left -= polled[at].revents != 0 && is_through(&peers[at], &polled[at], exists);
    }
}

/* When the last session was told. */
static double last_told(void) {
    double last = 0;
    for (long at = 1; at <= idler_count; at++)
        last = peers[at].at > last ? peers[at].at : last;
    return last;
}

/* Sends the message that the sessions are told of by this number, and measures it as the one of this position. */
static void send_one(long number, struct times *times, long position) {
    char exists[32];
    sprintf(exists, "* %ld EXISTS\r\n", number);
    usleep((useconds_t)pause_microseconds);
    double begun = seconds_of(CLOCK_MONOTONIC);
    send_all(peers[0].stream, message, message_length);
    await_all(exists);
    double answered = peers[0].at, told = last_told();
    times->told[position] = told - begun;
    times->answered[position] = answered - begun;
    times->behind[position] = told > answered ? told - answered : 0;
}

static void report(const char *name, double *values) {
    sort_values(values, count);
    printf(" %s_p50=%.1f %s_p90=%.1f %s_p99=%.1f", name, value_at(values, count, 50) * 1e6, name, value_at(values, count, 90) * 1e6, name,
           value_at(values, count, 99) * 1e6);
}

static double *made_values(void) {
    double *values = calloc((size_t)count, sizeof *values);
    if (!values)
        die("out of memory");
    return values;
}

static void run(void) {
    struct times times = {made_values(), made_values(), made_values()};
    long stand = 0;
    make_message();
    greet(&peers[0]);
    for (long at = 1; at <= idler_count; at++)
        stand = idle(&peers[at]);
    send_one(stand + 1, &times, 0);
    double processor_begun = processor_seconds(pid);
    for (long at = 0; at < count; at++)
        send_one(stand + 2 + at, &times, at);
    double processor_time = processor_seconds(pid) - processor_begun;
    printf("messages=%ld idlers=%ld cpu=%.2f", count, idler_count, processor_time / (double)count * 1e6);
    report("told", times.told);
    report("answered", times.answered);
    report("behind", times.behind);
    printf("\n");
}

static int is_possible(void) {
    return port > 0 && port < 65536 && idle_port > 0 && idle_port < 65536 && idler_count > 0 && idler_count <= MOST_IDLERS && count > 0 && size >= 32 &&
           pause_microseconds >= 0 && pause_microseconds < 1000000;
}

int main(int word_count, char **words) {
    long *targets[] = {&port, &idle_port, &idler_count, &count, &size, &pause_microseconds, &logs_in, &pid};
    static const struct option options[] = {
        {"port", 1, NULL, 0}, {"idle-port", 1, NULL, 1}, {"idlers", 1, NULL, 2}, {"count", 1, NULL, 3}, {"size", 1, NULL, 4},
        {"pause", 1, NULL, 5}, {"login", 1, NULL, 6},    {"pid", 1, NULL, 7},    {NULL, 0, NULL, 0},
    };
    int option;
    while ((option = getopt_long(word_count, words, "", options, NULL)) != -1) {
        if (option == '?')
            die("the words can't be read");
        *targets[option] = strtol(optarg, NULL, 10);
    }
    if (optind != word_count || !is_possible())
        die("the numbers can't be worked with");
    run();
    return 0;
}
