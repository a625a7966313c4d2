/*
 * How long commands of one IMAP session take.
 *
 *     imap_times --port P [--pid PID] COMMAND..
 *
 * The commands are given without tags, and each is sent when the one before was answered OK; any other answer is an error. What is read is dropped, but for its
 * last line. For each command a line is written: the milliseconds from right before the call that sends it to right behind the read of its answer's end, the
 * bytes of the answer, how many MB (1,000,000 bytes) of it came in a second, the milliseconds of processor time that the process PID took for it (nan where no
 * PID is given), and the command.
 */
#define _GNU_SOURCE
#include "measuring.h"
#include <getopt.h>

/* So many bytes are read at once, and so many of the last ones are looked at for the answer's last line. */
enum { ROOM = 256 * 1024, KEPT = 4096 };

struct session {
    int stream;
    long pid, port;
    /* The last bytes that came, and behind them room for more. */
    char *input;
    size_t length;
    /* The bytes of the answer so far. */
    size_t answer;
    char tag[32];
};

/* Begins an answer: the bytes that come begin a line. */
static void begin_answer(struct session *session) {
    session->input[0] = '\n';
    session->length = 1;
    session->answer = 0;
}

/* Reads once, behind the last of the bytes that came before. */
static void read_more(struct session *session) {
    size_t kept = session->length < KEPT ? session->length : KEPT;
    memmove(session->input, session->input + session->length - kept, kept);
    size_t more = read_some(session->stream, session->input + kept, ROOM);
    session->length = kept + more;
    session->answer += more;
}

/* The last line of what came, where that ends a line; else nothing. */
static const char *last_line(const struct session *session) {
    if (!ends_with(session->input, session->length, "\r\n"))
        return NULL;
    const char *before = memrchr(session->input, '\n', session->length - 2);
    return before ? before + 1 : NULL;
}

/* Whether this line is the last one of the answer to the session's command. */
static int is_end(const struct session *session, const char *line) {
    size_t tag_length = strlen(session->tag);
    if (!line || strncmp(line, session->tag, tag_length) != 0)
        return 0;
    if (strncmp(line + tag_length, "OK ", 3) != 0) {
        fprintf(stderr, "imap_times: the answer is %.*s", (int)(session->input + session->length - line), line);
        exit(1);
    }
    return 1;
}

static void connect_session(struct session *session) {
    session->input = malloc(KEPT + ROOM);
    if (!session->input)
        die("out of memory");
    session->stream = connected(session->port);
    begin_answer(session);
    while (!last_line(session))
        read_more(session);
}

/* Sends a command, and reads until its answer is there. */
static void ask(struct session *session, const char *command) {
    char line[9000];
    int length = snprintf(line, sizeof line, "%s%s\r\n", session->tag, command);
    if (length >= (int)sizeof line)
        die("the command is too long");
    begin_answer(session);
    send_all(session->stream, line, (size_t)length);
    do
        read_more(session);
    while (!is_end(session, last_line(session)));
}

static void measure(struct session *session, const char *command, int number) {
    sprintf(session->tag, "measure%d ", number);
    double processor_begun = processor_seconds(session->pid), begun = seconds_of(CLOCK_MONOTONIC);
    ask(session, command);
    double seconds = seconds_of(CLOCK_MONOTONIC) - begun, processor_time = processor_seconds(session->pid) - processor_begun;
    printf("ms=%.3f bytes=%zu rate=%.1f cpu=%.3f %s\n", seconds * 1e3, session->answer, (double)session->answer / seconds / 1e6, processor_time * 1e3, command);
    fflush(stdout);
}

int main(int count, char **words) {
    struct session session = {0};
    long *targets[] = {&session.port, &session.pid};
    static const struct option options[] = {{"port", 1, NULL, 0}, {"pid", 1, NULL, 1}, {NULL, 0, NULL, 0}};
    int option;
    while ((option = getopt_long(count, words, "", options, NULL)) != -1) {
        if (option == '?')
            die("the words can't be read");
        *targets[option] = strtol(optarg, NULL, 10);
    }
    if (optind == count || session.port <= 0 || session.port > 65535)
        die("the port and a command are wanted");
    connect_session(&session);
    for (int at = optind; at < count; at++)
        measure(&session, words[at], at - optind + 1);
    return 0;
}
