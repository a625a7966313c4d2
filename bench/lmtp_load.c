/*
 * Load on an LMTP server: connections that send whole messages, commands and data together, and keep so many of them under way.
 *
 *     lmtp_load --port P [--connections 1] [--recipients 1] [--size 1024] [--count 10000] [--users 1] [--window 1] [--pid PID]
 *
 * Each message has so many recipients, `u0@example.org` to `uN@example.org` by turns, over all connections; its data has `size` bytes. All
 * connections are greeted before the clock starts. The one line that is written, of words NAME=NUMBER, tells how many copies were answered
 * 250, how many otherwise, copies a second, microseconds of processor time that the process PID took for a copy (nan where no PID is given),
 * and how long a message was under way, in microseconds: the half of them, and all but one in a hundred, no longer.
 */
#define _GNU_SOURCE
#include "measuring.h"
#include <getopt.h>
#include <pthread.h>
#include <sys/uio.h>

enum { MOST_RECIPIENTS = 100, MOST_WINDOW = 64, ENVELOPE = 128 + 64 * MOST_RECIPIENTS };

/* What is asked for. */
struct plan {
    long port, connections, recipients, size, count, users, window, pid;
    /* The data of each message with its last line, a dot. */
    char *data;
    size_t data_length;
    pthread_barrier_t start;
};

/* One connection. */
struct peer {
    struct plan *plan;
    pthread_t thread;
    int stream;
    long number, messages, sent, done, stored, refused;
    /* Which reply of its message comes next. */
    long reply;
    /* When the messages under way began, and how long those took that are through. */
    double begun[MOST_WINDOW];
    double *took;
    /* One byte more for the end of a string. */
    char input[65536 + 1];
    size_t input_length;
};

/* Sends two pieces with as few calls as it takes. */
static void send_both(int stream, struct iovec *pieces) {
    size_t left = pieces[0].iov_len + pieces[1].iov_len;
    while (left > 0) {
        struct msghdr message = {.msg_iov = pieces, .msg_iovlen = 2};
        ssize_t sent = sendmsg(stream, &message, MSG_NOSIGNAL);
        if (sent < 0 && errno != EINTR)
            die("a connection was closed");
        size_t gone = sent < 0 ? 0 : (size_t)sent;
        left -= gone;
        size_t first = gone < pieces[0].iov_len ? gone : pieces[0].iov_len;
        pieces[0].iov_base = (char *)pieces[0].iov_base + first;
        pieces[0].iov_len -= first;
        pieces[1].iov_base = (char *)pieces[1].iov_base + (gone - first);
        pieces[1].iov_len -= gone - first;
    }
}

/* Sends the next message: its commands and its data. */
static void send_message(struct peer *peer) {
    struct plan *plan = peer->plan;
    char commands[ENVELOPE];
    int length = sprintf(commands, "MAIL FROM:<s@a.example>\r\n");
    long first = (peer->sent * plan->connections + peer->number) * plan->recipients;
    for (long more = 0; more < plan->recipients; more++)
        length += sprintf(commands + length, "RCPT TO:<u%ld@example.org>\r\n", (first + more) % plan->users);
    length += sprintf(commands + length, "DATA\r\n");
    struct iovec pieces[2] = {{commands, (size_t)length}, {plan->data, plan->data_length}};
    peer->begun[peer->sent % plan->window] = seconds_of(CLOCK_MONOTONIC);
    peer->sent++;
    send_both(peer->stream, pieces);
}

/* One reply to a message: to MAIL, each RCPT, DATA, then one for each copy. */
static void take_reply(struct peer *peer, const char *line) {
    struct plan *plan = peer->plan;
    long verdicts = plan->recipients + 2;
    if (peer->reply >= verdicts) {
        if (memcmp(line, "250", 3) == 0)
            peer->stored++;
        else
            peer->refused++;
    } else if (line[0] != (peer->reply == plan->recipients + 1 ? '3' : '2')) {
        fprintf(stderr, "lmtp_load: reply %ld is %.40s\n", peer->reply, line);
        exit(1);
    }
    peer->reply++;
    if (peer->reply == verdicts + plan->recipients) {
        peer->reply = 0;
        peer->took[peer->done] = seconds_of(CLOCK_MONOTONIC) - peer->begun[peer->done % plan->window];
        peer->done++;
    }
}

/* Reads what is there, behind what was read before. */
static void read_more(struct peer *peer) {
    peer->input_length += read_some(peer->stream, peer->input + peer->input_length, sizeof peer->input - 1 - peer->input_length);
}

/* Takes the whole lines of what was read. */
static void take_replies(struct peer *peer) {
    char *at = peer->input, *end = peer->input + peer->input_length, *line_end;
    while ((line_end = memchr(at, '\n', (size_t)(end - at))) != NULL) {
        take_reply(peer, at);
        at = line_end + 1;
    }
    peer->input_length = (size_t)(end - at);
    memmove(peer->input, at, peer->input_length);
}

/* Whether the replies to the greeting are all there; they are dropped. */
static int is_greeted(struct peer *peer) {
    peer->input[peer->input_length] = 0;
    if (!is_greeting(peer->input))
        return 0;
    peer->input_length = 0;
    return 1;
}

static void greet(struct peer *peer) {
    peer->stream = connected(peer->plan->port);
    send_all(peer->stream, "LHLO c.example\r\n", 16);
    while (!is_greeted(peer))
        read_more(peer);
}

/* Sends as many as may be under way. */
static void fill_window(struct peer *peer) {
    while (peer->sent < peer->messages && peer->sent - peer->done < peer->plan->window)
        send_message(peer);
}

static void *run_peer(void *its_peer) {
    struct peer *peer = its_peer;
    greet(peer);
    /* Once to say that it is greeted, and once to begin when the clocks were read. */
    pthread_barrier_wait(&peer->plan->start);
    pthread_barrier_wait(&peer->plan->start);
    while (peer->done < peer->messages) {
        fill_window(peer);
        read_more(peer);
        take_replies(peer);
    }
    close(peer->stream);
    return NULL;
}

static struct peer *start_peers(struct plan *plan) {
    struct peer *peers = calloc((size_t)plan->connections, sizeof *peers);
    double *took = calloc((size_t)plan->count, sizeof *took);
    if (!peers || !took)
        die("out of memory");
    for (long number = 0; number < plan->connections; number++) {
        struct peer *peer = &peers[number];
        peer->plan = plan;
        peer->number = number;
        peer->messages = plan->count * (number + 1) / plan->connections - plan->count * number / plan->connections;
        peer->took = took;
        took += peer->messages;
        if (pthread_create(&peer->thread, NULL, run_peer, peer) != 0)
            die("there is no thread");
    }
    return peers;
}

static void report(struct plan *plan, struct peer *peers, double seconds, double processor_time) {
    long stored = 0, refused = 0;
    for (long number = 0; number < plan->connections; number++) {
        stored += peers[number].stored;
        refused += peers[number].refused;
    }
    /* The peers' times lie behind one another. */
    double *took = peers[0].took;
    sort_values(took, plan->count);
    printf("copies=%ld refused=%ld rate=%.0f cpu=%.2f p50=%.1f p99=%.1f\n", stored, refused, (double)stored / seconds,
           processor_time / (double)stored * 1e6, value_at(took, plan->count, 50) * 1e6, value_at(took, plan->count, 99) * 1e6);
}

static void run(struct plan *plan) {
    plan->data = made_data((size_t)plan->size, &plan->data_length);
    pthread_barrier_init(&plan->start, NULL, (unsigned)plan->connections + 1);
    struct peer *peers = start_peers(plan);
    pthread_barrier_wait(&plan->start);
    double begun = seconds_of(CLOCK_MONOTONIC), processor_begun = processor_seconds(plan->pid);
    pthread_barrier_wait(&plan->start);
    for (long number = 0; number < plan->connections; number++)
        pthread_join(peers[number].thread, NULL);
    double seconds = seconds_of(CLOCK_MONOTONIC) - begun;
    report(plan, peers, seconds, processor_seconds(plan->pid) - processor_begun);
}

/* Whether each number is one that can be worked with. */
static int is_possible(const struct plan *plan) {
    return plan->port > 0 && plan->port < 65536 && plan->connections > 0 && plan->recipients > 0 && plan->recipients <= MOST_RECIPIENTS &&
           plan->size >= 32 && plan->count >= plan->connections && plan->users > 0 && plan->window > 0 && plan->window <= MOST_WINDOW;
}

int main(int count, char **words) {
    struct plan plan = {.connections = 1, .recipients = 1, .size = 1024, .count = 10000, .users = 1, .window = 1};
    long *targets[] = {&plan.port, &plan.connections, &plan.recipients, &plan.size, &plan.count, &plan.users, &plan.window, &plan.pid};
    static const struct option options[] = {
        {"port", 1, NULL, 0},  {"connections", 1, NULL, 1}, {"recipients", 1, NULL, 2}, {"size", 1, NULL, 3}, {"count", 1, NULL, 4},
        {"users", 1, NULL, 5}, {"window", 1, NULL, 6},      {"pid", 1, NULL, 7},        {NULL, 0, NULL, 0},
    };
    int option;
    while ((option = getopt_long(count, words, "", options, NULL)) != -1) {
        if (option == '?')
            die("the words can't be read");
        *targets[option] = strtol(optarg, NULL, 10);
    }
    if (optind != count || !is_possible(&plan))
        die("the numbers can't be worked with");
    run(&plan);
    return 0;
}
