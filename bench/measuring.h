/*
 * What the tools of this folder have in common: clocks, connections of the loopback address, the data of a message, and values in their order.
 */
#ifndef MEASURING_H
#define MEASURING_H

#include <arpa/inet.h>
#include <errno.h>
#include <netinet/tcp.h>
#include <stdio.h>
#include <stdlib.h>
#include <string.h>
#include <sys/socket.h>
#include <time.h>
#include <unistd.h>

_Noreturn static inline void die(const char *what) {
    fprintf(stderr, "%s: %s\n", program_invocation_short_name, what);
    exit(1);
}

static inline double seconds_of(clockid_t clock) {
    struct timespec now;
    if (clock_gettime(clock, &now) != 0)
        die("there is no such clock");
    return (double)now.tv_sec + (double)now.tv_nsec / 1e9;
}

/* The clock of a process's processor time: it counts nanoseconds, and has the time of threads that ended. */
static inline clockid_t clock_of(long pid) {
    clockid_t clock;
    if (clock_getcpuclockid((pid_t)pid, &clock) != 0)
        die("there is no such process");
    return clock;
}

/* The processor time of a process; no number where no process is asked for. */
static inline double processor_seconds(long pid) {
    return pid ? seconds_of(clock_of(pid)) : __builtin_nan("");
}

/* Has what is written sent at once, and not together with what is written next. */
static inline void send_at_once(int stream) {
    int at_once = 1;
    setsockopt(stream, IPPROTO_TCP, TCP_NODELAY, &at_once, sizeof at_once);
}

static inline struct sockaddr_in loopback(long port) {
    struct sockaddr_in address = {.sin_family = AF_INET, .sin_port = htons((uint16_t)port)};
    address.sin_addr.s_addr = htonl(INADDR_LOOPBACK);
    return address;
}

static inline int connected(long port) {
    struct sockaddr_in address = loopback(port);
    int stream = socket(AF_INET, SOCK_STREAM, 0);
    if (stream < 0 || connect(stream, (struct sockaddr *)&address, sizeof address) != 0)
        die("nobody listens there");
    send_at_once(stream);
    return stream;
}

/* Whether all of it could be sent. */
static inline int is_sent(int stream, const char *bytes, size_t length) {
    while (length > 0) {
        ssize_t sent = send(stream, bytes, length, MSG_NOSIGNAL);
        if (sent < 0 && errno != EINTR)
            return 0;
        size_t gone = sent < 0 ? 0 : (size_t)sent;
        bytes += gone;
        length -= gone;
    }
    return 1;
}

static inline void send_all(int stream, const char *bytes, size_t length) {
    if (!is_sent(stream, bytes, length))
        die("a connection was closed");
}

/* Reads what is there; a connection that was closed is an error. */
static inline size_t read_some(int stream, char *room, size_t length) {
    ssize_t count;
    do
        count = recv(stream, room, length, 0);
    while (count < 0 && errno == EINTR);
    if (count <= 0)
        die("a connection was closed");
    return (size_t)count;
}

/* Whether these bytes end with this text. */
static inline int ends_with(const char *bytes, size_t length, const char *text) {
    size_t wanted = strlen(text);
    return length >= wanted && memcmp(bytes + length - wanted, text, wanted) == 0;
}

/* Whether this is a whole reply to LHLO, behind the greeting: its last line has a space behind its code. What was read is ended by a 0. */
static inline int is_greeting(const char *text) {
    const char *last = strstr(text, "\r\n250 ");
    return last && strstr(last + 2, "\r\n");
}

enum { LINE = 78 };

/* The data of a message: lines up to this size in all, which is 32 at least, then the dot that ends them. */
static inline char *made_data(size_t size, size_t *length) {
    char *data = malloc(size + 8);
    if (!data)
        die("out of memory");
    memset(data, 'x', size);
    for (size_t end = 0; end + 2 <= size; end += LINE) {
        size_t break_at = end + 2 * LINE > size ? size : end + LINE;
        memcpy(data + break_at - 2, "\r\n", 2);
    }
    memcpy(data, "Subject: load\r\n\r\n", 17);
    memcpy(data + size, ".\r\n", 3);
    *length = size + 3;
    return data;
}

static inline int compare_values(const void *one, const void *other) {
    double a = *(const double *)one, b = *(const double *)other;
    return (a > b) - (a < b);
}

static inline void sort_values(double *values, long count) {
    qsort(values, (size_t)count, sizeof *values, compare_values);
}

/* The value below which so many of a hundred lie; the values are sorted. */
static inline double value_at(const double *sorted, long count, long hundredths) {
    return sorted[count * hundredths / 100];
}

#endif
