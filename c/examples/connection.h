/* What the examples over a connection share: the connection, and a station that speaks over it. */
#define _POSIX_C_SOURCE 200112L
#include "ddcmp.h"

#include <arpa/inet.h>
#include <errno.h>
#include <netinet/in.h>
#include <poll.h>
#include <signal.h>
#include <stdio.h>
#include <stdlib.h>
#include <string.h>
#include <sys/socket.h>
#include <time.h>
#include <unistd.h>

enum { TIMER_MS = 1000, LONGEST = 1500, FRAME = LONGEST + 10 };

static ddcmp_station station = DDCMP_NO_STATION;

static void give_up(const char *what, const char *why) {
    fprintf(stderr, "%s: %s\n", what, why);
    exit(1);
}

static void must(const char *what, uint32_t code) {
    if (code != DDCMP_OK)
        give_up(what, ddcmp_strerror(code));
}

static long now_ms(void) {
    struct timespec t;
    if (clock_gettime(CLOCK_MONOTONIC, &t) != 0)
        give_up("clock", strerror(errno));
    return (long)t.tv_sec * 1000 + t.tv_nsec / 1000000;
}

/* The connection, once there is one. */
static int connection(bool listens, unsigned short port) {
    struct sockaddr_in address;
    int line, one = 1, from = socket(AF_INET, SOCK_STREAM, 0);
    memset(&address, 0, sizeof address);
    address.sin_family = AF_INET;
    address.sin_port = htons(port);
    address.sin_addr.s_addr = htonl(INADDR_LOOPBACK);
    if (from < 0)
        give_up("socket", strerror(errno));
    if (!listens) {
        if (connect(from, (struct sockaddr *)&address, sizeof address) != 0)
            give_up("connect", strerror(errno));
        return from;
    }
    setsockopt(from, SOL_SOCKET, SO_REUSEADDR, &one, sizeof one);
    if (bind(from, (struct sockaddr *)&address, sizeof address) != 0 || listen(from, 1) != 0)
        give_up("listen", strerror(errno));
    line = accept(from, NULL, NULL);
    if (line < 0)
        give_up("accept", strerror(errno));
    close(from);
    return line;
}

/* Writes all frames that there are. The connection takes them whole, or waits. */
static void speak(int line) {
    static uint8_t frame[FRAME];
    size_t length, at;
    for (;;) {
        must("poll", ddcmp_poll(&station, frame, sizeof frame, &length));
        if (length == 0)
            return;
        for (at = 0; at < length;) {
            ssize_t n = write(line, frame + at, length - at);
            if (n < 0)
                give_up("write", strerror(errno));
            at += (size_t)n;
        }
    }
}

/* Sets the deadline of a timer that was started, and reports to the station where it expired. */
static long keep_time(long deadline) {
    if (ddcmp_take_arm(&station))
        deadline = now_ms() + TIMER_MS;
    if (ddcmp_timer_on(&station) && now_ms() >= deadline) {
        ddcmp_expire(&station);
        deadline = now_ms() + TIMER_MS;
    }
    return deadline;
}

/* The next bytes of the connection, at most `room`, or 0 if none came for 10 ms; before that the
   station says what it has to. */
static size_t next_bytes(int line, uint8_t *piece, size_t room, long *deadline) {
    struct pollfd comes;
    ssize_t n;
    speak(line);
    *deadline = keep_time(*deadline);
    comes.fd = line;
    comes.events = POLLIN;
    if (poll(&comes, 1, 10) <= 0)
        return 0;
    n = read(line, piece, room);
    if (n <= 0)
        give_up("read", n == 0 ? "the line ended" : strerror(errno));
    return (size_t)n;
}
