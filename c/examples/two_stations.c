/* Two stations in one program and a line between them that loses, damages and adds bytes. Each sends
   `count` messages of `size` bytes; the other checks that they come once each, in order and whole.

     two_stations [count [size [one frame in N is damaged, 0 none [largest piece, 0 whole
                  [seed [window]]]]]]                                                           */
#include "ddcmp.h"

#include <stdio.h>
#include <stdlib.h>
#include <string.h>

enum { LONGEST = 16383, FRAME = LONGEST + 10 + 16 };

struct end {
    ddcmp_station station;
    size_t sent, came, acknowledged;
    uint8_t message[LONGEST], mail[LONGEST];
    uint8_t line[FRAME + 1]; /* what is on its way to it, and a byte more */
    size_t on_line;
    unsigned long frames, damaged, expiries;
};

static size_t count = 1000, size = 100, fault = 20, most_piece = 64, window = 16;
static uint64_t seed = 1;

static size_t chance(size_t most) { /* 0 to most - 1 */
    seed ^= seed << 13;
    seed ^= seed >> 7;
    seed ^= seed << 17;
    return (size_t)(seed >> 11) % most;
}

static void wrong(const char *what, const char *why) {
    fprintf(stderr, "two_stations: %s: %s\n", what, why);
    exit(1);
}

static void must(const char *what, uint32_t code, uint32_t wanted) {
    if (code != wanted)
        wrong(what, ddcmp_strerror(code));
}

/* The k-th message of an end. */
static void fill(uint8_t *message, size_t k, unsigned from) {
    size_t i;
    for (i = 0; i < size; i++)
        message[i] = (uint8_t)(k * 31 + i * 7 + from);
    for (i = 0; i < size && i < 4; i++)
        message[i] = (uint8_t)(k >> (8 * i));
}

/* Takes the mail of an end, and checks it. */
static void take_mail(struct end *end, unsigned from) {
    size_t length;
    for (;;) {
        must("take", ddcmp_take(&end->station, end->mail, size, &length), DDCMP_OK);
        if (length == 0)
            return;
        fill(end->message, end->came, from);
        if (length != size || memcmp(end->mail, end->message, size) != 0)
            wrong("take", "a message is not the one that was sent");
        end->came++;
    }
}

/* Sends what the window takes. */
static void offer(struct end *end, unsigned from) {
    uint8_t number;
    while (end->sent < count && ddcmp_room(&end->station)) {
        fill(end->message, end->sent, from);
        must("send", ddcmp_send(&end->station, end->message, size, &number), DDCMP_OK);
        end->sent++;
        if (number != (uint8_t)end->sent)
            wrong("send", "another number");
    }
}

/* Carries one frame from one end to the other: whether there was one. */
static bool carry(struct end *from, struct end *to) {
    size_t written, next = ddcmp_next_length(&from->station);
    must("poll", ddcmp_poll(&from->station, to->line, FRAME, &written), DDCMP_OK);
    if (written != next)
        wrong("poll", "another length than next_length returned");
    if (written == 0)
        return false;
    from->frames++;
    to->on_line = written;
    if (fault != 0 && chance(fault) == 0) {
        from->damaged++;
        switch (chance(4)) {
        case 0: /* lost whole */
            to->on_line = 0;
            break;
        case 1: /* cut short */
            to->on_line = chance(written);
            break;
        case 2: /* a bit turned */
            to->line[chance(written)] ^= (uint8_t)(1u << chance(8));
            break;
        default: /* a byte added */
            to->line[to->on_line++] = (uint8_t)chance(256);
        }
    }
    return true;
}

/* Feeds what came to an end, in pieces. */
static void feed(struct end *end, unsigned from) {
    size_t at = 0;
    while (at < end->on_line) {
        size_t left = end->on_line - at, piece = left, used;
        struct ddcmp_notice notice;
        if (most_piece != 0) {
            piece = 1 + chance(most_piece);
            if (piece > left)
                piece = left;
        }
        must("feed", ddcmp_feed(&end->station, end->line + at, piece, &used, &notice), DDCMP_OK);
        at += used;
        switch (notice.kind) {
        case DDCMP_HANDED_UP_AND_ACKNOWLEDGED:
        case DDCMP_ACKNOWLEDGED:
            end->acknowledged += notice.count;
            break;
        case DDCMP_PEER_RESTARTED:
        case DDCMP_RESTARTED:
        case DDCMP_MAINTENANCE_SEEN:
            wrong("notice", ddcmp_notice_name(notice.kind));
            break;
        default:
            break;
        }
        take_mail(end, from);
    }
    end->on_line = 0;
}

static struct end ends[2];

static void begin(struct end *end) {
    struct ddcmp_config config = DDCMP_DEFAULT_CONFIG, sizes;
    uint8_t dropped;
    size_t written;
    config.window = (uint16_t)window;
    config.inbox = 16;
    config.max = (uint16_t)size;
    config.syn = 4;
    must("start of no station", ddcmp_start(&end->station, &dropped), DDCMP_CLOSED);
    must("new", ddcmp_new(&config, &end->station), DDCMP_OK);
    must("new twice", ddcmp_new(&config, &end->station), DDCMP_OPEN);
    must("config", ddcmp_config(&end->station, &sizes), DDCMP_OK);
    if (sizes.window != window || sizes.inbox != 16 || sizes.max != size || sizes.syn != 4
        || sizes.restart != 0 || ddcmp_frame_room(&end->station) != size + 14)
        wrong("config", "other sizes");
    must("start", ddcmp_start(&end->station, &dropped), DDCMP_OK);
    must("start twice", ddcmp_start(&end->station, &dropped), DDCMP_NOT_HALTED);
    must("poll without room", ddcmp_poll(&end->station, end->line, size + 13, &written),
         DDCMP_ROOM);
}

static void finish(struct end *end, int name) {
    struct ddcmp_counters c;
    must("counters", ddcmp_counters(&end->station, &c), DDCMP_OK);
    if (c.messages_up != end->came || c.messages_sent != end->sent
        || end->acknowledged != end->sent)
        wrong("counters", "another number of messages");
    printf("end %d: %lu messages came in order, %lu frames sent, %lu damaged, %lu sent again, "
           "%lu expiries\n",
           name, (unsigned long)end->came, end->frames, end->damaged,
           (unsigned long)c.messages_again, end->expiries);
    ddcmp_free(&end->station);
    ddcmp_free(&end->station); /* nothing is freed twice */
    must("state of no station", ddcmp_state(&end->station), DDCMP_NO_STATE);
}

static bool is_done(const struct end *end) {
    return end->came == count && end->acknowledged == count;
}

int main(int argc, char **argv) {
    unsigned long turns = 0;
    int i;
    if (argc > 1) count = strtoul(argv[1], NULL, 10);
    if (argc > 2) size = strtoul(argv[2], NULL, 10);
    if (argc > 3) fault = strtoul(argv[3], NULL, 10);
    if (argc > 4) most_piece = strtoul(argv[4], NULL, 10);
    if (argc > 5) seed = strtoul(argv[5], NULL, 10) + 1;
    if (argc > 6) window = strtoul(argv[6], NULL, 10);
    if (size < 1 || size > LONGEST || window < 1 || window > 255)
        wrong("arguments", "a size is out of range");
    for (i = 0; i < 2; i++)
        begin(&ends[i]);
    while (!is_done(&ends[0]) || !is_done(&ends[1])) {
        bool was_busy = false;
        for (i = 0; i < 2; i++) {
            struct end *from = &ends[i], *to = &ends[1 - i];
            if (ddcmp_state(&from->station) == DDCMP_RUNNING)
                offer(from, (unsigned)i);
            if (carry(from, to))
                was_busy = true;
            feed(to, (unsigned)i);
        }
        if (!was_busy)
            for (i = 0; i < 2; i++)
                ends[i].expiries += ddcmp_expire(&ends[i].station) ? 1 : 0;
        if (++turns > 1000ul * (count + 1000))
            wrong("line", "no end");
    }
    for (i = 0; i < 2; i++)
        finish(&ends[i], i);
    return 0;
}
