/* Two stations in one program and a line without faults: each sends `count` messages of 1500 bytes,
   of which it fills the first eight alone, and the other looks at these.

     throughput [count]                                                                        */
#include "ddcmp.h"

#include <stdio.h>
#include <stdlib.h>
#include <string.h>

enum { SIZE = 1500, ROOM = SIZE + 10, AT_ONCE = 7 };

struct end {
    ddcmp_station station;
    uint64_t sent, came;
};

static uint8_t message[SIZE], line[ROOM], mail[SIZE];

static void offer(struct end *end, uint64_t count) {
    uint8_t number;
    int i;
    for (i = 0; i < AT_ONCE && end->sent < count && ddcmp_room(&end->station); i++) {
        memcpy(message, &end->sent, sizeof end->sent);
        if (ddcmp_send(&end->station, message, SIZE, &number) != DDCMP_OK)
            return;
        end->sent++;
    }
}

/* One frame of one end arrives at the other. */
static void carry(struct end *from, struct end *to) {
    struct ddcmp_notice notice;
    size_t written, at, used;
    if (ddcmp_poll(&from->station, line, ROOM, &written) != DDCMP_OK)
        return;
    for (at = 0; at < written; at += used)
        if (ddcmp_feed(&to->station, line + at, written - at, &used, &notice) != DDCMP_OK)
            return;
}

static void take(struct end *end) {
    size_t length;
    int i;
    for (i = 0; i < AT_ONCE; i++)
        if (ddcmp_take(&end->station, mail, SIZE, &length) == DDCMP_OK && length == SIZE
            && memcmp(mail, &end->came, sizeof end->came) == 0)
            end->came++;
}

int main(int argc, char **argv) {
    static struct end ends[2];
    const struct ddcmp_config config = DDCMP_DEFAULT_CONFIG;
    uint64_t count = argc > 1 ? strtoull(argv[1], NULL, 10) : 200000, rounds;
    uint8_t dropped;
    int i;
    for (i = 0; i < 2; i++)
        if (ddcmp_new(&config, &ends[i].station) != DDCMP_OK
            || ddcmp_start(&ends[i].station, &dropped) != DDCMP_OK)
            return 1;
    for (rounds = 0; rounds < count; rounds++) {
        for (i = 0; i < 2; i++)
            offer(&ends[i], count);
        for (i = 0; i < AT_ONCE; i++) {
            carry(&ends[0], &ends[1]);
            carry(&ends[1], &ends[0]);
        }
        for (i = 0; i < 2; i++)
            take(&ends[i]);
        if (ends[0].came == count && ends[1].came == count)
            break;
    }
    printf("%lu %lu\n", (unsigned long)ends[0].came, (unsigned long)ends[1].came);
    for (i = 0; i < 2; i++)
        ddcmp_free(&ends[i].station);
    return 0;
}
