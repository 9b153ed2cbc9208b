/* Slices of no bytes, which may be null in the calls that test for it. c/header_test passes each pointer of
   each call null once. */
#define DDCMP_CHECKED
#include "ddcmp.h"

#include <stdio.h>

static int failed;

static void is(bool holds, const char *what) {
    if (!holds) {
        fprintf(stderr, "checked: %s\n", what);
        failed = 1;
    }
}

#define IS(holds) is(holds, #holds)

int main(void) {
    ddcmp_station station = DDCMP_NO_STATION;
    ddcmp_reader reader = DDCMP_NO_READER;
    struct ddcmp_header header = { 0, DDCMP_HEADER_ACK, 0, 0, 0, 0, 0, 1 };
    struct ddcmp_item item;
    uint8_t out[8];
    struct ddcmp_config config = DDCMP_DEFAULT_CONFIG;
    struct ddcmp_notice notice;
    size_t used = 7, written = 7;
    uint8_t number;
    IS(ddcmp_new(&config, &station) == DDCMP_OK);
    IS(ddcmp_start(&station, NULL) == DDCMP_NULL && ddcmp_state(&station) == DDCMP_HALTED);
    IS(ddcmp_start(&station, &number) == DDCMP_OK);
    IS(ddcmp_feed(&station, NULL, 0, &used, &notice) == DDCMP_OK && used == 0);
    IS(ddcmp_send(&station, NULL, 0, &number) == DDCMP_WRONG_STATE);
    IS(ddcmp_poll(&station, NULL, 0, &used) == DDCMP_ROOM);
    IS(ddcmp_check(NULL, 0) == 0);
    ddcmp_free(&station);
    IS(ddcmp_reader_new(8, &reader) == DDCMP_OK);
    IS(ddcmp_reader_push(&reader, NULL, 0, &used, &item, out, 8, &written) == DDCMP_OK);
    IS(ddcmp_reader_push(&reader, NULL, 0, &used, &item, NULL, 0, &written) == DDCMP_ROOM);
    IS(ddcmp_write_frame(&header, NULL, 0, out, 8, &written) == DDCMP_OK && written == 8);
    ddcmp_reader_free(&reader);
    return failed;
}
