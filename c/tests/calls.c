/* Each call once: what good and bad input get, that a refusal changes nothing, that no call asks
   for memory after ddcmp_new and ddcmp_reader_new, and that refused memory leaves a handle as it
   was. It is linked with
   -Wl,--wrap=malloc,--wrap=realloc,--wrap=free. */
#include "ddcmp.h"

#include <stdio.h>
#include <stdlib.h>
#include <string.h>

/* ---- memory */

void *__real_malloc(size_t size);
void *__real_realloc(void *old, size_t size);
void __real_free(void *block);
void *__wrap_malloc(size_t size);
void *__wrap_realloc(void *old, size_t size);
void __wrap_free(void *block);

static unsigned long asked, freed, refused_at; /* refused_at: 0, or the request that is refused */

void *__wrap_malloc(size_t size) { return ++asked == refused_at ? NULL : __real_malloc(size); }

void *__wrap_realloc(void *old, size_t size) {
    return ++asked == refused_at ? NULL : __real_realloc(old, size);
}

void __wrap_free(void *block) {
    freed += block != NULL;
    __real_free(block);
}

/* ---- what is wanted */

static int failed;

static void is(bool holds, const char *what) {
    if (!holds) {
        fprintf(stderr, "calls: %s\n", what);
        failed = 1;
    }
}

#define IS(holds) is(holds, #holds)

enum { MAX = 64, ROOM = MAX + 10 };

static const struct ddcmp_config sizes = { 2, 2, MAX, 0, 0 };
static ddcmp_station a = DDCMP_NO_STATION, b = DDCMP_NO_STATION;
static ddcmp_reader reader = DDCMP_NO_READER;
static uint8_t out[ROOM], mail[MAX];

/* All that can be asked of a station. */
struct seen {
    struct ddcmp_config config;
    struct ddcmp_numbers numbers;
    struct ddcmp_counters counters;
    uint64_t offset;
    size_t open, held, next;
    uint32_t state;
    uint8_t outgoing, waiting;
    bool timer, room;
};

static struct seen seen_of(ddcmp_station *station) {
    struct seen t;
    memset(&t, 0, sizeof t);
    IS(ddcmp_config(station, &t.config) == DDCMP_OK);
    IS(ddcmp_numbers(station, &t.numbers) == DDCMP_OK);
    IS(ddcmp_counters(station, &t.counters) == DDCMP_OK);
    t.offset = ddcmp_offset(station);
    t.open = ddcmp_open(station);
    t.held = ddcmp_held(station);
    t.next = ddcmp_next_length(station);
    t.state = ddcmp_state(station);
    t.outgoing = ddcmp_outgoing(station);
    t.waiting = ddcmp_waiting(station);
    t.timer = ddcmp_timer_on(station);
    t.room = ddcmp_room(station);
    return t;
}

/* The next frame of one arrives at the other: the last notice's kind. */
static uint8_t pass(ddcmp_station *from, ddcmp_station *to) {
    size_t written, at = 0, used;
    struct ddcmp_notice notice = { 0, 0 };
    uint8_t kind = DDCMP_NO_NOTICE;
    IS(ddcmp_poll(from, out, sizeof out, &written) == DDCMP_OK);
    while (at < written) {
        IS(ddcmp_feed(to, out + at, written - at, &used, &notice) == DDCMP_OK);
        if (notice.kind != DDCMP_NO_NOTICE)
            kind = notice.kind;
        at += used;
    }
    return kind;
}

static void without_a_station(void) {
    ddcmp_station none = DDCMP_NO_STATION;
    struct ddcmp_config config = { 1, 2, 3, 4, 5 };
    struct ddcmp_notice notice = { 9, 9 };
    struct ddcmp_numbers numbers = { 1, 2, 3, 4 };
    struct ddcmp_counters counters;
    uint8_t byte = 7;
    size_t n = 7;
    memset(&counters, 1, sizeof counters);
    ddcmp_free(&none);
    IS(ddcmp_start(&none, &byte) == DDCMP_CLOSED && byte == 7);
    IS(ddcmp_enter_maintenance(&none, &byte) == DDCMP_CLOSED && byte == 7);
    IS(ddcmp_acknowledge_on_take(&none, true) == DDCMP_CLOSED);
    IS(ddcmp_halt(&none) == DDCMP_CLOSED);
    IS(!ddcmp_clear_line(&none));
    IS(ddcmp_state(&none) == DDCMP_NO_STATE);
    IS(ddcmp_send(&none, mail, 1, &byte) == DDCMP_CLOSED && byte == 7);
    IS(ddcmp_send_maintenance(&none, mail, 1) == DDCMP_CLOSED);
    IS(ddcmp_send_refusal(&none, mail, 1) == DDCMP_CLOSED);
    IS(!ddcmp_room(&none) && ddcmp_outgoing(&none) == 0 && ddcmp_waiting(&none) == 0);
    IS(ddcmp_take(&none, mail, sizeof mail, &n) == DDCMP_CLOSED && n == 0);
    IS(ddcmp_waiting_length(&none, 0) == 0);
    IS(ddcmp_waiting_at(&none, 0, mail, sizeof mail, &n) == DDCMP_CLOSED && n == 0);
    IS(ddcmp_feed(&none, mail, 1, &n, &notice) == DDCMP_CLOSED && n == 0 && notice.kind == 0);
    IS(ddcmp_poll(&none, out, sizeof out, &n) == DDCMP_CLOSED && n == 0);
    IS(ddcmp_frame_room(&none) == 0 && ddcmp_next_length(&none) == 0);
    IS(ddcmp_offset(&none) == 0 && ddcmp_open(&none) == 0 && ddcmp_held(&none) == 0);
    IS(!ddcmp_take_arm(&none) && !ddcmp_timer_on(&none) && !ddcmp_expire(&none));
    IS(ddcmp_config(&none, &config) == DDCMP_CLOSED && config.window == 1 && config.syn == 4);
    IS(ddcmp_numbers(&none, &numbers) == DDCMP_CLOSED && numbers.a == 3);
    IS(ddcmp_counters(&none, &counters) == DDCMP_CLOSED && counters.formats == 0x01010101);
    IS(none.at == NULL);
}

static void sizes_out_of_range(void) {
    static const struct ddcmp_config wrong[] = {
        { 0, 2, 64, 0, 0 }, { 256, 0, 0, 17, 0 }, { 2, 0, 0, 17, 0 }, { 2, 256, 64, 0, 0 },
        { 2, 2, 0, 17, 0 }, { 2, 2, 16384, 0, 0 }, { 2, 2, 64, 17, 0 }
    };
    static const uint32_t codes[] = { DDCMP_WINDOW, DDCMP_WINDOW, DDCMP_INBOX, DDCMP_INBOX,
                                      DDCMP_MAX, DDCMP_MAX, DDCMP_SYN };
    size_t i;
    for (i = 0; i < sizeof codes / sizeof codes[0]; i++)
        IS(ddcmp_new(&wrong[i], &a) == codes[i] && a.at == NULL);
}

/* The n-th request is refused, for each n until all are met. */
static void refused_memory(void) {
    uint32_t code = DDCMP_MEMORY;
    unsigned long n;
    for (n = 1; code == DDCMP_MEMORY; n++) {
        unsigned long before = asked, freed_before = freed;
        refused_at = asked + n;
        code = ddcmp_new(&sizes, &a);
        refused_at = 0;
        if (code == DDCMP_MEMORY) {
            IS(a.at == NULL);
            IS(asked - before == n && freed - freed_before == n - 1);
        }
    }
    IS(code == DDCMP_OK && n > 3);
    IS(ddcmp_new(&sizes, &a) == DDCMP_OPEN);
    IS(ddcmp_new(&sizes, &b) == DDCMP_OK);
}

static void startup(void) {
    uint8_t dropped = 7;
    struct ddcmp_config got;
    struct seen before, after;
    IS(ddcmp_config(&a, &got) == DDCMP_OK && memcmp(&got, &sizes, sizeof got) == 0);
    IS(ddcmp_frame_room(&a) == ROOM && ddcmp_state(&a) == DDCMP_HALTED);
    IS(ddcmp_start(&a, &dropped) == DDCMP_OK && dropped == 0);
    before = seen_of(&a);
    dropped = 7;
    IS(ddcmp_start(&a, &dropped) == DDCMP_NOT_HALTED && dropped == 7);
    IS(ddcmp_enter_maintenance(&a, &dropped) == DDCMP_NOT_HALTED && dropped == 7);
    IS(ddcmp_acknowledge_on_take(&a, true) == DDCMP_NOT_HALTED);
    IS(!ddcmp_clear_line(&a));
    IS(ddcmp_send(&a, mail, 1, &dropped) == DDCMP_WRONG_STATE && dropped == 7);
    IS(ddcmp_send_maintenance(&a, mail, 1) == DDCMP_WRONG_STATE);
    after = seen_of(&a);
    IS(memcmp(&before, &after, sizeof before) == 0);
    IS(ddcmp_start(&b, &dropped) == DDCMP_OK);
    IS(ddcmp_next_length(&a) == 8);
    pass(&a, &b);                               /* STRT */
    IS(ddcmp_take_arm(&a) && !ddcmp_take_arm(&a) && ddcmp_timer_on(&a));
    pass(&b, &a);                               /* STACK */
    IS(pass(&a, &b) == DDCMP_IS_RUNNING);       /* ACK */
    pass(&b, &a);
    IS(ddcmp_state(&a) == DDCMP_RUNNING && ddcmp_state(&b) == DDCMP_RUNNING);
    while (ddcmp_next_length(&a) + ddcmp_next_length(&b) > 0) {
        pass(&a, &b);
        pass(&b, &a);
    }
}

static void messages(void) {
    static uint8_t longer[MAX + 1];
    struct seen before, after;
    uint8_t number = 0;
    size_t n = 0;
    before = seen_of(&a);
    IS(ddcmp_send(&a, longer, 0, &number) == DDCMP_EMPTY);
    IS(ddcmp_send(&a, longer, MAX + 1, &number) == DDCMP_TOO_LONG && number == 0);
    IS(ddcmp_send_refusal(&a, longer, MAX + 1) == DDCMP_TOO_LONG);
    IS(ddcmp_send_refusal(&a, longer, 0) == DDCMP_EMPTY);
    IS(ddcmp_send_refusal(&a, longer, MAX) == DDCMP_OK);
    after = seen_of(&a);
    IS(memcmp(&before, &after, sizeof before) == 0);
    IS(ddcmp_send(&a, (const uint8_t *)"abc", 3, &number) == DDCMP_OK && number == 1);
    IS(ddcmp_send(&a, (const uint8_t *)"defg", 4, &number) == DDCMP_OK && number == 2);
    IS(!ddcmp_room(&a) && ddcmp_outgoing(&a) == 2 && ddcmp_held(&a) == 7);
    before = seen_of(&a);
    IS(ddcmp_send(&a, longer, 1, &number) == DDCMP_WINDOW_FULL && number == 2);
    IS(ddcmp_send_refusal(&a, longer, 1) == DDCMP_WINDOW_FULL);
    IS(ddcmp_poll(&a, out, ROOM - 1, &n) == DDCMP_ROOM && n == 0);
    after = seen_of(&a);
    IS(memcmp(&before, &after, sizeof before) == 0);
    IS(ddcmp_next_length(&a) == 13);
    IS(pass(&a, &b) == DDCMP_HANDED_UP && pass(&a, &b) == DDCMP_HANDED_UP);
    IS(ddcmp_waiting(&b) == 2 && ddcmp_waiting_length(&b, 1) == 4);
    IS(ddcmp_waiting_length(&b, 2) == 0);
    before = seen_of(&b);
    IS(ddcmp_waiting_at(&b, 2, mail, sizeof mail, &n) == DDCMP_ABSENT && n == 0);
    IS(ddcmp_waiting_at(&b, 1, mail, sizeof mail - 1, &n) == DDCMP_ROOM && n == 0);
    IS(ddcmp_take(&b, mail, sizeof mail - 1, &n) == DDCMP_ROOM && n == 0);
    IS(ddcmp_waiting_at(&b, 1, mail, sizeof mail, &n) == DDCMP_OK && n == 4);
    IS(memcmp(mail, "defg", 4) == 0);
    after = seen_of(&b);
    IS(memcmp(&before, &after, sizeof before) == 0);
    IS(ddcmp_take(&b, mail, sizeof mail, &n) == DDCMP_OK && n == 3 && memcmp(mail, "abc", 3) == 0);
    IS(ddcmp_take(&b, mail, sizeof mail, &n) == DDCMP_OK && n == 4);
    IS(ddcmp_take(&b, mail, sizeof mail, &n) == DDCMP_OK && n == 0);
    IS(pass(&b, &a) == DDCMP_ACKNOWLEDGED && ddcmp_outgoing(&a) == 0);
}

/* A million frames of messages and their acknowledgements. */
static void long_run(void) {
    static uint8_t message[MAX];
    uint8_t number;
    size_t n;
    long i;
    for (i = 0; i < 500000; i++) {
        message[0] = (uint8_t)i;
        if (ddcmp_send(&a, message, 1 + (size_t)(i % MAX), &number) != DDCMP_OK)
            break;
        if (pass(&a, &b) != DDCMP_HANDED_UP)
            break;
        if (ddcmp_take(&b, mail, sizeof mail, &n) != DDCMP_OK || mail[0] != (uint8_t)i)
            break;
        if (pass(&b, &a) != DDCMP_ACKNOWLEDGED)
            break;
    }
    IS(i == 500000);
}

static void ends(void) {
    uint8_t dropped = 7, number;
    struct ddcmp_numbers numbers;
    size_t n;
    IS(ddcmp_send(&a, (const uint8_t *)"x", 1, &number) == DDCMP_OK);
    IS(ddcmp_poll(&a, out, sizeof out, &n) == DDCMP_OK && n == 11);
    IS(ddcmp_expire(&a) && ddcmp_numbers(&a, &numbers) == DDCMP_OK && numbers.n == number);
    IS(ddcmp_halt(&a) == DDCMP_OK && ddcmp_clear_line(&a) && ddcmp_offset(&a) == 0);
    IS(ddcmp_enter_maintenance(&a, &dropped) == DDCMP_OK && dropped == 1);
    IS(ddcmp_send_maintenance(&a, (const uint8_t *)"m", 1) == DDCMP_OK);
    IS(pass(&a, &b) == DDCMP_MAINTENANCE_SEEN);
    IS(ddcmp_check((const uint8_t *)"123456789", 9) == 0xBB3D);
}

/* A halted station whose inbox isn't empty isn't started. */
static void untaken(void) {
    uint8_t dropped, number;
    struct seen before, after;
    IS(ddcmp_halt(&a) == DDCMP_OK && ddcmp_halt(&b) == DDCMP_OK);
    IS(ddcmp_clear_line(&a) && ddcmp_clear_line(&b));
    IS(ddcmp_start(&a, &dropped) == DDCMP_OK && dropped == 0);
    IS(ddcmp_start(&b, &dropped) == DDCMP_OK);
    while (ddcmp_next_length(&a) + ddcmp_next_length(&b) > 0) {
        pass(&a, &b);
        pass(&b, &a);
    }
    IS(ddcmp_send(&a, (const uint8_t *)"x", 1, &number) == DDCMP_OK);
    IS(pass(&a, &b) == DDCMP_HANDED_UP && ddcmp_halt(&b) == DDCMP_OK);
    before = seen_of(&b);
    dropped = 7;
    IS(ddcmp_start(&b, &dropped) == DDCMP_UNTAKEN && dropped == 7);
    IS(ddcmp_enter_maintenance(&b, &dropped) == DDCMP_UNTAKEN && dropped == 7);
    IS(ddcmp_acknowledge_on_take(&b, true) == DDCMP_UNTAKEN);
    after = seen_of(&b);
    IS(memcmp(&before, &after, sizeof before) == 0 && after.waiting == 1);
}

/* If messages are acknowledged when they are taken, no frame acknowledges one before; and a start
   leaves it so. */
static void acknowledged_on_take(void) {
    uint8_t dropped, number;
    size_t n;
    IS(ddcmp_take(&b, mail, sizeof mail, &n) == DDCMP_OK && n == 1);
    IS(ddcmp_halt(&a) == DDCMP_OK && ddcmp_clear_line(&a) && ddcmp_clear_line(&b));
    IS(ddcmp_acknowledge_on_take(&b, true) == DDCMP_OK);
    IS(ddcmp_start(&a, &dropped) == DDCMP_OK && ddcmp_start(&b, &dropped) == DDCMP_OK);
    while (ddcmp_next_length(&a) + ddcmp_next_length(&b) > 0) {
        pass(&a, &b);
        pass(&b, &a);
    }
    IS(ddcmp_send(&a, (const uint8_t *)"x", 1, &number) == DDCMP_OK);
    IS(ddcmp_send(&a, (const uint8_t *)"yz", 2, &number) == DDCMP_OK);
    IS(pass(&a, &b) == DDCMP_HANDED_UP && pass(&a, &b) == DDCMP_HANDED_UP);
    IS(pass(&b, &a) == DDCMP_NO_NOTICE);        /* ACK */
    IS(ddcmp_send(&b, (const uint8_t *)"w", 1, &number) == DDCMP_OK);
    IS(pass(&b, &a) == DDCMP_HANDED_UP);        /* data */
    pass(&a, &b);
    IS(ddcmp_expire(&a) && pass(&a, &b) == DDCMP_NO_NOTICE);
    IS(pass(&b, &a) == DDCMP_NO_NOTICE && ddcmp_outgoing(&a) == 2);
    IS(ddcmp_waiting_at(&b, 0, mail, sizeof mail, &n) == DDCMP_OK && n == 1 && mail[0] == 'x');
    IS(ddcmp_next_length(&b) == 0);
    IS(ddcmp_take(&b, mail, sizeof mail, &n) == DDCMP_OK && n == 1);
    IS(pass(&b, &a) == DDCMP_ACKNOWLEDGED && ddcmp_outgoing(&a) == 1);
    IS(ddcmp_take(&b, mail, sizeof mail, &n) == DDCMP_OK && n == 2);
    IS(pass(&b, &a) == DDCMP_ACKNOWLEDGED && ddcmp_outgoing(&a) == 0);
    IS(ddcmp_take(&a, mail, sizeof mail, &n) == DDCMP_OK && n == 1);
    IS(ddcmp_halt(&b) == DDCMP_OK && ddcmp_acknowledge_on_take(&b, false) == DDCMP_OK);
}

/* What maintenance messages are refused. */
static void maintenance(void) {
    static const uint8_t longer[MAX + 1];
    uint8_t dropped;
    struct seen before, after;
    IS(ddcmp_halt(&a) == DDCMP_OK && ddcmp_enter_maintenance(&a, &dropped) == DDCMP_OK);
    IS(ddcmp_state(&a) == DDCMP_MAINTENANCE);
    before = seen_of(&a);
    IS(ddcmp_send_maintenance(&a, longer, 0) == DDCMP_EMPTY);
    IS(ddcmp_send_maintenance(&a, longer, MAX + 1) == DDCMP_TOO_LONG);
    IS(ddcmp_send_refusal(&a, longer, 1) == DDCMP_WRONG_STATE);
    after = seen_of(&a);
    IS(memcmp(&before, &after, sizeof before) == 0);
    IS(ddcmp_send_maintenance(&a, longer, MAX) == DDCMP_OK);
    IS(ddcmp_send_maintenance(&a, longer, 1) == DDCMP_OK);
    before = seen_of(&a);
    IS(ddcmp_send_maintenance(&a, longer, 1) == DDCMP_WINDOW_FULL);
    after = seen_of(&a);
    IS(memcmp(&before, &after, sizeof before) == 0 && after.outgoing == 2);
}

/* ---- a reader alone */

static void without_a_reader(void) {
    ddcmp_reader none = DDCMP_NO_READER;
    struct ddcmp_item item;
    size_t used = 7, written = 7;
    memset(&item, 7, sizeof item);
    memset(mail, 7, sizeof mail);
    ddcmp_reader_free(&none);
    IS(ddcmp_reader_push(&none, out, 1, &used, &item, mail, sizeof mail, &written) == DDCMP_CLOSED);
    IS(used == 0 && item.kind == DDCMP_NO_ITEM && written == 0 && mail[0] == 7);
    IS(ddcmp_reader_open(&none) == 0 && ddcmp_reader_reset(&none) == DDCMP_CLOSED);
    IS(ddcmp_reader_new(0, &none) == DDCMP_MAX && ddcmp_reader_new(16384, &none) == DDCMP_MAX);
    IS(none.at == NULL);
}

static void refused_reader(void) {
    uint32_t code = DDCMP_MEMORY;
    unsigned long n;
    for (n = 1; code == DDCMP_MEMORY; n++) {
        unsigned long before = asked, freed_before = freed;
        refused_at = asked + n;
        code = ddcmp_reader_new(MAX, &reader);
        refused_at = 0;
        if (code == DDCMP_MEMORY) {
            IS(reader.at == NULL);
            IS(asked - before == n && freed - freed_before == n - 1);
        }
    }
    IS(code == DDCMP_OK && n == 4);
    IS(ddcmp_reader_new(MAX, &reader) == DDCMP_OPEN);
}

/* Pushes a line's bytes, and wants this of the first item: its kind, and where it ends. */
static struct ddcmp_item first_of(const uint8_t *line, size_t length, uint8_t kind, size_t ends) {
    struct ddcmp_item item;
    size_t used, written;
    IS(ddcmp_reader_push(&reader, line, length, &used, &item, mail, sizeof mail, &written)
       == DDCMP_OK);
    IS(item.kind == kind && used == ends);
    IS(written == (kind == DDCMP_ITEM_GOOD ? item.header.count : 0));
    return item;
}

static const struct ddcmp_header data_header = { 3, DDCMP_HEADER_DATA, 0, 1, 0, 4, 5, 1 };

static void frames_written(void) {
    static const uint8_t ack[8] = { 0x05, 0x01, 0xC0, 0x02, 0x00, 0x01, 0, 0 };
    struct ddcmp_header h = { 0, DDCMP_HEADER_ACK, 0, 1, 1, 2, 0, 1 };
    const uint8_t *text = (const uint8_t *)"abc";
    uint16_t check = ddcmp_check(ack, 6);
    size_t n = 7;
    memset(out, 7, sizeof out);
    IS(ddcmp_write_frame(&h, text, 0, out, 7, &n) == DDCMP_ROOM && n == 0 && out[0] == 7);
    IS(ddcmp_write_frame(&h, text, 1, out, sizeof out, &n) == DDCMP_BAD_COUNT && n == 0);
    IS(ddcmp_write_frame(&h, text, 0, out, 8, &n) == DDCMP_OK && n == 8 && out[8] == 7);
    IS(memcmp(out, ack, 6) == 0 && out[6] == check % 256 && out[7] == check / 256);
    h.sub = 64;
    IS(ddcmp_write_frame(&h, text, 0, out, sizeof out, &n) == DDCMP_BAD_HEADER && n == 0);
    h = data_header;
    IS(ddcmp_write_frame(&h, text, 2, out, sizeof out, &n) == DDCMP_BAD_COUNT && n == 0);
    IS(ddcmp_write_frame(&h, text, 3, out, 12, &n) == DDCMP_ROOM && n == 0);
    h.count = 0;
    IS(ddcmp_write_frame(&h, text, 0, out, sizeof out, &n) == DDCMP_BAD_HEADER);
    h.count = 16384;
    IS(ddcmp_write_frame(&h, text, 3, out, sizeof out, &n) == DDCMP_BAD_HEADER);
    h.kind = DDCMP_NO_HEADER;
    IS(ddcmp_write_frame(&h, text, 3, out, sizeof out, &n) == DDCMP_BAD_HEADER);
    h.kind = DDCMP_HEADER_STACK + 1;
    IS(ddcmp_write_frame(&h, text, 3, out, sizeof out, &n) == DDCMP_BAD_HEADER && out[6] != 7);
}

/* The header of a frame with more data than the reader takes. */
static struct ddcmp_item data_item_too_long(uint8_t *line) {
    struct ddcmp_header h = data_header;
    static uint8_t frame[MAX + 11], text[MAX + 1];
    size_t n;
    h.count = MAX + 1;
    IS(ddcmp_write_frame(&h, text, sizeof text, frame, sizeof frame, &n) == DDCMP_OK);
    IS(n == sizeof frame);
    memcpy(line, frame, 8);
    return first_of(line, 8, DDCMP_ITEM_TOO_LONG, 8);
}

static void items_read(void) {
    static uint8_t line[64];
    const uint8_t *text = (const uint8_t *)"abc";
    struct ddcmp_item item;
    size_t n, used, written, i;
    line[0] = 0x96;
    IS(ddcmp_write_frame(&data_header, text, 3, line + 1, 13, &n) == DDCMP_OK && n == 13);
    memset(mail, 7, sizeof mail);
    IS(ddcmp_reader_push(&reader, line, 14, &used, &item, mail, sizeof mail - 1, &written)
       == DDCMP_ROOM && used == 0 && written == 0 && ddcmp_reader_open(&reader) == 0);
    first_of(line, 5, DDCMP_NO_ITEM, 5);
    IS(ddcmp_reader_open(&reader) == 4);
    item = first_of(line + 5, sizeof line - 5, DDCMP_ITEM_GOOD, 9);
    IS(item.offset == 1 && memcmp(&item.header, &data_header, sizeof data_header - 1) == 0);
    IS(item.fault == DDCMP_NO_FAULT && memcmp(mail, "abc\7", 4) == 0);
    line[10] ^= 1;
    item = first_of(line + 1, 13, DDCMP_ITEM_DATA_CHECK, 13);
    IS(item.offset == 14 && item.header.num == 5 && memcmp(mail, "abc\7", 4) == 0);
    line[2] ^= 1;
    IS(first_of(line + 1, 13, DDCMP_ITEM_HEADER_CHECK, 8).offset == 27);
    first_of(line + 9, 5, DDCMP_NO_ITEM, 5);
    IS(ddcmp_reader_reset(&reader) == DDCMP_OK && ddcmp_reader_open(&reader) == 0);
    for (i = 1; i < 3; i++) { /* a header of no TYPE, and one of COUNT 0 */
        uint16_t check;
        memset(line, 0, 8);
        line[0] = i == 1 ? 0x05 : 0x81;
        line[1] = i == 1 ? 9 : 0;
        check = ddcmp_check(line, 6);
        line[6] = (uint8_t)(check % 256);
        line[7] = (uint8_t)(check / 256);
        item = first_of(line, sizeof line, DDCMP_ITEM_FORMAT, 8);
        IS(item.offset == 8 * (i - 1) && item.fault == i && item.bad_type == (i == 1 ? 9 : 0));
        IS(item.header.kind == DDCMP_NO_HEADER);
    }
    item = data_item_too_long(line);
    IS(item.offset == 16 && item.header.count == MAX + 1);
}

/* The names of states, notices and headers are compared by c/header_test. */
static void texts(void) {
    static const struct { uint32_t code; const char *text; } errors[] = {
        { DDCMP_OK, "no error" },
        { DDCMP_WINDOW, "the window isn't 1 to 255" },
        { DDCMP_INBOX, "the inbox isn't 1 to 255" },
        { DDCMP_MAX, "the largest message isn't 1 to 16383" },
        { DDCMP_SYN, "the SYN fill is above 16" },
        { DDCMP_MEMORY, "out of memory" },
        { DDCMP_CLOSED, "the handle has no station or reader" },
        { DDCMP_OPEN, "the handle has a station or reader already" },
        { DDCMP_NOT_HALTED, "the station isn't halted" },
        { DDCMP_UNTAKEN, "the inbox isn't empty" },
        { DDCMP_WRONG_STATE, "the station doesn't run" },
        { DDCMP_EMPTY, "the message is empty" },
        { DDCMP_TOO_LONG, "the message is too long" },
        { DDCMP_WINDOW_FULL, "the window is full" },
        { DDCMP_ROOM, "the room is too short" },
        { DDCMP_LONG_LINE, "the line has 2^64 bytes" },
        { DDCMP_ABSENT, "there is no such message" },
        { DDCMP_NULL, "a pointer is null" },
        { DDCMP_BAD_HEADER, "a number of the header is out of range" },
        { DDCMP_BAD_COUNT, "the data aren't as many as the header says" },
        { 20, "no code of DDCMP" }
    };
    char version[16];
    size_t i;
    for (i = 0; i < sizeof errors / sizeof errors[0]; i++) {
        IS(errors[i].code == i);
        is(strcmp(ddcmp_strerror(errors[i].code), errors[i].text) == 0, errors[i].text);
    }
    IS(ddcmp_version() == DDCMP_VERSION_NUMBER);
    sprintf(version, "%d.%d.%d", DDCMP_VERSION_NUMBER / 10000, DDCMP_VERSION_NUMBER / 100 % 100,
            DDCMP_VERSION_NUMBER % 100);
    IS(strcmp(version, DDCMP_VERSION) == 0);
}

int main(void) {
    unsigned long before;
    without_a_station();
    sizes_out_of_range();
    without_a_reader();
    IS(asked == 0);
    refused_memory();
    refused_reader();
    before = asked;
    startup();
    messages();
    long_run();
    ends();
    untaken();
    acknowledged_on_take();
    maintenance();
    frames_written();
    items_read();
    texts();
    IS(asked == before);
    ddcmp_free(&a);
    ddcmp_free(&a);
    ddcmp_free(&b);
    ddcmp_reader_free(&reader);
    ddcmp_reader_free(&reader);
    IS(a.at == NULL && b.at == NULL && reader.at == NULL);
    IS(asked == before);
    return failed;
}
