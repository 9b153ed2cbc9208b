/* What the bytes of a line say, item by item, as `ddcmp explain --raw` writes it: an offset, what
   begins there and its fields, with the data of a good frame in hexadecimal digits.

     explain [the most data of a frame] < BYTES                                                  */
#include "ddcmp.h"

#include <stdio.h>
#include <stdlib.h>

enum { MOST = 16383 };

static void must(const char *what, uint32_t code) {
    if (code != DDCMP_OK) {
        fprintf(stderr, "explain: %s: %s\n", what, ddcmp_strerror(code));
        exit(1);
    }
}

static void print_header(const struct ddcmp_header *h) {
    bool has_count = h->kind == DDCMP_HEADER_DATA || h->kind == DDCMP_HEADER_MAINT;
    printf("%s %s=%u q=%u s=%u resp=%u num=%u addr=%u", ddcmp_header_name(h->kind),
           has_count ? "count" : "sub", (unsigned)(has_count ? h->count : h->sub), (unsigned)h->q,
           (unsigned)h->s, (unsigned)h->resp, (unsigned)h->num, (unsigned)h->addr);
}

static void print_item(const struct ddcmp_item *item, const uint8_t *message, size_t length) {
    size_t i;
    printf("%llu ", (unsigned long long)item->offset);
    switch (item->kind) {
    case DDCMP_ITEM_GOOD:
        print_header(&item->header);
        for (i = 0; i < length; i++)
            printf(i == 0 ? " %02x" : "%02x", (unsigned)message[i]);
        break;
    case DDCMP_ITEM_HEADER_CHECK:
        printf("header check");
        break;
    case DDCMP_ITEM_DATA_CHECK:
        printf("data check ");
        print_header(&item->header);
        break;
    case DDCMP_ITEM_TOO_LONG:
        printf("too long ");
        print_header(&item->header);
        break;
    default:
        if (item->fault == DDCMP_FAULT_BAD_TYPE)
            printf("format type=%u", (unsigned)item->bad_type);
        else
            printf("format count=0");
    }
    printf("\n");
}

int main(int argc, char **argv) {
    static uint8_t piece[256], message[MOST];
    ddcmp_reader reader = DDCMP_NO_READER;
    struct ddcmp_item item;
    unsigned long items = 0, bytes = 0;
    size_t length, at, used, written;
    unsigned long most = MOST;
    if (argc > 1) most = strtoul(argv[1], NULL, 10);
    must("the most data", ddcmp_reader_new(most <= MOST ? (uint16_t)most : 0, &reader));
    while ((length = fread(piece, 1, sizeof piece, stdin)) > 0) {
        for (at = 0; at < length; at += used) {
            must("push", ddcmp_reader_push(&reader, piece + at, length - at, &used, &item, message,
                                           sizeof message, &written));
            if (item.kind != DDCMP_NO_ITEM) {
                print_item(&item, message, written);
                items++;
            }
        }
        bytes += length;
    }
    printf("items=%lu bytes=%lu open=%lu\n", items, bytes,
           (unsigned long)ddcmp_reader_open(&reader));
    ddcmp_reader_free(&reader);
    return 0;
}
