/* A reader of DDCMP captures in C, which writes what `ddcmp explain` writes: the yardstick for its speed.
 *
 *   gcc -O2 reader.c                        a plain one: a check by one table, a byte at a time
 *   gcc -O3 -mssse3 -DFAST reader.c         a fast one: eight tables, sixteen digits at a time
 *
 *   reader explain [--raw] [--max N] < capture
 *
 * Both read the whole capture first. Written from the rules of docs/PROTOCOL.md, not from the crates. */
#include <stdbool.h>
#include <stdint.h>
#include <stdio.h>
#include <stdlib.h>
#include <string.h>
#include <unistd.h>
#ifdef FAST
#include <tmmintrin.h>
#endif

enum { DATA = 0x81, CONTROL = 0x05, MAINT = 0x90, HEADER = 8, OVERHEAD = 10 };
enum { NO_DIGIT = -1, BLANK = -2 };
/* More than the text of a header takes. */
enum { PAGE = 1 << 16, TEXT = 256 };

static uint16_t tables[8][256]; /* of these the plain reader uses the first */
static int8_t digit_values[256];
static char pairs[256][2], small_numbers[256][4];
static char page[PAGE];
static size_t held;

static void make_tables(void) {
  for (int i = 0; i < 256; i++) {
    uint16_t rest = (uint16_t)i;
    for (int bit = 0; bit < 8; bit++) rest = (uint16_t)(rest & 1 ? rest >> 1 ^ 0xA001 : rest >> 1);
    tables[0][i] = rest;
    memcpy(pairs[i], (char[]){"0123456789abcdef"[i >> 4], "0123456789abcdef"[i & 15]}, 2);
    snprintf(small_numbers[i], 4, "%d", i & 255);
    digit_values[i] = NO_DIGIT;
  }
  for (int k = 1; k < 8; k++)
    for (int i = 0; i < 256; i++)
      tables[k][i] = (uint16_t)(tables[k - 1][i] >> 8 ^ tables[0][tables[k - 1][i] & 255]);
  for (int i = 0; i < 16; i++) {
    digit_values[(unsigned char)"0123456789abcdef"[i]] = (int8_t)i;
    digit_values[(unsigned char)"0123456789ABCDEF"[i]] = (int8_t)i;
  }
  for (const char *it = " \t\r\n"; *it; it++) digit_values[(unsigned char)*it] = BLANK;
}

static uint16_t check_of(const uint8_t *bytes, size_t length) {
  uint16_t check = 0;
#ifdef FAST
  for (; length >= 8; length -= 8, bytes += 8)
    check = tables[7][(check ^ bytes[0]) & 255] ^ tables[6][(check >> 8 ^ bytes[1]) & 255]
          ^ tables[5][bytes[2]] ^ tables[4][bytes[3]] ^ tables[3][bytes[4]] ^ tables[2][bytes[5]]
          ^ tables[1][bytes[6]] ^ tables[0][bytes[7]];
#endif
  for (; length > 0; length--, bytes++) check = check >> 8 ^ tables[0][(check ^ *bytes) & 255];
  return check;
}

/* Whether the two bytes behind these are their check. */
static bool is_right(const uint8_t *bytes, size_t length) {
  uint16_t check = check_of(bytes, length);
  return bytes[length] == (check & 255) && bytes[length + 1] == check >> 8;
}

static bool header_is_right(const uint8_t *it) {
#ifdef FAST
  uint16_t check = tables[5][it[0]] ^ tables[4][it[1]] ^ tables[3][it[2]] ^ tables[2][it[3]]
                 ^ tables[1][it[4]] ^ tables[0][it[5]];
  return it[6] == (check & 255) && it[7] == check >> 8;
#else
  return is_right(it, 6);
#endif
}

static void flush(void) {
  for (size_t at = 0; at < held;) {
    ssize_t written = write(1, page + at, held - at);
    if (written <= 0) {
      fputs("ddcmp: write\n", stderr);
      exit(3);
    }
    at += (size_t)written;
  }
  held = 0;
}

static void make_room(void) {
  if (PAGE - held < TEXT) flush();
}

static inline void put(const char *text, size_t length) {
  memcpy(page + held, text, length);
  held += length;
}
#ifdef FAST
#define PUT(text) put(text, sizeof(text) - 1)
#else
#define PUT(text) put(text, strlen(text))
#endif

static inline void put_number(unsigned long long value) {
#ifdef FAST
  if (value < 256) {
    memcpy(page + held, small_numbers[value], 4);
    held += 1 + (value > 9) + (value > 99);
    return;
  }
#endif
  char digits[20];
  size_t at = sizeof digits;
  do digits[--at] = (char)('0' + value % 10);
  while (value /= 10);
  put(digits + at, sizeof digits - at);
}

static void put_hex(const uint8_t *bytes, size_t length) {
  while (length > 0) {
    size_t room = (PAGE - held) / 2, most = length < room ? length : room, at = 0;
    char *out = page + held;
#ifdef FAST
    const __m128i digits = _mm_loadu_si128((const __m128i *)"0123456789abcdef");
    const __m128i nibble = _mm_set1_epi8(15);
    for (; at + 16 <= most; at += 16) {
      __m128i sixteen = _mm_loadu_si128((const __m128i *)(bytes + at));
      __m128i high = _mm_shuffle_epi8(digits, _mm_and_si128(_mm_srli_epi16(sixteen, 4), nibble));
      __m128i low = _mm_shuffle_epi8(digits, _mm_and_si128(sixteen, nibble));
      _mm_storeu_si128((__m128i *)(out + 2 * at), _mm_unpacklo_epi8(high, low));
      _mm_storeu_si128((__m128i *)(out + 2 * at + 16), _mm_unpackhi_epi8(high, low));
    }
#endif
    for (; at < most; at++) memcpy(out + 2 * at, pairs[bytes[at]], 2);
    held += 2 * most;
    bytes += most;
    length -= most;
    if (length > 0) flush();
  }
}

static inline size_t count_in(const uint8_t *header) {
  return header[1] + 256u * (header[2] & 63);
}

static const char *control_name(uint8_t type) {
  switch (type) {
  case 1: return "ACK";
  case 2: return "NAK";
  case 3: return "REP";
  case 6: return "STRT";
  case 7: return "STACK";
  default: return NULL;
  }
}

static void put_header(const uint8_t *header) {
  if (header[0] == CONTROL) {
    const char *name = control_name(header[1]);
    put(name, strlen(name));
    PUT(" sub=");
    put_number(header[2] & 63);
  } else {
    if (header[0] == DATA) PUT("DATA"); else PUT("MAINT");
    PUT(" count=");
    put_number(count_in(header));
  }
  PUT(" q=");
  put_number(header[2] >> 6 & 1);
  PUT(" s=");
  put_number(header[2] >> 7);
  PUT(" resp=");
  put_number(header[3]);
  PUT(" num=");
  put_number(header[4]);
  PUT(" addr=");
  put_number(header[5]);
}

/* The bytes that digits spell, in place; how many, or a text of what is wrong. */
static size_t decoded(uint8_t *text, size_t length, char fault[64]) {
  size_t bytes = 0, digits = 0;
  int high = 0;
  for (size_t at = 0; at < length; at++) {
    int value = digit_values[text[at]];
    if (digits % 2 == 0 && at + 1 < length) {
      int next = digit_values[text[at + 1]];
      if ((value | next) >= 0) {
        text[bytes++] = (uint8_t)(value << 4 | next);
        digits += 2;
        at++;
        continue;
      }
    }
    if (value == BLANK) continue;
    if (value == NO_DIGIT) {
      snprintf(fault, 64, "ddcmp: not hexadecimal at %zu\n", at);
      return bytes;
    }
    if (digits++ % 2 == 0) high = value; else text[bytes++] = (uint8_t)(high << 4 | value);
  }
  if (digits % 2) strcpy(fault, "ddcmp: odd number of digits\n");
  return bytes;
}

/* The line of an item: its offset, what it is, and its header where there is one. */
#define ITEM(offset, text) (put_number(offset), PUT(text))

/* Writes the items of the frames; how many there are, and in `open` the bytes that no item ends. */
static unsigned long long explain(const uint8_t *bytes, size_t length, size_t max, size_t *open) {
  unsigned long long items = 0;
  bool lost = false;
  size_t at = 0;
  while (at < length) {
    const uint8_t *header = bytes + at;
    make_room();
    if (*header != DATA && *header != CONTROL && *header != MAINT) {
      at++;
      continue;
    }
    if (length - at < HEADER) break;
    if (!header_is_right(header)) {
      if (!lost) {
        items++;
        ITEM(at, " header check\n");
      }
      lost = true;
      at++;
      continue;
    }
    lost = false;
    size_t count = count_in(header);
    if (*header == CONTROL || count == 0) {
      items++;
      if (*header != CONTROL) {
        ITEM(at, " format count=0\n");
      } else if (control_name(header[1])) {
        ITEM(at, " ");
        put_header(header);
        PUT("\n");
      } else {
        ITEM(at, " format type=");
        put_number(header[1]);
        PUT("\n");
      }
      at += HEADER;
      continue;
    }
    if (count <= max && length - at < count + OVERHEAD) break;
    items++;
    if (count > max) {
      ITEM(at, " too long ");
      put_header(header);
    } else if (is_right(header + HEADER, count)) {
      ITEM(at, " ");
      put_header(header);
      PUT(" ");
      put_hex(header + HEADER, count);
    } else {
      ITEM(at, " data check ");
      put_header(header);
    }
    make_room();
    PUT("\n");
    if (length - at < count + OVERHEAD) break;
    at += count + OVERHEAD;
  }
  *open = length - at;
  return items;
}

int main(int argc, char **argv) {
  bool raw = false;
  size_t max = 16383, room = 1 << 20, length = 0, open;
  char fault[64] = "";
  for (int i = 1; i < argc; i++) {
    if (strcmp(argv[i], "--raw") == 0) raw = true;
    else if (strcmp(argv[i], "--max") == 0 && i + 1 < argc) max = strtoul(argv[++i], NULL, 10);
  }
  make_tables();
  uint8_t *bytes = malloc(room);
  for (ssize_t got; (got = read(0, bytes + length, room - length)) != 0; length += (size_t)got) {
    if (got < 0) return fputs("ddcmp: read\n", stderr), 3;
    if (length + (size_t)got == room) bytes = realloc(bytes, room *= 2);
  }
  if (!raw) length = decoded(bytes, length, fault);
  unsigned long long items = explain(bytes, length, max, &open);
  if (*fault) {
    flush();
    return fputs(fault, stderr), 1;
  }
  make_room();
  PUT("items=");
  put_number(items);
  PUT(" bytes=");
  put_number(length);
  PUT(" open=");
  put_number(open);
  PUT("\n");
  flush();
  return 0;
}
