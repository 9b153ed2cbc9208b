/* A station of DDCMP, and a reader of frames alone, from the library libddcmp.

   A ddcmp_station is a handle. Initialize it with DDCMP_NO_STATION, pass its address to every call,
   and never copy it: a copy would free the same station twice. Only one call at a time may use a
   handle, on the thread that made it. The same holds for a ddcmp_reader, which is initialized with
   DDCMP_NO_READER.

   No pointer may be null, even with length 0. No two arguments of a call may overlap in memory. If
   DDCMP_CHECKED is defined before this header is included, each call tests its pointers first: if
   one is null, it does nothing, and returns DDCMP_NULL or what it returns for a handle without a
   station. A null pointer with length 0 is allowed then.

   Only ddcmp_new and ddcmp_reader_new allocate.

   What 0.x promises: the calls, numbers and structs of libddcmp.so.0 stay as they are. Others are
   added, with a higher version; but a struct that grows makes it libddcmp.so.1. */
#ifndef DDCMP_H
#define DDCMP_H

#include <stdbool.h>
#include <stddef.h>
#include <stdint.h>

#define DDCMP_VERSION "0.2.0"
#define DDCMP_VERSION_NUMBER 200    /* major * 10000 + minor * 100 + patch */

#ifdef __cplusplus
extern "C" {
#endif

/* Returns the DDCMP_VERSION_NUMBER of the library, which may be a later one than this header's. */
extern uint32_t ddcmp_version(void);

typedef struct ddcmp_station { void *at; } ddcmp_station;
#define DDCMP_NO_STATION { NULL }

typedef struct ddcmp_reader { void *at; } ddcmp_reader;
#define DDCMP_NO_READER { NULL }

/* The return codes. If a call returns anything but DDCMP_OK, it has changed nothing. */
enum ddcmp_code {
    DDCMP_OK = 0,
    DDCMP_WINDOW = 1,       /* not 1 to 255 */
    DDCMP_INBOX = 2,        /* not 1 to 255 */
    DDCMP_MAX = 3,          /* not 1 to 16383 */
    DDCMP_SYN = 4,          /* above 16 */
    DDCMP_MEMORY = 5,       /* an allocation failed */
    DDCMP_CLOSED = 6,       /* the handle has no station, or no reader */
    DDCMP_OPEN = 7,         /* the handle has one already */
    DDCMP_NOT_HALTED = 8,
    DDCMP_UNTAKEN = 9,      /* the inbox isn't empty */
    DDCMP_WRONG_STATE = 10,
    DDCMP_EMPTY = 11,       /* a message of no bytes */
    DDCMP_TOO_LONG = 12,    /* a message of more than max bytes */
    DDCMP_WINDOW_FULL = 13,
    DDCMP_ROOM = 14,        /* the room is too short */
    DDCMP_LONG_LINE = 15,   /* 2^64 bytes of one line: halt and ddcmp_clear_line, or reset */
    DDCMP_ABSENT = 16,      /* there is no such message */
    DDCMP_NULL = 17,        /* a pointer is null; only if DDCMP_CHECKED is defined */
    DDCMP_BAD_HEADER = 18,  /* the kind of a header is invalid, or a number is out of range */
    DDCMP_BAD_COUNT = 19    /* the length of the data isn't that of the header */
};

enum ddcmp_state {
    DDCMP_HALTED = 0,
    DDCMP_ISTART = 1,
    DDCMP_ASTART = 2,
    DDCMP_RUNNING = 3,
    DDCMP_MAINTENANCE = 4,
    DDCMP_NO_STATE = 5      /* the handle has no station */
};

/* The notices: what happened at a station. */
enum ddcmp_kind {
    DDCMP_NO_NOTICE = 0,
    DDCMP_IS_RUNNING = 1,
    DDCMP_RUNNING_AND_HANDED_UP = 2,        /* running, and a message was delivered */
    DDCMP_ACKNOWLEDGED = 3,                 /* count messages */
    DDCMP_HANDED_UP = 4,                    /* a message was delivered to the inbox */
    DDCMP_HANDED_UP_AND_ACKNOWLEDGED = 5,   /* count messages acknowledged */
    DDCMP_PEER_STARTS = 6,
    DDCMP_PEER_RESTARTED = 7,
    DDCMP_RESTARTED = 8,                    /* count messages to send were dropped */
    DDCMP_MAINTENANCE_SEEN = 9,
    DDCMP_MAINTENANCE_HANDED_UP = 10,
    DDCMP_MAINTENANCE_DROPPED = 11
};

/* The messages by their headers. */
enum ddcmp_header_kind {
    DDCMP_NO_HEADER = 0,
    DDCMP_HEADER_DATA = 1,
    DDCMP_HEADER_MAINT = 2,
    DDCMP_HEADER_ACK = 3,
    DDCMP_HEADER_NAK = 4,
    DDCMP_HEADER_REP = 5,
    DDCMP_HEADER_STRT = 6,
    DDCMP_HEADER_STACK = 7
};

/* What a reader returns for the bytes of a line. */
enum ddcmp_item_kind {
    DDCMP_NO_ITEM = 0,
    DDCMP_ITEM_GOOD = 1,            /* a whole frame with right CRCs */
    DDCMP_ITEM_HEADER_CHECK = 2,    /* synchronism is lost: a header with a wrong CRC */
    DDCMP_ITEM_DATA_CHECK = 3,      /* a frame whose data have a wrong CRC */
    DDCMP_ITEM_TOO_LONG = 4,        /* a frame with more data than the reader's max */
    DDCMP_ITEM_FORMAT = 5           /* an invalid header with a right CRC */
};

/* Why a header is invalid. A reader returns only the first two. */
enum ddcmp_fault {
    DDCMP_NO_FAULT = 0,
    DDCMP_FAULT_BAD_TYPE = 1,       /* no control message has this TYPE */
    DDCMP_FAULT_COUNT_ZERO = 2,
    DDCMP_FAULT_NOT_A_START = 3,    /* its first byte starts no header */
    DDCMP_FAULT_CHECK = 4           /* a wrong CRC */
};

/* The sizes of a station. */
struct ddcmp_config {
    uint16_t window;    /* most messages sent and not acknowledged: 1 to 255 */
    uint16_t inbox;     /* most messages received and not taken: 1 to 255 */
    uint16_t max;       /* longest message in bytes: 1 to 16383 */
    uint8_t syn;        /* SYN bytes before each frame: 0 to 16 */
    uint8_t restart;    /* not 0: restart when the peer restarts, if the inbox is empty */
};

/* The default sizes. */
#define DDCMP_DEFAULT_CONFIG { 7, 8, 1500, 0, 0 }

struct ddcmp_notice {
    uint8_t kind;       /* enum ddcmp_kind */
    uint8_t count;
};

/* The highest numbers received in sequence, sent and acknowledged, and the next to send. */
struct ddcmp_numbers {
    uint8_t r;
    uint8_t n;
    uint8_t a;
    uint8_t t;
};

/* NAKs by their reasons. */
struct ddcmp_nak_counts {
    uint32_t header_check;
    uint32_t data_check;
    uint32_t reply_to_rep;
    uint32_t no_buffer;
    uint32_t overrun;
    uint32_t too_long;
    uint32_t format;
    uint32_t other;
};

/* Each counter stays at its largest value. */
struct ddcmp_counters {
    struct ddcmp_nak_counts nak_sent;
    struct ddcmp_nak_counts nak_received;
    uint32_t rep_sent;
    uint32_t rep_received;
    uint32_t messages_sent;
    uint32_t bytes_sent;
    uint32_t messages_again;    /* retransmitted */
    uint32_t bytes_again;
    uint32_t messages_up;       /* delivered */
    uint32_t bytes_up;
    uint32_t expiries;          /* timeouts of the reply timer */
    uint32_t header_checks;     /* received errors, by their kinds */
    uint32_t data_checks;
    uint32_t too_longs;
    uint32_t formats;
};

/* A header. Fields that a kind doesn't have are 0 when read and ignored when written. */
struct ddcmp_header {
    uint16_t count;     /* of data and maintenance: bytes of data, 1 to 16383 */
    uint8_t kind;       /* enum ddcmp_header_kind */
    uint8_t sub;        /* of control: 0 to 63 */
    uint8_t q;          /* not 0: the flag is set */
    uint8_t s;
    uint8_t resp;
    uint8_t num;
    uint8_t addr;
};

/* An item. It has a header if its kind is good, data check or too long. */
struct ddcmp_item {
    uint64_t offset;    /* of its start byte */
    struct ddcmp_header header;
    uint8_t kind;       /* enum ddcmp_item_kind */
    uint8_t fault;      /* of a format item: enum ddcmp_fault */
    uint8_t bad_type;   /* of a bad TYPE: which */
};

#if defined(__GNUC__)
#define DDCMP_CALL __attribute__((nonnull)) extern
#else
#define DDCMP_CALL extern
#endif

/* A uint32_t that is returned is an enum ddcmp_code, but for ddcmp_state. */

/* Makes a halted station in a handle that has none. */
DDCMP_CALL uint32_t ddcmp_new(const struct ddcmp_config *config, ddcmp_station *station);
/* Frees the station of a handle; if there is none, does nothing. */
DDCMP_CALL void ddcmp_free(ddcmp_station *station);
DDCMP_CALL uint32_t ddcmp_config(ddcmp_station *station, struct ddcmp_config *config);

/* These two store in dropped how many queued messages were dropped. */
DDCMP_CALL uint32_t ddcmp_start(ddcmp_station *station, uint8_t *dropped);
DDCMP_CALL uint32_t ddcmp_enter_maintenance(ddcmp_station *station, uint8_t *dropped);
/* Chooses, in a halted station with an empty inbox, when messages are acknowledged: when ddcmp_take
   takes them (read them before by ddcmp_waiting_at, and poll then), or when they are received, as
   at first. It stays so over starts. Since 0.2.0. */
DDCMP_CALL uint32_t ddcmp_acknowledge_on_take(ddcmp_station *station, bool on_take);
DDCMP_CALL uint32_t ddcmp_halt(ddcmp_station *station);
/* Forgets the bytes of the line so far, if the station is halted; returns whether it is. */
DDCMP_CALL bool ddcmp_clear_line(ddcmp_station *station);
DDCMP_CALL uint32_t ddcmp_state(ddcmp_station *station); /* enum ddcmp_state */

/* Queues a message, and stores its number. */
DDCMP_CALL uint32_t ddcmp_send(ddcmp_station *station, const uint8_t *message, size_t length,
                               uint8_t *number);
DDCMP_CALL uint32_t ddcmp_send_maintenance(ddcmp_station *station, const uint8_t *message,
                                           size_t length);
/* Returns why ddcmp_send would refuse a message; DDCMP_OK if it wouldn't. */
DDCMP_CALL uint32_t ddcmp_send_refusal(ddcmp_station *station, const uint8_t *message,
                                       size_t length);
/* Returns whether fewer messages are queued than the window allows; and how many are queued. */
DDCMP_CALL bool ddcmp_room(ddcmp_station *station);
DDCMP_CALL uint8_t ddcmp_outgoing(ddcmp_station *station);

/* Takes the first message of the inbox; needs room for config.max bytes. Stores its length, or 0 if
   the inbox is empty. */
DDCMP_CALL uint32_t ddcmp_take(ddcmp_station *station, uint8_t *out, size_t room, size_t *taken);
/* Returns how many messages are in the inbox. */
DDCMP_CALL uint8_t ddcmp_waiting(ddcmp_station *station);
/* Returns the length of message i of the inbox, counted from 0; 0 if there is none. */
DDCMP_CALL size_t ddcmp_waiting_length(ddcmp_station *station, uint8_t i);
/* Copies message i, which stays in the inbox; needs room for config.max bytes. */
DDCMP_CALL uint32_t ddcmp_waiting_at(ddcmp_station *station, uint8_t i, uint8_t *out, size_t room,
                                     size_t *written);

/* Handles received bytes, up to the first that yields a notice; stores how many were used: feed the
   rest again. */
DDCMP_CALL uint32_t ddcmp_feed(ddcmp_station *station, const uint8_t *piece, size_t length,
                               size_t *used, struct ddcmp_notice *notice);
/* Writes the next frame to out, which needs room for ddcmp_frame_room bytes, however short the
   frame is. Stores its length, or 0 if there is nothing to send. */
DDCMP_CALL uint32_t ddcmp_poll(ddcmp_station *station, uint8_t *out, size_t room, size_t *written);
DDCMP_CALL size_t ddcmp_frame_room(ddcmp_station *station);
/* Returns how many bytes ddcmp_poll would write now. */
DDCMP_CALL size_t ddcmp_next_length(ddcmp_station *station);
/* Return how many bytes were received since the line was cleared; how many of them belong to the
   unfinished frame; and how many are buffered. */
DDCMP_CALL uint64_t ddcmp_offset(ddcmp_station *station);
DDCMP_CALL size_t ddcmp_open(ddcmp_station *station);
DDCMP_CALL size_t ddcmp_held(ddcmp_station *station);

/* Returns whether the reply timer was started since the last call: then set its deadline. */
DDCMP_CALL bool ddcmp_take_arm(ddcmp_station *station);
/* Returns whether the reply timer is on. */
DDCMP_CALL bool ddcmp_timer_on(ddcmp_station *station);
/* Handles an expiry of the reply timer; returns whether it was on. */
DDCMP_CALL bool ddcmp_expire(ddcmp_station *station);

DDCMP_CALL uint32_t ddcmp_numbers(ddcmp_station *station, struct ddcmp_numbers *numbers);
DDCMP_CALL uint32_t ddcmp_counters(ddcmp_station *station, struct ddcmp_counters *counters);

/* ---- a reader alone */

/* Makes a reader of frames with at most max bytes of data, in a handle that has none. */
DDCMP_CALL uint32_t ddcmp_reader_new(uint16_t max, ddcmp_reader *reader);
/* Frees the reader of a handle; if there is none, does nothing. */
DDCMP_CALL void ddcmp_reader_free(ddcmp_reader *reader);
/* Handles bytes of a line, up to the first that yields an item; stores how many were used: push the
   rest again. Copies the data of a good item to out, which needs room for max bytes, and stores
   their length in written. If there is no item, its kind is DDCMP_NO_ITEM. */
DDCMP_CALL uint32_t ddcmp_reader_push(ddcmp_reader *reader, const uint8_t *piece, size_t length,
                                      size_t *used, struct ddcmp_item *item, uint8_t *out,
                                      size_t room, size_t *written);
/* Returns how many bytes belong to the unfinished frame. */
DDCMP_CALL size_t ddcmp_reader_open(ddcmp_reader *reader);
/* Begins again, for the bytes of another line. */
DDCMP_CALL uint32_t ddcmp_reader_reset(ddcmp_reader *reader);

/* Writes a frame as it goes on the line: a header with its CRC, and data with theirs. Needs room
   for 8 bytes for a control message, else for count + 10. */
DDCMP_CALL uint32_t ddcmp_write_frame(const struct ddcmp_header *header, const uint8_t *message,
                                      size_t length, uint8_t *out, size_t room, size_t *written);

/* Returns the CRC-16 of a text. */
DDCMP_CALL uint16_t ddcmp_check(const uint8_t *text, size_t length);

#ifdef __cplusplus
}
#endif

/* ---- texts */

static inline const char *ddcmp_strerror(uint32_t code) {
    switch (code) {
    case DDCMP_OK: return "no error";
    case DDCMP_WINDOW: return "the window isn't 1 to 255";
    case DDCMP_INBOX: return "the inbox isn't 1 to 255";
    case DDCMP_MAX: return "the largest message isn't 1 to 16383";
    case DDCMP_SYN: return "the SYN fill is above 16";
    case DDCMP_MEMORY: return "out of memory";
    case DDCMP_CLOSED: return "the handle has no station or reader";
    case DDCMP_OPEN: return "the handle has a station or reader already";
    case DDCMP_NOT_HALTED: return "the station isn't halted";
    case DDCMP_UNTAKEN: return "the inbox isn't empty";
    case DDCMP_WRONG_STATE: return "the station doesn't run";
    case DDCMP_EMPTY: return "the message is empty";
    case DDCMP_TOO_LONG: return "the message is too long";
    case DDCMP_WINDOW_FULL: return "the window is full";
    case DDCMP_ROOM: return "the room is too short";
    case DDCMP_LONG_LINE: return "the line has 2^64 bytes";
    case DDCMP_ABSENT: return "there is no such message";
    case DDCMP_NULL: return "a pointer is null";
    case DDCMP_BAD_HEADER: return "a number of the header is out of range";
    case DDCMP_BAD_COUNT: return "the data aren't as many as the header says";
    default: return "no code of DDCMP";
    }
}

/* The names that `ddcmp` prints. */
static inline const char *ddcmp_state_name(uint32_t state) {
    switch (state) {
    case DDCMP_HALTED: return "Halted";
    case DDCMP_ISTART: return "IStart";
    case DDCMP_ASTART: return "AStart";
    case DDCMP_RUNNING: return "Running";
    case DDCMP_MAINTENANCE: return "Maintenance";
    default: return "";
    }
}

static inline const char *ddcmp_notice_name(uint8_t kind) {
    switch (kind) {
    case DDCMP_IS_RUNNING: return "Running";
    case DDCMP_RUNNING_AND_HANDED_UP: return "RunningAndHandedUp";
    case DDCMP_ACKNOWLEDGED: return "Acknowledged";
    case DDCMP_HANDED_UP: return "HandedUp";
    case DDCMP_HANDED_UP_AND_ACKNOWLEDGED: return "HandedUpAndAcknowledged";
    case DDCMP_PEER_STARTS: return "PeerStarts";
    case DDCMP_PEER_RESTARTED: return "PeerRestarted";
    case DDCMP_RESTARTED: return "Restarted";
    case DDCMP_MAINTENANCE_SEEN: return "MaintenanceSeen";
    case DDCMP_MAINTENANCE_HANDED_UP: return "MaintenanceHandedUp";
    case DDCMP_MAINTENANCE_DROPPED: return "MaintenanceDropped";
    default: return "";
    }
}

/* The names that `ddcmp explain` prints. */
static inline const char *ddcmp_header_name(uint8_t kind) {
    switch (kind) {
    case DDCMP_HEADER_DATA: return "DATA";
    case DDCMP_HEADER_MAINT: return "MAINT";
    case DDCMP_HEADER_ACK: return "ACK";
    case DDCMP_HEADER_NAK: return "NAK";
    case DDCMP_HEADER_REP: return "REP";
    case DDCMP_HEADER_STRT: return "STRT";
    case DDCMP_HEADER_STACK: return "STACK";
    default: return "";
    }
}

#ifdef DDCMP_CHECKED
#include "ddcmp_checked.h"
#endif

#endif
