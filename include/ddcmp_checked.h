/* Calls of ddcmp.h that test their pointers first. ddcmp.h includes this if DDCMP_CHECKED is
   defined. A pointer with length 0 may be null here. */
#ifndef DDCMP_CHECKED_H
#define DDCMP_CHECKED_H

/* Returns an address for a pointer with length 0 that is null. */
static inline uint8_t *ddcmp_no_bytes(void) {
    static uint8_t none[1] = { 0 };
    return none;
}

static inline uint32_t ddcmp_checked_new(const struct ddcmp_config *config,
        ddcmp_station *station) {
    if (config == NULL || station == NULL)
        return DDCMP_NULL;
    return ddcmp_new(config, station);
}

static inline void ddcmp_checked_free(ddcmp_station *station) {
    if (station == NULL)
        return;
    ddcmp_free(station);
}

static inline uint32_t ddcmp_checked_config(ddcmp_station *station, struct ddcmp_config *config) {
    if (station == NULL || config == NULL)
        return DDCMP_NULL;
    return ddcmp_config(station, config);
}

static inline uint32_t ddcmp_checked_start(ddcmp_station *station, uint8_t *dropped) {
    if (station == NULL || dropped == NULL)
        return DDCMP_NULL;
    return ddcmp_start(station, dropped);
}

static inline uint32_t ddcmp_checked_enter_maintenance(ddcmp_station *station, uint8_t *dropped) {
    if (station == NULL || dropped == NULL)
        return DDCMP_NULL;
    return ddcmp_enter_maintenance(station, dropped);
}

static inline uint32_t ddcmp_checked_acknowledge_on_take(ddcmp_station *station, bool on_take) {
    if (station == NULL)
        return DDCMP_NULL;
    return ddcmp_acknowledge_on_take(station, on_take);
}

static inline uint32_t ddcmp_checked_halt(ddcmp_station *station) {
    if (station == NULL)
        return DDCMP_NULL;
    return ddcmp_halt(station);
}

static inline bool ddcmp_checked_clear_line(ddcmp_station *station) {
    if (station == NULL)
        return false;
    return ddcmp_clear_line(station);
}

static inline uint32_t ddcmp_checked_state(ddcmp_station *station) {
    if (station == NULL)
        return DDCMP_NO_STATE;
    return ddcmp_state(station);
}

static inline uint32_t ddcmp_checked_send(ddcmp_station *station, const uint8_t *message,
        size_t length, uint8_t *number) {
    if (message == NULL && length == 0)
        message = ddcmp_no_bytes();
    if (station == NULL || message == NULL || number == NULL)
        return DDCMP_NULL;
    return ddcmp_send(station, message, length, number);
}

static inline uint32_t ddcmp_checked_send_maintenance(ddcmp_station *station,
        const uint8_t *message, size_t length) {
    if (message == NULL && length == 0)
        message = ddcmp_no_bytes();
    if (station == NULL || message == NULL)
        return DDCMP_NULL;
    return ddcmp_send_maintenance(station, message, length);
}

static inline uint32_t ddcmp_checked_send_refusal(ddcmp_station *station, const uint8_t *message,
        size_t length) {
    if (message == NULL && length == 0)
        message = ddcmp_no_bytes();
    if (station == NULL || message == NULL)
        return DDCMP_NULL;
    return ddcmp_send_refusal(station, message, length);
}

static inline bool ddcmp_checked_room(ddcmp_station *station) {
    if (station == NULL)
        return false;
    return ddcmp_room(station);
}

static inline uint8_t ddcmp_checked_outgoing(ddcmp_station *station) {
    if (station == NULL)
        return 0;
    return ddcmp_outgoing(station);
}

static inline uint32_t ddcmp_checked_take(ddcmp_station *station, uint8_t *out, size_t room,
        size_t *taken) {
    if (out == NULL && room == 0)
        out = ddcmp_no_bytes();
    if (station == NULL || out == NULL || taken == NULL)
        return DDCMP_NULL;
    return ddcmp_take(station, out, room, taken);
}

static inline uint8_t ddcmp_checked_waiting(ddcmp_station *station) {
    if (station == NULL)
        return 0;
    return ddcmp_waiting(station);
}

static inline size_t ddcmp_checked_waiting_length(ddcmp_station *station, uint8_t i) {
    if (station == NULL)
        return 0;
    return ddcmp_waiting_length(station, i);
}

static inline uint32_t ddcmp_checked_waiting_at(ddcmp_station *station, uint8_t i, uint8_t *out,
        size_t room, size_t *written) {
    if (out == NULL && room == 0)
        out = ddcmp_no_bytes();
    if (station == NULL || out == NULL || written == NULL)
        return DDCMP_NULL;
    return ddcmp_waiting_at(station, i, out, room, written);
}

static inline uint32_t ddcmp_checked_feed(ddcmp_station *station, const uint8_t *piece,
        size_t length, size_t *used, struct ddcmp_notice *notice) {
    if (piece == NULL && length == 0)
        piece = ddcmp_no_bytes();
    if (station == NULL || piece == NULL || used == NULL || notice == NULL)
        return DDCMP_NULL;
    return ddcmp_feed(station, piece, length, used, notice);
}

static inline uint32_t ddcmp_checked_poll(ddcmp_station *station, uint8_t *out, size_t room,
        size_t *written) {
    if (out == NULL && room == 0)
        out = ddcmp_no_bytes();
    if (station == NULL || out == NULL || written == NULL)
        return DDCMP_NULL;
    return ddcmp_poll(station, out, room, written);
}

static inline size_t ddcmp_checked_frame_room(ddcmp_station *station) {
    if (station == NULL)
        return 0;
    return ddcmp_frame_room(station);
}

static inline size_t ddcmp_checked_next_length(ddcmp_station *station) {
    if (station == NULL)
        return 0;
    return ddcmp_next_length(station);
}

static inline uint64_t ddcmp_checked_offset(ddcmp_station *station) {
    if (station == NULL)
        return 0;
    return ddcmp_offset(station);
}

static inline size_t ddcmp_checked_open(ddcmp_station *station) {
    if (station == NULL)
        return 0;
    return ddcmp_open(station);
}

static inline size_t ddcmp_checked_held(ddcmp_station *station) {
    if (station == NULL)
        return 0;
    return ddcmp_held(station);
}

static inline bool ddcmp_checked_take_arm(ddcmp_station *station) {
    if (station == NULL)
        return false;
    return ddcmp_take_arm(station);
}

static inline bool ddcmp_checked_timer_on(ddcmp_station *station) {
    if (station == NULL)
        return false;
    return ddcmp_timer_on(station);
}

static inline bool ddcmp_checked_expire(ddcmp_station *station) {
    if (station == NULL)
        return false;
    return ddcmp_expire(station);
}

static inline uint32_t ddcmp_checked_numbers(ddcmp_station *station,
        struct ddcmp_numbers *numbers) {
    if (station == NULL || numbers == NULL)
        return DDCMP_NULL;
    return ddcmp_numbers(station, numbers);
}

static inline uint32_t ddcmp_checked_counters(ddcmp_station *station,
        struct ddcmp_counters *counters) {
    if (station == NULL || counters == NULL)
        return DDCMP_NULL;
    return ddcmp_counters(station, counters);
}

static inline uint32_t ddcmp_checked_reader_new(uint16_t max, ddcmp_reader *reader) {
    if (reader == NULL)
        return DDCMP_NULL;
    return ddcmp_reader_new(max, reader);
}

static inline void ddcmp_checked_reader_free(ddcmp_reader *reader) {
    if (reader == NULL)
        return;
    ddcmp_reader_free(reader);
}

static inline uint32_t ddcmp_checked_reader_push(ddcmp_reader *reader, const uint8_t *piece,
        size_t length, size_t *used, struct ddcmp_item *item, uint8_t *out, size_t room,
        size_t *written) {
    if (piece == NULL && length == 0)
        piece = ddcmp_no_bytes();
    if (out == NULL && room == 0)
        out = ddcmp_no_bytes();
    if (reader == NULL || piece == NULL || used == NULL || item == NULL || out == NULL
        || written == NULL)
        return DDCMP_NULL;
    return ddcmp_reader_push(reader, piece, length, used, item, out, room, written);
}

static inline size_t ddcmp_checked_reader_open(ddcmp_reader *reader) {
    if (reader == NULL)
        return 0;
    return ddcmp_reader_open(reader);
}

static inline uint32_t ddcmp_checked_reader_reset(ddcmp_reader *reader) {
    if (reader == NULL)
        return DDCMP_NULL;
    return ddcmp_reader_reset(reader);
}

static inline uint32_t ddcmp_checked_write_frame(const struct ddcmp_header *header,
        const uint8_t *message, size_t length, uint8_t *out, size_t room, size_t *written) {
    if (message == NULL && length == 0)
        message = ddcmp_no_bytes();
    if (out == NULL && room == 0)
        out = ddcmp_no_bytes();
    if (header == NULL || message == NULL || out == NULL || written == NULL)
        return DDCMP_NULL;
    return ddcmp_write_frame(header, message, length, out, room, written);
}

static inline uint16_t ddcmp_checked_check(const uint8_t *text, size_t length) {
    if (text == NULL && length == 0)
        text = ddcmp_no_bytes();
    if (text == NULL)
        return 0;
    return ddcmp_check(text, length);
}

#define ddcmp_new ddcmp_checked_new
#define ddcmp_free ddcmp_checked_free
#define ddcmp_start ddcmp_checked_start
#define ddcmp_enter_maintenance ddcmp_checked_enter_maintenance
#define ddcmp_acknowledge_on_take ddcmp_checked_acknowledge_on_take
#define ddcmp_halt ddcmp_checked_halt
#define ddcmp_clear_line ddcmp_checked_clear_line
#define ddcmp_send ddcmp_checked_send
#define ddcmp_send_maintenance ddcmp_checked_send_maintenance
#define ddcmp_send_refusal ddcmp_checked_send_refusal
#define ddcmp_room ddcmp_checked_room
#define ddcmp_outgoing ddcmp_checked_outgoing
#define ddcmp_take ddcmp_checked_take
#define ddcmp_waiting ddcmp_checked_waiting
#define ddcmp_waiting_length ddcmp_checked_waiting_length
#define ddcmp_waiting_at ddcmp_checked_waiting_at
#define ddcmp_feed ddcmp_checked_feed
#define ddcmp_poll ddcmp_checked_poll
#define ddcmp_frame_room ddcmp_checked_frame_room
#define ddcmp_next_length ddcmp_checked_next_length
#define ddcmp_offset ddcmp_checked_offset
#define ddcmp_open ddcmp_checked_open
#define ddcmp_held ddcmp_checked_held
#define ddcmp_take_arm ddcmp_checked_take_arm
#define ddcmp_timer_on ddcmp_checked_timer_on
#define ddcmp_expire ddcmp_checked_expire
#define ddcmp_reader_new ddcmp_checked_reader_new
#define ddcmp_reader_free ddcmp_checked_reader_free
#define ddcmp_reader_push ddcmp_checked_reader_push
#define ddcmp_reader_open ddcmp_checked_reader_open
#define ddcmp_reader_reset ddcmp_checked_reader_reset
#define ddcmp_write_frame ddcmp_checked_write_frame
#define ddcmp_check ddcmp_checked_check

/* These are names of structs and of an enum as well, so only their calls are replaced. */
#define ddcmp_config(station, config) ddcmp_checked_config(station, config)
#define ddcmp_numbers(station, numbers) ddcmp_checked_numbers(station, numbers)
#define ddcmp_counters(station, counters) ddcmp_checked_counters(station, counters)
#define ddcmp_state(station) ddcmp_checked_state(station)

#endif
