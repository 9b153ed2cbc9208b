//! The calls and structs of `include/ddcmp.h`, which states what a caller owes.
use std::os::raw::c_void;
use std::ptr::null_mut;

/// A handle of a station, which is never copied.
#[repr(C)]
#[derive(Debug)]
pub struct ddcmp_station {
    pub at: *mut c_void,
}

/// A handle of a reader, which is never copied.
#[repr(C)]
#[derive(Debug)]
pub struct ddcmp_reader {
    pub at: *mut c_void,
}

pub const DDCMP_NO_STATION: ddcmp_station = ddcmp_station { at: null_mut() };
pub const DDCMP_NO_READER: ddcmp_reader = ddcmp_reader { at: null_mut() };

#[repr(C)]
#[derive(Clone, Copy, Debug, Default, PartialEq, Eq)]
pub struct ddcmp_config {
    pub window: u16,
    pub inbox: u16,
    pub max: u16,
    pub syn: u8,
    pub restart: u8,
}

#[repr(C)]
#[derive(Clone, Copy, Debug, Default, PartialEq, Eq)]
pub struct ddcmp_notice {
    pub kind: u8,
    pub count: u8,
}

#[repr(C)]
#[derive(Clone, Copy, Debug, Default, PartialEq, Eq)]
pub struct ddcmp_numbers {
    pub r: u8,
    pub n: u8,
    pub a: u8,
    pub t: u8,
}

#[repr(C)]
#[derive(Clone, Copy, Debug, Default, PartialEq, Eq)]
pub struct ddcmp_nak_counts {
    pub header_check: u32,
    pub data_check: u32,
    pub reply_to_rep: u32,
    pub no_buffer: u32,
    pub overrun: u32,
    pub too_long: u32,
    pub format: u32,
    pub other: u32,
}

#[repr(C)]
#[derive(Clone, Copy, Debug, Default, PartialEq, Eq)]
pub struct ddcmp_counters {
    pub nak_sent: ddcmp_nak_counts,
    pub nak_received: ddcmp_nak_counts,
    pub rep_sent: u32,
    pub rep_received: u32,
    pub messages_sent: u32,
    pub bytes_sent: u32,
    pub messages_again: u32,
    pub bytes_again: u32,
    pub messages_up: u32,
    pub bytes_up: u32,
    pub expiries: u32,
    pub header_checks: u32,
    pub data_checks: u32,
    pub too_longs: u32,
    pub formats: u32,
}

#[repr(C)]
#[derive(Clone, Copy, Debug, Default, PartialEq, Eq)]
pub struct ddcmp_header {
    pub count: u16,
    pub kind: u8,
    pub sub: u8,
    pub q: u8,
    pub s: u8,
    pub resp: u8,
    pub num: u8,
    pub addr: u8,
}

#[repr(C)]
#[derive(Clone, Copy, Debug, Default, PartialEq, Eq)]
pub struct ddcmp_item {
    pub offset: u64,
    pub header: ddcmp_header,
    pub kind: u8,
    pub fault: u8,
    pub bad_type: u8,
}

extern "C" {
    pub fn ddcmp_version() -> u32;
    pub fn ddcmp_new(config: *const ddcmp_config, station: *mut ddcmp_station) -> u32;
    pub fn ddcmp_free(station: *mut ddcmp_station);
    pub fn ddcmp_config(station: *mut ddcmp_station, config: *mut ddcmp_config) -> u32;
    pub fn ddcmp_start(station: *mut ddcmp_station, dropped: *mut u8) -> u32;
    pub fn ddcmp_enter_maintenance(station: *mut ddcmp_station, dropped: *mut u8) -> u32;
    pub fn ddcmp_acknowledge_on_take(station: *mut ddcmp_station, on_take: bool) -> u32;
    pub fn ddcmp_halt(station: *mut ddcmp_station) -> u32;
    pub fn ddcmp_clear_line(station: *mut ddcmp_station) -> bool;
    pub fn ddcmp_state(station: *mut ddcmp_station) -> u32;
    pub fn ddcmp_send(
        station: *mut ddcmp_station,
        message: *const u8,
        length: usize,
        number: *mut u8,
    ) -> u32;
    pub fn ddcmp_send_maintenance(
        station: *mut ddcmp_station,
        message: *const u8,
        length: usize,
    ) -> u32;
    pub fn ddcmp_send_refusal(
        station: *mut ddcmp_station,
        message: *const u8,
        length: usize,
    ) -> u32;
    pub fn ddcmp_room(station: *mut ddcmp_station) -> bool;
    pub fn ddcmp_outgoing(station: *mut ddcmp_station) -> u8;
    pub fn ddcmp_take(
        station: *mut ddcmp_station,
        out: *mut u8,
        room: usize,
        taken: *mut usize,
    ) -> u32;
    pub fn ddcmp_waiting(station: *mut ddcmp_station) -> u8;
    pub fn ddcmp_waiting_length(station: *mut ddcmp_station, i: u8) -> usize;
    pub fn ddcmp_waiting_at(
        station: *mut ddcmp_station,
        i: u8,
        out: *mut u8,
        room: usize,
        written: *mut usize,
    ) -> u32;
    pub fn ddcmp_feed(
        station: *mut ddcmp_station,
        piece: *const u8,
        length: usize,
        used: *mut usize,
        notice: *mut ddcmp_notice,
    ) -> u32;
    pub fn ddcmp_poll(
        station: *mut ddcmp_station,
        out: *mut u8,
        room: usize,
        written: *mut usize,
    ) -> u32;
    pub fn ddcmp_frame_room(station: *mut ddcmp_station) -> usize;
    pub fn ddcmp_next_length(station: *mut ddcmp_station) -> usize;
    pub fn ddcmp_offset(station: *mut ddcmp_station) -> u64;
    pub fn ddcmp_open(station: *mut ddcmp_station) -> usize;
    pub fn ddcmp_held(station: *mut ddcmp_station) -> usize;
    pub fn ddcmp_take_arm(station: *mut ddcmp_station) -> bool;
    pub fn ddcmp_timer_on(station: *mut ddcmp_station) -> bool;
    pub fn ddcmp_expire(station: *mut ddcmp_station) -> bool;
    pub fn ddcmp_numbers(station: *mut ddcmp_station, numbers: *mut ddcmp_numbers) -> u32;
    pub fn ddcmp_counters(station: *mut ddcmp_station, counters: *mut ddcmp_counters) -> u32;
    pub fn ddcmp_reader_new(max: u16, reader: *mut ddcmp_reader) -> u32;
    pub fn ddcmp_reader_free(reader: *mut ddcmp_reader);
    pub fn ddcmp_reader_push(
        reader: *mut ddcmp_reader,
        piece: *const u8,
        length: usize,
        used: *mut usize,
        item: *mut ddcmp_item,
        out: *mut u8,
        room: usize,
        written: *mut usize,
    ) -> u32;
    pub fn ddcmp_reader_open(reader: *mut ddcmp_reader) -> usize;
    pub fn ddcmp_reader_reset(reader: *mut ddcmp_reader) -> u32;
    pub fn ddcmp_write_frame(
        header: *const ddcmp_header,
        message: *const u8,
        length: usize,
        out: *mut u8,
        room: usize,
        written: *mut usize,
    ) -> u32;
    pub fn ddcmp_check(text: *const u8, length: usize) -> u16;
}
