//! DDCMP stations in Rust, over the C library libddcmp.
//!
//! A [`Station`] does no I/O and keeps no time: received bytes go in, frames and notices come out,
//! and the caller runs the reply timer. Two stations exchange a message in memory:
//!
//! ```
//! use ddcmp::{Config, Station};
//!
//! /// Carries a frame, if there is one.
//! fn carry(source: &mut Station, target: &mut Station) -> Result<bool, ddcmp::Error> {
//!     let frame = source.poll().unwrap_or_default().to_vec();
//!     let mut at = 0;
//!     while at < frame.len() {
//!         at += target.feed(&frame[at..])?.used;
//!     }
//!     Ok(!frame.is_empty())
//! }
//!
//! let mut one = Station::new(Config::default())?;
//! let mut other = Station::new(Config { max: 512, ..Config::default() })?;
//! one.start()?;
//! other.start()?;
//! while carry(&mut one, &mut other)? || carry(&mut other, &mut one)? {}
//! one.send(b"Hello")?;
//! while carry(&mut one, &mut other)? || carry(&mut other, &mut one)? {}
//! assert_eq!(other.take(), Some(b"Hello".to_vec()));
//! assert_eq!((other.take(), one.outgoing()), (None, 0));
//! # Ok::<(), ddcmp::Error>(())
//! ```
use std::cell::Cell;
use std::fmt;

/// The calls and structs of `include/ddcmp.h`.
#[allow(non_camel_case_types)]
pub mod ffi;

pub use ffi::{
    ddcmp_counters as Counters, ddcmp_nak_counts as NakCounts, ddcmp_numbers as Numbers,
};

/// Defines an enumeration of numbers of the C library, with their texts.
macro_rules! numbers {
    ($what:literal $name:ident { $($variant:ident = $number:literal, $text:literal;)* }) => {
        #[doc = $what]
        #[derive(Clone, Copy, Debug, PartialEq, Eq)]
        #[non_exhaustive]
        pub enum $name { $(#[doc = $text] $variant = $number,)* }

        impl $name {
            /// Returns what a number stands for, if anything.
            fn of(number: u32) -> Option<$name> {
                match number {
                    $($number => Some($name::$variant),)*
                    _ => None,
                }
            }
        }

        impl fmt::Display for $name {
            fn fmt(&self, f: &mut fmt::Formatter<'_>) -> fmt::Result {
                f.write_str(match self { $($name::$variant => $text,)* })
            }
        }
    };
}

numbers! { "Why a call was refused: it changed nothing." Error {
    Window = 1, "the window isn't 1 to 255";
    Inbox = 2, "the inbox isn't 1 to 255";
    Max = 3, "the largest message isn't 1 to 16383";
    Syn = 4, "the SYN fill is above 16";
    Memory = 5, "out of memory";
    Closed = 6, "the handle has no station or reader";
    Open = 7, "the handle has a station or reader already";
    NotHalted = 8, "the station isn't halted";
    Untaken = 9, "the inbox isn't empty";
    WrongState = 10, "the station doesn't run";
    Empty = 11, "the message is empty";
    TooLong = 12, "the message is too long";
    WindowFull = 13, "the window is full";
    Room = 14, "the room is too short";
    LongLine = 15, "the line has 2^64 bytes";
    Absent = 16, "there is no such message";
    Null = 17, "a pointer is null";
    BadHeader = 18, "a number of the header is out of range";
    BadCount = 19, "the data aren't as many as the header says";
} }

impl std::error::Error for Error {}

numbers! { "The state of a station." State {
    Halted = 0, "Halted";
    Istart = 1, "IStart";
    Astart = 2, "AStart";
    Running = 3, "Running";
    Maintenance = 4, "Maintenance";
} }

numbers! { "What happened at a station." NoticeKind {
    Running = 1, "Running";
    RunningAndHandedUp = 2, "RunningAndHandedUp";
    Acknowledged = 3, "Acknowledged";
    HandedUp = 4, "HandedUp";
    HandedUpAndAcknowledged = 5, "HandedUpAndAcknowledged";
    PeerStarts = 6, "PeerStarts";
    PeerRestarted = 7, "PeerRestarted";
    Restarted = 8, "Restarted";
    MaintenanceSeen = 9, "MaintenanceSeen";
    MaintenanceHandedUp = 10, "MaintenanceHandedUp";
    MaintenanceDropped = 11, "MaintenanceDropped";
} }

/// What happened at a station, and for how many messages, if that is counted.
#[derive(Clone, Copy, Debug, PartialEq, Eq)]
pub struct Notice {
    pub kind: NoticeKind,
    pub count: u8,
}

/// How many bytes were used, and the notice of the last of them, if any.
#[derive(Clone, Copy, Debug, PartialEq, Eq)]
pub struct Fed {
    pub used: usize,
    pub notice: Option<Notice>,
}

/// The sizes of a station.
#[derive(Clone, Copy, Debug, PartialEq, Eq)]
pub struct Config {
    /// Most messages sent and not acknowledged: 1 to 255.
    pub window: u16,
    /// Most messages received and not taken: 1 to 255.
    pub inbox: u16,
    /// Longest message in bytes: 1 to 16383.
    pub max: u16,
    /// SYN bytes before each frame: 0 to 16.
    pub syn: u8,
    /// Restart when the peer restarts, if the inbox is empty; else halt.
    pub restart: bool,
}

impl Default for Config {
    fn default() -> Config {
        Config {
            window: 7,
            inbox: 8,
            max: 1500,
            syn: 0,
            restart: false,
        }
    }
}

/// Returns the version of the C library: major * 10000 + minor * 100 + patch.
pub fn version() -> u32 {
    // SAFETY: it has no argument.
    unsafe { ffi::ddcmp_version() }
}

/// Passes a code as a result.
fn checked(code: u32) -> Result<(), Error> {
    match code {
        0 => Ok(()),
        _ => Err(Error::of(code).expect("a code of the library")),
    }
}

/// A station over a byte stream, which stays on its thread.
///
/// Call [`start`](Station::start); then [`poll`](Station::poll) until it returns none, after each
/// `feed`, `send` and `expire`. If [`take_arm`](Station::take_arm) returns true, set a deadline for
/// the reply timer; when it comes and `timer_on` returns true, call `expire`. Don't feed while
/// `waiting` is as many as the inbox has. No call after `new` allocates, but for `take`.
pub struct Station {
    // A call that only asks takes the station out of its handle for a moment, too.
    handle: Cell<ffi::ddcmp_station>,
    frame: Vec<u8>,
    message: Vec<u8>,
}

// SAFETY of the calls: the handle has a station until it is dropped, moves with its owner and is
// never copied; a cell stays on its thread; and references to bytes lead to that many, apart from
// what is written.
impl Station {
    /// Makes a halted station.
    pub fn new(config: Config) -> Result<Station, Error> {
        let Config {
            window,
            inbox,
            max,
            syn,
            restart,
        } = config;
        let sizes = ffi::ddcmp_config {
            window,
            inbox,
            max,
            syn,
            restart: restart.into(),
        };
        let handle = Cell::new(ffi::DDCMP_NO_STATION);
        checked(unsafe { ffi::ddcmp_new(&sizes, handle.as_ptr()) })?;
        let frame = vec![0; unsafe { ffi::ddcmp_frame_room(handle.as_ptr()) }];
        Ok(Station {
            handle,
            frame,
            message: vec![0; max.into()],
        })
    }

    /// Returns the sizes.
    pub fn config(&self) -> Config {
        let mut sizes = ffi::ddcmp_config::default();
        checked(unsafe { ffi::ddcmp_config(self.handle.as_ptr(), &mut sizes) }).expect("a station");
        let ffi::ddcmp_config {
            window,
            inbox,
            max,
            syn,
            restart,
        } = sizes;
        Config {
            window,
            inbox,
            max,
            syn,
            restart: restart != 0,
        }
    }

    /// Starts a halted station; returns how many queued messages were dropped.
    pub fn start(&mut self) -> Result<u8, Error> {
        let mut dropped = 0;
        checked(unsafe { ffi::ddcmp_start(self.handle.as_ptr(), &mut dropped) })?;
        Ok(dropped)
    }

    /// Enters maintenance mode; returns how many queued messages were dropped.
    pub fn enter_maintenance(&mut self) -> Result<u8, Error> {
        let mut dropped = 0;
        checked(unsafe { ffi::ddcmp_enter_maintenance(self.handle.as_ptr(), &mut dropped) })?;
        Ok(dropped)
    }

    /// Chooses when messages are acknowledged, if the station is halted and its inbox empty: when
    /// they are taken (then poll), or when they are received, as at first. It stays so over starts.
    pub fn acknowledge_on_take(&mut self, on_take: bool) -> Result<(), Error> {
        checked(unsafe { ffi::ddcmp_acknowledge_on_take(self.handle.as_ptr(), on_take) })
    }

    /// Halts the station.
    pub fn halt(&mut self) {
        checked(unsafe { ffi::ddcmp_halt(self.handle.as_ptr()) }).expect("a station");
    }

    /// Forgets the bytes of the line so far, if the station is halted; returns whether it is.
    pub fn clear_line(&mut self) -> bool {
        unsafe { ffi::ddcmp_clear_line(self.handle.as_ptr()) }
    }

    /// Returns the state.
    pub fn state(&self) -> State {
        State::of(unsafe { ffi::ddcmp_state(self.handle.as_ptr()) }).expect("a station")
    }

    /// Queues a message; returns its number.
    pub fn send(&mut self, message: &[u8]) -> Result<u8, Error> {
        let (mut number, at) = (0, self.handle.as_ptr());
        checked(unsafe { ffi::ddcmp_send(at, message.as_ptr(), message.len(), &mut number) })?;
        Ok(number)
    }

    /// Queues a maintenance message.
    pub fn send_maintenance(&mut self, message: &[u8]) -> Result<(), Error> {
        let at = self.handle.as_ptr();
        checked(unsafe { ffi::ddcmp_send_maintenance(at, message.as_ptr(), message.len()) })
    }

    /// Returns why `send` would refuse a message, if it would.
    pub fn send_refusal(&self, message: &[u8]) -> Option<Error> {
        let at = self.handle.as_ptr();
        checked(unsafe { ffi::ddcmp_send_refusal(at, message.as_ptr(), message.len()) }).err()
    }

    /// Returns whether fewer messages are queued than the window allows.
    pub fn room(&self) -> bool {
        unsafe { ffi::ddcmp_room(self.handle.as_ptr()) }
    }

    /// Returns how many messages are not acknowledged.
    pub fn outgoing(&self) -> u8 {
        unsafe { ffi::ddcmp_outgoing(self.handle.as_ptr()) }
    }

    /// Returns how many messages are in the inbox.
    pub fn waiting(&self) -> u8 {
        unsafe { ffi::ddcmp_waiting(self.handle.as_ptr()) }
    }

    /// Takes the first message of the inbox, if any.
    pub fn take(&mut self) -> Option<Vec<u8>> {
        let (mut taken, out) = (0, &mut self.message);
        checked(unsafe {
            ffi::ddcmp_take(
                self.handle.as_ptr(),
                out.as_mut_ptr(),
                out.len(),
                &mut taken,
            )
        })
        .expect("room for a message");
        Some(out[..taken].to_vec()).filter(|it| !it.is_empty())
    }

    /// Handles received bytes, up to the first that yields a notice: feed the rest again.
    pub fn feed(&mut self, piece: &[u8]) -> Result<Fed, Error> {
        let (mut used, mut notice) = (0, ffi::ddcmp_notice::default());
        let (at, length) = (self.handle.as_ptr(), piece.len());
        checked(unsafe { ffi::ddcmp_feed(at, piece.as_ptr(), length, &mut used, &mut notice) })?;
        let kind = NoticeKind::of(notice.kind.into());
        Ok(Fed {
            used,
            notice: kind.map(|kind| Notice {
                kind,
                count: notice.count,
            }),
        })
    }

    /// Returns the next frame for the line, if any.
    pub fn poll(&mut self) -> Option<&[u8]> {
        let (mut written, out) = (0, &mut self.frame);
        checked(unsafe {
            ffi::ddcmp_poll(
                self.handle.as_ptr(),
                out.as_mut_ptr(),
                out.len(),
                &mut written,
            )
        })
        .expect("room for a frame");
        Some(&out[..written]).filter(|it| !it.is_empty())
    }

    /// Returns whether the reply timer was started since the last call.
    pub fn take_arm(&mut self) -> bool {
        unsafe { ffi::ddcmp_take_arm(self.handle.as_ptr()) }
    }

    /// Returns whether the reply timer is on.
    pub fn timer_on(&self) -> bool {
        unsafe { ffi::ddcmp_timer_on(self.handle.as_ptr()) }
    }

    /// Handles the expiry of the reply timer; returns whether it was on.
    pub fn expire(&mut self) -> bool {
        unsafe { ffi::ddcmp_expire(self.handle.as_ptr()) }
    }

    /// Returns the numbers of messages.
    pub fn numbers(&self) -> Numbers {
        let mut numbers = Numbers::default();
        checked(unsafe { ffi::ddcmp_numbers(self.handle.as_ptr(), &mut numbers) })
            .expect("a station");
        numbers
    }

    /// Returns the counters.
    pub fn counters(&self) -> Counters {
        let mut counters = Counters::default();
        checked(unsafe { ffi::ddcmp_counters(self.handle.as_ptr(), &mut counters) })
            .expect("a station");
        counters
    }
}

impl fmt::Debug for Station {
    fn fmt(&self, f: &mut fmt::Formatter<'_>) -> fmt::Result {
        f.debug_struct("Station")
            .field("state", &self.state())
            .finish_non_exhaustive()
    }
}

impl Drop for Station {
    fn drop(&mut self) {
        // SAFETY: as for the calls above.
        unsafe { ffi::ddcmp_free(self.handle.as_ptr()) }
    }
}
