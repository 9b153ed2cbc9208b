"""DDCMP stations in Python, over libddcmp.so.

A `Station` does no I/O and keeps no time: received bytes go in, frames and notices come out, and
the caller runs the reply timer. A `Line` does all that for a station over a socket or a serial
port while one of its calls waits, a `ThreadLine` on a thread of its own, and an `AsyncLine` over a
transport of asyncio. A `Reader` finds frames in bytes. docs/LIBRARY.md states what a caller owes.

The library is the file that DDCMP_LIBRARY names, else the one that was installed with this module
or that c/build has made beside it, else the one that the loader finds.

Two stations exchange a message in memory:

>>> a, b = Station(), Station()
>>> a.start(), b.start()
(0, 0)
>>> def carry(source: Station, target: Station) -> bool:
...     frame = left = source.poll() or b""
...     while left:
...         used, notice = target.feed(left)
...         left = left[used:]
...     return frame != b""
>>> def exchange() -> None:
...     while carry(a, b) or carry(b, a):
...         pass
>>> exchange()
>>> a.state.text, b.state.text
('Running', 'Running')
>>> a.send(b"Hello")
1
>>> exchange()
>>> b.take(), b.take(), a.outgoing
(b'Hello', None, 0)
>>> a.counters.messages_sent, b.counters.messages_up
(1, 1)

A reader explains bytes in chunks of any size:

>>> data = write_frame(Header(HeaderKind.DATA, count=3, resp=1, num=2), b"abc")
>>> reader = Reader()
>>> for chunk in bytes.fromhex("00050100000001fc55"), data[:5], data[5:]:
...     for item in reader.push(chunk):
...         print(item.offset, item.kind.name, item.header)
1 GOOD Header(kind=<HeaderKind.ACK: 3>, count=0, sub=0, q=False, s=False, resp=0, num=0, addr=1)
9 GOOD Header(kind=<HeaderKind.DATA: 1>, count=3, sub=0, q=False, s=False, resp=1, num=2, addr=1)

A call that is refused raises `Error`, with the code and the text of the C library:

>>> a.send(bytes(1501))
Traceback (most recent call last):
    ...
ddcmp.Error: the message is too long
>>> b.close()
>>> b.state
Traceback (most recent call last):
    ...
ddcmp.Error: the handle has no station or reader
"""
import asyncio
import collections
import contextlib
import ctypes
import enum
import errno
import io
import math
import os
import select
import socket
import sys
import termios
import threading
import time
import types
from typing import (
    Any, AsyncIterator, Callable, Deque, Dict, Iterator, List, NamedTuple, Optional, Protocol, Set,
    Tuple, Type, TypeVar, Union,
)

__version__ = "0.2.0"
Bytes = Union[bytes, bytearray, memoryview]
Self = TypeVar("Self", bound="_Handle")


class _ShortHelp(enum.EnumMeta):
    """Has `help` leave out what an enumeration has of `int`."""

    def __dir__(cls) -> List[str]:
        return ["__doc__", "__module__", *cls.__members__]


class _Number(enum.IntEnum, metaclass=_ShortHelp):
    """A number of the C library; as text, its name in words."""

    def __str__(self) -> str:
        return self.name.replace("_", " ").lower()

    def __format__(self, form: str) -> str:
        return format(str(self), form)


class _Text(_Number):
    """A number of the C library that has a text there."""

    text: str

    def __new__(cls, number: int, text: str = "") -> "_Text":
        it = int.__new__(cls, number)
        it._value_ = number
        it.text = text
        return it

    def __str__(self) -> str:
        return self.text


class Code(_Text):
    """The return codes of the C library."""

    OK = 0, "no error"
    WINDOW = 1, "the window isn't 1 to 255"
    INBOX = 2, "the inbox isn't 1 to 255"
    MAX = 3, "the largest message isn't 1 to 16383"
    SYN = 4, "the SYN fill is above 16"
    MEMORY = 5, "out of memory"
    CLOSED = 6, "the handle has no station or reader"
    OPEN = 7, "the handle has a station or reader already"
    NOT_HALTED = 8, "the station isn't halted"
    UNTAKEN = 9, "the inbox isn't empty"
    WRONG_STATE = 10, "the station doesn't run"
    EMPTY = 11, "the message is empty"
    TOO_LONG = 12, "the message is too long"
    WINDOW_FULL = 13, "the window is full"
    ROOM = 14, "the room is too short"
    LONG_LINE = 15, "the line has 2^64 bytes"
    ABSENT = 16, "there is no such message"
    NULL = 17, "a pointer is null"
    BAD_HEADER = 18, "a number of the header is out of range"
    BAD_COUNT = 19, "the data aren't as many as the header says"


class State(_Text):
    """The state of a station."""

    HALTED = 0, "Halted"
    ISTART = 1, "IStart"
    ASTART = 2, "AStart"
    RUNNING = 3, "Running"
    MAINTENANCE = 4, "Maintenance"


class NoticeKind(_Text):
    """A notice: what happened at a station."""

    RUNNING = 1, "Running"
    RUNNING_AND_HANDED_UP = 2, "RunningAndHandedUp"
    ACKNOWLEDGED = 3, "Acknowledged"
    HANDED_UP = 4, "HandedUp"
    HANDED_UP_AND_ACKNOWLEDGED = 5, "HandedUpAndAcknowledged"
    PEER_STARTS = 6, "PeerStarts"
    PEER_RESTARTED = 7, "PeerRestarted"
    RESTARTED = 8, "Restarted"
    MAINTENANCE_SEEN = 9, "MaintenanceSeen"
    MAINTENANCE_HANDED_UP = 10, "MaintenanceHandedUp"
    MAINTENANCE_DROPPED = 11, "MaintenanceDropped"


class HeaderKind(_Text):
    """The messages by their headers."""

    DATA = 1, "DATA"
    MAINT = 2, "MAINT"
    ACK = 3, "ACK"
    NAK = 4, "NAK"
    REP = 5, "REP"
    STRT = 6, "STRT"
    STACK = 7, "STACK"


class ItemKind(_Number):
    """The kind of an item."""

    GOOD = 1  #: a whole frame with right CRCs
    HEADER_CHECK = 2  #: a header with a wrong CRC: synchronism is lost
    DATA_CHECK = 3  #: a frame whose data have a wrong CRC
    TOO_LONG = 4  #: a frame with more data than the reader's `max`
    FORMAT = 5  #: an invalid header with a right CRC


class Fault(_Number):
    """Why a header is invalid. A reader returns only the first two."""

    BAD_TYPE = 1  #: no control message has this TYPE
    COUNT_ZERO = 2
    NOT_A_START = 3  #: its first byte starts no header
    CHECK = 4  #: a wrong CRC


class Error(Exception):
    """A call was refused, and changed nothing."""

    def __init__(self, code: Code) -> None:
        super().__init__(code.text)
        self.code = code


class Config(NamedTuple):
    """The sizes of a station."""

    window: int = 7  #: most messages sent and not acknowledged: 1 to 255
    inbox: int = 8  #: most messages received and not taken: 1 to 255
    max: int = 1500  #: longest message in bytes: 1 to 16383
    syn: int = 0  #: SYN bytes before each frame: 0 to 16
    restart: bool = False  #: restart when the peer restarts, if the inbox is empty; else halt


class Notice(NamedTuple):
    """What happened at a station, and for how many messages, if that is counted."""

    kind: NoticeKind
    count: int


class Fed(NamedTuple):
    """How many bytes were used, and the notice of the last of them, if any."""

    used: int
    notice: Optional[Notice]


class Numbers(NamedTuple):
    """The highest numbers received in sequence, sent and acknowledged, and the next to send."""

    r: int
    n: int
    a: int
    t: int


class NakCounts(NamedTuple):
    """NAKs by their reasons."""

    header_check: int
    data_check: int
    reply_to_rep: int
    no_buffer: int
    overrun: int
    too_long: int
    format: int
    other: int


class Counters(NamedTuple):
    """The counters. Each stays at its largest value."""

    nak_sent: NakCounts
    nak_received: NakCounts
    rep_sent: int
    rep_received: int
    messages_sent: int
    bytes_sent: int
    messages_again: int  #: retransmitted
    bytes_again: int
    messages_up: int  #: delivered
    bytes_up: int
    expiries: int  #: timeouts of the reply timer
    header_checks: int  #: received errors, by their kinds
    data_checks: int
    too_longs: int
    formats: int


class Header(NamedTuple):
    """A header. Fields that a kind doesn't have are 0 when read and ignored when written."""

    kind: HeaderKind
    count: int = 0  #: of data and maintenance: bytes of data
    sub: int = 0  #: of control: 0 to 63
    q: bool = False
    s: bool = False
    resp: int = 0
    num: int = 0
    addr: int = 1


class Item(NamedTuple):
    """What a reader returns. It has a header if its kind is GOOD, DATA_CHECK or TOO_LONG."""

    offset: int  #: of its first byte
    kind: ItemKind
    header: Optional[Header]
    data: bytes
    fault: Optional[Fault]
    bad_type: int  #: the TYPE if that is the fault


def _struct(of: Any, usual: Any, **others: Any) -> Any:
    """Makes a struct of C with the fields of a NamedTuple, of type `usual` or as in `others`."""
    fields = [(it, others.get(it, usual)) for it in of._fields]
    return type(of.__name__, (ctypes.Structure,), {"_fields_": fields})


_Config = _struct(Config, ctypes.c_uint16, syn=ctypes.c_uint8, restart=ctypes.c_uint8)
_Notice = _struct(Notice, ctypes.c_uint8)
_Numbers = _struct(Numbers, ctypes.c_uint8)
_NakCounts = _struct(NakCounts, ctypes.c_uint32)
_Counters = _struct(Counters, ctypes.c_uint32, nak_sent=_NakCounts, nak_received=_NakCounts)


class _Header(ctypes.Structure):
    _fields_ = [("count", ctypes.c_uint16), ("kind", ctypes.c_uint8),
                *((it, ctypes.c_uint8) for it in Header._fields[2:])]


class _Item(ctypes.Structure):
    _fields_ = [("offset", ctypes.c_uint64), ("header", _Header), ("kind", ctypes.c_uint8),
                ("fault", ctypes.c_uint8), ("bad_type", ctypes.c_uint8)]


# Each call by the types of its result and its arguments: a pointer, a size, a number of 1 to 8
# bytes, nothing (void), a truth.
_TYPES: Dict[str, Any] = {
    "p": ctypes.c_void_p, "n": ctypes.c_size_t, "1": ctypes.c_uint8, "2": ctypes.c_uint16,
    "4": ctypes.c_uint32, "8": ctypes.c_uint64, "v": None, "t": ctypes.c_bool,
}
_CALLS = {
    "new": "4pp", "free": "vp", "config": "4pp", "start": "4pp", "enter_maintenance": "4pp",
    "acknowledge_on_take": "4pt", "halt": "4p", "clear_line": "tp", "state": "4p",
    "send": "4ppnp", "send_maintenance": "4ppn",
    "send_refusal": "4ppn", "room": "tp", "outgoing": "1p", "take": "4ppnp", "waiting": "1p",
    "waiting_length": "np1", "waiting_at": "4p1pnp", "feed": "4ppnpp", "poll": "4ppnp",
    "frame_room": "np", "next_length": "np", "offset": "8p", "open": "np", "held": "np",
    "take_arm": "tp", "timer_on": "tp", "expire": "tp", "numbers": "4pp", "counters": "4pp",
    "reader_new": "42p", "reader_free": "vp", "reader_push": "4ppnpppnp", "reader_open": "np",
    "reader_reset": "4p", "write_frame": "4ppnpnp", "check": "2pn", "version": "4",
}


def _load() -> ctypes.PyDLL:
    """Loads the library. Python's lock is held during its calls, which never wait."""
    name = "libddcmp.so.0"
    home = os.path.dirname(os.path.realpath(__file__))
    # Of `pip install`, of c/build, and of ./install.
    known = [os.path.normpath(f"{home}/{it}/{name}")
             for it in ("ddcmp.libs", "../c/out", "../../../lib")]
    found = next(filter(os.path.exists, known), name)
    try:
        library = ctypes.PyDLL(os.environ.get("DDCMP_LIBRARY") or found)
        for call, types in _CALLS.items():
            function = getattr(library, f"ddcmp_{call}")
            function.restype = _TYPES[types[0]]
            function.argtypes = [_TYPES[it] for it in types[1:]]
    except (OSError, AttributeError) as fault:
        raise ImportError(f"{fault}; DDCMP_LIBRARY names the library") from None
    return library


_LIBRARY = _load()


def _call(name: str, *arguments: Any) -> Any:
    return getattr(_LIBRARY, f"ddcmp_{name}")(*arguments)


def _must(name: str, *arguments: Any) -> None:
    """Makes a call that returns a code, and raises it if it isn't OK."""
    code = _call(name, *arguments)
    if code != Code.OK:
        raise Error(Code(code))


def _bytes(piece: Bytes) -> bytes:
    return piece if isinstance(piece, bytes) else memoryview(piece).tobytes()


def _fit(value: int, bits: int) -> int:
    """Returns a number as C takes it; one that doesn't fit becomes the largest, which C refuses."""
    most = (1 << bits) - 1
    return value if 0 <= value <= most else most


def _values(struct: ctypes.Structure) -> Tuple[Any, ...]:
    return tuple(getattr(struct, it[0]) for it in struct._fields_)


class _Handle:
    """A handle of the C library: freed when closed, or dropped on its thread; never copied."""

    _prefix = ""

    def __init__(self, first: Any) -> None:
        self._thread = threading.get_ident()
        self._at = ctypes.c_void_p()
        _must(f"{self._prefix}new", first, ctypes.byref(self._at))

    def _own(self) -> Any:
        """Returns the address of the handle, for a call on the thread that made it."""
        if threading.get_ident() != self._thread:
            raise RuntimeError("a station or reader stays on the thread that made it")
        if not self._at:
            raise Error(Code.CLOSED)
        return ctypes.byref(self._at)

    def close(self) -> None:
        """Frees the station or reader; does nothing if it was freed."""
        if self._at:
            _call(f"{self._prefix}free", self._own())

    def __enter__(self: Self) -> Self:
        return self

    def __exit__(self, *_: object) -> None:
        self.close()

    def __del__(self) -> None:
        if getattr(self, "_at", None) and threading.get_ident() == self._thread:
            self.close()

    def __reduce_ex__(self, protocol: Any) -> Any:
        raise TypeError("a station or reader can't be copied")


def _query(name: str, what: str, of: Callable[[Any], Any] = lambda it: it) -> Any:
    """Makes a property of what a call without arguments returns."""
    return property(lambda self: of(_call(name, self._own())), doc=what)


class Station(_Handle):
    """A station over a byte stream.

    Call `start`; then `poll` until it returns None, after each `feed`, `send` and `expire`. If
    `take_arm` returns True, set a deadline for the reply timer; when it comes and `timer_on` is
    True, call `expire`. Don't feed while `waiting` is as many as `config.inbox`.

    The sizes are those of a `Config`, or of keywords, as in `Station(max=512)`.
    """

    state: State = _query("state", "The state.", State)
    waiting: int = _query("waiting", "How many messages are in the inbox.")
    room: bool = _query("room", "Whether fewer messages are queued than the window allows.")
    outgoing: int = _query("outgoing", "How many messages are not acknowledged.")
    frame_room: int = _query("frame_room", "The most bytes that a frame has.")
    next_length: int = _query("next_length", "How many bytes `poll` would return.")
    offset: int = _query("offset", "How many bytes were received since the line was cleared.")
    open: int = _query("open", "How many bytes belong to the unfinished frame.")
    held: int = _query("held", "How many bytes are buffered.")
    timer_on: bool = _query("timer_on", "Whether the reply timer is on.")

    def __init__(self, config: Config = Config(), **sizes: int) -> None:
        config = Config(**{**config._asdict(), **sizes})
        window, inbox, longest = (_fit(it, 16) for it in config[:3])
        given = _Config(window, inbox, longest, _fit(config.syn, 8), bool(config.restart))
        super().__init__(ctypes.byref(given))
        self.acknowledges_on_take = False
        self._is_read = False  # a line returned the first message, which is in the inbox still
        self._size = ctypes.c_size_t()
        self._frame = (ctypes.c_uint8 * self.frame_room)()
        self._message = (ctypes.c_uint8 * config.max)()

    def _count(self, name: str) -> int:
        number = ctypes.c_uint8()
        _must(name, self._own(), ctypes.byref(number))
        return number.value

    def _fill(self, name: str, room: Any, *arguments: int) -> Optional[bytes]:
        _must(name, self._own(), *arguments, room, len(room), ctypes.byref(self._size))
        return ctypes.string_at(room, self._size.value) if self._size.value else None

    def start(self) -> int:
        """Starts a halted station; returns how many queued messages were dropped."""
        return self._count("start")

    def enter_maintenance(self) -> int:
        """Enters maintenance mode; returns how many queued messages were dropped."""
        return self._count("enter_maintenance")

    def acknowledge_on_take(self, on_take: bool = True) -> None:
        """Chooses when messages are acknowledged, if the station is halted and its inbox empty:
        when `take` takes them (then poll), or when they are received, as at first. It stays so over
        starts."""
        _must("acknowledge_on_take", self._own(), on_take)
        self.acknowledges_on_take = on_take

    def halt(self) -> None:
        """Halts the station."""
        _must("halt", self._own())

    def clear_line(self) -> bool:
        """Forgets the bytes of the line so far, if the station is halted; returns whether it is."""
        return bool(_call("clear_line", self._own()))

    def send(self, message: Bytes) -> int:
        """Queues a message; returns its number."""
        data, number = _bytes(message), ctypes.c_uint8()
        _must("send", self._own(), data, len(data), ctypes.byref(number))
        return number.value

    def send_maintenance(self, message: Bytes) -> None:
        """Queues a maintenance message."""
        data = _bytes(message)
        _must("send_maintenance", self._own(), data, len(data))

    def send_refusal(self, message: Bytes) -> Code:
        """Returns why `send` would refuse a message; OK if it wouldn't."""
        data = _bytes(message)
        return Code(_call("send_refusal", self._own(), data, len(data)))

    def take(self) -> Optional[bytes]:
        """Takes the first message of the inbox, if any."""
        self._is_read = False
        return self._fill("take", self._message)

    def _read(self) -> bytes:
        """Returns the first message for a line, and takes it if that doesn't acknowledge it."""
        if not self.acknowledges_on_take:
            return self.take() or b""
        self._is_read = True
        return self.waiting_at(0)

    def waiting_length(self, i: int) -> int:
        """Returns the length of message `i` of the inbox, from 0; 0 if there is none."""
        return int(_call("waiting_length", self._own(), _fit(i, 8)))

    def waiting_at(self, i: int) -> bytes:
        """Returns message `i` of the inbox, from 0, which stays there."""
        return self._fill("waiting_at", self._message, _fit(i, 8)) or b""

    def feed(self, piece: Bytes) -> Fed:
        """Handles received bytes, up to the first that yields a notice: feed the rest again."""
        data, notice = _bytes(piece), _Notice()
        _must("feed", self._own(), data, len(data), ctypes.byref(self._size), ctypes.byref(notice))
        kind = NoticeKind(notice.kind) if notice.kind else None
        return Fed(self._size.value, Notice(kind, notice.count) if kind else None)

    def poll(self) -> Optional[bytes]:
        """Returns the next frame for the line, if any."""
        return self._fill("poll", self._frame)

    def take_arm(self) -> bool:
        """Returns whether the reply timer was started since the last call."""
        return bool(_call("take_arm", self._own()))

    def expire(self) -> bool:
        """Handles the expiry of the reply timer; returns whether it was on."""
        return bool(_call("expire", self._own()))

    @property
    def config(self) -> Config:
        """The sizes."""
        sizes = _Config()
        _must("config", self._own(), ctypes.byref(sizes))
        return Config(*_values(sizes)[:4], bool(sizes.restart))

    @property
    def numbers(self) -> Numbers:
        """The numbers of messages."""
        numbers = _Numbers()
        _must("numbers", self._own(), ctypes.byref(numbers))
        return Numbers(*_values(numbers))

    @property
    def counters(self) -> Counters:
        """The counters."""
        it = _Counters()
        _must("counters", self._own(), ctypes.byref(it))
        sent, received, *others = _values(it)
        return Counters(NakCounts(*_values(sent)), NakCounts(*_values(received)), *others)


class Reader(_Handle):
    """A reader of frames with at most `max` bytes of data."""

    _prefix = "reader_"
    open: int = _query("reader_open", "How many bytes belong to the unfinished frame.")

    def __init__(self, max: int = 16383) -> None:
        super().__init__(_fit(max, 16))
        self._data = (ctypes.c_uint8 * max)()

    def push(self, piece: Bytes) -> List[Item]:
        """Handles bytes of a line, in chunks of any size; returns the items that end in them."""
        left = _bytes(piece)
        items: List[Item] = []
        used, size, it = ctypes.c_size_t(), ctypes.c_size_t(), _Item()
        while left:
            _must("reader_push", self._own(), left, len(left), ctypes.byref(used), ctypes.byref(it),
                  self._data, len(self._data), ctypes.byref(size))
            left = left[used.value:]
            if it.kind:
                items.append(_item(it, ctypes.string_at(self._data, size.value)))
        return items

    def reset(self) -> None:
        """Begins again, for the bytes of another line."""
        _must("reader_reset", self._own())


def _item(it: Any, data: bytes) -> Item:
    header = None
    if it.header.kind:
        count, kind, sub, q, s, *others = _values(it.header)
        header = Header(HeaderKind(kind), count, sub, bool(q), bool(s), *others)
    fault = Fault(it.fault) if it.fault else None
    return Item(it.offset, ItemKind(it.kind), header, data, fault, it.bad_type)


def write_frame(header: Header, data: Bytes = b"") -> bytes:
    """Returns a frame as it goes on the line, with the CRCs of its header and its data."""
    piece, size = _bytes(data), ctypes.c_size_t()
    if any(not 0 <= it <= 255 for it in header[2:]):
        raise Error(Code.BAD_HEADER)
    it = _Header(_fit(header.count, 16), _fit(header.kind, 8), *header[2:])
    room = (ctypes.c_uint8 * (len(piece) + 10))()
    _must("write_frame", ctypes.byref(it), piece, len(piece), room, len(room), ctypes.byref(size))
    return ctypes.string_at(room, size.value)


def check(text: Bytes) -> int:
    """Returns the CRC (block check) of a text."""
    data = _bytes(text)
    return int(_call("check", data, len(data)))


class _HasDescriptor(Protocol):
    def fileno(self) -> int: ...


_BEGUN = (State.RUNNING, State.MAINTENANCE)


class Line:
    """A started station over a file descriptor: a socket, a pipe or a `serial_port`.

    While one of its calls waits, it writes frames, reads bytes, runs the reply timer of `timer`
    seconds and calls `notice` with each notice. It makes the descriptor non-blocking, and doesn't
    close it.

    A call raises TimeoutError if it wasn't done within `timeout` seconds (None: it waits forever),
    EOFError if the line has ended, ConnectionResetError if the station is halted, as when the peer
    restarted, and OSError if the line failed. While the inbox is full nothing is read: then `send`
    and `flush` raise BlockingIOError, and messages must be received first.

    As a context manager it flushes on exit, without a timeout, unless an exception was raised.

    >>> import socket, threading
    >>> here, there = socket.socketpair()
    >>> def echo() -> None:
    ...     with Station() as station:
    ...         station.start()
    ...         with Line(station, there) as line:
    ...             line.send(line.receive(10)[::-1], 10)
    >>> thread = threading.Thread(target=echo)
    >>> thread.start()
    >>> with Station() as station:
    ...     _ = station.start()
    ...     line = Line(station, here)
    ...     _ = line.send(b"stressed", 10)
    ...     print(line.receive(10))
    ...     line.flush(10)
    ...     thread.join()
    b'desserts'
    """

    def __init__(self, station: Station, transport: Union[int, _HasDescriptor], timer: float = 3.0,
                 notice: Optional[Callable[[Notice], object]] = None) -> None:
        self.station, self.transport, self.timer, self.notice = station, transport, timer, notice
        self._descriptor = transport if isinstance(transport, int) else transport.fileno()
        os.set_blocking(self._descriptor, False)
        self._poller = select.poll()
        self._inbox = station.config.inbox
        self._read = self._frame = b""  # not fed yet, and not written yet
        self._expiry = time.monotonic() + timer

    def __enter__(self) -> "Line":
        return self

    def __exit__(self, kind: Optional[Type[BaseException]], *_: object) -> None:
        if kind is None:
            self.flush()

    def send(self, message: Bytes, timeout: Optional[float] = None) -> int:
        """Queues a message once the station runs and the window has room; returns its number."""
        self._until(lambda: self.station.room and self.station.state in _BEGUN, timeout)
        number = self.station.send(message)
        self._write()
        return number

    def receive(self, timeout: Optional[float] = None) -> bytes:
        """Waits for the next received message, and returns it. If the station acknowledges on take,
        it first takes the message that it returned before, which is acknowledged only then."""
        self._take()
        self._until(lambda: self.station.waiting > 0, timeout)
        return self.station._read()

    def _take(self) -> None:
        """Takes the message that `receive` returned, if it is in the inbox still."""
        if self.station._is_read:
            self.station.take()
            self._write()

    def flush(self, timeout: Optional[float] = None) -> None:
        """Waits until each message is acknowledged and each frame is written. It takes the message
        that was returned, as `receive` does."""
        self._take()
        self._until(lambda: not self.station.outgoing and not self._frame, timeout)

    def __iter__(self) -> Iterator[bytes]:
        """Yields received messages until the line ends."""
        return _until_end(self.receive)

    def _until(self, is_done: Callable[[], bool], timeout: Optional[float]) -> None:
        """Runs the line until something is done."""
        end = math.inf if timeout is None else time.monotonic() + timeout
        is_late = False
        while True:
            self._feed()
            self._write()
            if is_done():
                return
            if self.station.state == State.HALTED:
                raise ConnectionResetError("the station is halted")
            if self._is_full() and not self._frame:
                raise BlockingIOError("the inbox is full")
            if is_late:
                raise TimeoutError("the line took too long")
            is_late = self._wait(end)

    def _wait(self, end: float) -> bool:
        """Waits for the line, the reply timer or the end; returns whether the end has come."""
        wanted = (0 if self._is_full() else select.POLLIN) | (select.POLLOUT if self._frame else 0)
        self._poller.register(self._descriptor, wanted)
        if not wanted:  # an end would be reported at once
            self._poller.unregister(self._descriptor)
        first = min(end, self._expiry if self.station.timer_on else math.inf)
        wait = max(0, math.ceil((first - time.monotonic()) * 1000)) if first < math.inf else None
        for descriptor, event in self._poller.poll(wait):
            if descriptor == self._descriptor and event & ~select.POLLOUT:
                self._receive()
        return time.monotonic() >= end

    def _receive(self) -> None:
        """Reads once, if all that was read is fed."""
        if self._read:
            return
        try:
            self._read = os.read(self._descriptor, 4096)
        except BlockingIOError:
            return
        except OSError as fault:
            if fault.errno != errno.EIO:  # a pseudo-terminal whose other side is closed
                raise
        if not self._read:
            raise EOFError("the line has ended")

    def _feed(self) -> None:
        """Feeds what was read while the inbox has room, and keeps the reply timer."""
        while self._read and not self._is_full():
            used, notice = self.station.feed(self._read)
            self._read = self._read[used:]
            if notice and self.notice:
                self.notice(notice)
        if not self._arm() and self.station.timer_on and time.monotonic() >= self._expiry:
            self.station.expire()
            self._expiry = time.monotonic() + self.timer

    def _write(self) -> None:
        """Writes the station's frames as far as the line takes them."""
        while True:
            self._frame = self._frame or self.station.poll() or b""
            self._arm()
            if not self._frame:
                return
            try:
                self._frame = self._frame[os.write(self._descriptor, self._frame):]
            except BlockingIOError:
                return
            except BrokenPipeError:  # the end comes after what is still to be read
                self._frame = b""
                return

    def _arm(self) -> bool:
        """Sets the deadline of the reply timer if it was started; returns whether it was."""
        is_started = self.station.take_arm()
        if is_started:
            self._expiry = time.monotonic() + self.timer
        return is_started

    def _is_full(self) -> bool:
        return self.station.waiting >= self._inbox


def _until_end(receive: Callable[[], bytes]) -> Iterator[bytes]:
    while True:
        try:
            message = receive()
        except EOFError:
            return
        yield message


class _ReadingLine(Line):
    """A line that, if its station acknowledges on take, reads on until what it sent is
    acknowledged: the station refuses what its inbox has no room for, and the peer repeats that."""

    def _is_full(self) -> bool:
        reads_on = self.station.acknowledges_on_take and self.station.outgoing
        return super()._is_full() and not reads_on


class ThreadLine:
    """A line with a station of its own, which a thread runs while the program is busy.

    The calls are those of `Line`, for any thread. A call raises what ended the line: EOFError if
    the line has ended or was closed, ConnectionResetError if the station is halted, as when the
    peer has restarted, an OSError of the transport, or what `notice` has raised. That is called on
    the line's thread, and can't wait for the line. Reading pauses while as many messages as the
    inbox has are not received yet and all that was sent is acknowledged.

    With `acknowledge_on_take`, `receive` and `flush` take the message that `receive` returned
    before, which is acknowledged only then, and not by `close`. Let one thread receive, and choose
    an inbox larger than the peer's window.

    As a context manager it flushes on exit, unless an exception was raised, and closes. A program
    that ends without that doesn't wait for the thread.

    >>> here, there = socket.socketpair()
    >>> with ThreadLine(here, max=512) as one, ThreadLine(there, max=512) as other:
    ...     one.send(b"Hello", 10)
    ...     print(other.receive(10))
    b'Hello'
    """

    def __init__(self, transport: Union[int, _HasDescriptor], config: Config = Config(),
                 timer: float = 3.0, notice: Optional[Callable[[Notice], object]] = None,
                 acknowledge_on_take: bool = False, **sizes: int) -> None:
        self.config = Config(**{**config._asdict(), **sizes})
        self.state: Optional[State] = None  #: that of the station when the thread last looked
        self.acknowledges_on_take = acknowledge_on_take
        self._changed = threading.Condition()  # for all below
        self._queued: Deque[bytes] = collections.deque()
        self._received: Deque[bytes] = collections.deque()  # on take, what is in the inbox
        self._is_read, self._taken = False, 0  # its first was returned; not taken there yet
        self._is_flushed, self._is_closing = True, False
        self._fault: Optional[BaseException] = None
        self._trace: Optional[types.TracebackType] = None  # which grows whenever it is raised
        self._wakes, self._waker = socket.socketpair()
        self._wakes.setblocking(False)
        self._waker.setblocking(False)
        words = transport, timer, notice
        self._thread = threading.Thread(target=self._run, args=words, daemon=True)
        self._thread.start()
        with self._once(lambda: self.state is not None, None):
            pass

    def __enter__(self) -> "ThreadLine":
        return self

    def __exit__(self, kind: Optional[Type[BaseException]], *_: object) -> None:
        try:
            if kind is None:
                self.flush()
        finally:
            self.close()

    def send(self, message: Bytes, timeout: Optional[float] = None) -> None:
        """Queues a message for the station once fewer than the window are queued."""
        data, window = _bytes(message), self.config.window
        if not 0 < len(data) <= self.config.max:
            raise Error(Code.TOO_LONG if data else Code.EMPTY)
        with self._once(lambda: not self._fault and len(self._queued) < window, timeout):
            self._queued.append(data)
            self._is_flushed = False

    def receive(self, timeout: Optional[float] = None) -> bytes:
        """Waits for the next received message, and returns it."""
        self._take()
        with self._once(lambda: len(self._received) > 0, timeout):
            self._is_read = self.acknowledges_on_take
            return self._received[0] if self._is_read else self._received.popleft()

    def _take(self) -> None:
        """Has the thread take the message that `receive` returned."""
        with self._changed:
            if self._is_read:
                self._received.popleft()
                self._is_read = False
                self._taken += 1
                self._wake()

    def flush(self, timeout: Optional[float] = None) -> None:
        """Waits until each message is acknowledged and each frame is written."""
        self._take()
        with self._once(lambda: self._is_flushed and not (self._taken and not self._fault),
                        timeout):
            pass

    def __iter__(self) -> Iterator[bytes]:
        """Yields received messages until the line ends."""
        return _until_end(self.receive)

    def close(self) -> None:
        """Ends the thread, and leaves the transport open: what isn't acknowledged is lost."""
        if sys.is_finalizing():  # there are no other threads any more
            return
        with self._changed:
            self._is_closing = True
            self._wake()
        if threading.current_thread() is not self._thread:
            self._thread.join()

    @contextlib.contextmanager
    def _once(self, is_done: Callable[[], bool], timeout: Optional[float]) -> Iterator[None]:
        """Waits until something is done, and wakes the thread after what is done then."""
        with self._changed:
            if threading.current_thread() is not self._thread:
                self._changed.wait_for(lambda: is_done() or self._fault, timeout)
            elif not is_done():
                raise RuntimeError("a line can't be waited for on its own thread")
            if not is_done():
                if not self._fault:
                    raise TimeoutError("the line took too long")
                raise self._fault.with_traceback(self._trace)
            yield
            self._wake()

    def _wake(self) -> None:
        with contextlib.suppress(OSError):  # it will wake, or has ended
            self._waker.send(b"\0")

    def _run(self, *words: Any) -> None:
        """Runs the line until it ends."""
        fault: BaseException = EOFError("the line has ended")
        try:
            with Station(self.config) as station:
                station.acknowledge_on_take(self.acknowledges_on_take)
                station.start()
                self._turn(_ReadingLine(station, *words))
        except (OSError, EOFError, Error) as it:
            fault = it
        except BaseException as it:
            fault = it
            raise
        finally:
            with self._changed:
                self._fault, self._trace = fault, fault.__traceback__
                self._changed.notify_all()
                self._wakes.close()
                self._waker.close()

    def _turn(self, line: Line) -> None:
        """Runs the line, and exchanges messages with the program, until it ends or is closed."""
        line._poller.register(self._wakes, select.POLLIN)
        try:
            while True:
                line._feed()
                line._write()
                with contextlib.suppress(BlockingIOError):
                    self._wakes.recv(4096)  # before it looks at what it was woken for
                if self._is_closing:
                    return
                if not self._exchange(line):
                    line._wait(math.inf)
        finally:
            with self._changed:
                while self._fetch(line.station):
                    pass

    def _fetch(self, station: Station) -> bool:
        """Moves a received message to the program, or takes one; returns whether there was one."""
        if self._taken:
            self._taken -= 1
            return station.take() is not None
        copied = len(self._received) if self.acknowledges_on_take else 0
        if station.waiting == copied:
            return False
        is_copy = self.acknowledges_on_take
        self._received.append(station.waiting_at(copied) if is_copy else station.take() or b"")
        return True

    def _exchange(self, line: Line) -> bool:
        """Moves messages between the station and the program; returns whether there were any."""
        station, moved = line.station, False
        with self._changed:
            self.state = station.state
            while self._queued and station.room and self.state == State.RUNNING:
                station.send(self._queued.popleft())
                moved = True
            while len(self._received) < self.config.inbox or station.outgoing:
                if not self._fetch(station):
                    break
                moved = True
            self._is_flushed = not (moved or self._queued or station.outgoing or line._frame)
            self._changed.notify_all()
        if self.state == State.HALTED:
            raise ConnectionResetError("the station is halted")
        return moved


class AsyncLine(asyncio.Protocol):
    """A station over a transport of asyncio, such as a connection; it runs while its loop does.

    Start the station first. A call raises what ended the line: EOFError if the line has ended or
    was closed, ConnectionResetError if the station is halted, as when the peer has restarted, an
    OSError of the transport, or what `notice` has raised. Reading pauses while as many messages as
    the inbox has are not received yet and all that was sent is acknowledged.

    If the station acknowledges on take, `receive` and `flush` take the message that `receive`
    returned before, which is acknowledged only then, and not by `close`. Let one task receive, and
    choose an inbox larger than the peer's window.

    As a context manager it flushes on exit, unless an exception was raised, and closes.

    >>> async def echo(line: AsyncLine) -> None:
    ...     async for message in line:
    ...         await line.send(message[::-1])
    >>> async def main() -> None:
    ...     lines = []
    ...     for end in socket.socketpair():
    ...         station = Station(max=512)
    ...         station.start()
    ...         loop = asyncio.get_running_loop()
    ...         _, line = await loop.create_connection(lambda: AsyncLine(station), sock=end)
    ...         lines.append(line)
    ...     echoes = asyncio.create_task(echo(lines[1]))
    ...     async with lines[0] as line:
    ...         await line.send(b"stressed")
    ...         print(await line.receive())
    ...     await echoes
    >>> asyncio.run(main())
    b'desserts'
    """

    def __init__(self, station: Station, timer: float = 3.0,
                 notice: Optional[Callable[[Notice], object]] = None) -> None:
        self.station, self.timer, self.notice = station, timer, notice
        self._inbox = station.config.inbox
        self._received: Deque[bytes] = collections.deque()
        self._waiters: Set["asyncio.Future[None]"] = set()
        self._transport: Optional[asyncio.Transport] = None
        self._expiry: Optional[asyncio.TimerHandle] = None
        self._is_writable = True
        self._fault: Optional[BaseException] = ConnectionError("the line isn't connected")
        self._trace: Optional[types.TracebackType] = None  # which grows whenever it is raised

    async def __aenter__(self) -> "AsyncLine":
        return self

    async def __aexit__(self, kind: Optional[Type[BaseException]], *_: object) -> None:
        try:
            if kind is None:
                await self.flush()
        finally:
            self.close()
            await asyncio.sleep(0)  # the loop closes the connection meanwhile

    async def send(self, message: Bytes) -> int:
        """Queues a message once the station runs and the window has room; returns its number."""
        await self._until(lambda: not self._fault and self.station.room
                          and self.station.state in _BEGUN)
        number = self.station.send(message)
        self._run()
        return number

    async def receive(self) -> bytes:
        """Waits for the next received message, and returns it."""
        self._take()
        await self._until(lambda: bool(self._received or self.station.waiting))
        message = self._received.popleft() if self._received else self.station._read()
        self._run()
        return message

    def _take(self) -> None:
        """Takes the message that `receive` returned, if it is in the inbox still."""
        if self.station._is_read:
            self.station.take()
            self._run()

    async def flush(self) -> None:
        """Waits until each message is acknowledged and each frame is written."""
        self._take()
        await self._until(lambda: not self.station.outgoing and self._is_writable)

    async def __aiter__(self) -> AsyncIterator[bytes]:
        """Yields received messages until the line ends."""
        while True:
            try:
                message = await self.receive()
            except EOFError:
                return
            yield message

    def close(self) -> None:
        """Closes the transport: what isn't acknowledged is lost."""
        self.connection_lost(None)
        if self._transport:
            self._transport.close()

    async def _until(self, is_done: Callable[[], bool]) -> None:
        """Waits until something is done."""
        while not is_done():
            if self._fault:
                raise self._fault.with_traceback(self._trace)
            if self.station.state == State.HALTED:
                raise ConnectionResetError("the station is halted")
            waiter = asyncio.get_running_loop().create_future()
            self._waiters.add(waiter)
            try:
                await waiter
            finally:
                self._waiters.remove(waiter)

    def connection_made(self, transport: Any) -> None:
        transport.set_write_buffer_limits(1, 0)  # with 0, one of TLS pauses for ever
        self._transport, self._fault = transport, None
        self._run()

    def connection_lost(self, exc: Optional[BaseException]) -> None:
        if not self._fault:
            is_end = exc is None or isinstance(exc, BrokenPipeError)
            self._fault = EOFError("the line has ended") if is_end else exc
            self._trace = self._fault and self._fault.__traceback__
        if self._expiry:
            self._expiry.cancel()
        self._wake()

    def eof_received(self) -> None:
        self.connection_lost(None)  # the transport may wait for a peer that doesn't read

    def pause_writing(self) -> None:
        self._is_writable = False

    def resume_writing(self) -> None:
        self._is_writable = True
        self._run()

    def data_received(self, data: bytes) -> None:
        self._run(data)

    def _run(self, data: bytes = b"", is_late: bool = False) -> None:
        """Feeds received bytes, and writes frames while the transport takes them."""
        if self._fault or not self._transport:
            return
        try:
            for at in range(0, len(data), 4096):
                self._feed(data[at:at + 4096])
            if is_late and self.station.timer_on:
                self.station.expire()
            self._write(self._transport)
        except Exception as fault:
            self.connection_lost(fault)
            self._transport.abort()
            raise
        is_idle = not self.station.outgoing and self.station.state in _BEGUN
        if len(self._received) + self.station.waiting < self._inbox or not is_idle:
            self._transport.resume_reading()
        else:
            self._transport.pause_reading()
        self._wake()

    def _wake(self) -> None:
        for it in self._waiters:
            if not it.done():
                it.set_result(None)

    def _feed(self, piece: bytes) -> None:
        while piece and not self._fault:
            used, notice = self.station.feed(piece)
            piece = piece[used:]
            if not self.station.acknowledges_on_take:
                self._received += iter(self.station.take, None)
            self._arm()
            if notice and self.notice:
                self.notice(notice)

    def _write(self, transport: asyncio.Transport) -> None:
        while self._is_writable and not transport.is_closing():
            frame = self.station.poll()
            self._arm()
            if not frame:
                return
            transport.write(frame)

    def _arm(self) -> None:
        """Sets the deadline of the reply timer if it was started."""
        if self.station.take_arm():
            if self._expiry:
                self._expiry.cancel()
            loop = asyncio.get_running_loop()
            self._expiry = loop.call_later(self.timer, self._run, b"", True)


def serial_port(path: str, speed: int = 9600) -> io.FileIO:
    """Opens a serial port: raw, 8 bits without parity, no flow control."""
    rate = getattr(termios, f"B{speed}", None)
    if rate is None:
        raise ValueError(f"no serial port has the speed {speed}")
    flags = os.O_RDWR | os.O_NOCTTY | os.O_NONBLOCK
    port = io.FileIO(os.open(path, flags), "r+")
    characters = termios.tcgetattr(port)[6]
    characters[termios.VMIN], characters[termios.VTIME] = 1, 0
    control = termios.CS8 | termios.CREAD | termios.CLOCAL
    termios.tcsetattr(port, termios.TCSANOW, [0, 0, control, 0, rate, rate, characters])
    return port
