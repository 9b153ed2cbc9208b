"""The lines of python/ddcmp.py that run by themselves, on a thread and in asyncio: messages
both ways, peers that leave, restart or don't read, callbacks, closes, and programs that end."""
import asyncio
import contextlib
import fcntl
import os
import select
import socket
import subprocess
import sys
import termios
import threading
import time

import pytest

from . import test_python
from .process import holds_within
from .test_python import (
    SOON, by_hand, child, exchange, lingers, lossy_line, messages_of, module, must_end_well,
    over_library, pair, raised, refused, started)
from .wire import ack, rep

pytestmark = pytest.mark.limit(240)
PRINTED = pytest.mark.filterwarnings("ignore::pytest.PytestUnhandledThreadExceptionWarning")
SHARED = module, pair  # fixtures


@pytest.fixture(autouse=True)
def known(module):
    global ddcmp
    ddcmp = test_python.ddcmp


class Awaited:
    """An AsyncLine in a loop on a thread, with the calls of a ThreadLine."""

    def __init__(self, transport, *words, **sizes):
        self.loop, self.faults = asyncio.new_event_loop(), []
        self.loop.set_exception_handler(lambda _, it: self.faults.append(it.get("exception")))
        self.thread = threading.Thread(target=self.loop.run_forever, daemon=True)
        self.thread.start()
        self.line = self.wait(self.made(transport, sizes, words))

    async def made(self, transport, sizes, words):
        on_take = sizes.pop("acknowledge_on_take", False)
        station = ddcmp.Station(**sizes)
        station.acknowledge_on_take(on_take)
        station.start()
        here = transport.dup()
        loop = asyncio.get_running_loop()
        return (await loop.create_connection(
            lambda: ddcmp.AsyncLine(station, *words), sock=here))[1]

    def wait(self, work, timeout=None):
        work = asyncio.wait_for(work, timeout)
        return asyncio.run_coroutine_threadsafe(work, self.loop).result()

    def __enter__(self):
        return self

    def __exit__(self, kind, *_):
        try:
            if kind is None:
                self.flush()
        finally:
            self.close()

    def __iter__(self):
        async def all_of_it():
            return [it async for it in self.line]
        return iter(self.wait(all_of_it()))

    def send(self, message, timeout=None):
        return self.wait(self.line.send(message), timeout)

    def receive(self, timeout=None):
        return self.wait(self.line.receive(), timeout)

    def flush(self, timeout=None):
        return self.wait(self.line.flush(), timeout)

    def close(self):
        self.loop.call_soon_threadsafe(self.line.close)
        if threading.current_thread() is not self.thread:
            self.wait(asyncio.sleep(0))


@pytest.fixture(params=["ThreadLine", "AsyncLine"])
def kind(request):
    """How such a line is made: its transport, the reply timer, what is called, and sizes."""
    if request.param == "AsyncLine":
        return Awaited
    return lambda transport, *words, **sizes: ddcmp.ThreadLine(
        transport, ddcmp.Config(), *words, **sizes)


both_modes = pytest.mark.parametrize("on_take", [False, True], ids=["arrives", "on_take"])


def late(call, *arguments):
    """A call times out."""
    with pytest.raises((TimeoutError, asyncio.TimeoutError)):
        call(*arguments, 0.2)


def test_several_threads(kind, pair):
    """Two stations in one program, one of them with several senders: each message arrives once,
    those of a sender in their order."""
    with kind(pair[0], 3, None, window=3) as one, kind(pair[1], 3, None, inbox=2) as other:
        senders = [threading.Thread(target=lambda i=i: [
            one.send(bytes([i, n]), SOON) for n in range(100)]) for i in range(3)]
        for it in senders:
            it.start()
        found = [other.receive(SOON) for _ in range(300)]
        one.flush(SOON)
    for i in range(3):
        assert [it[1] for it in found if it[0] == i] == list(range(100))


@both_modes
def test_both_ways(kind, on_take):
    mine, others = messages_of(300), messages_of(200)
    here, there = socket.socketpair()
    pid = child([here], lingers, there, others, mine, 5)
    there.close()
    with kind(here, 5, acknowledge_on_take=on_take) as line:
        exchange(line, mine, others)
    here.close()
    must_end_well(pid)


@both_modes
def test_lost_bytes_without_calls(kind, on_take):
    """A line that loses chunks, and a program that makes no call until its peer has all."""
    mine, others = messages_of(60), messages_of(60)
    with lossy_line(mine, others) as (here, told), kind(
            here, 0.05, acknowledge_on_take=on_take) as line:
        exchange(line, mine, others)
        assert select.select([told], [], [], SOON)[0]


def test_busy_program(kind, pair):
    """A peer is acknowledged while the program does something else."""
    with kind(pair[0]), started(pair[1], 5) as line:
        for it in messages_of(8):
            line.send(it, SOON)
        line.flush(SOON)
        assert line.station.counters.expiries == 0


def test_nobody_receives(kind, pair):
    """Reading pauses when the inbox is full, and goes on for the sake of what was sent."""
    with kind(pair[0], 3, None, window=2) as one, kind(pair[1], 3, None, inbox=2) as other:
        count = 0
        with contextlib.suppress(TimeoutError, asyncio.TimeoutError):
            while count < 1000:
                one.send(bytes([count % 256]), 0.2)
                count += 1
        assert count < 20
        other.send(b"back", SOON)
        assert one.receive(SOON) == b"back"
        other.flush(SOON)
        assert [other.receive(SOON) for _ in range(count)] == [bytes([it]) for it in range(count)]
        late(other.receive)


@contextlib.contextmanager
def running_by_hand(there, **sizes):
    """A station that is run by hand, once it runs."""
    there.setblocking(False)
    with ddcmp.Station(**sizes) as other:
        other.start()
        until = time.monotonic() + SOON
        while other.state != ddcmp.State.RUNNING and time.monotonic() < until:
            by_hand(there, other)
        yield other


@both_modes
def test_peer_leaves(kind, pair, on_take):
    """What the peer sent before is received, and then each call reports the end."""
    line, there = kind(pair[0], acknowledge_on_take=on_take), pair[1]
    with running_by_hand(there) as other:
        other.send(b"last")
        by_hand(there, other)
        there.shutdown(socket.SHUT_RDWR)
    assert line.receive(SOON) == b"last"
    refused(EOFError, "the line has ended", line.receive, SOON)
    refused(EOFError, "the line has ended", line.send, b"x", SOON)
    assert [line.flush(SOON), list(line)] == [None, []]
    line.close()


def test_acknowledged_on_take(kind, pair):
    """A message is acknowledged by the receive or flush after that which returned it: by no frame
    before, and not by a close."""
    line, there = kind(pair[0], acknowledge_on_take=True), pair[1]
    with running_by_hand(there) as other:
        def runs(holds):
            return holds_within(SOON, lambda: [by_hand(there, other), holds()][1])
        for it in b"1", b"2", b"3":
            other.send(it)
        by_hand(there, other)
        assert line.receive(SOON) == b"1"
        line.send(b"x", SOON)
        assert runs(lambda: other.counters.messages_up == 1) and other.outgoing == 3
        assert line.receive(SOON) == b"2" and runs(lambda: other.outgoing == 2)
        line.flush(SOON)
        by_hand(there, other)
        assert other.outgoing == 1 and line.receive(SOON) == b"3"
        line.close()
        by_hand(there, other)
        assert other.outgoing == 1


def test_flush_writes_acknowledgements(pair, monkeypatch):
    """A flush waits until what it took is acknowledged on the line, however slow its thread is."""
    line, there = ddcmp.ThreadLine(pair[0], acknowledge_on_take=True), pair[1]
    write = ddcmp.Line._write
    with running_by_hand(there) as other:
        other.send(b"1")
        by_hand(there, other)
        assert line.receive(SOON) == b"1"
        monkeypatch.setattr(ddcmp.Line, "_write", lambda it: [time.sleep(0.05), write(it)])
        line.flush(SOON)
        by_hand(there, other)
        assert not other.outgoing
    line.close()


def sends(transport, messages):
    with started(transport) as line:
        for it in messages:
            line.send(it, SOON)
        line.flush(SOON)


def test_iteration_takes(kind):
    here, there = socket.socketpair()
    messages = messages_of(20)
    pid = child([here], sends, there, messages)
    there.close()
    with kind(here, acknowledge_on_take=True) as line:
        assert list(line) == messages
    must_end_well(pid)


def test_full_inbox_on_take(kind, pair):
    """What is sent is acknowledged although the inbox is full; then all is received."""
    sent = [bytes([it]) for it in range(7)]
    with kind(pair[0]) as one, kind(pair[1], acknowledge_on_take=True, inbox=2) as other:
        for it in sent:
            one.send(it, SOON)
        assert other.receive(SOON) == sent[0]
        time.sleep(0.1)
        other.send(b"x", SOON)
        other.flush(SOON)
        assert [one.receive(SOON), *(other.receive(SOON) for _ in sent[1:])] == [b"x", *sent[1:]]


def test_nobody_receives_on_take(kind, pair):
    """Reading pauses while the inbox is full: a peer that sends on isn't refused all the time."""
    line, there = kind(pair[0], acknowledge_on_take=True, inbox=2), pair[1]
    with running_by_hand(there) as other:
        for it in range(7):
            other.send(bytes([it]))
        until = time.monotonic() + 0.3
        while time.monotonic() < until:
            by_hand(there, other)
        assert other.counters.nak_received.no_buffer <= 1
    line.close()


def test_taken_by_the_program(pair):
    """What an AsyncLine returned and the program then took itself isn't taken twice."""
    line, there = Awaited(pair[0], acknowledge_on_take=True), pair[1]

    async def takes():
        return line.line.station.take()
    with running_by_hand(there) as other:
        for it in b"1", b"2":
            other.send(it)
        by_hand(there, other)
        found = [line.receive(SOON), line.wait(takes(), SOON), line.receive(SOON)]
    assert found == [b"1", b"1", b"2"]
    line.close()


def test_peer_leaves_a_full_inbox(pair):
    """A ThreadLine sleeps meanwhile, and then receives what is still to be read."""
    line, there = ddcmp.ThreadLine(pair[0], inbox=2), pair[1]
    with running_by_hand(there) as other:
        for i in range(7):
            other.send(bytes([i]))
        by_hand(there, other)
        there.shutdown(socket.SHUT_RDWR)
    time.sleep(0.1)
    begun = time.process_time()
    time.sleep(0.5)
    assert time.process_time() - begun < 0.25
    assert list(line) == [bytes([it]) for it in range(7)]
    line.close()


def test_peer_reads_nothing(kind, pair):
    """A peer that has ended its side, and reads no more."""
    sizes = {"window": 255, "max": 16383}
    line = kind(pair[0], 60, None, **sizes)
    with running_by_hand(pair[1], **sizes):
        for _ in range(200):
            line.send(bytes(16383), SOON)
        late(line.flush)
        pair[1].shutdown(socket.SHUT_WR)
        for call in (line.receive, line.flush):
            refused(EOFError, "the line has ended", call, SOON)
    line.close()


def test_unacknowledged(kind, pair):
    """A peer that leaves what was sent unacknowledged."""
    line = kind(pair[0])
    with started(pair[1]) as other:
        while other.station.state != ddcmp.State.RUNNING:
            raised(lambda: other.receive(0.01))
    line.send(b"x", SOON)
    late(line.flush)
    pair[1].shutdown(socket.SHUT_RDWR)
    refused(EOFError, "the line has ended", line.flush, SOON)
    line.close()


def test_timer_starts_anew(kind, pair):
    """A REP goes a reply timer after the last acknowledgement, and not after the message."""
    line, there, text = kind(pair[0], 0.6), pair[1], b""
    with running_by_hand(there):
        for it in b"a", b"b":
            line.send(it, SOON)
        time.sleep(0.4)
        begun = time.monotonic()
        there.send(ack(1))
        there.settimeout(SOON)
        while not text.endswith(rep(2)):
            text += there.recv(1 << 16)
        assert time.monotonic() - begun > 0.55
    line.close()


def test_flush_writes(kind, pair):
    """A flush waits for the rest of a frame that is acknowledged before all of it is written."""
    line, there, is_late = kind(pair[0], 60, None, max=16383), pair[1], False

    def unread():
        return int.from_bytes(fcntl.ioctl(there, termios.FIONREAD, bytes(4)), sys.byteorder)
    with running_by_hand(there, max=16383):
        for i in range(1, 200):
            before = unread()
            line.send(bytes(16383), SOON)
            holds_within(0.5, lambda: unread() > before)
            there.sendall(ack(i))
            try:
                line.flush(0.5)
            except (TimeoutError, asyncio.TimeoutError):
                is_late = True
                break
            assert unread() == i * (16383 + 10)
        assert is_late and len(there.recv(1 << 24)) > 0
        line.flush(SOON)
    line.close()


def test_exception_in_a_block(pair):
    """It doesn't wait until what was sent is acknowledged."""
    line = Awaited(pair[0])

    async def raises():
        async with line.line:
            raise ZeroDivisionError("mine")
    with running_by_hand(pair[1]):
        line.send(b"x", SOON)
        refused(ZeroDivisionError, "mine", line.wait, raises(), SOON)


def test_peer_restarts(kind, pair):
    with kind(pair[0]) as line, started(pair[1]) as other:
        other.send(b"first", SOON)
        other.flush(SOON)
        other.station.halt()
        other.station.start()
        raised(lambda: other.receive(0.1))
        assert line.receive(SOON) == b"first"
        for call in ([line.receive, SOON], [line.send, b"x", SOON]):
            refused(ConnectionResetError, "the station is halted", *call)


def depth_of(call):
    """How many places the traceback of a call's EOFError has."""
    with pytest.raises(EOFError) as fault:
        call()
    return len(fault.traceback)


def test_closed_line(kind, pair):
    """By another thread while a call waits, and twice; then each call reports the end, by no
    longer traceback each time."""
    line = kind(pair[0])
    closer = threading.Timer(0.2, line.close)
    closer.start()
    refused(EOFError, "the line has ended", line.receive, SOON)
    closer.join()
    line.close()
    for call in ([line.receive, SOON], [line.send, b"x", SOON]):
        refused(EOFError, "the line has ended", *call)
    depths = {depth_of(line.receive) for _ in range(3)}
    assert len(depths) == 1
    assert list(line) == []


def called(there, does):
    """What to call for a notice, and what runs the peer until that was called."""
    was_called = threading.Event()

    def calls(_):
        was_called.set()
        does()

    def runs():
        with started(there) as other:
            while not was_called.is_set():
                raised(lambda: other.receive(0.01))
    return calls, runs


@PRINTED
@pytest.mark.parametrize("kind_of_fault", [ZeroDivisionError, EOFError, OSError])
def test_fault_of_a_callback(kind, pair, kind_of_fault):
    """What is raised by what is called for a notice ends the line, and is raised by its calls."""
    def raises():
        raise kind_of_fault("mine")
    calls, runs = called(pair[1], raises)
    line = kind(pair[0], 3, calls)
    runs()
    refused(kind_of_fault, "mine", line.receive, SOON)
    refused(kind_of_fault, "mine", line.send, b"x", SOON)
    line.close()


def test_callback_that_closes(kind, pair):
    calls, runs = called(pair[1], lambda: line.close())
    line = kind(pair[0], 3, calls)
    runs()
    refused(EOFError, "the line has ended", line.receive, SOON)


def test_nothing_is_left(pair):
    """Of a ThreadLine: no thread and no descriptor, whatever its end was."""
    def counted():
        return threading.active_count(), len(os.listdir("/proc/self/fd"))
    before = counted()
    for _ in range(50):
        ddcmp.ThreadLine(pair[0]).close()
        refused(ddcmp.Error, ddcmp.Code.MAX.text, lambda: ddcmp.ThreadLine(pair[0], max=0))
        refused(ddcmp.Error, ddcmp.Code.SYN.text, ddcmp.ThreadLine, pair[0], ddcmp.Config(syn=17))
        refused(OSError, "[Errno 9] Bad file descriptor", ddcmp.ThreadLine, 987654)
    assert counted() == before


@PRINTED
def test_calls_on_its_own_thread(pair):
    """A call for a notice may send, but not wait."""
    def both():
        line.send(b"x")
        line.receive()
    calls, runs = called(pair[1], both)
    line = ddcmp.ThreadLine(pair[0], notice=calls)
    runs()
    for call in (line.receive, line.flush):
        refused(RuntimeError, "a line can't be waited for on its own thread", call, SOON)


def test_sends_for_a_notice(pair):
    line = ddcmp.ThreadLine(pair[0], notice=lambda it: line.send(str(it.kind).encode()))
    with started(pair[1]) as other:
        assert other.receive(SOON) == b"Running"
    line.close()


def test_port_that_never_waits():
    """A serial port whose reads yield no bytes when there are none: that is no end of the line."""
    control, device = os.openpty()
    with ddcmp.serial_port(os.ttyname(device)) as port:
        attributes = termios.tcgetattr(port)
        attributes[6][termios.VMIN] = 0
        termios.tcsetattr(port, termios.TCSANOW, attributes)
        with ddcmp.ThreadLine(port) as one, ddcmp.ThreadLine(control) as other:
            for it in messages_of(20):
                one.send(it, SOON)
                assert other.receive(SOON) == it
    os.close(control)
    os.close(device)


def test_refused_messages(pair):
    with ddcmp.ThreadLine(pair[0], max=3) as line:
        refused(ddcmp.Error, "the message is empty", line.send, b"")
        refused(ddcmp.Error, "the message is too long", line.send, b"abcd")
        refused(TypeError, "memoryview: a bytes-like object is required, not 'str'", line.send, "a")


ENDS = {
    "at its end": ("", 0, ""),
    "by an exception": ("raise KeyError(3)", 1, "KeyError: 3"),
    "by an exit": ("sys.exit(5)", 5, ""),
    "with a call at exit": ("atexit.register(line.close)", 0, ""),
    "with a late close": ("class Late:\n    def __del__(self): line.close()\nkept = Late()\n"
                          "sys.modules['kept'] = kept", 0, ""),
    "in a thread": ("threading.Thread(target=lambda: line.receive(0.2)).start()", 0,
                    "TimeoutError: the line took too long"),
    "while messages come": ("for it in range(300): other.send(b'x')", 0, ""),
}


@pytest.mark.parametrize("ends, status, last", ENDS.values(), ids=ENDS)
def test_interpreter_exits(ends, status, last):
    """A program that ends while the threads of two lines run: at once, with no other word."""
    text = ("import atexit, socket, sys, threading\nimport ddcmp\n"
            "here, there = socket.socketpair()\n"
            "line, other = ddcmp.ThreadLine(here, inbox=255), ddcmp.ThreadLine(there)\n"
            f"line.send(b'x' * 1500)\n{ends}\n")
    it = subprocess.run([sys.executable, "-c", text], env=over_library(), capture_output=True,
                        text=True, timeout=SOON, check=False)
    assert (it.returncode, it.stdout) == (status, "")
    assert it.stderr.splitlines()[-1:] == [last] * bool(last), it.stderr


def test_cancelled_calls(pair):
    """A receive that was given up takes no message, and leaves nothing; a line that isn't connected
    refuses; and so does one whose station was closed."""
    line, there = Awaited(pair[0]), pair[1]
    for _ in range(20):
        with pytest.raises((TimeoutError, asyncio.TimeoutError)):
            line.receive(0.001)
    assert not line.line._waiters
    with started(there) as other:
        found = []
        for i in range(100):
            other.send(bytes([i]), SOON)
            other.flush(SOON)
            with contextlib.suppress(TimeoutError, asyncio.TimeoutError):
                while True:
                    found.append(line.receive(0.0001))
        assert found == [bytes([i]) for i in range(100)]
        line.loop.call_soon_threadsafe(line.line.station.close)
        raised(lambda: other.send(b"x", SOON))
        refused(ddcmp.Error, "the handle has no station or reader", line.receive, SOON)

    async def alone():
        with ddcmp.Station() as station:
            station.start()
            await ddcmp.AsyncLine(station).send(b"x")
    refused(ConnectionError, "the line isn't connected", asyncio.run, alone())
