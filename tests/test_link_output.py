"""Standard output and error that are slow, full or closed, and descriptors that are closed at the
start."""
import contextlib
import fcntl
import os
import select
import signal
import socket
import subprocess
import threading
import time

import pytest

from .peers import Peer, at_a_full_device, called, good, joined, linked, no_ack, running
from .process import (
    PROGRAM, Link, connected, free_port, holds_within, into_pipe, is_listening, listening,
    must_end, omitted, port_of, rest_of, server, tcp_pair, times)
from .wire import (
    STRT, binary, commands, data, drawn, in_lines, mail_in, messages_of, rep, unpacked)

EVENTS, READY = ("--binary", "--events"), commands("ready")


@times
def test_slow_reader():
    """A reader of next to nothing: memory stays flat, and the line isn't filled with NAKs."""
    one, reading = into_pipe(Link, "listen:127.0.0.1:0", "--binary")
    two = Link(f"connect:127.0.0.1:{listening(one)}", "--binary")
    sent = messages_of(2000)
    two.give(binary(sent))
    time.sleep(1)
    before, used = one.memory(), one.processor_time()
    got = b""
    for _ in range(20):
        got += os.read(reading, 1024)
        time.sleep(0.05)
    assert one.memory() <= before + 512, "memory grew from"
    assert one.processor_time() - used <= 0.1, f"{one.processor_time() - used} s of processor time"
    done = threading.Event()

    def rest():
        nonlocal got
        while piece := os.read(reading, 1 << 16):
            got += piece
        done.set()

    threading.Thread(target=rest, daemon=True).start()
    assert two.ended() == 0
    one.ended()
    done.wait(10)
    assert unpacked(got) == sent, f"{len(unpacked(got))} of {len(sent)} messages"


@pytest.mark.parametrize("options", [(), EVENTS, (*EVENTS, "--again", "--restart", "--stay")])
@pytest.mark.parametrize("output", ["left", "full", "closed"])
def test_failed_output(output, options):
    """A pipe whose reader has left, a full device and an output that was closed at the start end a
    link, which says why."""
    if output == "left":
        (link, _), reading = into_pipe(called, *options)
        os.close(reading)
    elif output == "full":
        with open("/dev/full", "wb") as full:
            link, _ = called(*options, stdout=full)
    else:
        link, _ = called(*options, stdout=subprocess.DEVNULL, preexec_fn=lambda: os.close(1))
    link.give(READY + binary([b"one"]) if options else b"61\n", close=False)
    must_end(output, link, 3, "ddcmp: write", 10)


def waits(link):
    """A link goes on, and takes no processor time."""
    before = link.processor_time()
    time.sleep(3)
    assert link.is_running() and link.processor_time() - before < 0.05


@times
@pytest.mark.parametrize("options", [(), ("--again",)])
def test_unread_events(options):
    """Events and messages that nobody reads: the link delivers its own, and waits after the command
    quit until all is read."""
    (link, peer), reading = into_pipe(running, *EVENTS, *options)
    for number in range(1, 200):
        peer.send(data(b"x" * 1000, number))
        time.sleep(0.004)
    link.give(READY + binary([b"one"]) + commands("quit"), close=False)
    assert peer.waits(lambda it: it.mail == [b"one"], 10)
    waits(link)
    lines = []
    reader = threading.Thread(target=lambda: lines.extend(in_lines(rest_of(reading))))
    reader.start()
    must_end("read", link, 0, None, 10)
    reader.join()
    assert lines[0] == "notice Running" and lines.count("notice Acknowledged 1") == 1


@times
@pytest.mark.parametrize("errors", ["closed", "full"])
def test_events_without_errors(errors):
    """A standard error that was closed at the start, or is full, takes nothing from the others."""
    with open("/dev/full", "wb") as full:
        how = {"stderr": full} if errors == "full" else {
            "stderr": subprocess.DEVNULL, "preexec_fn": lambda: os.close(2)}
        link, peer = called(*EVENTS, "--trace", **how)
    link.give(READY + commands("report") + commands("what") + binary([b"one"]), close=False)
    assert peer.waits(lambda it: it.mail == [b"one"], 10)
    peer.send(data(b"two", 1, 1))
    waits(link)
    link.give(commands("quit"), close=False)
    must_end(errors, link, 1)
    assert in_lines(link.out) == ["notice Running", "notice Acknowledged 1", "notice HandedUp",
                                  f"mail {b'two'.hex()}"]


@times
@pytest.mark.parametrize("options", [(), ("--seconds", "60")])
def test_idle(options):
    """An idle link uses no processor time that can be measured, with a limit of time too."""
    one, two = tcp_pair(options, ())
    one.waits(lambda it: b"Running" in it.out, 10)
    time.sleep(0.2)
    before = one.processor_time()
    time.sleep(1.5)
    assert one.processor_time() - before <= 0.02, (f"{options}: {one.processor_time() - before} s")


@times
def test_junk(request):
    """A peer that sends junk at full speed: memory stays flat, and a signal ends it at once."""
    one, peer = linked()
    piece, before, moved = drawn.randbytes(1 << 16), None, 0
    begun, span = time.monotonic(), 10 if request.config.getoption("--long") else 1.5
    with contextlib.suppress(OSError):
        while time.monotonic() < begun + span or moved < 32 << 20:
            peer.settimeout(5)
            peer.sendall(piece)
            moved += len(piece)
            if before is None and moved > 16 << 20:  # more than the system keeps: it has read some
                before = one.memory()
    assert one.is_running() and before is not None and one.memory() <= before + 512
    one.run.send_signal(signal.SIGTERM)
    assert one.ended(2) is not None, "SIGTERM didn't end it"


class Unread:
    """A link whose standard error isn't read, but for its first line if it listens."""

    def __init__(self, line, *options):
        self.link, self.reading = into_pipe(Link, line, *options, stream="stderr")
        self.err = b""

    def port(self):
        while not self.err.endswith(b"\n"):
            self.err += os.read(self.reading, 1)
        return int(self.err.rsplit(b":", 1)[1])

    def read(self, pause=0):
        """Reads it from now on, to its end, with these seconds after each of its pages."""
        self.thread = threading.Thread(target=self.work, args=(pause,), daemon=True)
        self.thread.start()

    def work(self, pause):
        while piece := os.read(self.reading, 4096):
            self.err += piece
            time.sleep(pause)

    def lines(self):
        self.thread.join(10)
        return self.err.decode().split("\n")[:-1]


@pytest.mark.parametrize("options, is_read", [
    (("--binary",), False), (("--binary",), True), (("--binary", "--trace"), False),
])
def test_errors_unread(options, is_read):
    """8,000 messages in binary while nobody reads the standard errors of both ends; then each end
    ends. Where they are read before the end, what was left out is counted."""
    one = Unread("listen:127.0.0.1:0", *options, "--stay", "--inbox", "127")
    two = Unread(f"connect:127.0.0.1:{one.port()}", *options, "--window", "127")
    sent = [b"%05d" % it for it in range(8000)]
    two.link.give(binary(sent), close=False)
    assert (one.link.waits(lambda it: len(it.out) >= 7 * 8000, 30)
            and unpacked(one.link.out) == sent)
    if is_read:
        one.read()
        two.read()
        time.sleep(0.5)
    one.link.run.stdin.close()
    two.link.run.stdin.close()
    for name, it in (("sender", two), ("receiver", one)):
        assert it.link.ended(4) == 0
    if is_read:
        count, gaps = omitted(one.lines())
        seen = sum(it.startswith("notice ") for it in one.lines())
        assert gaps and 8000 <= seen + count <= 8003


def test_errors_read_at_last():
    """The last line has room on a standard error that was full until the end, and is read slowly
    then."""
    one = Unread("listen:127.0.0.1:0", "--binary", "--stay", "--inbox", "127", "--counters")
    two = Unread(f"connect:127.0.0.1:{one.port()}", "--binary", "--window", "127")
    one.link.give(b"")
    two.link.give(binary([b"%05d" % it for it in range(8000)]))
    one.link.waits(lambda it: len(it.out) >= 7 * 8000, 30)
    two.read()
    two.link.ended(5)
    time.sleep(0.3)
    one.read(0.1)
    one.link.ended(8)
    assert ([it.split("=")[0] for it in one.lines()[-2:]] == ["counters nak_sent_header_check",
                                                              "state"] and omitted(one.lines())[0])


def test_errors_unread_and_timer():
    """A trace that nobody reads while the timer expires all the time: messages that come are handed
    out."""
    with server() as it:
        one = Unread(f"connect:127.0.0.1:{port_of(it)}", "--trace", "--timer-ms", "5", "--window",
                     "1")
        peer = joined(it, no_ack)
    one.link.give(b"61\n", close=False)
    # This fills the room of a trace by frames, and then its last bytes by expiries.
    for number in range(1, 4001):
        # Without an acknowledgement of its own message the link refuses what finds no room.
        if number % 8 == 0:
            one.link.waits(lambda it: it.out.count(b"mail ") >= number - 1, 5)
        peer.send(data(b"x" * 100, number & 255))
        time.sleep(0.001 if number < 3700 else 0.01)
    assert one.link.waits(lambda it: it.out.count(b"mail ") == 4000, 5)
    one.read()
    time.sleep(0.5)
    peer.close()
    assert one.link.ended(4) == 3 and omitted(one.lines())[0], (
        f"status {one.link.run.returncode}; {omitted(one.lines())} left out")


def test_errors_unread_again():
    """A full standard error doesn't keep --again from the next line."""
    it = server()
    one = Unread(f"connect:127.0.0.1:{port_of(it)}", "--trace", "--again", "--timer-ms", "5")
    peer = joined(it, no_ack)
    one.link.give(b"61" * 1000 + b"\n", close=False)
    peer.waits(lambda it: len(it.named("REP")) > 1500, 20)
    for number in range(1, 6001):
        peer.send(rep(number & 255))
    time.sleep(0.5)
    peer.close()
    it.settimeout(8)
    peer = Peer(it.accept()[0], good)
    assert peer.runs(5), "the next line doesn't start"


def test_errors_unread_at_a_fault():
    """A link that ends with a fault ends although nobody reads its standard error."""
    with server() as it:
        one = Unread(f"connect:127.0.0.1:{port_of(it)}", "--trace")
        peer = joined(it, no_ack)
    one.link.give(b"61\n", close=False)
    for number in range(1, 1501):
        peer.send(data(b"x" * 100, number & 255))
    one.link.waits(lambda it: it.out.count(b"mail ") == 1500, 10)
    peer.close()
    assert one.link.ended(5) == 3


def stopped(out, read=lambda: None):
    """A link whose output nobody reads, or reads some of once, still sends messages: it isn't stuck
    in a write."""
    link, peer = running(stdout=out)
    for number in range(1, 250):
        peer.send(data(b"x" * 1000, number))
        time.sleep(0.004)
    time.sleep(0.3)
    read()
    time.sleep(0.3)
    link.give(b"6162\n", close=False)
    assert peer.waits(lambda it: it.mail == [b"ab"], 3), "no message is sent"
    link.kill()


def test_stopped_output():
    near, far = socket.socketpair()
    far.setsockopt(socket.SOL_SOCKET, socket.SO_SNDBUF, 8192)
    stopped(far.fileno(), lambda: near.recv(1 << 16))


def test_stopped_terminal():
    master, slave = os.openpty()
    stopped(slave)


def test_stopped_device():
    """A serial line that nobody reads: a message that comes is handed out meanwhile."""
    link, end = at_a_full_device("--syn", "0", "--timer-ms", "500")
    time.sleep(1)
    os.write(end, data(b"abc", 1))
    assert link.waits(lambda it: b"mail 616263" in it.out, 5), "the message isn't handed out"


@pytest.mark.parametrize("options", [(), ("--again",), ("--acknowledge-early",)])
def test_full_output(options):
    """Longest messages, an output of a page, and the peer ends while all but the first wait for it:
    none of them was acknowledged, unless that is to be early, and all are written."""
    it = server()
    name = it.getsockname()
    link, reading = into_pipe(Link, f"connect:127.0.0.1:{name[1]}", "--max", "16383", *options)
    fcntl.fcntl(reading, fcntl.F_SETPIPE_SZ, 4096)
    peer = joined(it, good)
    sent = [b"x"] + [drawn.randbytes(16383) for _ in range(4)]  # the last has no room in the queue
    peer.send(data(sent[0], 1))
    assert peer.waits(lambda it: it.frames[-1].resp == 1, 10)
    for number, message in enumerate(sent[1:], 2):
        peer.send(data(message, number))
    time.sleep(0.5)
    assert peer.frames[-1].resp == (5 if "--acknowledge-early" in options else 1)
    it.close()  # so that no new line is there before all was read
    peer.close()
    time.sleep(0.3)
    out = b""
    while out.count(b"mail ") < 5 or not out.endswith(b"\n"):
        if not select.select([reading], [], [], 5)[0] or not (piece := os.read(reading, 1 << 16)):
            break
        out += piece
    assert mail_in(out) == sent
    if "--again" in options:
        it = socket.create_server(name)
        it.settimeout(8)
        assert Peer(it.accept()[0], good).runs(), "no second line"
    link.kill()


@times
@pytest.mark.parametrize("options", [(), ("--again",), EVENTS])
def test_seconds_unread(options):
    """--seconds ends a link whose output nobody reads, says so, and isn't a success."""
    (link, peer), _ = into_pipe(running, "--stay", "--seconds", "2", *options)
    with contextlib.suppress(OSError):  # a link that has ended
        for number in range(1, 60):
            peer.send(data(b"x" * 1500, number))
            time.sleep(0.004)
    if "--again" in options:
        time.sleep(0.3)
        peer.close()
    assert link.ended(8) == 3 and link.took <= 6
    assert ("ddcmp: standard output isn't read: received messages weren't written" in link.errors())


def read_slowly(sent, reading):
    """What an output has that is read slowly: most of these messages, in their order, and the last
    line."""
    out = b""
    while piece := os.read(reading, 4096):
        out += piece
        time.sleep(0.05)
    mails = mail_in(out)
    assert mails == sent[:len(mails)] and len(mails) >= 40
    assert out.split(b"\n")[-2].startswith(b"state=")


def sixty_messages(peer):
    sent = [drawn.randbytes(1500) for _ in range(60)]
    for number, message in enumerate(sent, 1):
        peer.send(data(message, number))
        time.sleep(0.004)
    return sent


def test_seconds_slow():
    """--seconds drops nothing of an output that is read slowly."""
    (link, peer), reading = into_pipe(running, "--stay", "--seconds", "2", stdin=subprocess.DEVNULL)
    read_slowly(sixty_messages(peer), reading)
    assert link.ended(5) == 0


def test_seconds_flooded():
    """A standard input that is written all the time doesn't end the patience with a slow output."""
    (link, peer), reading = into_pipe(running, "--stay", "--seconds", "2", "--inbox", "60")
    sent = sixty_messages(peer)

    def flood():
        with contextlib.suppress(OSError):
            while True:
                link.run.stdin.write(b"61\n")
                link.run.stdin.flush()
                time.sleep(0.001)

    threading.Thread(target=flood, daemon=True).start()
    time.sleep(1.5)
    read_slowly(sent, reading)
    link.ended(5)
    assert not any("isn't read" in it for it in link.errors())


def start_closed(words, closed):
    """A program that is started with these descriptors closed, and the others to nothing."""
    def close():
        for it in closed:
            os.close(it)

    return subprocess.Popen(words, stdin=subprocess.DEVNULL, stdout=subprocess.DEVNULL,
                            stderr=subprocess.DEVNULL, preexec_fn=close)


def caller_of(run, port):
    """A connection to a program that listens, or that has ended and then a socket of no line."""
    holds_within(10, lambda: is_listening(port) or run.poll() is not None)
    return connected(port) if is_listening(port) else socket.socketpair()[0]


@pytest.mark.parametrize("last", [False, True])
def test_closed(last):
    """Descriptors 0 to 2 that are closed at the start, in each combination without or with the last
    of them, never become a line."""
    for number in range(4, 8) if last else range(1, 4):
        closed = [it for it in range(3) if number >> it & 1]
        it, port, sock = server(), free_port(), socket.socket(socket.AF_INET, socket.SOCK_DGRAM)
        sock.bind(("127.0.0.1", 0))
        name = f"127.0.0.1:{port_of(it)}"
        station = ["--turns", "60", "--timer-ms", "100"]
        runs = []
        for words in (["link", "--binary", "--line", f"connect:{name}"], [
                "link", "--line", f"connect:{name}"
        ], ["station", "--role", "connect", "--addr", name, *station]):
            runs.append((words, start_closed([*PROGRAM, *words], closed), Peer(
                it.accept()[0], good)))
        for words in (["link", "--line", f"listen:127.0.0.1:{port}", "--stay"],
                      ["link", "--line", f"udp:127.0.0.1:0,127.0.0.1:{port_of(sock)}", "--stay"]):
            run = start_closed([*PROGRAM, *words], closed)
            runs.append(
                (words, run, Peer(caller_of(run, port) if "listen" in words[2] else sock, good)))
        far, port = server(), free_port()
        tap = start_closed([*PROGRAM, "tap", "--listen", f"127.0.0.1:{port}", "--connect",
                            f"127.0.0.1:{port_of(far)}"], closed)
        caller = Peer(caller_of(tap, port), lambda _peer, _frame: b"")
        far.settimeout(1)
        try:
            called = Peer(far.accept()[0], lambda _peer, _frame: b"")
        except TimeoutError:
            called = Peer(socket.socketpair()[0])
        for peer, piece in ((caller, STRT), (called, rep(3))):
            with contextlib.suppress(OSError):
                peer.send(piece)
        time.sleep(0.5)
        for _words, _run, peer in runs:
            with contextlib.suppress(OSError, TypeError):  # it has ended, or no datagram came
                peer.send(data(b"abc", 1))
        time.sleep(0.3)
        for words, run, peer in runs + [(["tap"], tap, None)]:
            run.kill()
            run.wait()
            assert not peer or not peer.reader.junk
        # A tap that can't log what it forwards ends, maybe between the two.
        assert called.bytes in (STRT, b"") and caller.bytes in (rep(3), b"")
        for sock in (it, far):
            sock.close()


def test_closed_input():
    """An input that was closed at the start can't be read."""
    link, _ = called("--stay", stdin=subprocess.DEVNULL, preexec_fn=lambda: os.close(0))
    must_end("input", link, 3, "ddcmp: read", 10)
