"""A message is acknowledged once it was written, however its receiver ends."""
import contextlib
import os
import re
import resource
import select
import signal
import subprocess
import time
import tty

import pytest

from .process import (
    LONG, Link, Process, contents, into_pipe, line_names, rest_of, terminals, times)
from .wire import binary, digits, drawn, mail_in, messages_of, unpacked

SENT = messages_of(50_000, 300)
MOST_WRITTEN = 40_000  # bytes of a file, where there is a limit


@contextlib.contextmanager
def line_of(kind):
    """The names of the two ends of a line: the receiver's and the sender's."""
    if kind == "device":
        with terminals() as ends:
            yield [f"device:{it}" for it in ends]
    else:
        yield line_names("udp" if kind == "udp" else "listen")


def limited():
    resource.setrlimit(resource.RLIMIT_FSIZE, (MOST_WRITTEN, MOST_WRITTEN))


def reads(reading, output, seconds):
    """What is read of an output meanwhile: all, a little, or nothing."""
    got, until = b"", time.monotonic() + seconds
    while (left := until - time.monotonic()) > 0:
        if output == "unread":
            time.sleep(left)
        elif select.select([reading], [], [], left)[0]:
            got += os.read(reading, drawn.randrange(1, 4000) if output == "slow" else 1 << 16)
            time.sleep(0.002 if output == "slow" else 0)
    return got


def onto_terminal(there, *words, **streams):
    """A link whose output is a terminal that changes no byte, and where to read it."""
    reading, writing = os.openpty()
    tty.setraw(writing)
    run = Link(there, *words, stdout=writing, **streams)
    os.close(writing)
    return run, reading


def shown(reading):
    """What is left in a terminal that no process has open any more."""
    text = b""
    with contextlib.suppress(OSError):
        while more := os.read(reading, 1 << 16):
            text += more
    return text


def whole(form, text):
    """The messages of an output, but for one that was cut."""
    if form is digits:
        return mail_in(text)
    found = unpacked(text)
    return found if text.startswith(binary(found)) else found[:-1]


def link_sends(here, _folder):
    """A link begins to send; returns what tells how many are acknowledged, and what was sent."""
    sender = Link(here, "--timer-ms", "100", "--attempts", "5")
    assert sender.waits(lambda it: b"Running" in it.out, 10), sender
    sender.give(digits(SENT))

    def known():
        assert sender.ended(20) is not None, sender
        return int(sender.last()["acknowledged"]), binary(SENT)
    return known


def station_sends(station):
    """The same of a station by another hand."""
    def begins(here, folder):
        kind, *ports = re.findall(r"^\w+|\d+(?=,|$)", here)
        line = f"{kind}:{','.join(ports)}" if ports else here.replace("device:", "tty:")
        keys = "source=50000", "longest=300", "echo=0", "linger=0", f"sent={folder}/sent"
        sender = Process([station, line, *keys])

        def known():
            sender.run.terminate()
            assert sender.ended(20) is not None, sender
            told = re.search(rb" acknowledged=(\d+)", sender.out)
            return int(told[1]), contents(f"{folder}/sent")
        return known
    return begins


def stopped(kind, output, form, how, begins, folder):
    """How many messages a sender knows as acknowledged, and those that its receiver, which was
    stopped somewhere in the middle, has written of what it sent."""
    words = ["--stay"] + ["--binary"] * (form is binary)
    path = folder / "output"
    with line_of(kind) as (there, here):
        if output in ("file", "full"):
            with open(path, "wb") as it:
                receiver = Link(there, *words, stdin=subprocess.DEVNULL, stdout=it,
                                preexec_fn=limited if output == "full" else None)
            reading = None
        elif output == "terminal":
            receiver, reading = onto_terminal(there, *words, stdin=subprocess.DEVNULL)
        else:
            receiver, reading = into_pipe(Link, there, *words, stdin=subprocess.DEVNULL)
        assert receiver.waits(lambda it: b"\n" in it.err, 10), receiver
        known = begins(here, folder)
        seconds = drawn.uniform(0.05, 0.8)
        got = reads(reading, output, seconds) if reading else time.sleep(seconds)
        receiver.run.send_signal(how)
        receiver.ended(10)
        if reading:
            got += shown(reading) if output == "terminal" else rest_of(reading)
        acknowledged, sent = known()
        written = whole(form, got if reading else path.read_bytes())
        assert acknowledged <= len(written), (kind, output, form.__name__, how)
        assert sent.startswith(binary(written))
        return acknowledged


def known_of(kind, output, begins, folder):
    """Of four receivers stopped at drawn moments, how many messages were acknowledged."""
    known = 0
    for turn in range(4):
        form, how = ((digits, binary)[turn % 2], (signal.SIGKILL, signal.SIGTERM)[turn // 2])
        (folder / f"{turn}").mkdir()
        known += stopped(kind, output, form, how, begins, folder / f"{turn}")
    return known


@pytest.mark.parametrize("output", ["read", "slow", "unread", "file", "full", "terminal"])
@pytest.mark.parametrize("kind", ["tcp", "udp", "device"])
def test_acknowledged_is_written(tmp_path, kind, output):
    """Receivers stopped at drawn moments, whose output is read, slow, unread, a file, a full one or
    a terminal: what is acknowledged was written, and it is a beginning of what was sent."""
    assert known_of(kind, output, link_sends, tmp_path) or output == "unread"


@pytest.mark.parametrize("kind", ["tcp", "udp", "device"])
def test_acknowledged_to_a_second_station(tmp_path, station, kind):
    """The same of what a station by another hand has sent."""
    assert known_of(kind, "slow", station_sends(station), tmp_path)


@times
def test_sleeping_reader():
    """A link whose output nobody reads for seconds sends its own messages and replies to each REP,
    without using the processor, and is given up by nobody; then nothing is missing."""
    with line_of("tcp") as (there, here):
        one, reading = into_pipe(Link, there, "--stay")
        assert one.waits(lambda it: b"\n" in it.err, 10), one
        two = Link(here, "--stay", "--timer-ms", "100", "--attempts", "3")
        two.give(digits(SENT[:3000]), close=False)
        own = messages_of(2000, 300)
        one.give(digits(own), close=False)
        assert two.waits(lambda it: it.out.count(b"mail ") == len(own), 10), two
        before = one.processor_time()
        time.sleep(3)
        assert one.processor_time() - before < 0.1 and two.is_running() and one.is_running()
        got, until = b"", time.monotonic() + LONG
        while got.count(b"mail ") < 3000 and time.monotonic() < until:
            got += os.read(reading, 1 << 16)
        assert mail_in(got) == SENT[:3000] and two.mails() == own and not two.faults()
        two.kill()
        one.kill()
        os.close(reading)


@pytest.mark.parametrize("kind", ["udp", "device"])
@pytest.mark.parametrize("again", [True, False])
def test_peer_restarts_while_unread(kind, again):
    """A peer that restarts while messages wait for an output that nobody reads: once these are
    written, the link restarts over the line that it has, without opening it again."""
    with line_of(kind) as (there, here):
        one, reading = into_pipe(Link, there, "--stay", "--restart", "--timer-ms", "100",
                                 *["--again"] * again, stdin=subprocess.DEVNULL)
        two = Link(here, "--timer-ms", "100")
        two.give(digits(SENT[:2000]), close=False)
        assert two.waits(lambda it: b"Running" in it.out, 10), two
        time.sleep(0.7)
        two.kill()
        three = Link(here, "--timer-ms", "100")
        three.give(b"6262\n")
        time.sleep(0.5)
        got, until = b"", time.monotonic() + LONG
        while b"mail 6262\n" not in got and time.monotonic() < until:
            got += os.read(reading, 1 << 16) if select.select([reading], [], [], 1)[0] else b""
        mails = mail_in(got)
        assert mails == [*SENT[:len(mails) - 1], b"bb"] and len(mails) > 1
        assert three.ended(10) == 0 and one.is_running()
        assert sum("opened" in it or "bound" in it for it in one.errors()) == 1
        one.kill()
        os.close(reading)
