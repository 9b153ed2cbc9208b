"""What --trace prints of the frames of both ways."""
import contextlib
import json
import os
import re
import socket
import subprocess
import threading
import time

import pytest

from .peers import called, dials, good, joined, linked, running, silent
from .process import (
    EVENT, Link, explained, holds_within, into_pipe, omitted, rest_of, sends, tcp_pair,
    terminals, times)
from .wire import STACK, ack, data, digits, drawn


def test_traced():
    """The frames of both ways with --trace, a NAK with its reason in words, and expiries."""
    one, peer = linked("--trace", "--timer-ms", "150")
    with peer:
        one.waits(lambda it: it.err.count(b"STRT") >= 2, 10)
        peer.sendall(STACK)
        one.waits(lambda it: b"< 0 STACK" in it.err, 10)
        peer.sendall(bytes.fromhex("8103000000010000"))
        one.waits(lambda it: b"NAK" in it.err, 10)
        peer.sendall(data(b"abc", 1))
        one.waits(lambda it: b"616263" in it.err, 10)
    one.ended()
    lines = one.err.decode().split("\n")[:-1]
    told = [it for it in lines if not it.startswith("ddcmp") and not EVENT.match(it)]
    wanted = [r"\d+ > 0 STRT sub=0 q=1 s=1 resp=0 num=0 addr=1", r"1[5-9]\d timer",
              r"1[5-9]\d > 8 STRT .*", r"\d+ < 0 STACK sub=0 q=1 s=1 resp=0 num=0 addr=1",
              r"\d+ > \d+ ACK .*", r"\d+ < 8 header check",
              r"\d+ > \d+ NAK sub=1 .* \(header check\)",
              r"\d+ < 16 DATA count=3 q=0 s=0 resp=0 num=1 addr=1 616263"]
    missing = [it for it in wanted if not any(re.fullmatch(it, line) for line in told)]
    odd = [it for it in told if not re.fullmatch(r"\d+ ([<>] \d+ .*|timer)", it)]
    assert not missing and not odd


def test_traced_as_objects():
    """With --json each line of a trace is an object, with --clock the time of day in it."""
    one, peer = linked("--trace", "--json", "--clock", "--timer-ms", "150")
    with peer:
        one.waits(lambda it: it.err.count(b"STRT") >= 2, 10)
        peer.sendall(STACK + bytes.fromhex("8103000000010000"))
        one.waits(lambda it: b"NAK" in it.err, 10)
    one.ended()
    told = [json.loads(it) for it in one.err.decode().split("\n") if it.startswith("{")]
    assert all(re.fullmatch(r"\d{4}-\d\d-\d\dT[\d:.]{12}Z", it["time"]) for it in told)
    assert all(it["ms"] < 10_000 for it in told)
    named = [(it.get("from"), it.get("item"), it.get("reason")) for it in told]
    for it in ((">", "STRT", None), (None, "timer", None), ("<", "STACK", None),
               ("<", "header check", None), (">", "NAK", "header check")):
        assert it in named, named


def test_traced_as_a_ladder():
    """With --ladder each frame is an arrow, from this end on the left or to it."""
    one, peer = linked("--ladder", "--timer-ms", "60000")
    with peer:
        peer.sendall(STACK + data(b"abc", 1))
        one.waits(lambda it: b"ACK" in it.err.split(b"DATA")[-1], 10)
    one.ended()
    arrows = [it.split(" ", 1)[1] for it in one.err.decode().split("\n") if "|" in it]
    assert {len(it) for it in arrows} == {78}
    assert [re.sub("[ -]+", " ", it) for it in arrows] == [
        "| STRT >|", "|< STACK |", "|< DATA 1 resp=0 (3 bytes) |", "| ACK resp=1 >|"]


def drawn_line():
    """Frames of a peer that runs, good and damaged, with fill and junk between them."""
    line = STACK
    for _ in range(200):
        message = drawn.randbytes(drawn.randint(1, 40))
        whole = data(message, drawn.randrange(256))
        frame = drawn.choice([whole, whole[:-2] + b"..", ack(0), whole[:7],
                              whole[:7] + bytes([whole[7] ^ 1]) + whole[8:]])
        junk = drawn.choice([b"", b"\x96" * drawn.randint(1, 9),
                             drawn.randbytes(drawn.randint(1, 60))])
        line += junk + frame
    return line


@pytest.mark.parametrize("form", [(), ("--json",)])
def test_trace_discarded(form):
    """What --trace tells of a line is what `explain --discarded` tells of its bytes, but for SYN
    and DEL bytes alone; also as JSON."""
    one, peer = linked("--trace", *form, "--timer-ms", "60000")
    line = drawn_line()
    with peer:
        sends(peer, line, 300)
        one.waits(lambda it: it.err.count(b"<") > 300, 1)
    one.ended()
    front = r'{"from":"<","ms":\d+,' if form else r"\d+ < "
    told = [re.sub(front, "{" * len(form), it) for it in one.err.decode().split("\n")
            if re.match(front, it)]
    items = explained(line, "--discarded", "--max", "1500", *form)[:-1]
    discarded = re.compile(r'{"offset":(\d+),"discarded":(\d+)}' if form
                           else r"(\d+) discarded (\d+)")
    fill = {it for it in items if (found := discarded.fullmatch(it))
            and not line[int(found[1]):int(found[1]) + int(found[2])].strip(b"\x96\xff")}
    wanted = [it for it in items if it not in fill and "unfinished" not in it]
    assert len(fill) >= 5 and sum("discarded" in it for it in wanted) >= 20
    assert told == wanted


def of_way(lines, mark):
    """The items of one way, without their moments."""
    return [it.split(f" {mark} ", 1)[1] for it in lines if re.match(rf"\d+ {mark} ", it)]


def merged(items):
    """Items by their offsets, with what was discarded in one stretch as one."""
    found, stretch = [], None
    for it in sorted(items, key=lambda it: (int(it.split()[0]), " discarded " not in it)):
        words = it.split()
        if words[1] != "discarded":
            found.append(it)
        elif stretch and sum(stretch) == int(words[0]):
            stretch[1] += int(words[2])
        else:
            stretch = [int(words[0]), int(words[2])]
            found.append(stretch)
    return [it if isinstance(it, str) else f"{it[0]} discarded {it[1]}" for it in found]


def test_trace_whole():
    """Long junk and cut headers: each byte is in a line of the trace, as in one of explain
    --discarded."""
    for _ in range(12):
        pieces = [STACK]
        for _ in range(30):
            junk = drawn.randbytes(drawn.choice([3, 250, 300, 700])).replace(b"\x96", b"-").replace(
                b"\xff", b"-")
            pieces += [junk + drawn.choice([b"", b"\x81", b"\5\1", b"\x81\3\0\0\1"]),
                       data(drawn.randbytes(9), 7)]
        line = b"".join(pieces)
        link, peer = called("--trace", "--timer-ms", "60000", answer=silent)
        at = 0
        while at < len(line):
            n = drawn.randint(1, 600)
            peer.send(line[at:at + n])
            at += n
            time.sleep(0.001)
        peer.sock.shutdown(socket.SHUT_WR)
        link.ended(10)
        told = merged(of_way(link.errors(), "<"))
        wanted = merged(it for it in explained(line, "--discarded", "--max", "1500")[:-1]
                        if " unfinished " not in it)
        assert told == wanted


def test_trace_fill():
    """Fill alone, SYN and DEL, isn't reported; junk without a frame is, once 256 bytes came."""
    link, peer = linked("--trace", "--timer-ms", "60000")
    peer.sendall(STACK + b"\xff" * 700 + b"\x96" * 700 + data(b"a", 1) + b"\xff" * 3 +
                 data(b"b", 2))
    link.waits(lambda it: b"num=2" in it.err, 5)
    assert not any(" discarded " in it for it in link.errors())
    peer.sendall(b"junk" * 75)
    assert link.waits(lambda it: b" discarded 300" in it.err or b" discarded 256" in it.err, 3), (
        "300 bytes of junk aren't reported")


@pytest.mark.parametrize("options", [(), ("--binary",)])
def test_trace_of_lines(options):
    """With --again offsets restart with each line, and the junk at the end of a line is reported;
    with --binary too."""
    link, it = dials("--trace", "--again", *options)
    for _ in range(2):
        peer = joined(it, good)
        peer.send(b"junk!")
        time.sleep(0.3)
        peer.close()
    link.waits(lambda it: it.err.count(b"discarded 5") == 2, 5)
    told = link.errors()
    for mark, first in ((">", "0 STRT "), ("<", "0 STACK ")):
        assert sum(it.startswith(first) for it in of_way(told, mark)) >= 2
    assert sum(it == "8 discarded 5" for it in of_way(told, "<")) == 2


def test_trace_of_long_frames():
    """Frames of 2000 and 16383 bytes, both ways."""
    options = ("--max", "16383", "--trace")
    one, two = tcp_pair(options, options)
    for size in (2000, 16383):
        two.give(digits([bytes([size & 255]) * size]), close=False)
    two.waits(lambda it: it.out.count(b"Acknowledged") == 2 or b"Acknowledged 2" in it.out, 10)
    time.sleep(0.2)
    for link, mark in ((one, "<"), (two, ">")):
        found = [it for it in of_way(link.errors(), mark) if " DATA count=" in it]
        assert [len(it.split()[-1]) for it in found] == [4000, 32766], (
            f"{mark} {[it[:80] for it in of_way(link.errors(), mark)]}")
        link.kill()


def test_trace_of_device():
    """A trace over a device, whose writes are cut: what explain says of the bytes that went."""
    with terminals() as ends:
        link = Link(f"device:{ends[0]}", "--trace", "--timer-ms", "60000", "--max", "16383")
        end = os.open(ends[1], os.O_RDWR | os.O_NOCTTY)
        got, sent = [], [drawn.randbytes(16383) for _ in range(3)]

        def read():
            with contextlib.suppress(OSError):
                while piece := os.read(end, 4096):
                    got.append(piece)

        os.write(end, STACK)
        link.waits(lambda it: b"Running" in it.out, 5)
        link.give(digits(sent), close=False)
        time.sleep(0.5)  # nobody reads, so that the line takes a part of what waits
        threading.Thread(target=read, daemon=True).start()
        assert holds_within(5, lambda: len(b"".join(got)) >= 3 * 16393)
        time.sleep(0.3)
        told, wanted = of_way(link.errors(), ">"), explained(b"".join(got), "--max", "16383")[:-1]
        assert told == wanted, f"{[it[:60] for it in told]} and {[it[:60] for it in wanted]}"
        link.kill()


@times
def test_trace_unread():
    """A standard error that is read, not read and read again: what was left out is counted, and
    with the lines that are there it is the whole."""
    words = ["--trace", "--timer-ms", "60000", "--inbox", "127", "--stay"]
    (link, peer), reading = into_pipe(running, *words, stream="stderr", stdin=subprocess.DEVNULL)
    told, number = b"", 0
    os.set_blocking(reading, False)
    for _ in range(2):
        for _ in range(10000):
            number += 1
            peer.send(data(b"xyz", number & 255))
            peer.waits(lambda it: number - it.frames[-1].resp & 255 < 100, 5)
        assert link.waits(lambda it: it.out.count(b"mail ") == number, 10), (
            f"{link.out.count(b'mail ')} of {number} messages")
        until = time.monotonic() + 1
        while time.monotonic() < until:
            try:
                told += os.read(reading, 1 << 16)
            except BlockingIOError:
                time.sleep(0.02)
    peer.sock.shutdown(socket.SHUT_WR)
    link.ended(10)
    os.set_blocking(reading, True)
    told += rest_of(reading)
    lines = [it for it in told.decode().split("\n")[:-1] if not EVENT.match(it)]
    count, gaps = omitted(lines)
    seen = sum(bool(re.match(r"\d+ [<>] ", it)) for it in lines)
    whole = len(peer.frames) + number + 1
    assert gaps >= 2 and seen + count == whole
    odd = [it[:80] for it in lines
           if not re.fullmatch(r"\d+ ([<>] \d+ .*|timer)|ddcmp: \d+ lines? left out", it)]
    assert not odd
