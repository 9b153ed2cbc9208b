"""What a link reports of itself while it runs: events of its line, counters, and the time of
day."""
import json
import os
import re
import subprocess
import tempfile
import time

import pytest

from .peers import Peer, good, joined, no_ack
from .process import (
    EVENT, Link, connected, free_port, listening, must_end, port_of, reset_at_close, server,
    tcp_pair, times, unacknowledged)
from .wire import binary, data

STAMP = re.compile(r"\d{4}-\d\d-\d\dT\d\d:\d\d:\d\d\.\d{3}Z ")
REPORT = re.compile(r"report state=\w+( [a-z]+=\d+)+ counters( [a-z_]+=\d+)+$")
NAKS = [f"nak_{way}_{why}" for way in ("sent", "received") for why in (
    "header_check", "data_check", "reply_to_rep", "no_buffer", "overrun", "too_long", "format",
    "other")]
NUMBERS = """read written sent acknowledged handed lost {} rep_sent rep_received messages_sent
bytes_sent messages_again bytes_again messages_up bytes_up expiries header_checks data_checks
too_longs formats""".format(" ".join(NAKS)).split()
MEMBERS = [("event", str), ("state", str), *((it, int) for it in NUMBERS)]


def reports_of(lines):
    """The numbers of each report among these lines, by their names."""
    found = []
    for line in lines:
        if line.startswith("{"):
            found.append(json.loads(line))
            assert json.dumps(found[-1], separators=(",", ":")) == line
            time_of_day = [("time", str)] * ("time" in found[-1])
            types = [(name, type(it)) for name, it in found[-1].items()]
            assert types == time_of_day + MEMBERS, line
        elif REPORT.match(line):
            found.append(dict(it.split("=") for it in line.split() if "=" in it))
    return found


@pytest.mark.parametrize("options", [(), ("--json",), ("--clock",), ("--json", "--clock")])
def test_periodic(options):
    """A report every second, also while nobody has come, as lines or as objects."""
    link = Link("listen:127.0.0.1:0", "--report", "1", "--seconds", "3", "--stay", *options)
    peer = Peer(connected(listening(link)), good)
    time.sleep(1.3)
    peer.runs()
    link.give(b"61\n6262\n")
    must_end(f"{options}", link, 0, seconds=10)
    lines = [STAMP.sub("", it) for it in link.errors()]
    reports = reports_of(lines)
    assert 2 <= len(reports) <= 3
    last = reports[-1]
    assert ((last["state"], int(last["acknowledged"]), int(last["bytes_sent"]), int(
        last["lost"])) == ("Running", 2, 3, 0))
    is_stamped = [bool(STAMP.match(it)) or "time" in json.loads(it) if it.startswith("{")
                  else bool(STAMP.match(it)) for it in link.errors()]
    assert set(is_stamped) == {"--clock" in options}
    assert all(it.startswith("{") == ("--json" in options) or EVENT.match(it) for it in lines)


def test_questions():
    """A line `?` is no message and no fault: a report follows what was sent before it."""
    one, other = tcp_pair(["--linger-ms", "200"], [])
    other.give(b"")
    one.give(b"61\n?\r\n6262\n?\nzz\n??\n?61\n? \n?")
    must_end("questions", one, 1, "ddcmp: line 8: not hexadecimal", seconds=10)
    reports = [int(it["sent"]) for it in reports_of(one.errors())]
    assert reports == [1, 2, 2]
    assert ([it.split(": ", 1)[1] for it in one.faults()
             if "line " in it] == [f"line {it}: not hexadecimal" for it in (5, 6, 7, 8)])
    other.ended(10)
    assert other.mails() == [b"a", b"bb"]


def test_questions_in_binary():
    """In binary `?` is a byte like any other."""
    one, other = tcp_pair(["--binary"], [])
    other.give(b"")
    one.give(binary([b"?", b"?\n"]))
    must_end("binary", one, 0, seconds=10)
    other.ended(10)
    assert not reports_of(one.errors()) and other.mails() == [b"?", b"?\n"]


@times
def test_time_of_day():
    """The time of day is that of this machine's clock, in UTC, to a tenth of a second, in the
    middle of a second."""
    time.sleep((1.5 - time.time() % 1) % 1)
    before = time.time()
    link = Link(f"connect:127.0.0.1:{free_port()}", "--clock", stdin=subprocess.DEVNULL)
    link.ended(10)
    after = time.time()
    stamps = [STAMP.match(it) for it in link.errors()]
    assert all(stamps[:-1]) and stamps[:-1]
    for it in stamps[:-1]:
        told = subprocess.run(["date", "-u", "-d", it[0].strip(), "+%s.%3N"], capture_output=True,
                              check=True)
        assert before - 0.1 <= float(told.stdout) <= after + 0.1


def test_line_down():
    """Why a line ended is reported with its event, and isn't if all was delivered."""
    for how, reason in (("close", "closed by the other end"), ("reset", "connection reset")):
        with server() as it:
            link = Link(f"connect:127.0.0.1:{port_of(it)}", "--clock")
            sock = it.accept()[0]
            peer = Peer(sock, no_ack)
            peer.runs()
            link.give(b"61\n", close=False)
            peer.waits(lambda it: it.named("DATA"), 5)
            if how == "reset":
                reset_at_close(sock)
                sock.close()
            else:
                peer.close()
            must_end(how, link, 3, unacknowledged(1), seconds=10)
            assert any(it.endswith(f"line down: {reason}") for it in link.errors())
    one, other = tcp_pair([], ["--linger-ms", "3000"])
    other.give(b"")
    one.give(b"61\n")
    for link in (one, other):
        must_end("delivered", link, 0, seconds=10)
        assert not any("line down" in it for it in link.errors())


@pytest.mark.parametrize("is_file", [True, False])
@pytest.mark.parametrize("line, size", [(b"?\n", 1 << 22), (b"x\n", 1 << 26)])
def test_flood(line, size, is_file):
    """A peer is answered although the input is nothing but lines `?`, or lines that are no
    messages: from a file, which always has more, and from a pipe."""
    with tempfile.TemporaryFile() as given, server() as it:
        given.write(line * (size // 2))
        given.seek(0)
        link = Link(f"connect:127.0.0.1:{port_of(it)}", stdin=given if is_file else subprocess.PIPE,
                    stderr=subprocess.DEVNULL)
        writer = None if is_file else link.give(line * (size // 2), close=False)
        peer = joined(it, good)
        for num in range(1, 11):
            peer.send(data(b"a", num))
            assert (peer.waits(lambda it: any(f.resp == num for f in it.named("ACK")), 1))
        assert (os.lseek(given.fileno(), 0, os.SEEK_CUR) < size if is_file else writer.is_alive())
        link.kill()
