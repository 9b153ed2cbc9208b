"""Two stations of `ddcmp station` over a connection, each a process of its own, and a station
against bad peers. What is awaited is what a report states, and no time that a busy machine may
take; a station that has no turns left to wait for is ended by its peer."""
import contextlib
import re
import resource
import socket
import subprocess
import time

import pytest

from .process import (
    PROGRAM, Station, connected, free_port, port_of, receives, refusing, server)
from .wire import STACK, STRT, ack, data, nak

CLOSED = r"ddcmp: (ended|read|write)"
pytestmark = pytest.mark.limit(200)


def test_two_stations():
    """Each has a message for the other. The one that connects ends at its turns, of which it gets
    more if a busy machine needs them, and with it the connection."""
    for turns in (200, 1000, 5000):
        port = free_port()
        listener = Station("listen", port, Station.ENDLESS, 1000, "--send", "616263")
        caller = Station("connect", port, turns, 1000, "--send", "78797a", "--counters")
        caller.must_end(0)
        listener.must_end(3, "ddcmp: ended")
        is_done = caller.has(".*state=Running.*") and caller.has("mail .*")
        if is_done and caller.has(".*Acknowledged 1"):
            break
    for it, mail in ((listener, "78797a"), (caller, "616263")):
        assert it.has("notice Running(AndHandedUp)?") and it.has(f"mail {mail}"), it
        assert it.has("notice (HandedUpAnd)?Acknowledged 1"), it
    numbers = "read=[1-9][0-9]* written=[1-9][0-9]*"
    assert caller.has(f"turns={turns} state=Running {numbers}")
    # Its counters are in the last line but one, and only if they were asked for.
    assert re.fullmatch("counters nak_sent_header_check=0 .* messages_sent=1 bytes_sent=3 .* "
                        "messages_up=1 bytes_up=3 .*", caller.lines()[-2])
    assert b"counters" not in listener.out


def against(deed, turns, timer, *options):
    """A station that listens, and what its peer does: the station, once it has ended."""
    port = free_port()
    station = Station("listen", port, turns, timer, *options)
    with connected(port) as peer, contextlib.suppress(OSError):
        deed(station, peer)
    station.ended(120)
    return station


def test_peer_closes():
    """A peer that closes at once."""
    against(lambda station, peer: None, Station.ENDLESS, 1000).must_end(3, CLOSED)


def test_peer_sends_junk():
    """A peer that sends junk for ever."""
    def deed(_, peer):
        while True:
            peer.sendall(bytes(1 << 16))
    station = against(deed, 500, 1000)
    assert station.has("turns=500 state=IStart read=[1-9][0-9]* written=[0-9]*")
    station.must_end(0)


def test_peer_never_reads():
    """Over few turns: its system takes what is written. A silent turn waits 10 ms."""
    began = time.monotonic()
    station = against(lambda station, peer: station.ended(120), 100, 1000)
    assert station.has("turns=100 state=IStart read=0 written=[0-9]*")
    station.must_end(0)
    assert 1 <= time.monotonic() - began < 8


def test_peer_asks_for_ever():
    """A peer that asks again and again for the longest message, and reads nothing: when its system
    takes no more, a write waits 5 seconds and fails. What was reported before stays."""
    def deed(station, peer):
        peer.sendall(STACK)
        peer.settimeout(1)
        while not station.has_ended():
            with contextlib.suppress(socket.timeout):
                peer.sendall(nak(2, 0))
    began = time.monotonic()
    station = against(deed, Station.ENDLESS, 1000, "--send", "61" * 1500)
    assert station.has("notice Running")
    station.must_end(3, "ddcmp: write")
    assert time.monotonic() - began >= 5


COUNTERS = " ".join(f"{it}=0" for it in (
    *(f"nak_{way}_{reason}" for way in ("sent", "received") for reason in (
        "header_check", "data_check", "reply_to_rep", "no_buffer", "overrun", "too_long", "format",
        "other")), "rep_sent", "rep_received", "messages_sent", "bytes_sent", "messages_again",
    "bytes_again", "messages_up", "bytes_up", "expiries", "header_checks", "data_checks",
    "too_longs", "formats"))
COUNTED = COUNTERS.replace("up=0 bytes_up=0", "up=1 bytes_up=3")
RUNS, MAIL = "notice Running\n", "notice Running\nnotice HandedUp\nmail 616263\n"
ABC = data(b"abc", 1)


def served(steps, *options, turns=100, before=(), **how):
    """A station that connects to a peer, which sends its bytes step by step, each once it received
    what comes before them: what it reports, how it ends, and all that it sent."""
    with server() as listener:
        words = [*before, *PROGRAM, "station", "--role", "connect", "--addr",
                 f"127.0.0.1:{port_of(listener)}", "--turns", str(turns), "--timer-ms", "60000"]
        run = subprocess.Popen([*words, *options], stderr=subprocess.PIPE,
                               **{"stdout": subprocess.PIPE, **how})
        peer = listener.accept()[0]
        got = b""
        for awaited, sent in steps:
            got += receives(peer, awaited)
            if sent is None:
                peer.shutdown(socket.SHUT_WR)
            else:
                peer.sendall(sent)
        out, err = run.communicate(timeout=100)
        with contextlib.suppress(ConnectionResetError):
            got += receives(peer, 1 << 20)
    return (out or b"").decode(), err.decode(), run.returncode, got


@pytest.mark.parametrize("steps, options, report, sent", [
    ([(8, STACK + ABC)], "", f"{MAIL}turns=100 state=Running read=21 written=16\n",
     [STRT, ack(1)]),
    # The counters are before the last line, if they are requested.
    ([(8, STACK + ABC)], "--counters",
     f"{MAIL}counters {COUNTED}\nturns=100 state=Running read=21 written=16\n", [STRT, ack(1)]),
    # One message is sent once the station runs, and only once.
    ([(8, STACK), (13, ack(1))], "--send 616263",
     f"{RUNS}notice Acknowledged 1\nturns=100 state=Running read=16 written=21\n", [STRT, ABC]),
    # The peer restarts: the station halts, or restarts too.
    ([(8, STACK), (8, STRT)], "",
     f"{RUNS}notice PeerRestarted\nturns=100 state=Halted read=16 written=16\n", [STRT, ack(0)]),
    ([(8, STACK), (8, STRT)], "--restart",
     f"{RUNS}notice Restarted 0\nturns=100 state=AStart read=16 written=24\n",
     [STRT, ack(0), STACK]),
])
def test_reports(steps, options, report, sent):
    assert served(steps, *options.split()) == (report, "", 0, b"".join(sent))


def test_no_turns():
    report = "turns=0 state=IStart read=0 written=0\n"
    assert served([], turns=0) == (report, "", 0, b"")


def test_line_that_ends():
    """Then there is no last line, and what was reported before stays."""
    ends = served([(8, STACK), (8, None)], turns=Station.ENDLESS)
    assert ends == (RUNS, "ddcmp: ended\n", 3, STRT + ack(0))


def limited(size, path, *steps, **how):
    """How a station ends whose report may have so many bytes, and the report."""
    with open(path, "wb") as out:
        ends = served(steps, stdout=out, restore_signals=False, preexec_fn=lambda:
                      resource.setrlimit(resource.RLIMIT_FSIZE, (size, size)), **how)
    return ends[1:3], path.read_text()


@pytest.mark.parametrize("size", [0, 15, 31, 43, 60])
def test_report_that_fails(size, tmp_path):
    """It is a fault after all turns, and nothing is written after the write that failed."""
    ends, report = limited(size, tmp_path / "out", (8, STACK + ABC))
    whole = f"{MAIL}turns=100 state=Running read=21 written=16\n"
    assert (ends, report) == (("ddcmp: write\n", 3), whole[:size])


@pytest.mark.parametrize("refused, fault", [
    ("recvfrom:error=ECONNRESET", "read"), ("sendto:error=EPIPE", "write"), ("", "ended")])
@pytest.mark.parametrize("size", [0, 1000])
def test_line_that_fails(refused, fault, size, tmp_path):
    """It is the fault that is reported, also if the report failed."""
    before = refusing(refused) if refused else []
    steps = [] if refused else [(8, STACK + ABC), (8, None)]
    ends, report = limited(size, tmp_path / "out", *steps, before=before)
    assert ends == (f"ddcmp: {fault}\n", 3)
    assert report == ("" if refused or not size else MAIL)
