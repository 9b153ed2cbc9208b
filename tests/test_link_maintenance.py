"""Links in maintenance mode: messages go once, arrive unchanged or not at all, and nothing answers
them."""
import re
import subprocess
import tempfile
import time

import pytest

from .bad_lines import lossy_datagrams
from .peers import dials, linked
from .process import (
    LONG, Link, commands_in, contents, exchange, free_port, must_end, receives, tcp_pair, terminals,
    times)
from .wire import STRT, binary, digits, drawn, maintenance, messages_of, unpacked

MODE = "--maintenance"
SIZES = (1, 2, 3, 1500, 4095, 4096, 8192, 16382, 16383)
LARGEST = ("--max", "16383")


def test_maintained_both_ways():
    """Two links over TCP, with messages of every length, in both forms."""
    messages = [drawn.randbytes(it) for it in SIZES]
    for form, more in ((binary, ("--binary",)), (digits, ())):
        one, two = tcp_pair((MODE, *LARGEST, *more), (MODE, *LARGEST, *more))
        exchange(f"{more}", one, two, messages, messages[::-1], form)
        texts = one.errors() + one.lines()
        assert not [it for it in texts if "Acknowledged" in it or "Running" in it]


def test_maintained_in_order():
    """One direction, and a receiver that has nothing to send: all that the line took, in its
    order."""
    messages = messages_of(300)
    one, two = tcp_pair((MODE, "--stay"), (MODE, "--counters"))
    one.give(b"")
    two.give(digits(messages))
    must_end("the sender", two, 0)
    must_end("the receiver", one, 0)
    assert one.mails() == messages
    assert one.lines().count("notice MaintenanceHandedUp") == len(messages)
    assert (two.last().get("sent") == "300" and two.last().get("acknowledged") == "0"
            and two.last().get("state") == "Halted")


def test_maintained_over_terminals():
    with terminals() as ends:
        one, two = (Link(f"device:{it}", MODE, "--binary") for it in ends)
        exchange("terminals", one, two, messages_of(50), messages_of(50))


def test_maintained_with_loss():
    """Over datagrams of which some are lost: those that arrive are of those that were sent, in
    their order, unchanged."""
    options = MODE, *LARGEST, "--binary", "--linger-ms", "3000"
    with lossy_datagrams(7, *options) as (one, two, loss):
        # Nothing holds a sender back, so all of them have room in the system's buffers.
        messages = [drawn.randbytes(drawn.choice([1, 100, 1000])) + bytes([at]) for at in range(60)]
        one.give(binary(messages))
        two.give(binary(messages[::-1]))
        must_end("one", one, 0)
        must_end("two", two, 0)
    for name, link, sent in (("one", one, messages[::-1]), ("two", two, messages)):
        got, rest = unpacked(link.out), iter(sent)
        assert got and all(any(it == other for other in rest) for it in got)
    assert len(unpacked(one.out)) + len(unpacked(two.out)) == 120 - loss.lost and loss.lost


def test_asks_for_a_program():
    """A peer in Python that asks as MOP does: its frames arrive amid junk, and what the link sends
    is these bytes alone."""
    request, load = bytes([8, 10, 1, 1, 0, 0]), bytes([2, 0]) + drawn.randbytes(600)
    link, sock = linked(MODE, "--stay")
    damaged = bytearray(maintenance(request))
    damaged[9] ^= 1
    sock.sendall(b"\x96\x96\xff" + bytes(damaged) + b"\x00\x90junk" + bytes(300) +
                 maintenance(request) + maintenance(b"\x06"))
    link.waits(lambda it: len(it.mails()) >= 2, 10)
    assert link.mails() == [request, b"\x06"]
    link.give(digits([load]))
    got = receives(sock, len(maintenance(load)))
    assert got == maintenance(load)
    sock.sendall(STRT + maintenance(b"\x0a\1"))
    link.waits(lambda it: len(it.mails()) >= 3, 10)
    assert "notice PeerStarts" in link.lines() and not receives(sock, 1, 0.5)
    sock.close()
    must_end("its line ended", link, 0)


def test_meets_a_peer_of_data():
    """A station of data messages gets on as if nothing had come, but for a notice; the other never
    starts."""
    one, two = tcp_pair((MODE, "--stay"), ("--timer-ms", "100", "--attempts", "4"))
    one.give(b"61\n")
    two.give(b"62\n")
    must_end("data", two, 3, "ddcmp: ended", seconds=10)
    must_end("maintenance", one, 0)
    assert ("notice MaintenanceSeen" in two.lines() and not two.mails()
            and "notice Running" not in two.lines())
    assert (one.lines().count("notice PeerStarts") >= 4 and not one.mails()
            and "notice Running" not in one.lines())


def test_lost_in_maintenance():
    """What the line hasn't taken when it ends is lost, and so is all that was read after it."""
    link, sock = linked(MODE, "--binary", *LARGEST)
    link.give(binary([bytes(16383)] * 2000), close=False)
    time.sleep(1)
    sock.close()
    status = link.ended(20)
    told = [it for it in link.errors() if it.startswith("ddcmp: ")]
    assert (status == 3 and told and re.search(r" (it|they) may have arrived$", told[-1])
            and "lost 1" in link.errors())


@times
def test_one_line_after_another():
    """With --again a peer that closes at once isn't called without a pause, and one that was heard
    is called at once."""
    link, it = dials(MODE, "--again")
    begun = time.monotonic()
    for _ in range(3):
        it.accept()[0].close()
    assert time.monotonic() - begun >= 2.5, (
        f"three lines in {time.monotonic() - begun:.2f} s: {link.errors()}")
    sock = it.accept()[0]
    sock.sendall(maintenance(b"a"))
    link.waits(lambda it: it.mails(), 10)
    sock.close()
    begun = time.monotonic()
    sock = it.accept()[0]
    assert time.monotonic() - begun <= 0.8, (
        f"{time.monotonic() - begun:.2f} s after a line over which a message came")
    link.give(b"62\n")
    assert receives(sock, len(maintenance(b"b"))) == maintenance(b"b")
    must_end("at last", link, 0)


@times
def test_lingers_in_maintenance():
    """Once its input is over it stays for replies: since the line began, and since the last one
    came."""
    link, sock = linked(MODE, "--linger-ms", "1500")
    link.give(b"61\n")
    for _ in range(3):
        time.sleep(0.8)
        sock.sendall(maintenance(b"r"))
    must_end("a peer that replies", link, 0)
    assert link.mails() == [b"r"] * 3 and 3.5 < link.took < 8


@pytest.mark.parametrize("words", [
    ("--window", "5"), ("--restart",), ("--timer-ms", "100"), ("--attempts", "3"),
])
def test_refused_in_maintenance(words):
    """Options that mean nothing there are a usage error."""
    link = Link("connect:127.0.0.1:1", MODE, *words)
    link.give(b"")
    status = link.ended()
    assert (status == 2 and "'--maintenance'" in link.err.decode()
            and words[0] in link.err.decode())


def test_the_maintenance_example():
    """The commands of docs/USING.md: each has the other's message."""
    commands = commands_in("USING.md", ".*link --maintenance").replace(":7003", f":{free_port()}")
    with tempfile.TemporaryDirectory() as folder:
        subprocess.run(["sh", "-c", f"{commands}\nwait"], cwd=folder, timeout=LONG, check=False)
        for name, message in (("asked", b"0a00"), ("answered", b"0801")):
            assert b"mail " + message + b"\n" in contents(f"{folder}/{name}")
