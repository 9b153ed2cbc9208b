"""When a link leaves a line: a peer that doesn't answer or refuses is given up, and one that has
more to send is heard."""
import contextlib
import os
import subprocess
import time

import pytest

from .bad_lines import Bad
from .peers import Peer, Refusing, called, datagram_peer, good, joined, no_ack, running, silent
from .process import (
    Link, connected, into_pipe, listening, must_end, port_of, rest_of, server, tcp_pair, times,
    udp_names, unacknowledged)
from .wire import STACK, STRT, ack, binary, data, drawn, header, messages_of, rep, unpacked

QUICK = ("--timer-ms", "50")


@times
def test_no_handshake():
    """A peer that says nothing is given up after seven tries, or as many as are asked for."""
    for options, count in (((), 7), (("--attempts", "2"), 2)):
        link, peer = called(*QUICK, *options, answer=silent)
        link.give(b"61\n")
        must_end(f"{options}", link, 3, "ddcmp: ended", seconds=5)
        assert "ddcmp: peer doesn't answer" in link.errors() and len(peer.named("STRT")) == count, (
            f"{options}: {link.errors()}, {len(peer.named('STRT'))} STRT")
        assert 0.05 * count <= link.took <= 0.05 * count + 2
    link, peer = called(*QUICK, "--attempts", "0", "--seconds", "1", answer=silent)
    must_end("never", link, 3, "ddcmp: ended", seconds=5)
    assert "ddcmp: peer doesn't answer" not in link.errors() and len(peer.named("STRT")) >= 10, (
        f"never: {link.errors()}, {len(peer.named('STRT'))} STRT")


def test_silent_caller():
    """A caller that says nothing doesn't hold a listener."""
    link = Link("listen:127.0.0.1:0", *QUICK)
    port = listening(link)
    with connected(port):
        time.sleep(0.1)
        peer = Peer(connected(port))
        assert peer.runs(), "the second caller isn't served"
        link.give(b"61\n")
        must_end("listener", link, 0, "ddcmp: peer doesn't answer", seconds=5)
        assert peer.mail == [b"a"]


@pytest.mark.parametrize("options, status, last", [
    (("--attempts", "3"), 3, unacknowledged(1)), (("--attempts", "3", "--again"), None, None),
    ((), None, None),
])
def test_gone(options, status, last):
    """A peer that ran and answers nothing any more is given up if that is asked for, and else
    isn't."""
    with server() as it:
        link = Link(f"connect:127.0.0.1:{port_of(it)}", *QUICK, *options)
        peer = joined(it, no_ack)
        link.give(b"61\n")
        if status is not None:
            must_end(f"{options}", link, status, last, seconds=5)
        elif options:
            second = Peer(it.accept()[0], good)  # the line is opened again
            assert second.runs()
        else:
            time.sleep(1)
            assert link.is_running()
        assert bool(options) == ("ddcmp: peer doesn't answer" in link.errors())
        link.kill()


def test_absent():
    """Over datagrams a peer that isn't there yet is waited for, but for as many tries as are asked
    for, and one that is gone isn't."""
    link, peer, _local = datagram_peer(answer=silent)
    time.sleep(2)
    assert link.is_running() and len(peer.named("STRT")) >= 9, "it doesn't wait"
    link.kill()
    link, peer, _local = datagram_peer("--attempts", "3", answer=silent)
    must_end("absent", link, 3, "ddcmp: ended", seconds=5)
    assert LEFT in link.errors() and len(peer.named("STRT")) == 3
    link, peer, _local = datagram_peer("--attempts", "3", answer=good)
    assert peer.runs(), "it doesn't start"
    peer.answer = silent
    link.give(b"61\n")
    must_end("gone", link, 3, unacknowledged(1), seconds=5)


def test_absent_again():
    """So it is over each line, after a peer that ran and went, until it is back."""
    link, peer, _local = datagram_peer("--again", "--attempts", "3", answer=good)
    peer.runs()
    peer.answer = silent
    link.give(b"61\n", close=False)
    link.waits(lambda it: it.errors().count(LEFT) == 2, 5)
    assert link.errors().count(LEFT) == 2 and link.is_running(), "it doesn't wait"
    peer.answer = good
    link.give(b"6262\n")
    must_end("back", link, 3, unacknowledged(1), seconds=5)
    assert peer.mail[-1:] == [b"bb"]


def test_late_start():
    """A peer that starts late is heard out for as long as any other: the time counts from the
    handshake."""
    link, peer = called("--timer-ms", "250", answer=silent)
    link.give(b"61\n")
    time.sleep(0.6)
    peer.answer = good
    peer.waits(lambda it: it.mail, 5)
    time.sleep(0.2)
    peer.send(data(b"hi", 1, 1))
    must_end("late", link, 0, seconds=5)
    assert link.mails() == [b"hi"]


def test_refused_then_silent():
    """A peer that refuses a message and then says nothing doesn't answer."""
    link, peer = running(*QUICK, "--attempts", "6", answer=Refusing(16))
    link.give(b"61\n")
    peer.waits(lambda it: len(it.named("DATA")) >= 3, 5)
    peer.answer = silent
    must_end("silent", link, 3, unacknowledged(1), seconds=5)
    assert [it for it in link.errors() if "peer" in it] == [
        "ddcmp: peer refuses: message too long", "ddcmp: peer doesn't answer"]


@pytest.mark.parametrize("reason, words", [
    (1, "header check"), (2, "data check"), (8, "buffer temporarily unavailable"),
    (9, "receive overrun"), (16, "message too long"), (17, "header format error"),
])
def test_refused(reason, words):
    """A peer that refuses a message is given up with its reason."""
    link, peer = running(*QUICK, "--attempts", "3", answer=Refusing(reason))
    link.give(b"61\n")
    must_end(words, link, 3, unacknowledged(1), seconds=5)
    assert f"ddcmp: peer refuses: {words}" in link.errors()


def asleep(_peer, frame):
    """What a peer answers whose output isn't read: it acknowledges nothing new."""
    return {"STRT": STACK, "STACK": ack(0), "REP": ack(0)}.get(frame.name, b"")


@pytest.mark.parametrize("is_of_datagrams", [False, True])
def test_asleep(is_of_datagrams):
    """A peer that replies to each REP isn't given up, however many tries there are; once it is
    silent it is, after as many as are asked for."""
    options = (*QUICK, "--attempts", "3")
    for then in (good, silent):
        if is_of_datagrams:
            link, peer, _local = datagram_peer(*options, answer=asleep, timer=())
            assert peer.runs()
        else:
            link, peer = running(*options, answer=asleep)
        link.give(b"61\n")
        assert peer.waits(lambda it: len(it.named("REP")) >= 10, 5) and link.is_running()
        count, begun = len(peer.named("REP")), time.monotonic()
        peer.answer = then
        if then is good:
            must_end("awake", link, 0, seconds=10)
            assert peer.mail == [b"a"] and LEFT not in link.errors()
        else:
            must_end("silent", link, 3, unacknowledged(1), seconds=5)
            assert LEFT in link.errors() and 2 <= len(peer.named("REP")) - count <= 4
            assert 0.1 <= time.monotonic() - begun


def test_slow_progress():
    """Progress between two tries keeps a line, however many tries there are."""
    link, peer = running(*QUICK, "--attempts", "3", "--window", "1", answer=no_ack)
    link.give(b"61\n" * 6)
    for number in range(1, 7):
        time.sleep(0.12)  # about two expiries
        peer.send(ack(number))
    must_end("progress", link, 0, seconds=5)


def both_done(name, one, two, to_two, to_one):
    """Both inputs end at once: each side receives all of the other's, and both end with 0."""
    one.give(binary(to_two))
    two.give(binary(to_one))
    for it in (one, two):
        assert it.ended() == 0
    assert unpacked(two.out) == to_two and unpacked(one.out) == to_one


@pytest.mark.parametrize("few, many", [(1, 400), (400, 1), (100, 100)])
def test_lingers(few, many):
    """Who is done first hears the other out, over TCP and UDP."""
    options = ("--binary", "--timer-ms", "200")
    both_done(f"TCP {few} {many}", *tcp_pair(options, options), messages_of(few), messages_of(many))
    one, two = (Link(it, *options) for it in udp_names())
    both_done(f"UDP {few} {many}", one, two, messages_of(few), messages_of(many))


def test_lingers_on_a_bad_line():
    """The same over a line that damages a tenth of what it carries."""
    for _time in range(3):
        bad = Bad(0.1)
        options = ("--binary", "--timer-ms", "100", "--linger-ms", "1500")
        one = Link(f"listen:127.0.0.1:{bad.target}", *options)
        listening(one)
        two = Link(f"connect:127.0.0.1:{bad.port}", *options)
        both_done("10 %", one, two, messages_of(40, 200), messages_of(40, 200))


def test_lingers_at_a_slow_reader():
    """A peer isn't heard out while the output holds the line back."""
    one, reading = into_pipe(Link, "listen:127.0.0.1:0", "--binary")
    two = Link(f"connect:127.0.0.1:{listening(one)}", "--binary")
    sent = [drawn.randbytes(1500) for _ in range(600)]
    one.give(binary([b"a"]))
    two.give(binary(sent))
    time.sleep(2)
    out = rest_of(reading)
    os.close(reading)
    assert one.ended() == 0 and two.ended() == 0 and unpacked(out) == sent, (
        f"{one.errors()[-1:]} {two.errors()[-1:]}, {len(unpacked(out))} of {len(sent)}")


@times
@pytest.mark.parametrize("linger, least, most", [
    ("0", 0, 0.4), ("300", 0.3, 1), ("1200", 1.2, 2),
])
def test_lingers_so_long(linger, least, most):
    """For as long as is asked for since the last reply, and with 0 not at all."""
    link, peer = running("--linger-ms", linger, stdin=subprocess.DEVNULL)
    begun = time.monotonic()
    assert link.ended(5) == 0 and least - 0.1 <= time.monotonic() - begun <= most, (
        f"--linger-ms {linger}: {time.monotonic() - begun:.2f} s, status {link.run.returncode}")


def test_lingers_while_asked():
    """A peer that isn't done is heard out: one that asks again by REP or STACK, or is in the middle
    of a frame. One that only acknowledges, repeats what was acknowledged or refused, or sends junk
    isn't waited for; a refused message isn't well."""
    long, too_long = data(b"c" * 1000, 2), header(2000, 2) + b"d" * 2002
    for name, pieces, stays in (
        ("REP", [rep(1)] * 7, True), ("STACK", [STACK] * 7, True), ("ACK", [ack(0)] * 12, False),
        ("slow", [long[at:at + 100] for at in range(0, len(long), 100)], True),
        ("REP for ever", [rep(1)] * 14, False), ("DATA", [data(b"a", 1)] * 12, False),
        ("refused", [too_long] * 12, False), ("junk", [b"\x01\x81\x02\x05"] * 12, False),
    ):
        link, peer = running("--max", "1500", "--linger-ms", "800", stdin=subprocess.DEVNULL)
        peer.send(data(b"a", 1))
        begun = time.monotonic()
        with contextlib.suppress(OSError):
            for piece in pieces:
                if link.has_ended():
                    break
                peer.send(piece)
                time.sleep(0.25)
        assert (link.run.returncode is None) == stays, (name, time.monotonic() - begun)
        assert (link.ended(5) == 3 * (name == "refused")
                and link.mails() == [b"a"] + [b"c" * 1000] * (name == "slow"))


@times
@pytest.mark.parametrize("name, piece", [("REP", rep(1)), ("STACK", STACK)])
def test_asked_for_ever(name, piece):
    """A peer that asks again and again, with nothing new, keeps a link that is done for seven
    replies."""
    link, peer = running(stdin=subprocess.DEVNULL)
    peer.send(data(b"a", 1))
    begun, sent = time.monotonic(), 0
    with contextlib.suppress(OSError):
        while not link.has_ended() and time.monotonic() < begun + 8:
            time.sleep(0.25)
            peer.send(piece)
            sent += 1
    assert link.ended(1) == 0 and 2 <= time.monotonic() - begun <= 5, (
        f"{name}: status {link.run.returncode}, {time.monotonic() - begun:.2f} s, {sent} of it")


@times
def test_last_ack_lost():
    """Over UDP, with the defaults, a peer that lost the last acknowledgement can ask for it."""
    link, peer, _local = datagram_peer(timer=())
    peer.runs()
    peer.send(data(b"a", 1))
    link.give(b"61\n")
    assert peer.waits(lambda it: it.mail == [b"a"] and any(f.resp == 1 for f in it.frames), 5), (
        "the messages don't get through")
    time.sleep(3.2)
    count, begun = len(peer.named("ACK")), time.monotonic()
    peer.send(rep(1))
    assert peer.waits(lambda it: len(it.named("ACK")) > count, 1), "it isn't there any more"
    must_end("it", link, 0, seconds=12)
    assert 5 <= time.monotonic() - begun <= 8, f"it stays for {time.monotonic() - begun:.1f} s"


STILL, LEFT = "ddcmp: peer doesn't answer, still trying", "ddcmp: peer doesn't answer"


def test_silent_at_the_end():
    """Over UDP a peer that is silent once the input has ended is reported after seven tries, and
    given up as --attempts has it; one that sends anything isn't silent, and over TCP its end would
    be reported."""
    for options, is_heard, said, status in (
        ((), False, [STILL], None), (("--attempts", "0"), False, [STILL], None),
        (("--attempts", "9"), False, [STILL, LEFT], 3), (("--attempts", "7"), False, [LEFT], 3),
        ((), True, [], None),
    ):
        link, peer, _local = datagram_peer(*options, answer=no_ack, timer=("--timer-ms", "100"))
        peer.runs()
        link.give(b"61\n")
        begun = time.monotonic()
        while time.monotonic() < begun + 2 and not link.has_ended():
            time.sleep(0.2)
            if is_heard:
                peer.send(ack(0))
        assert (link.run.returncode == status
                and [it for it in link.errors() if it in (STILL, LEFT)] == said)
        link.kill()
    link, _ = running(*QUICK, answer=no_ack)
    link.give(b"61\n")
    time.sleep(1)
    assert link.is_running() and STILL not in link.errors()


@times
@pytest.mark.long
def test_silent_for_five_minutes():
    """That is when it is given up if --attempts isn't given; a peer that is heard now and then
    never is."""
    gone, silent_one, _local = datagram_peer(answer=no_ack, timer=())
    heard, peer, _local = datagram_peer(answer=no_ack, timer=())
    for link, it in ((gone, silent_one), (heard, peer)):
        it.runs()
        link.give(b"61\n")
    begun = time.monotonic()
    while not gone.has_ended() and time.monotonic() < begun + 330:
        time.sleep(2)
        peer.send(ack(0))
    took = time.monotonic() - begun
    said = [it for it in gone.errors() if it in (STILL, LEFT)]
    assert (gone.run.returncode == 3 and 290 <= took <= 320 and said == [STILL, LEFT]
            and b"lost 1" in gone.out)
    assert heard.is_running() and not heard.errors()


@times
def test_restarted_and_gone():
    """With --again a link that is done ends, idle until then, though the peer of its last line
    restarted."""
    link, peer = running("--again", "--linger-ms", "3000", stdin=subprocess.DEVNULL)
    peer.send(STRT)
    peer.waits(lambda it: it.has_ended, 10)
    peer.close()
    assert link.ended(20) == 0 and link.used <= 1
