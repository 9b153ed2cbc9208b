"""What a link does, and says, of a peer whose frames are wrong: too long, damaged again and again,
or its own."""
import time

import pytest

from .peers import REFUSED, Refusing, good, linked, running
from .process import must_end, tcp_pair, times
from .wire import data

TOO_LONG = "ddcmp: peer's messages are too long: --max is 100"
DAMAGED = "ddcmp: damaged frames alone: other speed or parity, telnet?"
ECHO = "ddcmp: all that came is what was sent: does the line echo?"


def damaged(message, num):
    """A message whose data check is wrong."""
    frame = data(message, num)
    return frame[:-1] + bytes([frame[-1] ^ 1])


def stubborn(frame):
    """What a peer answers that sends the same frame again at each NAK."""
    def answer(peer, it):
        return frame if it.name == "NAK" else good(peer, it)
    return answer


def at_stubborn_peer(frame, *options):
    """A link, and its peer, which has sent that frame and sends it again at each NAK."""
    link, peer = running(*options, answer=stubborn(frame))
    peer.send(frame)
    return link, peer


def refusals(peer):
    return [it for it in peer.named("NAK") if it.sub != 3]


def is_told_once(name, link, line):
    assert [it for it in link.errors() if it in (TOO_LONG, DAMAGED)] == [line]


@pytest.mark.parametrize("timer, most", [((), 16), (("--timer-ms", "100"), 36)])
def test_too_long(timer, most):
    """A message that is too long is refused at once, and then at a pace that slows down, anew after
    a message was acknowledged; it is told once, and the status is 3 though all of the input is
    acknowledged."""
    link, peer = at_stubborn_peer(data(b"x" * 200, 1), "--max", "100", *timer)
    peer.waits(refusals, 2)
    link.give(b"61\n", close=False)
    time.sleep(3)
    count = len(refusals(peer))
    assert 5 <= count <= most and {it.sub for it in refusals(peer)} == {16}, (
        f"{timer}: {count} NAKs in 3 s: {refusals(peer)[:3]}")
    assert peer.mail == [b"a"]
    link.give(b"")
    peer.waits(lambda it: False, 1)
    peer.close()
    must_end(f"too long {timer}", link, 3, "ddcmp: ended")
    is_told_once(timer, link, TOO_LONG)


def test_damaged_alone():
    """If all that comes is damaged, as behind a telnet client, that is told once, after tries that
    slow down."""
    link, peer = at_stubborn_peer(damaged(b"\xff", 1), "--timer-ms", "100")
    time.sleep(3)
    count = len(refusals(peer))
    assert 10 <= count <= 36
    peer.close()
    must_end("damaged", link, 3, "ddcmp: ended")
    is_told_once("damaged", link, DAMAGED)


@times
def test_damaged_once():
    """One damaged frame is repaired at once, each time, and not a word is said of it."""
    link, peer = running()
    start = time.monotonic()
    for number in range(1, 21):
        peer.send(damaged(b"b", number))
        peer.waits(lambda it: len(refusals(it)) == number, 2)
        peer.send(data(b"b", number))
        peer.waits(lambda it: it.frames[-1].name == "ACK" and it.frames[-1].resp == number, 2)
    took = time.monotonic() - start
    assert len(refusals(peer)) == 20 and took <= 1, f"{len(refusals(peer))} NAKs, {took} s"
    link.give(b"61\n")
    must_end("repaired", link, 0)
    assert (link.lines().count("mail 62") == 20
            and not any("peer" in it or "damaged" in it for it in link.errors()))


def refusing(reason, *options):
    """A link whose peer refuses its message for this reason, and that peer."""
    link, peer = running("--timer-ms", "50", *options, answer=Refusing(reason))
    link.give(b"61\n")
    return link, peer


@pytest.mark.parametrize("reason, line", [*REFUSED.items(), (2, None)])
def test_refused_there(reason, line):
    """That the peer refuses a message as too long is reported at the first NAK, that it has no
    buffer at the first refused try; once, and the message is delivered if it is taken later."""
    link, peer = refusing(reason)
    assert line is None or link.waits(lambda it: line in it.errors(), 2)
    assert peer.waits(lambda it: len(it.named("DATA")) >= 8, 5)
    peer.answer.takes = True
    must_end(f"{reason}", link, 0, line)
    assert peer.mail == [b"a"]
    assert [it for it in link.errors() if "peer" in it] == ([line] if line else [])


def at_an_echo(*options, given=b""):
    """A link whose line returns what it sends, once that has ended."""
    link, echo = linked(*options)
    link.give(given)
    echo.settimeout(10)
    while piece := echo.recv(4096):
        echo.sendall(piece)
    echo.close()
    return link


def test_echoing_line():
    """All that came is what was sent: the messages count as acknowledged, and the last line but one
    asks whether the line echoes, in maintenance mode too. Between two links nothing is said, nor if
    there was no message."""
    must_end("echo", at_an_echo(given=b"61\n"), 0, ECHO)
    must_end("maintenance", at_an_echo("--maintenance", given=b"61\n"), 0, ECHO)
    must_end("no message", at_an_echo(), 0)
    for given in ((b"61\n", b"6262\n"), (b"", b"")):
        links = tcp_pair([], [])
        for it, text in zip(links, given):
            it.give(text)
        for it in links:
            must_end("two links", it, 0)
            assert ECHO not in it.errors()
