"""What a link reports if its line doesn't come up: that it is open, silence, bytes that are neither
STRT nor STACK, telnet, and datagrams from elsewhere."""
import time

import pytest

from .peers import REFUSED, Peer, called, datagram_peer, good, linked, silent
from .process import (
    Bridge, Link, connected, listening, must_end, port_of, terminals, times, udp_socket)
from .test_link_bad_peers import refusing
from .wire import STACK, STRT

QUICK = ("--timer-ms", "50", "--attempts", "0")
SILENCE = "ddcmp: no reply yet: 4 STRT sent, 0 bytes received"
NOISE = "bytes received, no STRT or STACK: other speed or parity, or not DDCMP?"
TELNET = "ddcmp: the peer speaks telnet: turn it off there"


def told(link):
    """The lines that report a peer that doesn't start."""
    return [it for it in link.errors() if "no reply yet" in it or NOISE in it]


def is_told(link, line, seconds=5):
    """It is reported within the time, by this line alone."""
    link.waits(told, seconds)
    assert told(link) == [line], link.errors()


def test_silence():
    """After the fourth STRT, once, over each kind of line; a peer that starts then is served."""
    link, peer = called(*QUICK, answer=silent)
    is_told(link, SILENCE)
    assert 4 <= len(peer.named("STRT")) <= 6
    time.sleep(1)
    assert told(link) == [SILENCE]
    peer.answer = good
    link.give(b"61\n")
    must_end("TCP", link, 0, SILENCE)
    link, _, _ = datagram_peer(*QUICK, answer=silent, timer=())
    is_told(link, SILENCE)
    with terminals() as ends:
        link = Link(f"device:{ends[0]}", *QUICK)
        is_told(link, SILENCE)
        link.kill()


def test_no_silence():
    """Nothing is reported of a peer that starts soon, nor in maintenance mode."""
    link, peer = called("--timer-ms", "300", answer=silent)
    peer.waits(lambda it: len(it.named("STRT")) == 2)
    peer.answer = good
    link.give(b"61\n")
    must_end("soon", link, 0)
    link, _ = called("--maintenance", "--seconds", "1", answer=silent)
    link.ended()
    assert not told(link)


@pytest.mark.parametrize("count, line", [
    (1, "ddcmp: no reply yet: 4 STRT sent, 1 byte received"),
    (15, "ddcmp: no reply yet: 4 STRT sent, 15 bytes received"),
    (16, f"ddcmp: 16 {NOISE}"), (300, f"ddcmp: 300 {NOISE}"),
])
def test_noise(count, line):
    """Fewer than 16 bytes are next to nothing, more are noise."""
    link, sock = linked("--timer-ms", "200", "--attempts", "0")
    sock.sendall((b"\x55\xc3\x00\xfe" * 75)[:count])
    is_told(link, line)
    time.sleep(0.5)
    assert told(link) == [line]
    link.kill()


def misread(text, ratio):
    """What these bytes are to a serial port whose bits are so many times as long: it waits for a
    start bit, and takes the eight bits after it."""
    levels = [1] * 9
    for byte in text:
        levels += [0, *(byte >> it & 1 for it in range(8)), 1]
    levels += [1] * 30
    read, at = [], 0.0
    while at < len(levels) - 10 * ratio:
        if levels[int(at)]:
            at += 0.1
            continue
        bits = [levels[int(at + ratio * (it + 1.5))] for it in range(8)]
        read.append(sum(bit << it for it, bit in enumerate(bits)))
        at += 9.5 * ratio
    return bytes(read)


@pytest.mark.parametrize("ratio", [0.5, 2])
def test_wrong_speed(ratio):
    """At a terminal of another speed a peer's STRTs are noise."""
    assert misread(STRT, 1) == STRT and misread(STRT, ratio) != STRT
    with terminals() as ends, open(ends[1], "r+b", buffering=0) as peer:
        link = Link(f"device:{ends[0]}", "--timer-ms", "200", "--attempts", "0")
        for _ in range(10):
            peer.write(misread(STRT, ratio))
            time.sleep(0.05)
        link.waits(told, 5)
        count = 10 * len(misread(STRT, ratio))
        assert count >= 16 and told(link) == [f"ddcmp: {count} {NOISE}"], link.errors()
        link.kill()


def test_silence_then_noise():
    """Each of them is reported at once."""
    link, sock = linked("--timer-ms", "100", "--attempts", "0")
    is_told(link, SILENCE)
    sock.sendall(b"login: " * 10)
    link.waits(lambda it: len(told(it)) == 2, 2)
    assert told(link) == [SILENCE, f"ddcmp: 70 {NOISE}"]
    link.kill()


def test_each_line():
    """Bytes of an earlier line don't count."""
    link = Link("listen:127.0.0.1:0", "--again", "--timer-ms", "100", "--attempts", "5")
    port = listening(link)
    first = connected(port)
    first.sendall(b"login: " * 10)
    link.waits(told, 5)
    first.close()
    second = Peer(connected(port), silent)
    link.waits(lambda it: len(told(it)) == 2, 5)
    assert told(link) == [f"ddcmp: 70 {NOISE}", SILENCE]
    second.close()
    link.kill()


@pytest.mark.parametrize("first, is_telnet", [
    (b"\xff\xfb\x03\xff\xfb\x01", True), (b"\xff\xfd\x18", True), (b"\xff\xff\xff", False),
    (b"\xfb\xff\xfd", False), (STACK, False),
])
def test_telnet(first, is_telnet):
    """Told as soon as the line begins with IAC WILL or IAC DO, once, also if the peer runs then."""
    link, peer = called(answer=silent)
    peer.send(first)
    time.sleep(0.3)
    peer.send(STACK + b"\xff\xfb\x01")
    peer.answer = good
    link.give(b"61\n")
    must_end(f"{first}", link, 0, TELNET if is_telnet else None)
    assert link.errors().count(TELNET) == is_telnet


def stranger_line(sock, peer):
    return (f"datagram from 127.0.0.1:{port_of(sock)} ignored: "
            f"the peer is 127.0.0.1:{port_of(peer)}")


def test_stranger():
    """A datagram from elsewhere is reported, once, and the peer is served."""
    link, peer, local = datagram_peer(answer=silent)
    other = udp_socket()
    for _time in range(5):
        other.sendto(STRT, ("127.0.0.1", local))
    line = stranger_line(other, peer.sock)
    link.waits(lambda it: line in it.errors(), 5)
    peer.answer = good
    assert peer.runs()
    assert [it for it in link.errors() if "datagram" in it] == [line]
    link.kill()


@pytest.mark.parametrize("options", [(), ("--trace",), ("--json",)])
def test_stranger_at_a_bridge(options):
    """The same at each line of a bridge, which passes on what its peers send."""
    peers, other = [udp_socket(), udp_socket()], udp_socket()
    bridge = Bridge(*(f"udp:127.0.0.1:0,127.0.0.1:{port_of(it)}" for it in peers), *options)
    assert bridge.waits(lambda it: len(it.errors()) == 2, 5)
    ports = [int(it.split(",")[0].rsplit(":", 1)[1]) for it in bridge.errors()]
    for port in ports * 5:
        other.sendto(STRT, ("127.0.0.1", port))
    lines = [stranger_line(other, it) for it in peers]
    assert bridge.waits(lambda it: set(lines) <= set(it.errors()), 5), bridge.errors()
    for port, peer, to in zip(ports, peers, reversed(peers)):
        other.sendto(STRT, ("127.0.0.1", port))
        peer.sendto(STACK, ("127.0.0.1", port))
        to.settimeout(5)
        assert to.recv(1 << 16) == STACK
    assert sorted(it for it in bridge.errors() if "datagram" in it) == sorted(lines)
    bridge.kill()


def test_opened():
    """A device and a line of datagrams are reported when they are open, by a link and a bridge."""
    with terminals() as ends:
        link = Link(f"device:{ends[0]}")
        link.waits(lambda it: it.errors(), 5)
        assert link.errors() == [f"opened {ends[0]}"]
        link.kill()
        bridge = Bridge(f"device:{ends[1]}", "udp:127.0.0.1:0,127.0.0.1:9")
        bridge.waits(lambda it: len(it.errors()) == 2, 5)
        bridge.kill()
    first, second = bridge.errors()
    assert first == f"opened {ends[1]}"
    words = second.split(" ")
    assert words[:1] + words[2:] == ["bound", "peer", "127.0.0.1:9"]
    assert words[1][:10] == "127.0.0.1:" and int(words[1][10:-1]) > 0
    link, peer, local = datagram_peer()
    link.waits(lambda it: it.errors(), 5)
    assert link.errors()[0] == f"bound 127.0.0.1:{local}, peer 127.0.0.1:{port_of(peer.sock)}"
    link.kill()


@times
@pytest.mark.limit(90)
def test_each_minute():
    """What lasts is reported again after a minute, and not before."""
    begun = time.monotonic()
    silence, _sock = linked(*QUICK)
    noise, sock = linked(*QUICK)
    sock.sendall(b"login: " * 10)
    strange, peer, local = datagram_peer(*QUICK, answer=silent, timer=())
    other = udp_socket()
    long, _ = refusing(16)
    full, _ = refusing(8)
    lines = [(silence, SILENCE[:20]), (noise, f"ddcmp: 70 {NOISE}"), (long, REFUSED[16]),
             (strange, stranger_line(other, peer.sock)), (full, REFUSED[8])]

    def counts():
        other.sendto(STRT, ("127.0.0.1", local))
        time.sleep(0.1)
        return [sum(it.startswith(line) for it in link.errors()) for link, line in lines]

    assert strange.waits(lambda _: counts() == [1] * 5, 5), counts()
    while time.monotonic() < begun + 58:
        assert counts() == [1] * 5
    assert strange.waits(lambda _: counts() == [2] * 5, 6), counts()
    for link, _line in lines:
        link.kill()
