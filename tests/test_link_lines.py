"""Lines that are opened again, datagrams, devices, and the pace of retransmission."""
import contextlib
import os
import socket
import subprocess
import tempfile
import time

import pytest

from .peers import (
    REFUSED, Peer, Refusing, called, datagram_peer, dials, good, joined, no_ack, running, silent)
from .process import (
    Bridge, Link, exchange, free_port, listening, must_end, port_of, server, terminals, times,
    udp_names, udp_socket, unacknowledged)
from .wire import STACK, STRT, data, header, messages_of, nak


@pytest.mark.parametrize("peers", [10, pytest.param(100, marks=pytest.mark.long)])
def test_again(peers):
    """A peer that is killed and started again, time after time, with --again at the other."""
    one = Link("listen:127.0.0.1:0", "--again", "--timer-ms", "200")
    port = listening(one)
    for count in range(peers):
        two = Link(f"connect:127.0.0.1:{port}")
        two.give(b"%02x\n" % count, close=False)
        assert one.waits(lambda it, mail=b"mail %02x\n" % count: mail in it.out, 15)
        two.kill()
    one.kill()


@times
def test_closed_at_once():
    """A server that closes each connection at once isn't flooded."""
    for piece in (b"", STACK[:5]):
        link, it = dials("--again")
        it.settimeout(0.1)
        until, count = time.monotonic() + 2.5, 0
        while time.monotonic() < until:
            with contextlib.suppress(TimeoutError), it.accept()[0] as sock:
                count += 1
                sock.sendall(piece)
        assert 2 <= count <= 3 and link.processor_time() <= 0.5
        link.kill()
        name = f"127.0.0.1:{port_of(it)}"
        wanted = [[f"connecting {name}", f"connected {name}", "line down", f"retry in {it} s"]
                  for it in (1, 2)]
        told = [it.split(":")[0] if it.startswith("line down: c") else it for it in link.errors()]
        assert told[:8] == sum(wanted[:count], [])
        it.close()
    link = Link("device:/dev/null", "--again", "--seconds", "2", stdin=subprocess.DEVNULL)
    link.ended(10)
    assert link.used <= 0.6, "/dev/null"


@times
def test_late_server():
    """With --again a server that is there later is found, with a pause that doubles."""
    with socket.socket() as it:
        it.bind(("127.0.0.1", 0))
        name = f"127.0.0.1:{port_of(it)}"
        link = Link(f"connect:{name}", "--again")
        begun = time.monotonic()
        assert link.waits(lambda it: len(it.faults()) == 2, 6)
        it.listen()
        it.settimeout(5)
        Peer(it.accept()[0], good)
        took = time.monotonic() - begun
        link.give(b"61\n")
        assert link.ended(5) == 0 and 2.5 < took < 4
    wanted = [f"ddcmp: connect {name}: connection refused; retry in {it} s" for it in (1, 2)]
    assert (link.faults() == wanted
            and link.events() == [f"connecting {name}"] * 3 + [f"connected {name}"])


def test_taken_address():
    """An address that another program listens at is tried again with --again."""
    with server() as it:
        port = port_of(it)
        name = f"127.0.0.1:{port}"
        link = Link(f"listen:{name}", "--again")
        assert link.waits(lambda it: len(it.faults()) == 2, 6)
    assert link.waits(lambda it: it.events() == [f"listening {name}"], 6)
    other = Link(f"connect:{name}")
    other.give(b"61\n")
    assert other.ended(10) == 0 and link.waits(lambda it: b"mail 61\n" in it.out)
    link.kill()
    wanted = [f"ddcmp: listen {name}: address in use; retry in {it} s" for it in (1, 2)]
    assert link.faults()[:2] == wanted
    must_end("unknown", Link("listen:nosuchhost.invalid:1"), 3,
             "ddcmp: listen nosuchhost.invalid:1: no such host", 20)


@times
def test_server_away():
    """A server that is away for 2.5 s and comes back; while it is there the first retry is at
    once."""
    it = server()
    name = it.getsockname()
    link = Link(f"connect:127.0.0.1:{name[1]}", "--again")
    peer = joined(it, good)
    link.waits(lambda it: b"Running" in it.out, 5)
    peer.close()
    begun = time.monotonic()
    it.settimeout(5)
    peer = Peer(it.accept()[0], good)
    assert time.monotonic() - begun <= 0.7, f"{time.monotonic() - begun} s to the first retry"
    assert peer.runs(2), "it doesn't use its second line"
    time.sleep(0.2)
    it.close()
    peer.close()
    time.sleep(2.5)
    with socket.socket() as it:
        it.setsockopt(socket.SOL_SOCKET, socket.SO_REUSEADDR, 1)
        it.bind(name)
        it.listen()
        it.settimeout(5)
        peer = Peer(it.accept()[0], good)
    link.give(b"61\n")
    assert (link.ended(5) == 0
            and [it.rsplit("retry", 1)[-1] for it in link.faults()] == [" in 1 s", " in 2 s"])


def again_link(text):
    """A link with --again and this input, and its server."""
    link, it = dials("--again", "--linger-ms", "1500")
    link.give(text)
    return link, it


def left_with_none():
    """Such a link, its server, and a peer that has acknowledged its message."""
    link, it = again_link(b"61\n")
    peer = Peer(it.accept()[0], good)
    peer.waits(lambda it: it.mail, 5)
    time.sleep(0.2)
    return link, it, peer


def left_with_two():
    """Such a link, its server, and a peer that acknowledges none of its two messages."""
    link, it = again_link(b"61\n62\n")
    peer = Peer(it.accept()[0], no_ack)
    assert peer.waits(lambda it: len(it.named("DATA")) >= 2, 5)
    return link, it, peer


@times
def test_gone_for_good():
    """With --again a link ends once all is acknowledged, or lost with its line, if its peer went
    and doesn't come back while it would be heard out."""
    link, it, peer = left_with_none()
    it.close()
    peer.close()
    assert link.ended(10) == 0 and link.took <= 6
    link, it, peer = left_with_two()
    it.close()
    peer.close()
    must_end("lost", link, 3, unacknowledged(2), 10)


def test_back_after_a_loss():
    """It is heard out from the end of its line on."""
    link, it, peer = left_with_two()
    time.sleep(2)
    peer.close()
    peer = Peer(it.accept()[0], good)
    it.close()
    peer.runs()
    must_end("back after a loss", link, 3, unacknowledged(2), 10)


def test_back():
    """If a peer comes back, what it sends is taken."""
    link, it, peer = left_with_none()
    peer.close()
    peer = joined(it, good)
    peer.send(data(b"b", 1))
    must_end("back", link, 0, None, 10)
    assert b"mail 62\n" in link.out


def test_listener_is_left():
    """A listener whose peer went, with all acknowledged, ends too."""
    listener = Link("listen:127.0.0.1:0", "--again", "--linger-ms", "1000")
    listener.give(b"61\n")
    port = listening(listener)
    with socket.create_connection(("127.0.0.1", port)) as sock:
        peer = Peer(sock, good)
        peer.waits(lambda it: it.mail, 5)
        time.sleep(0.2)
        peer.close()
    must_end("listener", listener, 0, None, 10)


def test_full_window():
    """With --again a link sees the end of its input though the window was full as its line ended:
    at once, later, and of messages in binary. A message that was read and not sent waits for the
    next line, also one without LF."""
    def lost_with(text, count, *options, later=False):
        """Such a link, after its line ended with this many messages unacknowledged; its listener is
        gone, or returned."""
        link, it = dials("--again", "--linger-ms", "800", *options)
        link.give(text, close=not later)
        peer = Peer(it.accept()[0], no_ack)
        assert peer.waits(lambda it: len(it.named("DATA")) >= count, 5)
        if not later:
            it.close()
        peer.close()
        return link, it

    seven = b"".join(b"%02x\n" % it for it in range(1, 8))
    must_end("lines", lost_with(seven, 7)[0], 3, unacknowledged(7), 8)
    must_end("one", lost_with(b"61\n", 1, "--window", "1")[0], 3, unacknowledged(1), 8)
    must_end("binary",
             lost_with(b"\0\1a", 1, "--window", "1", "--binary")[0], 3, unacknowledged(1), 8)
    link, it = lost_with(b"61\n", 1, "--window", "1", later=True)
    it.close()
    time.sleep(1.5)
    assert link.is_running(), "it ended before its input"
    link.give(b"")
    must_end("later", link, 3, unacknowledged(1), 8)
    for text in (b"61\n62", b"61\n62\n"):
        link, it = lost_with(text, 1, "--window", "1", later=True)
        link.give(b"")
        peer = Peer(it.accept()[0], good)
        must_end(text, link, 3, unacknowledged(1), 8)
        assert peer.mail == [b"b"]
        it.close()


def test_more_between_lines():
    """What an input has between lines, in pieces, is looked at once more as the time of the run
    ends: its messages are lost, and counted. The end of an input behind a full window is seen
    before the next line, which here opens at once."""
    cases = (((b"\n", b"62\n"), 1), ((b"62\n", b"63\n64\n"), 3), ((b"62", b"\n63\n"), 2),
             ((b"zz\n", b"62\n"), 1))
    for pieces, lost in cases:
        link, it = dials("--again", "--seconds", "5")
        link.give(b"61\n", close=False)
        peer = Peer(it.accept()[0], good)
        assert link.waits(lambda it: b"notice Acknowledged 1\n" in it.out, 5)
        it.close()
        peer.close()
        for piece in pieces:
            time.sleep(0.5)
            link.give(piece, close=False)
        must_end(pieces, link, 3, unacknowledged(lost), 10)
    own, there = free_port(socket.SOCK_DGRAM), udp_socket()
    link = Link(f"udp:127.0.0.1:{own},127.0.0.1:{port_of(there)}", "--again", "--window", "1",
                "--linger-ms", "500")
    link.give(b"61\n")
    peer = Peer(there, no_ack)
    assert peer.waits(lambda it: it.named("DATA"), 5)
    peer.answer = silent
    peer.send(STRT)
    must_end("a silent peer", link, 3, unacknowledged(1), 8)


@times
def test_seconds_in_pause():
    """--seconds ends a link in a pause before its next try."""
    link = Link(f"connect:127.0.0.1:{free_port()}", "--again", "--seconds", "4")
    must_end("paused", link, 3, "ddcmp: ended", seconds=10)
    assert len(link.faults()) == 4 and link.took <= 6


@pytest.mark.long
def test_longest_pause():
    """The pause doubles up to 30 s."""
    link = Link(f"connect:127.0.0.1:{free_port()}", "--again")
    link.waits(lambda it: len(it.faults()) == 6, 60)
    assert [it.split()[-2] for it in link.faults()] == ["1", "2", "4", "8", "16", "30"]


def test_udp_pair():
    options = ("--binary", "--timer-ms", "200", "--stay", "--seconds", "4")
    one, two = (Link(it, *options) for it in udp_names())
    exchange("udp", one, two, messages_of(200), messages_of(200))


def test_datagrams():
    """A frame in each datagram that is sent, many frames in one that comes, and a stranger's isn't
    heard."""
    link, peer, local = datagram_peer()
    assert peer.runs(), "it doesn't start"
    for name in (("127.0.0.1", 0), ("127.0.0.2", port_of(peer.sock))):  # another port, another host
        with socket.socket(socket.AF_INET, socket.SOCK_DGRAM) as stranger:
            stranger.bind(name)
            stranger.sendto(data(b"stranger", 1), ("127.0.0.1", local))
            time.sleep(0.2)
    peer.send(data(b"a", 1) + data(b"bc", 2) + data(b"def", 3))
    link.waits(lambda it: len(it.mails()) >= 3, 3)
    assert link.mails() == [b"a", b"bc", b"def"]
    link.give(b"61\n62\n63\n64\n")
    assert link.ended(10) == 0 and peer.mail == [b"a", b"b", b"c", b"d"]
    assert {len(it) for it in peer.pieces} == {8, 11}, (
        f"datagrams of {sorted({len(it) for it in peer.pieces})} bytes")


@pytest.mark.parametrize("piece", [
    header(16383, 1), header(16383, 1)[:5], header(3000, 1) + b"xy",
])
def test_cut_datagrams(piece):
    """A datagram that is cut, or a header that claims more than came, takes nothing of the next."""
    for options in ((), ("--max", "16383")):
        link, peer, _local = datagram_peer(*options, answer=silent)
        peer.send(piece)
        peer.answer = good
        assert peer.runs(2)
        peer.send(header(16383, 1)[:4])
        peer.send(data(b"abc", 1)[:12])
        peer.send(data(b"abc", 1))
        assert link.waits(lambda it: it.mails() == [b"abc"], 2)
        link.kill()


@times
def test_datagram_names():
    """A taken port names LOCAL, an unknown host REMOTE, as port 0 does there; a send that fails is
    a lost frame."""
    with socket.socket(socket.AF_INET, socket.SOCK_DGRAM) as it:
        it.bind(("127.0.0.1", 0))
        name = f"127.0.0.1:{port_of(it)}"
        must_end("taken", Link(f"udp:{name},127.0.0.1:9"), 3, f"ddcmp: open {name}: address in use")
    link = Link("udp:127.0.0.1:0,nosuchhost.invalid:1")
    assert link.ended(20) == 3 and link.err.startswith(b"ddcmp: open nosuchhost.invalid:1: ")
    must_end("two families", Link("udp:127.0.0.1:0,[::1]:9"), 3,
             "ddcmp: open [::1]:9: not of the other address's family")
    must_end("port 0", Link("udp:127.0.0.1:0,127.0.0.1:0"), 3,
             "ddcmp: open 127.0.0.1:0: not an address")
    for options in ((), ("--again",)):
        link = Link("udp:127.0.0.1:0,255.255.255.255:9", "--seconds", "1", "--timer-ms", "100",
                    *options)
        must_end(f"unreachable {options}", link, 3, "ddcmp: ended")
        assert link.took >= 0.9 and link.used <= 0.6


NO_HOST = "the host is missing, as in 0.0.0.0:7000"
NO_PORT = "the port isn't a number up to 65535"


@pytest.mark.parametrize("name, fault", [
    ("listen:7000", f"listen 7000: {NO_HOST}"), ("listen::7000", f"listen :7000: {NO_HOST}"),
    ("udp:127.0.0.1:0,7001", f"open 7001: {NO_HOST}"),
    ("listen:nowhere", "listen nowhere: not an address"),
    ("connect:127.0.0.1:99999", f"connect 127.0.0.1:99999: {NO_PORT}"),
    ("connect:127.0.0.1:http", f"connect 127.0.0.1:http: {NO_PORT}"),
    ("udp:127.0.0.1:,127.0.0.1:9", f"open 127.0.0.1:: {NO_PORT}"),
])
def test_misnamed(name, fault):
    """What is wrong with an address is said: its host is missing, or its port isn't one."""
    must_end(name, Link(name), 3, f"ddcmp: {fault}")
    bridge = Bridge(name, "listen:127.0.0.1:0")
    must_end(f"bridge {name}", bridge, 3, f"ddcmp: {fault}")


def test_no_device():
    """device: takes a character device that nobody else has."""
    with tempfile.TemporaryDirectory() as folder:
        path = f"{folder}/file"
        with open(path, "wb") as it:
            it.write(b"bytes" * 100)
        for name, why in ((path, "not a character device"), (folder, "is a directory")):
            must_end(name, Link(f"device:{name}", "--seconds", "2", stdin=subprocess.DEVNULL), 3,
                     f"ddcmp: open {name}: {why}")
        with open(path, "rb") as it:
            assert it.read() == b"bytes" * 100, "the file's bytes are others"
    with terminals() as ends:
        one = Link(f"device:{ends[0]}", "--seconds", "20")
        time.sleep(0.5)
        must_end("taken", Link(f"device:{ends[0]}", "--seconds", "2"), 3,
                 f"ddcmp: open {ends[0]}: already in use")
        end = os.open(ends[1], os.O_RDWR | os.O_NOCTTY)
        os.write(end, STACK)
        assert one.waits(lambda it: b"Running" in it.out, 5), "the first doesn't go on"
        one.kill()
        os.close(end)


def most_windows(span, timer):
    """How many windows a peer gets at most that refuses each message: the first, one at once, and
    one after each pause; these last 10 ms, 20 ms, 40 ms and so on, up to the time of the reply
    timer."""
    count, pause, at = 2, 0.01, 0.01
    while at <= span:
        count, pause = count + 1, min(2 * pause, timer)
        at += pause
    return count


@times
def test_pace():
    """A peer that refuses each message gets a window after each pause, and with the defaults 8 in
    the first second."""
    links = []
    for reason, timer, least, line in ((16, 0.2, 12, REFUSED[16]), (8, 0.2, 12, REFUSED[8]),
                                       (3, 0.2, 2, None), (16, 3, 8, REFUSED[16]), (8, 3, 8, None)):
        options = ("--timer-ms", "200") if timer < 3 else ()
        link, peer = running("--window", "7", *options, answer=Refusing(reason))
        link.give(b"61\n" * 7)
        links.append((reason, timer, least, line, link, peer, time.monotonic()))
    time.sleep(1)
    for _reason, timer, _least, _line, _link, peer, begun in links:
        count, span = len(peer.named("DATA")), time.monotonic() - begun
        assert count <= 7 * most_windows(span, timer)
    time.sleep(2)
    for _reason, timer, least, _line, link, peer, begun in links:
        count, span = len(peer.named("DATA")), time.monotonic() - begun
        assert 7 * least <= count <= 7 * most_windows(span, timer)
        assert link.processor_time() <= 0.6
        peer.answer.takes = True
    for reason, _timer, _least, line, link, peer, _begun in links:
        must_end(f"NAK {reason}", link, 0, line, seconds=8)
        assert [it for it in link.errors() if "peer" in it] == ([line] if line else [])
        assert peer.mail == [b"a"] * 7


class Buffers:
    """A peer with a few receive buffers, each free again a while after it took a message."""

    def __init__(self, count, seconds):
        self.count, self.seconds, self.taken_at = count, seconds, []

    def __call__(self, peer, frame):
        now = time.monotonic()
        self.taken_at = [it for it in self.taken_at if now - it < self.seconds]
        if frame.name == "DATA" and frame.num == peer.taken + 1 & 255:
            if len(self.taken_at) >= self.count:
                return nak(8, peer.taken)
            self.taken_at.append(now)
        return good(peer, frame)


@times
def test_few_buffers():
    """With the defaults a peer that is out of buffers for a moment gets its messages soon, and
    nothing is said of it."""
    link, peer = running(answer=Buffers(7, 0.005))
    begun = time.monotonic()
    link.give(b"".join(b"%04x\n" % it for it in range(140)))
    assert peer.waits(lambda it: len(it.mail) == 140, 20)
    assert time.monotonic() - begun <= 3, f"{time.monotonic() - begun:.1f} s"
    must_end("140 messages", link, 0, seconds=5)
    assert not any("peer" in it for it in link.errors())
    assert peer.mail == [it.to_bytes(2, "big") for it in range(140)], "the messages are others"


def naks_for_ever(seconds, link, peer):
    """Sends a NAK each so often while the link runs, for at most 12 s."""
    peer.runs()
    link.give(b"61\n", close=False)
    begun = time.monotonic()
    with contextlib.suppress(OSError):
        while not link.has_ended() and time.monotonic() < begun + 12:
            peer.send(nak(2, 0))
            time.sleep(seconds)
    return time.monotonic() - begun


@times
def test_refused_often():
    """NAKs at any pace stop messages for the time of the reply timer at most, and --attempts counts
    such pauses."""
    links = []
    for seconds in (0.05, 0.2, 0.4):
        link, peer = called("--timer-ms", "500", "--attempts", "3", answer=no_ack)
        links.append((seconds, link, peer))
    for seconds, link, peer in links:
        took, count = naks_for_ever(seconds, link, peer), len(peer.named("DATA"))
        must_end(f"a NAK each {seconds} s", link, 3, unacknowledged(1), seconds=5)
        assert count >= 7 and took <= 10 and "ddcmp: peer refuses: data check" in link.errors()


@pytest.mark.parametrize("reason", [2, 16, 8])
def test_first_nak(reason):
    """A single NAK is answered at once."""
    link, peer = running("--timer-ms", "5000", answer=no_ack)
    link.give(b"61\n")
    peer.waits(lambda it: it.named("DATA"), 5)
    peer.answer = good
    peer.send(nak(reason, 0))
    assert peer.waits(lambda it: len(it.named("DATA")) > 1, 2)


def test_pace_of_lines():
    """With --again, what a peer refused over one line doesn't keep a message from the next."""
    link, it = dials("--again", "--timer-ms", "5000")
    peer = joined(it, no_ack)
    link.give(b"61\n", close=False)
    for count in (1, 2):
        peer.waits(lambda it: len(it.named("DATA")) >= count, 5)
        peer.send(nak(16, 0))
    time.sleep(0.3)
    peer.close()
    peer = joined(it, good)
    link.give(b"62\n", close=False)
    assert peer.waits(lambda it: it.mail == [b"b"], 2)
