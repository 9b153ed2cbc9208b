"""How a link ends: its status says whether all was delivered."""
import os
import signal
import socket
import subprocess
import sys
import tempfile
import time

import pytest

from .peers import Peer, called, dials, good, joined, no_ack, running, silent
from .process import (
    PROGRAM, Link, commands_in, connected, free_port, holds_within, is_listening, listening,
    must_end, port_of, reset_at_close, server, tcp_pair, terminals, times, unacknowledged)
from .wire import STACK, STRT, ack, binary, data, digits, header


def lines_of(link, options):
    return link.errors() if "--binary" in options else link.lines()


@pytest.mark.parametrize("count", [1, 2])
@pytest.mark.parametrize("options", [(), ("--binary",)])
def test_lost(options, count):
    """Messages that weren't acknowledged when the line ended."""
    link, peer = called(*options, answer=no_ack)
    messages = [b"a", b"b"][:count]
    link.give((binary if options else digits)(messages), close=count == 2)
    peer.waits(lambda it: len(it.named("DATA")) >= count, 10)
    peer.close()
    must_end(f"{count} {options}", link, 3, unacknowledged(count))
    lines = lines_of(link, options)
    assert f"lost {count}" in lines and any(it.startswith("state=Halted ") for it in lines)


@pytest.mark.parametrize("options", [(), ("--binary",)])
def test_lost_on_each_line(options):
    """With --again, two messages lost on each of three lines, and then one that is delivered."""
    link, it = dials("--again", "--timer-ms", "200", *options)
    form = binary if options else digits
    for _ in range(3):
        peer = joined(it, no_ack)
        link.give(form([b"a", b"b"]), close=False)
        peer.waits(lambda it: len(it.named("DATA")) >= 2, 10)
        peer.close()
    peer = joined(it, good)
    link.give(form([b"c"]))
    must_end(f"{options}", link, 3, unacknowledged(6))
    assert lines_of(link, options).count("lost 2") == 3 and peer.mail == [b"c"], (
        f"{options}: {lines_of(link, options)} {peer.mail}")


def test_lost_once():
    """With --again, a message lost on a line is counted once, though the run ends before there is
    another line."""
    link, peer = running("--again", "--timer-ms", "200", "--seconds", "3", answer=no_ack)
    link.give(b"61\n", close=False)
    peer.waits(lambda it: it.named("DATA"), 10)
    peer.close()
    must_end("once", link, 3, unacknowledged(1))
    assert link.lines().count("lost 1") == 1


def test_lost_at_a_restart():
    """With --restart, two messages lost as the peer restarts, and then one that is delivered."""
    link, peer = running("--restart", "--timer-ms", "200", answer=no_ack)
    link.give(b"61\n62\n", close=False)
    peer.waits(lambda it: len(it.named("DATA")) >= 2, 10)
    peer.taken, peer.answer = 0, good
    peer.send(STRT)
    assert link.waits(lambda it: b"Restarted" in it.out, 10)
    link.give(b"63\n")
    must_end("with --restart", link, 3, unacknowledged(2))
    assert (peer.mail == [b"c"]
            and link.lines()[1:4] == ["notice Restarted 2", "lost 2", "notice Running"])


@pytest.mark.parametrize("messages, close, status, last", [
    (b"", True, 0, None), (b"", False, 3, "ddcmp: ended"), (b"61\n", False, 3, unacknowledged(1)),
])
def test_peer_restarts(messages, close, status, last):
    """A STRT to a link that runs: without --restart it ends; with nothing lost, its input at its
    end or open, and with a message lost."""
    given = subprocess.DEVNULL if close else subprocess.PIPE
    link, peer = running("--stay", answer=no_ack, stdin=given)
    if not close:
        link.give(messages, close)
    peer.waits(lambda it, count=len(messages) // 3: len(it.named("DATA")) >= count, 10)
    link.waits(lambda it: b"Running" in it.out, 10)
    peer.answer = silent
    peer.send(STRT)
    must_end(f"{messages}", link, status, last, seconds=10)
    assert "notice PeerRestarted" in link.lines()


def test_bytes_of_an_old_line():
    """With --again, a STRT and half a frame after it: the next line starts, and hears nothing of
    these."""
    link, it = dials("--again", "--timer-ms", "200")
    peer = joined(it, good)
    link.waits(lambda it: b"Running" in it.out, 10)
    peer.answer = silent
    peer.send(STRT + header(1400, 1))
    peer = Peer(it.accept()[0], good)
    assert peer.runs(5), "the next line doesn't start"
    link.give(b"61\n")
    must_end("the next line", link, 0)
    assert peer.mail == [b"a"]


@pytest.mark.parametrize("options", [
    (), ("--again",), ("--binary",), ("--stay", "--again"),
])
def test_failed_input(options):
    """A standard input that can't be read, a folder."""
    folder = os.open("/", os.O_RDONLY)
    with server() as it:
        link = Link(f"connect:127.0.0.1:{port_of(it)}", *options, stdin=folder)
        Peer(it.accept()[0])
        must_end(f"{options}", link, 3, "ddcmp: read", seconds=5)


def test_peer_closes():
    """The peer ends its line: all was acknowledged, with an open input, from which more might come,
    and a closed one, with --stay, or nothing was given; parts of the input were refused; the
    station hadn't started."""
    open_yet = "ddcmp: ended"
    trials = [((), b"61\n", False, 3, open_yet), (("--stay",), b"61\n", True, 0, None),
              ((), b"", False, 3, open_yet), (("--stay",), b"", True, 0, None),
              ((), b"61\nxy\n", False, 3, open_yet),
              (("--stay",), b"61\nxy\n", True, 1, "ddcmp: line 2: not hexadecimal")]
    for options, given, close, status, last in trials:
        link, peer = called(*options)
        link.waits(lambda it: b"Running" in it.out, 10)
        link.give(given, close)
        link.waits(lambda it: not given or b"Acknowledged 1" in it.out, 10)
        link.waits(lambda it: not last or it.errors(), 10)
        time.sleep(0.1)
        peer.close()
        must_end(f"{options} {given}", link, status, last)
        assert link.last().get("state") == "Halted"
    for given in (b"", b"61\n"):
        link, peer = called(answer=silent)
        link.give(given, close=False)
        time.sleep(0.2)
        peer.close()
        must_end(f"not started, {given}", link, 3, "ddcmp: ended")


@pytest.mark.parametrize("first, rest", [(b"61\n62\n63\n", b""), (b"61\n", b"62\n63\n")])
def test_pending_input(first, rest):
    """The line ends while two of three messages have no room, read already or not read yet: all
    three are lost."""
    link, peer = running("--window", "1", answer=no_ack)
    link.give(first, close=False)
    peer.waits(lambda it: it.named("DATA"), 10)
    link.give(rest, close=False)
    time.sleep(0.2)
    peer.close()
    must_end(f"window 1, {first} and {rest}", link, 3, unacknowledged(3))


@pytest.mark.parametrize("lines, last", [
    (b"\n" * 60_000, unacknowledged(1)), (b"\n" * 400_000, "ddcmp: ended"),
    (b"z" * 400_000 + b"\n", "ddcmp: ended"),
])
def test_unread_input(lines, last):
    """The line ends, and standard input has more than is read at once: that isn't well, though no
    message that was read is lost."""
    with tempfile.TemporaryFile() as file:
        file.write(b"61\n" + lines + b"62\n")
        file.seek(0)
        link, peer = called("--window", "1", answer=no_ack, stdin=file)
    peer.waits(lambda it: it.named("DATA"), 10)
    time.sleep(0.2)
    link.run.send_signal(signal.SIGSTOP)  # else it may read on before it sees the end
    peer.send(ack(1))
    peer.close()
    link.run.send_signal(signal.SIGCONT)
    must_end("unread", link, 3, last, seconds=5)


def test_stay():
    """With --stay a link goes on once its closed input is delivered."""
    link, peer = called("--stay")
    link.give(b"61\n")
    peer.waits(lambda it: it.mail, 10)
    time.sleep(1)
    assert link.is_running()


def test_again_ends():
    """With --again and without --stay a link ends once its input is delivered."""
    with server() as it:
        link = Link(f"connect:127.0.0.1:{port_of(it)}", "--again")
        Peer(it.accept()[0], good)
        link.give(b"61\n")
        must_end("--again", link, 0, seconds=5)


def example():
    """The program in Python of docs/USING.md."""
    return commands_in("USING.md", "import subprocess", has_blanks=True)


@pytest.mark.parametrize("count", [20, pytest.param(100, marks=pytest.mark.long)])
def test_examples(count):
    """The program in Python of docs/USING.md at both ends: each says that its message was
    delivered."""
    code = example()
    for number in range(count):
        port = free_port()
        ends = []
        for name in ("listen", "connect"):
            words = code.replace("connect:127.0.0.1:7000", f"{name}:127.0.0.1:{port}")
            words = [sys.executable, "-c", words]
            ends.append(subprocess.Popen(words, stdout=subprocess.PIPE, text=True))
            holds_within(10, lambda port=port: is_listening(port))
        for end in ends:
            assert end.communicate(timeout=10)[0] == "b'hello'\ndelivered\n"


@pytest.mark.parametrize("kind", ["tcp", "device"])
def test_one_example(kind):
    """The program in Python of docs/USING.md, over TCP and at a serial device, with a peer that
    gives each message back."""
    with terminals() as ends:
        peer = Link("listen:127.0.0.1:0" if kind == "tcp" else f"device:{ends[1]}", "--binary",
                    "--stay")
        line = f"connect:127.0.0.1:{listening(peer)}" if kind == "tcp" else f"device:{ends[0]}"
        code = example().replace("connect:127.0.0.1:7000", line)
        run = subprocess.Popen([sys.executable, "-c", code], stdout=subprocess.PIPE, text=True)
        peer.waits(lambda it: len(it.out) == 7, 20)
        peer.give(peer.out, close=False)
        assert run.communicate(timeout=20)[0] == "b'hello'\ndelivered\n"
        peer.kill()


@times
def test_seconds():
    """--seconds with all acknowledged, without and with --stay, the input open or at its end; no
    busy loop."""
    links = []
    for options in ((), ("--stay",)):
        for close in (False, True):
            one, two = tcp_pair(("--seconds", "1", *options), ("--stay",))
            one.give(b"61\n", close)
            links.append((one, two, options, close))
    for one, two, options, close in links:
        name = f"{options} closed {close}"
        status, last = (0, None) if close else (3, "ddcmp: ended")
        assert not must_end(name, one, status, last, seconds=10) or one.took <= 2.5
        assert one.used <= 0.6
        two.kill()


def test_seconds_unfinished():
    """An unfinished line at the end of --seconds is refused, and not sent; the input is open, so
    that isn't well."""
    trials = [((), b"61\n6162", "ddcmp: line 2: unfinished"),
              ((), b"6162", "ddcmp: line 1: unfinished"),
              (("--binary",), b"\0\2a", "ddcmp: message 1: unfinished"),
              (("--binary",), b"\0\1a\0", "ddcmp: message 2: unfinished")]
    links = []
    for options, given, last in trials:
        links.append((*called("--seconds", "1", *options), last))
        links[-1][0].give(given, close=False)
    for link, peer, last in links:
        must_end(last, link, 3, "ddcmp: ended", seconds=10)
        assert last in link.errors()
        assert peer.mail == [b"a"] * (" 2:" in last)


def not_answered():
    """A server whose backlog is full, so that a connect isn't answered."""
    full = socket.socket()
    full.bind(("127.0.0.1", 0))
    full.listen(0)
    fills = []
    for _ in range(3):
        fills.append(socket.socket())
        fills[-1].setblocking(False)
        fills[-1].connect_ex(full.getsockname())
    return full, fills


@times
def test_seconds_in_each_state():
    """--seconds ends a link in every state."""
    full, fills = not_answered()
    words = [("nobody comes", "listen:127.0.0.1:0", None),
             ("not answered", f"connect:127.0.0.1:{port_of(full)}", None),
             ("udp", f"udp:127.0.0.1:0,127.0.0.1:{free_port(socket.SOCK_DGRAM)}", None),
             ("silent", "", silent),
             ("half started", "", lambda peer, frame: STRT if frame.name == "STRT" else b""),
             ("acknowledges nothing", "", no_ack),
             ("acknowledges one", "", lambda peer, frame:
              (ack(1) if frame.name == "DATA" else no_ack(peer, frame)))]
    links = []
    for options in ((), ("--stay",), ("--again",)):
        for name, line, answer in words:
            it = None if line else server()
            line = line or f"connect:127.0.0.1:{port_of(it)}"
            given = b"61\n62\n63\n" if name.startswith("ack") else b""
            more = ("--window", "1") if name == "acknowledges nothing" else ()
            link = Link(line, "--seconds", "1", *options, *more)
            peer = it and Peer(it.accept()[0], answer)
            link.give(given, close=False)
            links.append((f"{name} {options}", link, peer, it))
    for name, link, _peer, _server in links:
        last = unacknowledged(3) if "nothing" in name else (
            unacknowledged(2) if "one" in name else "ddcmp: ended")
        must_end(name, link, 3, last, seconds=12)
        assert link.took is None or link.took <= 6
        assert link.used <= 0.6


def test_no_line():
    """Lines that can't be opened, and words that name none."""
    port = free_port()
    trials = [(f"connect:127.0.0.1:{port}", f"ddcmp: connect 127.0.0.1:{port}: connection refused"),
              ("device:/dev/none", "ddcmp: open /dev/none: no such file")]
    taken = server()
    name = f"127.0.0.1:{port_of(taken)}"
    trials.append((f"listen:{name}", f"ddcmp: listen {name}: address in use"))
    for line, last in trials:
        link = Link(line, stdin=subprocess.DEVNULL)
        must_end(line, link, 3, last)
        assert (link.faults() == [last]
                and link.events() == [f"connecting {line[8:]}"] * line.startswith("connect"))
    for word in ("tcp:1", "listen", "udp:127.0.0.1:1"):
        link = Link(word, stdin=subprocess.DEVNULL)
        assert link.ended() == 2 and b"--line" in link.err


def test_timer_of_nothing():
    """--timer-ms 0 is a usage error of link, and none of station."""
    link = Link("listen:127.0.0.1:0", "--timer-ms", "0", "--seconds", "1", stdin=subprocess.DEVNULL)
    assert link.ended() == 2 and b"--timer-ms" in link.err
    words = [*PROGRAM, "station", "--role", "connect", "--addr", f"127.0.0.1:{free_port()}",
             "--turns", "1"]
    run = subprocess.run([*words, "--timer-ms", "0"], capture_output=True, timeout=10, check=False)
    assert run.returncode != 2


def test_callers():
    """A caller without a good STRT or STACK doesn't end a listener."""
    link = Link("listen:127.0.0.1:0")
    port = listening(link)
    assert link.errors()[0].startswith("listening 127.0.0.1:")
    for piece in (b"", b"G", b"GET / HTTP/1.0\r\n\r\n", STACK[:7], ack(0), STRT[:7] + b"\0",
                  os.urandom(300)):
        assert is_listening(port), "it has ended before"
        with connected(port) as caller:
            caller.sendall(piece)
            time.sleep(0.05)
    peer = Peer(connected(port), good)
    assert peer.runs(5), "it doesn't go on"
    link.give(b"61\n")
    must_end("a good caller", link, 0)
    told = [it.split()[0] for it in link.errors()]
    assert peer.mail == [b"a"] and told == ["listening"] + ["connected", "line"] * 7 + ["connected"]


def test_listener_without_input():
    """A listener without input receives from its first caller, and ends as that one's line ends."""
    link = Link("listen:127.0.0.1:0", stdin=subprocess.DEVNULL)
    port = listening(link)
    time.sleep(0.5)
    assert link.is_running()
    two = Link(f"connect:127.0.0.1:{port}")
    two.give(b"61\n6263\n")
    must_end("the sender", two, 0)
    must_end("the listener", link, 0)
    assert link.mails() == [b"a", b"bc"]


def test_listener_refuses():
    """A listener whose whole input is refused ends once it was read."""
    link = Link("listen:127.0.0.1:0")
    link.give(b"xy\n")
    Peer(connected(listening(link)), good)
    must_end("refused", link, 1, "ddcmp: line 1: not hexadecimal", seconds=5)


def test_line_is_reset():
    """The mail of a line that takes nothing any more is handed out."""
    link, peer = running(answer=no_ack)
    link.waits(lambda it: b"Running" in it.out, 10)
    link.run.send_signal(signal.SIGSTOP)
    link.give(b"62\n", close=False).join()
    peer.send(data(b"a", 1))
    reset_at_close(peer.sock)
    peer.close()
    time.sleep(0.2)
    link.run.send_signal(signal.SIGCONT)
    must_end("reset", link, 3, unacknowledged(1))
    assert link.mails() == [b"a"]


@times
def test_peer_sends_on():
    """The peer still sends as a link ends, and reads only then: it gets the last acknowledgement,
    and no reset. One that never ends is left soon."""
    def answer(peer, frame):
        if frame.name != "DATA":
            return good(peer, frame)
        time.sleep(0.2)  # so that the end of the link's input was read
        peer.send(b"".join(data(b"a", it) for it in range(1, 101)) + ack(1))
        for _ in range(pieces):
            peer.send(b"\x96" * (1 << 18))
        return b""
    for pieces in (8, 1 << 40):
        with server() as it:
            it.setsockopt(socket.SOL_SOCKET, socket.SO_SNDBUF, 1 << 16)
            link = Link(f"connect:127.0.0.1:{port_of(it)}", "--linger-ms", "0")
            peer = Peer(it.accept()[0], answer)
        link.give(b"61\n")
        must_end(f"{pieces}", link, 0, seconds=10)
        assert link.took <= 2
        peer.waits(lambda it: it.has_ended, 10)
        got = [it.resp for it in peer.frames]
        assert pieces != 8 or link.mails() and got[-1:] == [len(link.mails())]
