"""A program above a link: events in its output, commands in its input, in binary and in lines, and
messages that are refused until it has acknowledged that an incarnation began."""
import os
import socket
import time

import pytest

from .peers import Peer, called, dials, good, no_ack
from .process import Link, listening, must_end, port_of, server, tcp_pair, unacknowledged
from .wire import STRT, ack, binary, command_lines, commands, data, digits, drawn, in_lines


class InBinary:
    """Messages and commands as records, and an output of records as lines."""

    options = "--binary", "--events"
    second = "message 2"  # after a command and a message

    @staticmethod
    def of(*parts):
        """Messages, which are bytes, and commands."""
        return b"".join(commands(it) if isinstance(it, str) else binary([it]) for it in parts)

    @staticmethod
    def shown(link):
        return in_lines(link.out)


class InLines:
    """The same in lines."""

    options = "--events",
    second = "line 3"

    @staticmethod
    def of(*parts):
        return b"".join(command_lines(it) if isinstance(it, str) else digits([it]) for it in parts)

    @staticmethod
    def shown(link):
        return [it for it in link.lines() if not it.startswith("state=")]


@pytest.fixture(params=[InBinary, InLines], ids=["binary", "lines"])
def form(request):
    return request.param



def is_up(link, times=1):
    return link.waits(lambda it: it.out.count(b"notice Running") == times, 10)


def test_barrier(form):
    """Messages are refused, and lost, until the program is ready: those read before that, too."""
    link, peer = called(*form.options)
    assert is_up(link)
    link.give(form.of(b"one", b"two", "ready", b"three"))
    must_end("barrier", link, 3, unacknowledged(2))
    assert peer.mail == [b"three"]


def test_barrier_of_each_incarnation(form):
    """What was written before the program knew of a restart doesn't enter the next incarnation: each
    event that begins one is acknowledged by one command, and what is sent in between is lost."""
    link, peer = called(*form.options, "--restart", "--stay")
    assert is_up(link)
    link.give(form.of("ready", b"one"), close=False)
    assert peer.waits(lambda it: it.mail == [b"one"], 10)
    for again in range(2, 5):
        peer.taken = 0
        peer.send(STRT)
        assert peer.waits(lambda it: len(it.named("STACK")) == again - 1, 10)
        peer.send(ack(0))
        assert is_up(link, again)
        link.give(form.of(*[b"old"] * again, "ready", b"older", "ready", b"new"), close=False)
        assert peer.waits(lambda it, n=again: it.mail == [b"one"] + [b"new"] * (n - 1), 10)
    link.give(b"")
    assert peer.waits(lambda it: True) and link.is_running()
    peer.close()
    must_end("incarnations", link, 3, unacknowledged(12))
    lines = form.shown(link)
    assert [it for it in lines if "Acknowledged" not in it] == ["notice Running"] + [
        "notice Restarted 0", "notice Running"] * 3


def test_ready_too_often(form):
    """A command that acknowledges nothing is none for a later event."""
    link, peer = called(*form.options, "--restart")
    assert is_up(link)
    link.give(form.of(*["ready"] * 5, b"one"), close=False)
    assert peer.waits(lambda it: it.mail == [b"one"], 10)
    peer.taken = 0
    peer.send(STRT)
    assert peer.waits(lambda it: it.named("STACK"), 10)
    peer.send(ack(0))
    assert is_up(link, 2)
    link.give(form.of("ready", b"old", "ready", b"new"))
    must_end("ready", link, 3, unacknowledged(1))
    assert peer.mail == [b"one", b"new"]


def refuses(form, text, why):
    """A part of the input that isn't known is reported, and nothing is lost by it."""
    link, peer = called(*form.options)
    assert is_up(link)
    link.give(form.of("ready", b"one") + text + form.of(b"two"))
    must_end(why, link, 1, f"ddcmp: {form.second}: {why}")
    assert peer.mail == [b"one", b"two"]


@pytest.mark.parametrize("part, why", [
    ("nonsense", "unknown command"), ("Ready", "unknown command"), ("readyx", "unknown command"),
    ("x" * 16, "unknown command"), ("x" * 17, "too long"), ("ready" * 4, "too long"),
    ("x" * 0x7fff, "too long"), (b"x" * 9999, "too long")])
def test_unknown(form, part, why):
    refuses(form, form.of(part), why)


@pytest.mark.parametrize("text, why", [
    (commands(""), "unknown command"), (binary([b""]), "empty"),
    (bytes([0x80, 5]) + b"\xff\0\x80\x05x", "unknown command")])
def test_unknown_records(text, why):
    refuses(InBinary, text, why)


@pytest.mark.parametrize("text, why", [
    (b"?ready \n", "unknown command"), (b"??\n", "unknown command"),
    (b"?\0\xff\n", "unknown command"), (b"?ready\r\r\n", "unknown command"),
    (b"?\rready\n", "unknown command"),
    (b"?" + b"x" * 16 + b"\r\r\n", "too long"), (b" ?ready\n", "not hexadecimal"),
    (b"61?\n", "not hexadecimal"), (b"\r?ready\n", "not hexadecimal")])
def test_unknown_lines(text, why):
    refuses(InLines, text, why)


def test_lines():
    """CR LF ends the line of a command, too, and the end of the input its last one. A lone `?` asks
    for a report, as without commands."""
    link, peer = called(*InLines.options)
    assert is_up(link)
    link.give(b"?ready\r\n6f6e65\r\n?\r\n\n?report\r\n?quit", close=False)
    assert peer.waits(lambda it: it.mail == [b"one"], 10)
    assert link.is_running()
    link.run.stdin.close()
    must_end("lines", link, 0)
    assert len([it for it in link.errors() if it.startswith("report ")]) == 2


@pytest.mark.parametrize("text, count", [
    (b"\x80", 2), (b"\x80\x05", 2), (b"\x80\x05read", 2), (b"\0", 2), (b"\0\x03ab", 2)])
def test_unfinished(text, count):
    """A record that the end of the input cuts is reported."""
    link, peer = called(*InBinary.options)
    assert is_up(link)
    link.give(InBinary.of("ready", b"one") + text)
    must_end("unfinished", link, 1, f"ddcmp: message {count}: unfinished")
    assert peer.mail == [b"one"]


def test_report(form):
    link, _ = called(*form.options)
    assert is_up(link)
    link.give(form.of("ready", "report", b"one", "report"))
    must_end("report", link, 0)
    sent = [it.split(" sent=")[1].split()[0] for it in link.errors() if it.startswith("report ")]
    assert sent == ["0", "1"]


@pytest.mark.parametrize("rest, stays", [
    ([], True), ([], False), (["quit", "quit", "ready"], True)])
def test_quit(form, rest, stays):
    """After `quit` all that was read is delivered, and the link ends; what commands follow does
    nothing, and the input may stay open."""
    link, peer = called(*form.options, "--window", "2")
    assert is_up(link)
    messages = [drawn.randbytes(9) for _ in range(9)]
    link.give(form.of("ready", *messages, "quit", *rest), close=not stays)
    must_end("quit", link, 0)
    assert peer.mail == messages


def test_quit_loses_what_follows(form):
    link, peer = called(*form.options)
    assert is_up(link)
    link.give(form.of("ready", b"one", "quit", b"two", b"three"), close=False)
    must_end("quit", link, 3, unacknowledged(2))
    assert peer.mail == [b"one"]


def test_quit_reads_no_more(form, tmp_path):
    """What is written to a FIFO after that stays there, even if the line ends."""
    path = f"{tmp_path}/input"
    os.mkfifo(path)
    fifo = os.open(path, os.O_RDWR)
    link, peer = called(*form.options, answer=no_ack, stdin=fifo)
    assert is_up(link)
    os.write(fifo, form.of("ready", b"one", "quit"))
    assert peer.waits(lambda it: it.named("DATA"), 10)
    time.sleep(0.5)
    os.write(fifo, form.of(b"two"))
    peer.close()
    must_end("quit", link, 3, unacknowledged(1))
    os.set_blocking(fifo, False)
    assert os.read(fifo, 99) == form.of(b"two")
    os.close(fifo)


def test_quit_before_the_line_is_up(form):
    """It is read once the station has run, as the end of an input is."""
    held = True
    link, peer = called(*form.options, answer=lambda peer, it: b"" if held else good(peer, it))
    link.give(form.of("quit"), close=False)
    assert peer.waits(lambda it: it.frames, 10)
    assert not link.waits(lambda it: not it.is_running(), 0.5)
    held = False
    assert link.ended() == 0, link


def ends(form, link):
    """How lines ended, as the output tells."""
    return [it[11:] for it in form.shown(link) if it.startswith("line down: ")]


def left_alone(form):
    """A link whose peer has left after one message, and to which nothing listens any more."""
    link, it = dials(*form.options, "--again")
    with it:
        peer = Peer(it.accept()[0])
    assert is_up(link)
    link.give(form.of("ready", b"one"), close=False)
    assert link.waits(lambda it: b"Acknowledged" in it.out, 10)
    peer.close()
    assert link.waits(lambda it: ends(form, it), 10)
    assert ends(form, link) == ["closed by the other end"]
    return link


@pytest.mark.parametrize("parts, status", [
    (["quit"], 0), (["report", "restart", "quit"], 0), ([b"two", b"three", "quit"], 3),
    ([], None), (["ready", b"two", "quit"], None)])
def test_commands_without_a_line(form, parts, status):
    """Once it has run, commands are read while there is no line, too, up to one that acknowledges
    the next incarnation: that, and what follows it, waits for the peer."""
    link = left_alone(form)
    link.give(form.of(*parts), close=False)
    if status is None:
        assert not link.waits(lambda it: not it.is_running(), 1.5)
        link.run.kill()
    else:
        assert link.ended(10) == status, link
        assert (unacknowledged(2) in link.errors()) == (status == 3)


def test_ready_ahead(form):
    """A message behind the command for the next incarnation is sent in that one."""
    with server() as it:
        link = Link(f"connect:127.0.0.1:{port_of(it)}", *form.options, "--again")
        first = Peer(it.accept()[0])
        assert is_up(link)
        link.give(form.of("ready"), close=False)
        first.close()
        assert link.waits(lambda it: any("line down" in one for one in it.errors()), 10)
        link.give(form.of(b"lost", "ready", b"one", "quit"), close=False)
        second = Peer(it.accept()[0])
        must_end("ready ahead", link, 3, unacknowledged(1), 20)
    assert second.mail == [b"one"]


@pytest.mark.parametrize("again", [[], ["--again"]], ids=["once", "again"])
def test_halt_and_start(form, again):
    """A halt leaves the line, which is opened again by a start alone; what isn't acknowledged is
    lost, and so is what follows until the program is ready again."""
    with server() as it:
        link = Link(f"connect:127.0.0.1:{port_of(it)}", *form.options, *again)
        first = Peer(it.accept()[0])
        assert is_up(link)
        link.give(form.of("ready", b"one"), close=False)
        assert link.waits(lambda it: b"Acknowledged" in it.out, 10)
        link.give(form.of("halt", b"two", "report"), close=False)
        assert first.waits(lambda it: it.has_ended, 10)
        assert link.waits(lambda it: ends(form, it), 10)
        it.settimeout(1.5)
        with pytest.raises(TimeoutError):
            it.accept()
        link.give(form.of("start"), close=False)
        it.settimeout(10)
        second = Peer(it.accept()[0])
        assert is_up(link, 2)
        link.give(form.of(b"three", "ready", b"four", "quit"), close=False)
        must_end("halt", link, 3, unacknowledged(2), 20)
    assert (first.mail, second.mail) == ([b"one"], [b"four"])
    assert ends(form, link) == ["halted"]


def test_events_of_a_restart(form):
    """What a line brought comes before its end, what is lost with it after that, and each line that
    is opened again has one end."""
    with server() as it:
        link = Link(f"connect:127.0.0.1:{port_of(it)}", *form.options, "--again")
        peer = Peer(it.accept()[0], answer=no_ack)
        assert is_up(link)
        link.give(form.of("ready", b"one", b"two"), close=False)
        assert peer.waits(lambda it: len(it.named("DATA")) == 2, 10)
        peer.send(data(b"three", 1))
        assert peer.waits(lambda it: it.named("ACK"), 10)
        link.give(form.of("restart"), close=False)
        second = Peer(it.accept()[0])
        assert is_up(link, 2)
        link.give(form.of("quit"), close=False)
        must_end("restart", link, 3, unacknowledged(2), 20)
    assert second.mail == []
    assert form.shown(link) == ["notice Running", "notice HandedUp", f"mail {b'three'.hex()}",
                                "line down: restarted", "lost 2", "notice Running"]


def test_event_of_a_silent_peer(form):
    """A line whose peer doesn't reply is left after the tries that are asked for."""
    with server() as it:
        link = Link(f"connect:127.0.0.1:{port_of(it)}", *form.options, "--again", "--attempts", "2",
                    "--timer-ms", "200")
        lines = [it.accept()[0] for _ in range(3)]
        assert link.waits(lambda it: len(ends(form, it)) >= 2, 10)
        for one in lines:
            one.close()
    assert ends(form, link)[:2] == ["given up"] * 2


@pytest.mark.parametrize("options", [(), ("--binary",)])
def test_no_event_of_a_line_without_events(options):
    link, it = dials(*options, "--again")
    with it:
        Peer(it.accept()[0]).close()
    assert link.waits(lambda it: any("line down" in one for one in it.errors()), 10)
    assert not link.waits(lambda it: b"line down" in it.out, 0.5)



def test_quit_while_halted(form):
    link, peer = called(*form.options)
    assert is_up(link)
    link.give(form.of("halt", "start", "halt", "quit"), close=False)
    must_end("halted", link, 0, seconds=10)
    assert peer.mail == []


def test_quit_of_a_listener(form):
    """It ends one that never had a message, once its peer has left."""
    link = Link("listen:127.0.0.1:0", *form.options, "--again")
    peer = Peer(socket.create_connection(("127.0.0.1", listening(link))))
    assert is_up(link)
    peer.close()
    assert link.waits(lambda it: any("line down" in one for one in it.errors()), 10)
    link.give(form.of("quit"), close=False)
    must_end("listener", link, 0, seconds=10)


def test_commands_without_events():
    """There are none: such a length is that of a message that is too long, and such a line isn't
    hexadecimal."""
    link, _ = called("--binary")
    assert link.waits(lambda it: "notice Running" in it.errors(), 10)
    link.give(commands("ready"))
    assert link.ended(10) == 1 and "ddcmp: message 1: too long" in link.errors()
    link, peer = called()
    assert is_up(link)
    link.give(InLines.of(b"one", "ready", "quit", b"two"), close=False)
    assert peer.waits(lambda it: it.mail == [b"one", b"two"], 10)
    link.run.stdin.close()
    must_end("digits", link, 1, "ddcmp: line 3: not hexadecimal")


def test_two_programs(form):
    """Both ends, with messages both ways at once in drawn pieces."""
    one, two = tcp_pair(form.options, form.options)
    texts = [[drawn.randbytes(drawn.randrange(1, 500)) for _ in range(300)] for _ in range(2)]
    for link, messages in (one, texts[0]), (two, texts[1]):
        assert is_up(link)
        link.give(form.of("ready", *messages, "quit"), close=False)
    for link, messages in (one, texts[1]), (two, texts[0]):
        must_end("two", link, 0)
        assert [it for it in form.shown(link) if it.startswith("mail")] == [
            f"mail {it.hex()}" for it in messages]


def test_restart(form):
    """A restart leaves the line and opens it again. What isn't acknowledged is lost with it, and so
    is what follows the command, until the program is ready again."""
    link, it = dials(*form.options, "--again")
    peers = []

    def peer(*answer):
        peers.append(Peer(it.accept()[0], *answer))
        assert is_up(link, len(peers))
        return peers[-1]

    with it:
        first = peer(no_ack)
        link.give(form.of("ready", b"one", "restart", b"two", b"three"), close=False)
        second = peer()
        link.give(form.of(b"four", "ready", b"five"), close=False)
        assert second.waits(lambda it: it.mail == [b"five"], 10)
        assert link.waits(lambda it: b"Acknowledged" in it.out, 10)
        assert [it.message for it in first.named("DATA")][:1] in ([b"one"], [])
        link.give(form.of("restart", "restart", "nonsense"), close=False)
        third = peer()
        link.give(form.of("ready", b"six", "quit"), close=False)
        assert third.waits(lambda it: it.mail == [b"six"], 10)
    assert link.ended(10) == 3 and link.faults()[-1] == unacknowledged(4)
    third.close()
    lines = [it for it in form.shown(link) if "Acknowledged" not in it]
    assert lines == ["notice Running", "line down: restarted", "lost 1", "notice Running",
                     "line down: restarted", "notice Running"]


def test_restart_without_again(form):
    """Then the link ends, as at the end of a line."""
    link, _ = called(*form.options)
    assert is_up(link)
    link.give(form.of("ready", "restart"), close=False)
    must_end("restart", link, 3, "ddcmp: ended")
