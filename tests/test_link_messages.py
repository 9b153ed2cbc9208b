"""Messages of every length both ways, over each kind of line, and what the last line counts."""
import contextlib
import socket
import subprocess
import tempfile
import threading
import time

import pytest

from .bad_lines import Bad
from .peers import called, good
from .process import Link, exchange, listening, must_end, tcp_pair, terminals, unacknowledged
from .wire import (
    STRT, ack, binary, command_lines, commands, data, digits, drawn, in_lines, messages_of,
    unpacked)


@pytest.mark.parametrize("window", [1, 7, 127, 255])
def test_tcp_both_ways(window):
    options = ("--binary", "--window", str(window), "--inbox", str(window))
    one, two = tcp_pair(options, options)
    exchange(f"window {window}", one, two, messages_of(300), messages_of(300))


def test_long_messages():
    """Messages of up to 16383 bytes."""
    sizes = (5000, 16383, 4095, 4096, 8192, 1)
    for form, options in ((binary, ("--binary", "--max", "16383")), (digits, ("--max", "16383"))):
        one, two = tcp_pair(options, options)
        exchange(str(options), one, two, [drawn.randbytes(it) for it in sizes],
                 [drawn.randbytes(it) for it in sizes[::-1]], form)


def restarted(*options):
    """A link whose peer restarts, with a message before that and one after it, while one of the
    link isn't acknowledged."""
    form = binary if "--binary" in options else digits
    link, peer = called("--restart", "--stay", *options,
                        answer=lambda peer, it: b"" if it.message == b"lost" else good(peer, it))
    peer.waits(lambda it: it.named("ACK"), 10)
    peer.send(data(b"old", 1, 0))
    link.waits(lambda it: b"old" in it.out or b"6f6c64" in it.out, 10)
    command = commands if "--binary" in options else command_lines
    ready = command("ready") if "--events" in options else b""
    link.give(ready + form([b"lost"]), close=False)
    peer.waits(lambda it: it.named("DATA"), 10)
    peer.send(STRT)
    peer.waits(lambda it: len(it.named("STACK")) == 1, 10)
    peer.send(ack(0) + data(b"new", 1, 0))
    link.waits(lambda it: b"new" in it.out or b"6e6577" in it.out, 10)
    peer.sock.shutdown(socket.SHUT_WR)
    link.run.stdin.close()
    must_end(str(options), link, 3, unacknowledged(1))
    return link


def test_events():
    """With events the output has, as records whose lengths have the top bit set, what that of
    lines has beside the messages, in the same order. Without them it has the messages alone."""
    lines = ["notice Running", "notice HandedUp", "mail 6f6c64", "notice Restarted 1", "lost 1",
             "notice Running", "notice HandedUp", "mail 6e6577"]
    in_digits, with_events, alone = (
        restarted(), restarted("--binary", "--events"), restarted("--binary"))
    assert in_digits.lines()[:-1] == lines
    assert in_lines(with_events.out) == lines
    assert alone.out == binary([b"old", b"new"])
    texts = [it for it in lines if not it.startswith("mail")]
    assert [it for it in alone.errors() if it in texts] == texts
    assert not set(with_events.errors()) & set(texts)
    assert with_events.errors()[-2].startswith("state=")


def test_events_among_long_messages():
    """A message as long as there are is no event, and each is written whole."""
    options = ("--binary", "--events", "--max", "16383")
    one, two = tcp_pair(options, options)
    messages = [drawn.randbytes(it) for it in (16383, 1, 16383)]
    for link in one, two:
        assert link.waits(lambda it: b"Running" in it.out, 10)
    one.give(commands("ready") + binary(messages))
    two.give(commands("ready") + binary(messages[::-1]))
    for link, wanted in ((one, messages[::-1]), (two, messages)):
        must_end("long messages", link, 0)
        lines = in_lines(link.out)
        assert lines[0] == "notice Running"
        assert [it for it in lines if it.startswith("mail")] == [
            f"mail {it.hex()}" for it in wanted]
        rest = [it.split()[1] for it in lines if not it.startswith("mail")]
        assert set(rest) <= {"Running", "RunningAndHandedUp", "HandedUp", "Acknowledged",
                             "HandedUpAndAcknowledged"}
        assert not any(it.startswith(("notice", "lost")) for it in link.errors())


def test_events_of_lines():
    """In lines the events are in the output anyway: it is the same."""
    with_events, without = restarted("--events"), restarted()
    assert with_events.out == without.out and with_events.faults() == without.faults()


def test_digits():
    one, two = tcp_pair((), ("--counters", "--stay"))
    messages = messages_of(40)
    two.give(b"")
    one.give(b"\n" + digits(messages)[:-1])
    must_end("the sender", one, 0)
    must_end("the receiver", two, 0)
    assert two.mails() == messages
    assert (one.lines()[-1].split()[3:] == ["sent=40", "acknowledged=40", "handed=0"]
            and one.last()["state"] == "Halted")
    assert two.lines()[-2].startswith("counters ")


@pytest.mark.parametrize("close, status, last", [
    (True, 0, None), (False, 3, "ddcmp: ended"),
])
@pytest.mark.parametrize("options", [(), ("--binary",)])
def test_receiver_ends(options, close, status, last):
    """A receiver that has nothing to deliver ends well when its peer's line ends, but not if its
    input is open."""
    one, two = tcp_pair((*options, "--stay"), options)
    one.give(b"", close)
    two.give((binary if options else digits)([b"abc"]))
    must_end(f"sender {options}", two, 0)
    must_end(f"receiver {options} closed {close}", one, status, last)


def test_last_acknowledged():
    """A peer that sends its last message, and says that it sends no more, gets the acknowledgement
    of that."""
    for turn in range(10):
        link, peer = called("--binary", "--stay", stdin=subprocess.DEVNULL)
        peer.waits(lambda it: it.named("ACK"), 10)
        peer.send(data(b"last", 1, 0))
        peer.sock.shutdown(socket.SHUT_WR)
        must_end(f"receiver {turn}", link, 0)
        peer.waits(lambda it: it.has_ended, 5)
        acknowledged = [it.resp for it in peer.named("ACK")]
        assert link.out == b"\0\4last" and acknowledged[-1:] == [1]


def counted(link, peer, lines):
    """The last line has what the peer counted: three of four acknowledged, and two handed out."""
    last = dict(it.split("=") for it in ([""] + lines)[-1].split() if "=" in it)
    wanted = {"state": "Halted", "read": str(peer.sent), "written": str(len(peer.bytes)),
              "sent": "4", "acknowledged": "3", "handed": "2"}
    assert last == wanted and peer.sent != len(peer.bytes), "last line"


def three_of_four(peer, frame):
    """Acknowledges three messages, and no more."""
    if frame.name == "DATA":
        peer.taken = min(max(peer.taken, frame.num), 3)
        return ack(peer.taken)
    return good(peer, frame) if frame.name in ("STRT", "STACK") else b""


@pytest.mark.parametrize("options", [("--counters",), ("--counters", "--binary")])
def test_last_line(options):
    """Each field of the last line, all of them different, in digits and in binary, with
    counters."""
    link, peer = called(*options, answer=three_of_four)
    form = binary if "--binary" in options else digits
    link.give(form([b"a", b"bc", b"def", b"ghij"]), close=False)
    peer.waits(lambda it: len(it.named("DATA")) >= 4, 10)
    peer.send(data(b"xyz", 1, 3) + data(b"uv", 2, 3))
    link.waits(lambda it: it.out.count(b"mail") == 2 or it.out.endswith(b"\0\2uv"), 10)
    time.sleep(0.3)
    peer.sock.shutdown(socket.SHUT_WR)
    must_end(str(options), link, 3, unacknowledged(1))
    peer.waits(lambda it: it.has_ended, 5)
    lines = [it for it in (link.errors() if "--binary" in options else link.lines())
             if not it.startswith("ddcmp")]
    counted(link, peer, lines)
    assert "lost 1" in lines and any(it.startswith("counters ") for it in lines[-2:-1])


def test_refused_input():
    one, two = tcp_pair(("--max", "3"), ())
    one.give(b"61\r\n6\nxy\n61626364\n6162\n\r\n61\r62\n616263")
    status = one.ended()
    wanted = ["ddcmp: line 2: not hexadecimal", "ddcmp: line 3: not hexadecimal",
              "ddcmp: line 4: too long", "ddcmp: line 7: not hexadecimal"]
    told = [it for it in one.errors() if it.startswith("ddcmp: line ")]
    assert status == 1 and told == wanted
    two.kill()
    assert two.mails() == [b"a", b"ab", b"abc"]
    one, two = tcp_pair(("--max", "3", "--binary"), ("--binary",))
    one.give(b"\0\1a" + b"\0\0" + b"\1\0" + bytes(256) + b"\0\3abc" + b"\0\2a")
    status = one.ended()
    wanted = ["ddcmp: message 2: empty", "ddcmp: message 3: too long",
              "ddcmp: message 5: unfinished"]
    told = [it for it in one.errors() if it.startswith("ddcmp: message ")]
    assert status == 1 and told == wanted
    two.kill()
    assert unpacked(two.out) == [b"a", b"abc"]


def test_cut_message():
    """A message that is too long and cut off by the end of the input is refused once."""
    link, _ = called("--max", "3", "--binary")
    link.give(b"\0\x09ab")
    must_end("cut", link, 1, "ddcmp: message 1: too long")
    assert sum("message" in it for it in link.errors()) == 1


def both_arrive(one, two, count):
    """Messages each way, in binary, while both inputs stay open."""
    to_two, to_one = binary(messages_of(count)), binary(messages_of(count))
    one.give(to_two, close=False)
    two.give(to_one, close=False)
    one.waits(lambda it: len(it.out) >= len(to_one))
    two.waits(lambda it: len(it.out) >= len(to_two))
    assert (one.out, two.out) == (to_one, to_two)


def test_pseudo_terminals():
    with terminals() as ends:
        one, two = (Link(f"device:{it}", "--binary", "--stay") for it in ends)
        both_arrive(one, two, 100)


@pytest.mark.parametrize("window", [1, 7, 127])
def test_bad_line(window):
    bad = Bad(0.02)
    options = ("--binary", "--timer-ms", "150", "--window", str(window), "--inbox", str(window))
    one = Link(f"listen:127.0.0.1:{bad.target}", *options)
    listening(one)
    two = Link(f"connect:127.0.0.1:{bad.port}", *options)
    both_arrive(one, two, 150)
    one.run.stdin.close()
    assert one.ended() == 0


def test_inputs():
    """Standard input as a file, and as nothing."""
    with tempfile.TemporaryFile() as file:
        file.write(b"6162\n63\n")
        file.seek(0)
        one = Link("listen:127.0.0.1:0")
        two = Link(f"connect:127.0.0.1:{listening(one)}", stdin=file)
        assert two.ended() == 0 and one.waits(lambda it: it.mails() == [b"ab", b"c"], 10)
        one.kill()
    one = Link("listen:127.0.0.1:0")
    two = Link(f"connect:127.0.0.1:{listening(one)}", stdin=subprocess.DEVNULL)
    must_end("nothing", two, 0)


@pytest.mark.long
def test_large():
    """Fifty megabytes both ways at once."""
    options = ("--binary", "--window", "127", "--inbox", "127")
    one, two = tcp_pair(options, options)
    sent = [drawn.randbytes(1500) for _ in range(33334)]
    exchange("50 MB", one, two, sent, sent[::-1])


def test_flooded():
    """Junk comes without a pause: the input is sent nevertheless."""
    link, peer = called("--timer-ms", "500")
    assert peer.runs(), "it doesn't run"

    def flood():
        with contextlib.suppress(OSError):
            while True:
                peer.sock.sendall(bytes(1 << 20))
    threading.Thread(target=flood, daemon=True).start()
    time.sleep(0.5)
    link.give(b"61\n", close=False)
    assert peer.waits(lambda it: it.mail == [b"a"], 5)
