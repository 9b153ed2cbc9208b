"""Bridges between lines of each kind: two links over one, what of junk and damaged frames comes
out, and the faults that a bridge makes."""
import contextlib
import itertools
import json
import os
import re
import select
import shutil
import signal
import socket
import subprocess
import tempfile
import termios
import threading
import time
import tty

import pytest

from .bad_lines import Draws
from .process import (
    LONG, Bridge, Link, bridged, commands_in, connected, contents, exchange, explained, free_port,
    holds_within, into_pipe, is_bound, must_end, omitted, port_of, receives, reset_at_close,
    rest_of, sends, server, takes, terminals, times, udp_socket)
from .test_tap import rung
from .wire import binary, checked, control, data, drawn, drawn_frames, mail_in, messages_of

START = {0x05: 0, 0x81: 1, 0x90: 1}
NOTHING = (0, 0, 0, 0, 0)


def good_frames(text):
    """The good frames of some bytes, and how many damaged ones and headers are between them."""
    found, damaged, lost, at = [], 0, False, 0
    while at < len(text):
        if text[at] not in START:
            at += 1
            continue
        head = text[at:at + 8]
        if len(head) < 8:
            break
        if checked(head[:6]) != head:
            damaged += not lost
            lost, at = True, at + 1
            continue
        count = head[1] | (head[2] & 63) << 8
        if START[head[0]] and count:
            body = text[at + 8:at + 10 + count]
            if len(body) < count + 2:
                break
            is_good, length = checked(body[:-2]) == body, 10 + count
        else:
            is_good, length = not START[head[0]] and head[1] in (1, 2, 3, 6, 7), 8
        if is_good:
            found.append(text[at:at + length])
        else:
            damaged += 1
        lost, at = False, at + length
    return found, damaged


def ends_first(bridge, one):
    """Ends the first line, and with it the bridge."""
    one.shutdown(socket.SHUT_WR)
    assert bridge.ended() == 0


def text_of(count):
    return drawn_frames(count, (1, 2, 60, 300, 16383))


def counted(text):
    frames, damaged = good_frames(text)
    return len(frames), len(text) - sum(map(len, frames)), damaged, 0, 0


@pytest.mark.parametrize("most", [3, 200, 1 << 16])
def test_bridged_junk(most):
    """Of junk and damaged frames both ways the good frames alone come out, in their order, and the
    rest is counted."""
    count = 40 if most == 3 else 400
    there = text_of(count)
    # What ends it ends whatever is open, so it is read to its end.
    back = text_of(count) + b"\x96" * 33000 + control(1)
    bridge, one, two = bridged()
    got = {}
    threads = [threading.Thread(target=sends, args=(one, there, most)),
               threading.Thread(target=sends, args=(two, back, most)),
               threading.Thread(target=lambda peer=two: got.update(there=takes(peer)))]
    for it in threads:
        it.start()
    wanted = [b"".join(good_frames(it)[0]) for it in (there, back)]
    came = receives(one, len(wanted[1]))
    one.settimeout(LONG)
    for it in threads[:2]:
        it.join(LONG)
    one.shutdown(socket.SHUT_WR)
    assert bridge.ended() == 0
    threads[2].join(LONG)
    assert got.get("there") == wanted[0] and came == wanted[1]
    assert bridge.counts() == (counted(there), counted(back))


def test_bridged_datagrams(tmp_path):
    """Each frame goes in a datagram of its own; none goes on in the next; those of others aren't
    read. What is cut is counted and saved."""
    peers = [udp_socket() for _ in range(3)]
    for it in peers:
        it.settimeout(10)
    one, two, other = peers
    ports = [free_port(socket.SOCK_DGRAM) for _ in range(2)]
    words = [f"udp:127.0.0.1:{port},127.0.0.1:{port_of(it)}" for port, it in zip(ports, peers)]
    bridge = Bridge(*words, "--seconds", "2", "--save-first", f"{tmp_path}/first")
    assert holds_within(10, lambda: all(map(is_bound, ports)))
    longest, short, cut = data(drawn.randbytes(16383), 1), control(1), data(b"abc", 2)
    other.sendto(short, ("127.0.0.1", ports[0]))
    pieces = (longest, b"\x96" + short + longest + b"junk", cut[:10], cut[:9], cut[10:] + short)
    for it in pieces:
        one.sendto(it, ("127.0.0.1", ports[0]))
    got = [two.recv(1 << 16) for _ in range(4)]
    assert got == [longest, short, longest, short], f"{[len(it) for it in got]}"
    two.sendto(cut, ("127.0.0.1", ports[1]))
    assert one.recv(1 << 16) == cut, "another frame came back"
    assert (bridge.ended(10) == 0
            and bridge.counts() == ((4, 5 + len(cut) + 9, 0, 0, 0), (1, 0, 0, 0, 0)))
    assert contents(f"{tmp_path}/first") == b"".join(pieces)


@times
def test_bridged_slowly():
    """A side that takes nothing holds the other back: memory stays flat, and nothing is lost."""
    bridge, one, two = bridged()
    text = b"".join(data(drawn.randbytes(16383), it) for it in range(256)) * 8
    sending = threading.Thread(target=sends, args=(one, text, 1 << 16))
    sending.start()
    for _second in range(20):  # until the buffers of both lines are full
        before, used = bridge.memory(), bridge.processor_time()
        time.sleep(1)
        if bridge.processor_time() - used <= 0.1:
            break
    assert (bridge.memory() <= before + 512 and bridge.processor_time() - used <= 0.1
            and sending.is_alive())
    got = receives(two, len(text), 2 * LONG)
    sending.join(LONG)
    one.close()
    assert got == text and bridge.ended() == 0 and bridge.counts()[0] == (2048, 0, 0, 0, 0)


def unread(name):
    """How many bytes a connection to this address has that its process hasn't read."""
    with open("/proc/net/tcp", encoding="ascii") as lines:
        rows = [it.split() for it in lines]
    return sum(int(it[4].split(":")[1], 16) for it in rows if it[2].endswith(f":{name[1]:04X}")
               and it[3] != "0A")


def fills(sock, octets):
    """Sends of these octets until nothing more was taken for a while."""
    sock.setblocking(False)
    sent, until = 0, time.monotonic() + 0.3
    while sent < len(octets) and time.monotonic() < until:
        try:
            sent += sock.send(octets[sent:sent + (1 << 16)])
            until = time.monotonic() + 0.3
        except BlockingIOError:
            time.sleep(0.01)
    time.sleep(0.2)


def test_bridged_rest():
    """What a line has given is passed on, though it takes nothing any more."""
    bridge, one, two = bridged()
    frames = [data(drawn.randbytes(990), it % 256) for it in range(4000)]
    sending = threading.Thread(target=sends, args=(one, b"".join(frames), 1 << 16))
    sending.start()  # so that its window grows
    receives(two, sum(map(len, frames)), 2 * LONG)
    sending.join(LONG)
    bridge.run.send_signal(signal.SIGSTOP)
    two.sendall(data(b"unwanted", 1))
    fills(one, b"".join(frames[:250]))
    had = unread(one.getsockname()) // 1000
    reset_at_close(one)
    one.close()
    bridge.run.send_signal(signal.SIGCONT)
    got = takes(two)
    assert bridge.ended() == 3 and had >= 50 and got == b"".join(frames[:had])


@times
def test_bridged_last():
    """As a line ends, the peer of the other one sends on, and reads late: it gets all, and no
    reset. One that doesn't close its connection is read for half a second at most, without a busy
    loop, and only while it sends."""
    frames = b"".join(data(drawn.randbytes(990), it % 256) for it in range(200))
    for sends_on, closes, late in ((True, True, 0.2), (False, True, 0), (True, False, 0),
                                   (False, False, 0)):
        bridge, one, two = bridged()
        if sends_on:
            threading.Thread(target=floods, args=(two,), daemon=True).start()
        one.sendall(frames)
        closed = time.monotonic()  # before the bridge sees that, while `began` may be late
        one.close()
        bridge.waits(lambda it: b"first line down" in it.err)
        began, used = time.monotonic(), bridge.processor_time()
        time.sleep(late)
        got, was_reset = b"", False
        try:
            while piece := two.recv(1 << 16):
                got += piece
        except ConnectionResetError:
            was_reset = True
        if closes:
            with contextlib.suppress(OSError):  # it is gone already
                two.shutdown(socket.SHUT_RDWR)
        status, took, whole = bridge.ended(), time.monotonic() - began, time.monotonic() - closed
        assert status == 0 and got == frames and (not was_reset or not closes)
        is_left = sends_on and not closes
        assert ((not is_left or whole >= 0.3) and (is_left or took <= late + 0.3) and took <= 1.5
                and (bridge.used - used <= 0.1 or sends_on))


def floods(peer):
    with contextlib.suppress(OSError):
        while True:
            peer.sendall(b"\x96" * (1 << 16))
            time.sleep(0.001)  # else the reads are over before their time


def faulty(*faults):
    """Frames both ways over a bridge that makes these faults: just those of its seed, and as many
    as it counts."""
    words = [word for name, value in zip(("--lose", "--damage", "--seed"), faults)
             for word in (name, str(value))]
    bridge, *ends = bridged(*words)
    wanted, counts = [], []
    for direction, end in enumerate(ends):
        frames = [data(drawn.randbytes(drawn.randrange(1, 60)), it % 256) for it in range(300)]
        draws = Draws(direction, *faults)
        left = [draws.left_of(it) for it in frames]
        wanted.append(b"".join(left))
        altered = sum(it not in (b"", frame) for it, frame in zip(left, frames))
        counts.append((300, 0, 0, left.count(b""), altered))
        end.sendall(b"".join(frames))
    got = [receives(end, len(text)) for end, text in zip(ends, reversed(wanted))]
    time.sleep(0.2)
    for it in ends:
        it.close()
    assert bridge.ended() == 0 and bridge.counts() == tuple(counts) and got == wanted[::-1]
    return counts


def test_faults_by_a_seed():
    """Frames are lost and damaged by the seed alone; 1 is that of a bridge that is given none;
    other ones differ."""
    made = [faulty(10), faulty(10, 0, 1), faulty(0, 20, 1), faulty(10, 20, 4294967295),
            faulty(10, 20, 0)]
    assert made[0] == made[1] and made[3] != made[4] and faulty(0, 0, 7) == [(300, 0, 0, 0, 0)] * 2
    assert faulty(100) == [(300, 0, 0, 300, 0)] * 2 and faulty(0, 100) == [(300, 0, 0, 0, 300)] * 2


@times
def test_delayed():
    """Each frame is held back for the time that was asked for, up to 256 at once, and goes on as it
    came; also those that are held when its line ends."""
    delay = 0.3
    bridge, *ends = bridged("--delay", "300")
    for end, other in (ends, ends[::-1]):
        for count, most in ((1, 0.2), (256, 0.6), (600, 0.9)):  # 600 are two turns more
            frames = [data(drawn.randbytes(drawn.randrange(1, 60)), it % 256)
                      for it in range(count)]
            began, got, after = time.monotonic(), b"", None
            end.sendall(b"".join(frames))
            while len(got) < sum(map(len, frames)) and (piece := other.recv(1 << 16)):
                after = after or time.monotonic() - began
                got += piece
            took = time.monotonic() - began
            least = delay * -(-count // 256)
            assert got == b"".join(frames) and after >= delay - 0.002
            assert least - 0.002 <= took < least + most
    for it in range(10):  # several at once are held back
        ends[0].sendall(data(bytes([it]), it))
        last = time.monotonic()
        time.sleep(0.05)
    got = receives(ends[1], 110)
    took = time.monotonic() - last
    assert took <= delay + 0.2 and got == b"".join(data(bytes([it]), it) for it in range(10))
    ends[0].sendall(b"".join(frames[:300]))
    ends[0].shutdown(socket.SHUT_WR)
    got = takes(ends[1])
    assert (bridge.ended() == 0 and got == b"".join(frames[:300])
            and bridge.counts()[0][0] == 1 + 256 + 600 + 10 + 300)


@pytest.mark.parametrize("form", ["--trace", "--ladder"])
def test_traced(form):
    """Each frame and fault that comes is printed in the words of explain, or as an arrow, with what
    the bridge does to it."""
    bridge, *ends = bridged(form, "--lose", "20", "--damage", "20")
    wanted = {}
    for direction, (mark, end) in enumerate(zip("><", ends)):
        frames = [data(drawn.randbytes(drawn.randrange(1, 40)), it) for it in range(60)]
        frames.insert(30, control(9))
        text, draws = b"".join(frames), Draws(direction, 20, 20)
        wanted[mark] = []
        for number, (frame, line) in enumerate(zip(frames, explained(text)[:-1])):
            left = frame if number == 30 else draws.left_of(frame)
            wanted[mark].append(f"{mark} {line}" if form == "--trace"
                                else rung(mark, line.split(" ", 1)[1]))
            if left != frame:
                at = next((at for at, it in enumerate(left) if it != frame[at]), None)
                wanted[mark].append(f"{mark} lost" if at is None else f"{mark} altered byte {at}")
        end.sendall(text)
    bridge.waits(lambda it: len(it.traces()) == sum(map(len, wanted.values())), 10)
    ends[0].shutdown(socket.SHUT_WR)
    status, lines = bridge.ended(), bridge.traces()
    for mark, text in wanted.items():
        got = [it[1] for it in lines if it[1].startswith((mark, {">": "|-- ", "<": "|<"}[mark]))]
        assert got == text
    assert status == 0 and [it[0] for it in lines] == sorted(it[0] for it in lines)


@times
@pytest.mark.parametrize("options", [(), ("--json",), ("--clock",), ("--json", "--clock")])
def test_reports(options):
    """The counters each second: as at the end, or an object with those of the interval."""
    bridge, *ends = bridged("--report", "1", *options)
    text = data(b"abc", 1) + b"zz"
    ends[0].sendall(text)
    time.sleep(1.4)
    ends[0].sendall(text)
    ends[1].sendall(text)
    time.sleep(1)
    ends[0].shutdown(socket.SHUT_WR)
    assert bridge.ended() == 0
    told = [it.split("Z ")[-1] for it in bridge.errors() if " frames=" in it or '"report"' in it]
    assert all((it[:4].isdecimal() or '"time":"' in it[:9]) == ("--clock" in options)
               for it in bridge.errors())
    if "--json" in options:
        objects = [json.loads(it) for it in told]
        assert [it["from"] for it in objects] == list("><><")
        assert [(it["frames"], it["skipped"]) for it in objects] == [(1, 2), (0, 0), (2, 4), (1, 2)]
        assert [it["interval"]["frames"] for it in objects] == [1, 0, 1, 1]
    else:
        assert told == [f"{mark} frames={n} skipped={2 * n} damaged=0 lost=0 altered=0"
                        for mark, n in ((">", 1), ("<", 0), (">", 2), ("<", 1))]


def between(name, bridge, one, two, most=1500):
    """Messages both ways between two links over a bridge; returns what it counted."""
    exchange(name, one, two, messages_of(40, most), messages_of(40, most))
    status = bridge.ended()
    there, back = bridge.counts()
    assert status == 0 and min(there[0], back[0]) >= 40 and not there[2] and not back[2]
    return there, back


def test_over_faults():
    """Two links over a bridge that loses and damages frames: all arrives."""
    bridge = Bridge("listen:127.0.0.1:0", "listen:127.0.0.1:0", "--lose", "10", "--damage", "5",
                    "--seed", "7")
    links = [Link(f"connect:127.0.0.1:{it}", "--binary", "--timer-ms", "100")
             for it in bridge.ports(2)]
    counts = between("faults", bridge, *links)
    assert all(it[3] and it[4] for it in counts)


def test_damaged_acks():
    """An end that only sends hears some of its ACKs damaged, and doesn't say that all are."""
    bridge = Bridge("listen:127.0.0.1:0", "listen:127.0.0.1:0", "--damage", "20")
    one, two = (Link(f"connect:127.0.0.1:{it}", "--binary", "--timer-ms", "100")
                for it in bridge.ports(2))
    sent = messages_of(400)
    one.give(binary(sent))
    two.run.stdin.close()
    for name, it in (("sender", one), ("receiver", two)):
        must_end(name, it, 0)
    assert two.out == binary(sent) and bridge.ended() == 0


def test_tcp_to_tcp():
    """Two links that call, with the longest messages."""
    bridge = Bridge("listen:127.0.0.1:0", "listen:127.0.0.1:0")
    one, two = (Link(f"connect:127.0.0.1:{it}", "--binary", "--max", "16383")
                for it in bridge.ports(2))
    between("tcp", bridge, one, two, 16383)


def test_udp_to_tcp():
    """One link calls, and one has datagrams."""
    near, far = (free_port(socket.SOCK_DGRAM) for _ in range(2))
    bridge = Bridge(f"udp:127.0.0.1:{near},127.0.0.1:{far}", "listen:127.0.0.1:0")
    one = Link(f"udp:127.0.0.1:{far},127.0.0.1:{near}", "--binary")
    two = Link(f"connect:127.0.0.1:{bridge.ports(1)[0]}", "--binary")
    between("udp and tcp", bridge, one, two)


def test_device_to_udp():
    """One link has a serial device, and one datagrams: only the time ends such a bridge."""
    with terminals() as ends:
        near, far = (free_port(socket.SOCK_DGRAM) for _ in range(2))
        bridge = Bridge(f"device:{ends[0]}", f"udp:127.0.0.1:{near},127.0.0.1:{far}", "--seconds",
                        "6")
        one = Link(f"device:{ends[1]}", "--binary")
        two = Link(f"udp:127.0.0.1:{far},127.0.0.1:{near}", "--binary")
        between("device and udp", bridge, one, two)


def played(begin, folder):
    """Runs the commands of docs/USING.md that begin so; returns the messages that were received,
    and the output."""
    commands = commands_in("USING.md", f"./ddcmp bridge {begin} ")
    for port in re.findall(r":(\d+) ", commands):
        commands = commands.replace(f":{port}", f":{free_port()}")
    words = ["sh", "-c", f"{commands}\nwait"]
    run = subprocess.run(words, cwd=folder, stdout=subprocess.PIPE, timeout=LONG, check=False)
    return mail_in(contents(f"{folder}/received")), run.stdout.decode()


def test_the_example(tmp_path):
    """The commands of docs/USING.md over a bridge that makes faults: all messages arrive."""
    mails, out = played("--lose", tmp_path)
    assert mails == [bytes.fromhex(str(it)) for it in range(1000, 1100)]
    assert re.search("^> frames=.* lost=[1-9]", out, re.M)


def test_the_example_of_saving(tmp_path):
    """Those over a bridge that saves what comes: what came back is explained, and both are drawn,
    each ACK after its data."""
    mails, out = played("--save-first", tmp_path)
    assert [it.hex() for it in mails] == ["1000", "1001", "1002", "1003"]
    assert "STRT" in out and "num=4 addr=1 1003" in out
    rungs, acks = [it for it in out.splitlines() if it.startswith("|")], []
    for at, line in enumerate(rungs):
        for number in re.findall("ACK resp=([1-9])", line):
            acks.append(number)
            assert any(f" DATA {number} " in it for it in rungs[:at])
    assert acks[-1:] == ["4"]


@times
def test_device_without_waiting():
    """A device that is set to return at once, and has nothing, hasn't ended; one that is hung up
    has."""
    ours, theirs = os.openpty()
    name = os.ttyname(theirs)
    tty.setraw(theirs)
    settings = termios.tcgetattr(theirs)
    settings[6][termios.VMIN] = settings[6][termios.VTIME] = 0
    termios.tcsetattr(theirs, termios.TCSANOW, settings)
    with udp_socket() as peer:
        peer.settimeout(5)
        near, far = free_port(socket.SOCK_DGRAM), port_of(peer)
        bridge = Bridge(f"device:{name}", f"udp:127.0.0.1:{near},127.0.0.1:{far}")
        time.sleep(1)
        assert bridge.is_running() and bridge.processor_time() <= 0.3
        os.write(ours, control(1))
        assert not bridge.is_running() or peer.recv(100) == control(1), "another frame came"
        os.close(theirs)
        os.close(ours)
        must_end("hung up", bridge, 0, seconds=5)
        assert "first line down: closed by the other end" in bridge.errors()


@times
def test_unread_trace():
    """A trace that isn't read blocks nothing: all frames pass, the time ends the bridge, and lines
    without room are counted."""
    (bridge, one, two), reading = into_pipe(bridged, "--trace", "--seconds", "10", stream="stderr")
    frames = b"".join(data(drawn.randbytes(1000), it % 256) for it in range(300))
    threading.Thread(target=one.sendall, args=(frames,), daemon=True).start()
    assert receives(two, len(frames)) == frames
    told = rest_of(reading)
    status = bridge.ended(5)
    assert status == 0 and 9 < bridge.took < 12.5
    counted, notes = omitted(told.decode().split("\n"))
    shown = told.count(b" DATA ")
    assert notes and counted + shown == 300


def test_closed_trace():
    """A trace into a pipe that is closed, as by `head -1`, ends nothing: all frames pass, and are
    counted."""
    head = subprocess.Popen(["head", "-1"], stdin=subprocess.PIPE, stdout=subprocess.PIPE)
    bridge, one, two = bridged("--trace", stderr=head.stdin)
    head.stdin.close()
    assert head.stdout.read().startswith(b"connecting ") and head.wait(LONG) == 0
    frames = [data(drawn.randbytes(1000), it) for it in range(100)]
    for it in frames:
        one.sendall(it)
        assert receives(two, len(it)) == it
    ends_first(bridge, one)
    assert bridge.counts() == ((100, 0, 0, 0, 0), NOTHING)


@pytest.mark.parametrize("at", [0, 1])
def test_bridged_to_a_full_device(at):
    """A device, at either line, that takes no more for a while gets the rest then."""
    ours, theirs = os.openpty()
    tty.setraw(theirs)
    lines = [f"device:{os.ttyname(theirs)}"]
    with server() as far:
        lines.insert(1 - at, f"connect:127.0.0.1:{port_of(far)}")
        bridge = Bridge(*lines)
        peer = far.accept()[0]
    frames, got = b"".join(data(drawn.randbytes(1000), it) for it in range(40)), b""
    peer.sendall(frames)
    time.sleep(0.3)
    while len(got) < len(frames) and select.select([ours], [], [], 5)[0]:
        got += os.read(ours, 1 << 16)
    bridge.kill()
    os.close(ours)
    os.close(theirs)
    assert got == frames


def test_ends_of_a_bridge():
    """A line that can't be opened, words that are none, a limit of time, and a line that fails."""
    port = free_port()
    refused = f"ddcmp: connect 127.0.0.1:{port}: connection refused"
    must_end("refused", Bridge("listen:127.0.0.1:0", f"connect:127.0.0.1:{port}", "--seconds", "1"),
             0)
    must_end("refused", Bridge(f"connect:127.0.0.1:{port}", "listen:127.0.0.1:0"), 3, refused)
    must_end("no device", Bridge("listen:127.0.0.1:0", "device:/dev/nothing", "--seconds", "1"), 0)
    must_end("no line", Bridge("listen:127.0.0.1:0", "device"), 2)
    it = server()
    bridge = Bridge("listen:127.0.0.1:0", f"connect:127.0.0.1:{port_of(it)}")
    one = socket.create_connection(("127.0.0.1", bridge.ports(1)[0]))
    one.sendall(b"\x96")
    two = it.accept()[0]
    bridge.waits(lambda it: it.err.count(b"connected ") == 2, 10)
    reset_at_close(two)
    two.close()
    must_end("reset", bridge, 3, "ddcmp: ended")
    assert ("second line down: connection reset" in bridge.errors()
            and bridge.counts() == ((0, 1, 0, 0, 0), NOTHING))
    one.close()
    output = subprocess.Popen(["true"], stdin=subprocess.PIPE)
    output.wait()
    bridge = Bridge("udp:127.0.0.1:0,127.0.0.1:9", "udp:127.0.0.1:0,127.0.0.1:9", "--seconds", "1",
                    stdout=output.stdin)
    must_end("closed output", bridge, 3, "ddcmp: write")


def parted(text, frames):
    """How many of these frames of data some bytes begin with, and what is left after them."""
    known, count, at = set(frames), 0, 0
    while at + 10 < len(text):
        length = 10 + (text[at + 1] | (text[at + 2] & 63) << 8)
        if text[at:at + length] not in known:
            break
        count += 1
        at += length
    return count, text[at:]


def test_bridged_again():
    """With --again a peer that ends, at either line, and comes again gets its line, and frames both
    ways; what the line before had of a frame is dropped; the counters and the files go on over all
    lines."""
    far, folder = server(), tempfile.mkdtemp()
    there = f"connect:127.0.0.1:{port_of(far)}"
    bridge = Bridge("listen:127.0.0.1:0", there, "--again", "--seconds", "8", "--trace",
                    "--save-first", f"{folder}/first")
    port, texts = bridge.ports(1)[0], []
    for number in range(6):
        one = connected(port)
        began = data(drawn.randbytes(100), number)
        texts.append(data(b"there", number) + began[:drawn.randrange(1, len(began))])
        one.sendall(texts[-1])
        two = far.accept()[0]
        for it in (one, two):
            it.settimeout(LONG)
        two.sendall(data(b"back", number) + began[:1])
        got = two.recv(15, socket.MSG_WAITALL), one.recv(14, socket.MSG_WAITALL)
        assert got == (data(b"there", number), data(b"back", number))
        for it in (one, two)[::-1 if number % 2 else 1]:
            it.shutdown(socket.SHUT_WR)
            rest = takes(two if it is one else one)
            assert not rest
            break
        one.close()
        two.close()
        assert bridge.waits(lambda it, count=number + 2: it.err.count(b"listening ") == count, 10)
    assert bridge.ended(15) == 0 and contents(f"{folder}/first") == b"".join(texts)
    assert bridge.counts() == ((6, sum(map(len, texts)) - 6 * 15, 0, 0, 0), (6, 6, 0, 0, 0))
    ends = [f"{('first', 'second')[it % 2]} line down: closed by the other end" for it in range(6)]
    assert ([it for it in bridge.errors() if " line down" in it] == ends
            and set(bridge.ports(7)) == {port})
    for mark, name in (">", b"there"), ("<", b"back"):
        wanted = [f"{mark} {explained(data(name, it))[:-1][0]}" for it in range(6)]
        assert [it[1] for it in bridge.traces() if it[1][0] == mark] == wanted
    shutil.rmtree(folder)


def flows(peer, made):
    """Sends these frames again and again until all is over, in pieces of any size; and keeps what
    comes."""
    def receive():
        with contextlib.suppress(OSError):
            while piece := peer.recv(1 << 16):
                made["got"] += piece

    def send():
        with contextlib.suppress(OSError):
            for frame in itertools.cycle(made["frames"]):
                sends(peer, frame, 500)
                time.sleep(0.002)  # else megabytes are on their way at the end
                if made["over"]:
                    return
    made["got"], made["over"] = b"", False
    made["threads"] = [threading.Thread(target=it) for it in (receive, send)]
    for it in made["threads"]:
        it.start()


def test_bridged_kills():
    """One end is killed 20 times while frames flow: on each line only whole frames come, of that
    line alone; just a line that was killed may end within one."""
    first, second = server(), server()
    names = [f"connect:127.0.0.1:{port_of(it)}" for it in (first, second)]
    bridge, passed = Bridge(*names, "--again", "--delay", "20"), 0
    for number in range(20):
        ends = first.accept()[0], second.accept()[0]
        sent = [{"frames": [data(bytes([number, way]) + drawn.randbytes(drawn.randrange(1, 900)),
                                 it % 256) for it in range(30)]} for way in (0, 1)]
        for end, it in zip(ends, sent):
            flows(end, it)
        holds_within(LONG, lambda sent=sent: all(it["got"] for it in sent))
        time.sleep(drawn.random() / 10)
        killed = ends[number % 2]
        reset_at_close(killed)
        killed.shutdown(socket.SHUT_RD)
        killed.close()
        for it in sent:
            it["over"] = True
        for it in sum((it["threads"] for it in sent), []):
            it.join(LONG)
        for end, it, other in zip(ends, sent, sent[::-1]):
            count, rest = parted(it["got"], other["frames"])
            passed += count
            is_part = end is killed and any(frame.startswith(rest) for frame in other["frames"])
            assert count and (not rest or is_part)
        ends[1 - number % 2].close()
    assert bridge.is_running()
    bridge.kill()
    assert passed >= 200


@times
def test_bridged_later():
    """With --again a port that isn't there yet is tried again, with a pause that doubles, while the
    other line is kept; so is an address that another program listens at."""
    with server() as taken, socket.socket() as far:
        far.bind(("127.0.0.1", 0))
        far.settimeout(5)
        names = [f"127.0.0.1:{port_of(it)}" for it in (taken, far)]
        bridge = Bridge(f"listen:{names[0]}", f"connect:{names[1]}", "--again", "--seconds", "12")
        assert bridge.waits(lambda it: len(it.faults()) == 2, 6)
        taken.close()
        bridge.ports(1)
        one = connected(int(names[0].split(":")[1]))
        one.settimeout(LONG)
        one.sendall(control(1))
        assert bridge.waits(lambda it: len(it.faults()) == 4, 6)
        far.listen()
        two = far.accept()[0]
        two.sendall(control(2))
        assert (two.recv(8, socket.MSG_WAITALL) == control(1)
                and one.recv(8, socket.MSG_WAITALL) == control(2))
        reset_at_close(one)  # other lines follow, so that it failed is no fault of the end
        one.close()
        two.close()
        assert bridge.ended(15) == 0 and 11.9 < bridge.took < 13 and bridge.used <= 0.6
    faults = f"listen {names[0]}: address in use", f"connect {names[1]}: connection refused"
    wanted = [f"ddcmp: {it}; retry in {seconds} s" for it in faults for seconds in (1, 2)]
    assert bridge.faults()[:4] == wanted and bridge.counts() == ((1, 0, 0, 0, 0), (1, 0, 0, 0, 0))


@pytest.mark.parametrize("options", [(), ("--trace",)])
def test_bridged_in_vain(options):
    """Lines over which no good frame comes aren't opened again without a pause, and a bridge whose
    standard error isn't read opens its lines again nevertheless."""
    first, second = server(), server()
    words = [*(f"connect:127.0.0.1:{port_of(it)}" for it in (first, second)), "--again", *options]
    bridge = into_pipe(Bridge, *words, stream="stderr")[0] if options else Bridge(*words)
    ends = first.accept()[0], second.accept()[0]
    if options:
        ends[0].sendall(b"".join(data(bytes(1000), it % 256) for it in range(300)))
        ends[1].settimeout(LONG)
        ends[1].recv(300 * 1010, socket.MSG_WAITALL)
    until, count = time.monotonic() + 4, 0
    for it in ends:
        it.close()
    while time.monotonic() < until:
        first.settimeout(until - time.monotonic())
        with contextlib.suppress(TimeoutError), first.accept()[0], second.accept()[0]:
            count += 1
    pauses = [it for it in bridge.errors() if it.endswith(" line: retry in 1 s")]
    assert (1 <= count <= 3
            and (options or pauses == [f"{it} line: retry in 1 s" for it in ("first", "second")]))
