"""What `ddcmp tap` passes on, and what it prints of each direction: between peers that aren't ours,
sockets of Python and socat, with ends, resets and peers that are slow."""
import contextlib
import datetime
import json
import os
import re
import socket
import subprocess
import threading
import time

import pytest

from .process import (
    PROGRAM, Link, Process, call, connected, explained, free_port, holds_within, into_pipe,
    is_listening, port_of, receives, reset_at_close, sends, server, takes, times)
from .wire import REASONS, STRT, ack, data, drawn, drawn_frames

pytestmark = pytest.mark.limit(120)
LONG = 30  # seconds that nothing here may take


class Tap(Link):
    """A running tap with the sockets of both sides."""

    WORDS = ["tap"]

    def __init__(self, *options, alone=0, **streams):
        port = free_port(step=10)  # just of port 0 it prints the number that the system chose
        with server() as far:
            to = f"127.0.0.1:{port_of(far)}"
            listens = "--listen", f"127.0.0.1:{port}"
            super().__init__(*listens, "--connect", to, *options, **streams)
            time.sleep(alone)
            self.caller = connected(port)
            self.called = far.accept()[0]
        self.names = {"caller": "{}:{}".format(*self.caller.getsockname()), "called": to}
        for it in (self.caller, self.called):
            it.settimeout(LONG)
            it.setsockopt(socket.IPPROTO_TCP, socket.TCP_NODELAY, 1)

    def ends(self):
        """Its status, and standard error, once both sides are closed."""
        for it in (self.caller, self.called):
            it.close()
        return self.ended(LONG), self.err.decode()


def both_ways(tap, up, down, most=1 << 16):
    """Sends both ways at once, and says what came out."""
    got = {}

    def take(name, peer):
        got[name] = takes(peer)

    works = [threading.Thread(target=sends, args=(tap.caller, up, most, True)),
             threading.Thread(target=sends, args=(tap.called, down, most, True)),
             threading.Thread(target=take, args=("down", tap.caller)),
             threading.Thread(target=take, args=("up", tap.called))]
    for it in works:
        it.start()
    for it in works:
        it.join(2 * LONG)
    return got.get("up"), got.get("down")


def lines_of(said, mark):
    return [it[2:] for it in said.decode().splitlines() if it.startswith(mark)]


@pytest.mark.parametrize("most, options", [(2, ()), (40, ()), (5000, ("--max", "40"))])
def test_prints_what_explain_prints(most, options):
    """The lines of each direction are those that `explain` has of its bytes."""
    up, down = drawn_frames(1500), drawn_frames(1200)
    tap = Tap(*options)
    assert both_ways(tap, up, down, most) == (up, down)
    assert tap.ends() == (0, "")
    assert lines_of(tap.out, "> ") == explained(up, *options)
    assert lines_of(tap.out, "< ") == explained(down, *options)
    last = [it[0] for it in tap.out.decode().splitlines()[-2:]]
    assert (last == [">", "<"] and len(tap.out.splitlines())
            == len(explained(up, *options)) + len(explained(down, *options)))


FRAMES = b"\x81" + data(b"abc", 1) + ack(0)  # a start byte alone, and two frames
FIELDS = [("offset", 0, "item", "header check"),
          ("offset", 1, "item", "DATA", "count", 3, "q", 0, "s", 0, "resp", 0, "num", 1, "addr", 1,
           "data", "616263"),
          ("offset", 14, "item", "ACK", "sub", 0, "q", 0, "s", 0, "resp", 0, "num", 0, "addr", 1)]
WORDS = ["0 header check", "1 DATA count=3 q=0 s=0 resp=0 num=1 addr=1 616263",
         "14 ACK sub=0 q=0 s=0 resp=0 num=0 addr=1"]
LADDER = "> who connected to the tap" + 25 * " " + "whom the tap connected to <"
ARROWS = [("header check", "~"), ("DATA 1 resp=0 (3 bytes)", "-"), ("ACK resp=0", "-")]


def log_of(mark, options, size):
    """The lines of FRAMES that come from a side, or the last line of one that sends nothing; each
    moment is 7."""
    time = "7 " if "--time" in options else ""
    lines, count = [], 3 if size else 0
    if "--json" in options:
        front = {"from": mark, **({"ms": 7} if time else {})}
        fields = [dict(zip(it[::2], it[1::2])) for it in FIELDS[:count]]
        last = {"items": count, "bytes": size, "open": 0}
        return [json.dumps({**front, **it}, separators=(",", ":")) for it in (*fields, last)]
    for words, (text, line) in zip(WORDS[:count], ARROWS):
        right, left = f"|-- {text} ".ljust(76, line) + ">|", "|<" + f" {text} --|".rjust(76, line)
        arrow = right if mark == ">" else left
        lines.append(time + (arrow if "--ladder" in options else f"{mark} {words}"))
    return [*lines, f"{time}{mark} items={count} bytes={size} open=0"]


@pytest.mark.parametrize("mark", "><")
@pytest.mark.parametrize("options, cuts", [
    ([], range(len(FRAMES))), (["--time"], [3]), (["--json"], [3]), (["--json", "--time"], [3]),
    (["--ladder"], [9]), (["--ladder", "--time"], [14]),
])
def test_log_at_each_cut(options, cuts, mark):
    """Bytes that come in two pieces, from either side: the lines of their log, and what is before
    each."""
    for cut in cuts:
        tap = Tap(*options)
        sender, receiver = (tap.caller, tap.called) if mark == ">" else (tap.called, tap.caller)
        for piece in (FRAMES[:cut], FRAMES[cut:]):
            sender.sendall(piece)
            assert receives(receiver, len(piece)) == piece
        assert tap.ends() == (0, "")
        told = re.sub(r'(?m)^\d+ (?=[<>|])|(?<="ms":)\d+',
                      lambda it: "7 " if " " in it[0] else "7", tap.out.decode())
        up, down = (log_of(it, options, len(FRAMES) * (it == mark)) for it in "><")
        head = [LADDER] * ("--ladder" in options)
        assert told == "\n".join([*head, *up[:-1], *down[:-1], up[-1], down[-1], ""])


def test_hands_on_megabytes():
    up, down = drawn.randbytes(6_000_000), drawn.randbytes(5_000_000)
    tap = Tap()
    assert both_ways(tap, up, down) == (up, down)
    assert tap.ends() == (0, "")
    assert lines_of(tap.out, "> ")[-1] == explained(up)[-1]
    assert lines_of(tap.out, "< ") == explained(down)


@times
@pytest.mark.parametrize("name, other", [("called", "caller"), ("caller", "called")])
def test_slow(name, other):
    """One side takes nothing for a while, and the other direction goes on; memory stays."""
    filled, free = drawn.randbytes(40_000_000), drawn.randbytes(8_000_000)
    tap = Tap()
    reader, writer = getattr(tap, name), getattr(tap, other)
    sender = threading.Thread(target=sends, args=(writer, filled, 1 << 16, True))
    sender.start()
    time.sleep(0.5)  # what has no room waits with the sender
    before = tap.memory("VmRSS")
    answers = threading.Thread(target=sends, args=(reader, free, 1 << 16, True))
    answers.start()
    assert takes(writer) == free, "the other direction gave other bytes"
    assert sender.is_alive(), "40 MB had room on the way"
    most = tap.memory("VmHWM")
    time.sleep(0.5)  # until the tap waits for room at this side alone
    used = tap.processor_time()
    time.sleep(0.5)
    assert tap.processor_time() - used <= 0.1
    assert takes(reader) == filled, "the slow direction gave other bytes"
    sender.join()
    answers.join()
    assert most - before <= 1000 and most <= 20_000
    assert tap.ends() == (0, "")


def test_half_close():
    tap = Tap()
    tap.caller.sendall(STRT)
    tap.caller.shutdown(socket.SHUT_WR)
    assert takes(tap.called) == STRT
    assert tap.waits(lambda it: b"> 0 STRT sub=0 q=1 s=1 resp=0 num=0 addr=1\n" in it.out), (
        "a line doesn't go out as it comes")
    assert tap.is_running(), "it didn't go on"
    for it in range(3):
        tap.called.sendall(bytes([it]))
        assert tap.caller.recv(10) == bytes([it]), "the other direction doesn't go on"
    tap.called.shutdown(socket.SHUT_WR)
    assert takes(tap.caller) == b"", "the end isn't handed on"
    assert (tap.ends() == (0, "")
            and tap.out.endswith(b"> items=1 bytes=8 open=0\n< items=0 bytes=3 open=0\n"))


def reset(peer):
    """Ends a connection without an end."""
    reset_at_close(peer)
    peer.close()


@pytest.mark.parametrize("name", ["caller", "called"])
def test_side_that_resets(name):
    tap = Tap()
    tap.caller.sendall(b"abc")
    assert tap.called.recv(10) == b"abc"
    reset(getattr(tap, name))
    wanted = f"ddcmp: {name} {tap.names[name]}: connection reset\nddcmp: read\n"
    assert tap.ends() == (3, wanted)
    assert tap.out.startswith(b"> items=0 bytes=3 open=0\n< items=")


@pytest.mark.parametrize("name, other", [("caller", "called"), ("called", "caller")])
def test_side_that_takes_nothing(name, other):
    """A side that was reset after its end is found out by a write to it."""
    tap = Tap()
    side, rest = getattr(tap, name), getattr(tap, other)
    side.shutdown(socket.SHUT_WR)
    assert rest.recv(10) == b"", "the end isn't handed on"
    reset(side)
    rest.sendall(b"abc")
    wanted = f"ddcmp: {name} {tap.names[name]}: broken pipe\nddcmp: write\n"
    assert tap.ends() == (3, wanted)


@pytest.mark.parametrize("to, why", [
    ("127.0.0.1:PORT", "connection refused"), ("nowhere", "not an address"),
    ("nobody.invalid:7000", "no such host"),
])
def test_connection_refused(to, why):
    """Whom it can't connect to is reported with the reason, once someone has connected."""
    port, to = free_port(), to.replace("PORT", str(free_port()))
    tap = Process([*PROGRAM, "tap", "--listen", f"127.0.0.1:{port}", "--connect", to])
    with connected(port) as caller, contextlib.suppress(ConnectionResetError):
        assert not caller.recv(1), "bytes came"
    ends = tap.ended(LONG), tap.out, tap.err.decode()
    assert ends == (3, b"", f"ddcmp: connect {to}: {why}\n")


@pytest.mark.parametrize("words", [[], ["--again"]])
def test_not_listening(words):
    """Where it can't listen is reported with the reason, and ends it, with --again too."""
    with server() as taken:
        for at, why in (
            (f"127.0.0.1:{port_of(taken)}", "address in use"),
            ("nowhere", "not an address"),
            ("nobody.invalid:7000", "no such host"),
            ("203.0.113.1:7000", "address not available"),
        ):
            ends = call("tap", *words, "--listen", at, "--connect", f"127.0.0.1:{free_port()}")
            assert ends == (b"", f"ddcmp: listen {at}: {why}\n", 3)


@pytest.mark.parametrize("words", [[], ["--again"]])
def test_chosen_port(words):
    """Of a port that the system chooses it prints the number, with --again too."""
    far = server()
    words = [*words, "--listen", "127.0.0.1:0", "--connect", f"127.0.0.1:{port_of(far)}"]
    words = [*PROGRAM, "tap", *words]
    with subprocess.Popen(words, stdout=subprocess.DEVNULL, stderr=subprocess.PIPE) as run:
        told = run.stderr.readline().decode()
        found = re.fullmatch(r"ddcmp: listening 127\.0\.0\.1:([1-9]\d*)\n", told)
        assert found, told
        with connected(int(found[1])) as caller, far.accept()[0] as called:
            caller.sendall(b"abc")
            assert called.recv(10) == b"abc"
        run.kill()


@times
def test_objects():
    up, down = drawn_frames(500), drawn_frames(400)
    tap = Tap("--json", "--time")
    start = time.monotonic()
    both_ways(tap, up, down, 300)
    assert tap.ends() == (0, "")
    took = 1000 * (time.monotonic() - start) + 1000
    moments, sides = [], {">": [], "<": []}
    for line in tap.out.decode().splitlines():
        it = json.loads(line, object_pairs_hook=list)
        assert [it[0][0], it[1][0]] == ["from", "ms"], "other first members"
        sides[it[0][1]].append(it[2:])
        moments.append(it[1][1])
    assert moments == sorted(moments) and moments[-1] <= took, "moments go back, or are too late"
    for mark, data in ((">", up), ("<", down)):
        objects = [json.loads(it, object_pairs_hook=list) for it in explained(data, "--json")]
        assert sides[mark] == objects
    read = subprocess.run(["jq", "-c", "."], input=tap.out, capture_output=True, check=True)
    assert read.stdout == tap.out


def test_moments():
    """Milliseconds since both were connected, however late that is."""
    tap = Tap("--time", alone=1)
    for _ in range(4):
        tap.caller.sendall(ack(0))
        tap.called.recv(100)
        time.sleep(0.03)
    assert tap.ends() == (0, "")
    told = [int(it.split()[0]) for it in tap.out.decode().splitlines() if " ACK " in it]
    assert len(told) == 4 and told[0] <= 800 and not any(b - a < 25 for a, b in zip(told, told[1:]))


def time_of(line):
    """The time of day with which a line begins, in seconds after 1970."""
    stamp = json.loads(line)["time"] if line[0] == "{" else line.split()[0]
    assert re.fullmatch(r"\d{4}-\d\d-\d\dT\d\d:\d\d:\d\d\.\d{3}Z", stamp)
    return datetime.datetime.fromisoformat(stamp.replace("Z", "+00:00")).timestamp()


@times
@pytest.mark.parametrize("options", [(), ("--time",), ("--json",), ("--ladder",)])
def test_times_of_day(options):
    """Each line, and each report, begins with the time of day, that of this machine's clock."""
    began = time.time()
    tap = Tap("--clock", "--report", "1", *options)
    for _ in range(3):
        tap.caller.sendall(ack(0))
        tap.called.recv(100)
        time.sleep(0.5)
    assert tap.ends()[0] == 0
    lines = [it for it in tap.lines() if it != LADDER.rstrip("\n")]
    told = [time_of(it) for it in lines]
    assert len(told) == 5 and told == sorted(told) and told[2] - told[1] >= 0.45
    both = [*told, *map(time_of, tap.errors())]
    assert began - 0.1 <= min(both) and max(both) <= time.time() + 0.1 and len(both) == 7


@times
@pytest.mark.parametrize("is_json", [False, True])
def test_reports(is_json):
    """The totals each second, if nothing comes, too; as an object with those of the interval."""
    tap = Tap("--report", "1", *["--json"] * is_json)
    time.sleep(1.5)
    for peer, other in ((tap.caller, tap.called), (tap.called, tap.caller)):
        peer.sendall(ack(0) * 3 + ack(0)[:5])
        other.recv(100)
    time.sleep(2)
    assert tap.ends()[0] == 0
    told = tap.errors()[:6]
    if is_json:
        objects = [json.loads(it) for it in told]
        assert [(it["from"], it["event"]) for it in objects] == [(it, "report") for it in "><><><"]
        assert [(it["items"], it["bytes"], it["open"]) for it in objects] == (
            [(0, 0, 0)] * 2 + [(3, 29, 5)] * 4)
        assert [tuple(it["interval"].values()) for it in objects] == (
            [(0, 0)] * 2 + [(3, 29)] * 2 + [(0, 0)] * 2)
    else:
        assert told == [f"{mark} items={it} bytes={n} open={o}"
                        for it, n, o in ((0, 0, 0), (3, 29, 5), (3, 29, 5)) for mark in "><"]


def label(line):
    """The label of an item in a ladder, by its line in words without the offset."""
    fields = dict(it.split("=") for it in line.split() if "=" in it)
    counted = re.match(r"((?:data check |too long )?)(DATA|MAINT) count=", line)
    if counted:
        number = f" {fields['num']} resp={fields['resp']}" if counted[2] == "DATA" else ""
        more = "" if fields["count"] == "1" else "s"
        return f"{counted[1]}{counted[2]}{number} ({fields['count']} byte{more})"
    sub = fields.get("sub")
    return {"ACK": f"ACK resp={fields.get('resp')}",
            "NAK": f"NAK {sub} ({REASONS.get(int(sub or 0), 'other')}) resp={fields.get('resp')}",
            "REP": f"REP {fields.get('num')}", "STRT": "STRT",
            "STACK": "STACK"}.get(line.split()[0], line)


def rung(mark, line):
    """The line of an item in a ladder, from the side of this mark."""
    told = label(line)
    is_good = re.match("DATA|MAINT|ACK|NAK|REP|STRT|STACK", line)
    strokes = ("-" if is_good else "~") * (71 - len(told))
    return f"|-- {told} {strokes}>|" if mark == ">" else f"|<{strokes} {told} --|"


@pytest.mark.parametrize("options", [(), ("--max", "40")])
def test_ladder(options):
    up, down = drawn_frames(700), drawn_frames(600)
    tap = Tap("--ladder", *options)
    assert both_ways(tap, up, down, 300) == (up, down) and tap.ends() == (0, "")
    lines = tap.out.decode().splitlines()
    assert lines[0] == "> who connected to the tap" + 25 * " " + "whom the tap connected to <"
    for mark, data, beginning in ((">", up, "|-- "), ("<", down, "|<")):
        *items, last = explained(data, *options)
        wanted = [rung(mark, it.split(" ", 1)[1]) for it in items]
        assert [it for it in lines[1:-2] if it.startswith(beginning)] == wanted
        assert f"{mark} {last}" in lines[-2:]
    assert {len(it) for it in lines[:-2]} == {78}, "a line hasn't 78 columns"


def test_output_closed():
    tap, reading = into_pipe(Tap)
    os.close(reading)
    tap.caller.sendall(ack(0))
    tap.ended(LONG)  # else it may see that both sides are closed first
    assert tap.ends() == (3, "ddcmp: write\n")


def test_output_of_head():
    """A log into `head -1` has its first line; the next one ends the tap, and both connections."""
    head = subprocess.Popen(["head", "-1"], stdin=subprocess.PIPE, stdout=subprocess.PIPE)
    tap = Tap(stdout=head.stdin)
    head.stdin.close()
    tap.caller.sendall(ack(0))
    assert receives(tap.called, 8) == ack(0)
    assert head.stdout.read().decode()[2:-1] == explained(ack(0))[0] and head.wait(LONG) == 0
    tap.caller.sendall(ack(0))
    assert tap.ended(LONG) == 3 and tap.err == b"ddcmp: write\n"
    takes(tap.called)
    takes(tap.caller)


class Again(Process):
    """A tap that carries one caller after another, to a peer that listens at this port."""

    def __init__(self, far, *options, **streams):
        self.port = free_port(step=10)
        words = ["--listen", f"127.0.0.1:{self.port}", "--connect", f"127.0.0.1:{far}", *options]
        super().__init__([*PROGRAM, "tap", "--again", *words], **streams)

    def killed(self):
        """What it wrote: the log and standard error."""
        assert self.is_running()
        self.kill()
        return self.out.decode(), self.err.decode()


def test_again():
    """Callers after one another, one of which calls early: each has its whole log."""
    far = server()
    tap = Again(port_of(far), "--ladder")
    texts = [(drawn_frames(40), drawn_frames(30)) for _ in range(3)]
    early = None  # its log has room in a pipe
    for up, down in texts:
        caller, early = early or connected(tap.port), None
        called = far.accept()[0]
        if (up, down) == texts[0]:
            early = connected(tap.port)  # it waits for its turn
            early.sendall(texts[1][0][:5])
        sends(called, down, ends=True)
        sends(caller, up[5:] if (up, down) == texts[1] else up, ends=True)
        assert (takes(called), takes(caller)) == (up, down)
        caller.close()
        called.close()
    connected(tap.port).close()  # the log of the others is whole once another is carried
    far.accept()
    said, told = tap.killed()
    logs = said.split("> who connected")[1:]
    assert not told and len(logs) >= 3
    for log, (up, down) in zip(logs, texts):
        lines, counts = log.splitlines(), [explained(up)[-1], explained(down)[-1]]
        assert lines[-2:] == [f"> {counts[0]}", f"< {counts[1]}"]
        assert len(lines) == len(explained(up)) + len(explained(down)) + 1


def test_again_after_faults():
    """A side that fails and a peer that isn't there end only their connection."""
    port = free_port()
    tap = Again(port)
    caller = connected(tap.port)
    with contextlib.suppress(ConnectionResetError):
        assert not caller.recv(1), "bytes came"
    far = socket.create_server(("127.0.0.1", port))
    far.settimeout(LONG)
    names = []
    for side in ("caller", "called"):
        caller = connected(tap.port)
        called = far.accept()[0]
        names.append("{}:{}".format(*caller.getsockname()))
        caller.sendall(b"abc")
        assert called.recv(10) == b"abc"
        reset({"caller": caller, "called": called}[side])
    caller = connected(tap.port)
    far.accept()[0].close()
    caller.close()
    connected(tap.port).close()
    far.accept()
    said, told = tap.killed()
    wanted = f"ddcmp: connect 127.0.0.1:{port}: connection refused\n"
    wanted += f"ddcmp: caller {names[0]}: connection reset\n"
    wanted += f"ddcmp: called 127.0.0.1:{port}: connection reset\n"
    assert told.startswith(wanted)
    assert (said.splitlines()[:6] == 2 * ["> items=0 bytes=3 open=0", "< items=0 bytes=0 open=0"] +
            ["> items=0 bytes=0 open=0", "< items=0 bytes=0 open=0"])


def test_again_unwritten():
    """An output that failed ends it."""
    far = server()
    with open("/dev/full", "wb") as full:
        tap = Again(port_of(far), stdout=full)
    caller = connected(tap.port)
    caller.sendall(ack(0))
    far.accept()
    assert (tap.ended(LONG), tap.err) == (3, b"ddcmp: write\n")


@pytest.mark.parametrize("sizes", [[2_000_000], [100_000, 200_000]])
def test_between_socats(sizes):
    """socat sends a file at the one side, another keeps what comes at the other; with --again two,
    one after the other."""
    port, far, is_again = free_port(), free_port(), len(sizes) > 1
    sink = Process(["socat", "-u", f"TCP4-LISTEN:{far},bind=127.0.0.1,reuseaddr,fork", "STDOUT"])
    words = ["--listen", f"127.0.0.1:{port}", "--connect", f"127.0.0.1:{far}"]
    holds_within(10, lambda: is_listening(far))
    tap, sent = Process([*PROGRAM, "tap", *["--again"] * is_again, *words]), b""
    for size in sizes:
        data = drawn.randbytes(size)
        source = ["socat", "-u", "STDIN", f"TCP4:127.0.0.1:{port},retry=100,interval=0.05"]
        subprocess.run(source, input=data, timeout=LONG, check=True)
        sent += data
        assert sink.waits(lambda it, all_of_it=sent: it.out == all_of_it)
    if is_again:
        tap.kill()
    else:
        assert tap.ended(LONG) == 0 and lines_of(tap.out, "> ") == explained(sent)
    assert not tap.err, "it says something"
    sink.kill()
