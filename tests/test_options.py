"""Each command with each pair of its options, and with each alone and none: what each option
changes is seen exactly if it is there, whatever is beside it. An option that --help has and no
table here fails."""
import concurrent.futures
import itertools
import json
import os
import re
import socket
import subprocess
import tempfile
import time

import pytest

from .bad_lines import Draws
from .peers import Peer, good, no_ack, silent
from .process import (
    PROGRAM, Bridge, Link, Process, call, commands_in, connected, contents, free_port, holds_within,
    is_bound, port_of, server, takes, udp_socket)
from .wire import STRT, ack, binary, data, digits

# What a run may take, and for how long what an option shows is waited for: a busy machine is slow.
SECONDS = 20


def chosen_of(options):
    """Nothing, each option, and each pair."""
    return [it for count in range(3) for it in itertools.combinations(options, count)]


def words_of(table, chosen):
    return [word for it in chosen for word in table[it][0]]


def started(command, words, stdin=""):
    """What a run has written, its standard error and its status."""
    out, err, status = call(command, *words, given=stdin.encode("latin-1"), seconds=SECONDS)
    return out.decode("latin-1"), err, status


def compare(command, chosen, table, seen, unseen=()):
    """Each option is seen if it was chosen, but for those that can't be."""
    for name, (_, shows) in table.items():
        if shows and name not in unseen:
            assert bool(shows(seen)) == (name in chosen), (command, chosen, name, seen)


def refused(command, chosen, ran, pairs):
    """Whether two options of these can't be used together; then that must be reported."""
    if set(chosen) not in pairs:
        return False
    both = (f"'{a}' and '{b}'" for a, b in itertools.permutations(chosen, 2))
    assert any(it in ran[1] for it in both), (command, ran)
    assert ran[0] == "" and ran[2] == 2 and "can't be used together" in ran[1], (command, ran)
    return True


# ---- explain

FRAMES = ack(0) + data(b"abc", 1) + b"\xff\xff\x81\x03"
EXPLAIN = {
    "--raw": (["--raw"], lambda it: it["form"] == "raw" and "ACK" in it["said"]),
    "--from": (["--from", "hexdump"], lambda it: it["form"] == "dump" and "ACK" in it["said"]),
    "--json": (["--json"], lambda it: it["said"].startswith("{") and all(
        isinstance(json.loads(line), dict) for line in it["said"].splitlines())),
    "--discarded": (["--discarded"], lambda it: re.search("discarded\\W+2", it["said"]) and
                    ("unfinished" in it["said"] or "|-- ACK" in it["said"])),
    "--ladder": (["--ladder"],
                 lambda it: "|-- ACK" in it["said"] and " ACK resp=0 --|" in it["said"]),
    "--max": (["--max", "2"], lambda it: "too long" in it["said"] and "616263" not in it["said"]),
    "FILE": ([], lambda it: it["form"] and "ACK" in it["said"] and it["is_file"]),
}


def explain(chosen):
    form = "raw" if "--raw" in chosen else "dump" if "--from" in chosen else "digits"
    dump = "".join(f"{at:08x}  {FRAMES[at:at + 16].hex(' ')}\n"
                   for at in range(0, len(FRAMES), 16)) + f"{len(FRAMES):08x}\n"
    given = {"raw": FRAMES.decode("latin-1"), "dump": dump, "digits": FRAMES.hex()}[form]
    words = words_of(EXPLAIN, chosen)
    is_ladder = "--ladder" in chosen
    if "FILE" in chosen or is_ladder:
        with tempfile.NamedTemporaryFile() as file:
            file.write(given.encode("latin-1"))
            file.flush()
            ran = started("explain", [*words, *[file.name] * (1 + is_ladder)], "05zz")
    else:
        ran = started("explain", words, given)
    if refused("explain", chosen, ran, [{"--raw", "--from"}, {"--json", "--ladder"}]):
        return
    lines = (8 if "--discarded" in chosen else 6) if is_ladder else (
        5 if "--discarded" in chosen else 3)
    assert ran[1:] == ("", 0) and ran[0].count("\n") == lines
    seen = {"said": ran[0], "form": form, "is_file": "FILE" in chosen}
    compare("explain", chosen, EXPLAIN, seen)


# ---- simulate and pair

SCRIPT = """start A
start B
settle
send A 61
poll A
cut A 9
pass A
poll B
pass B
send A 6263
poll A
pass A
send A 616263
take B
take B
poll B
pass B
send A 63
send A 64
halt A
start A
poll A
pass A
"""
SIMULATE = {
    "--begun": (["--begun"], lambda it: "NotHalted" in it),
    "--acknowledge-on-take": (["--acknowledge-on-take"],
                              lambda it: "Acknowledged" not in it.split("took 61")[0]),
    "--window": (["--window", "1"], lambda it: "WindowFull" in it),
    "--inbox": (["--inbox", "1"], lambda it: it.count("HandedUp") == 1),
    "--max": (["--max", "2"], lambda it: "TooLong" in it),
    "--syn": (["--syn", "4"], lambda it: "9696969681" in it or "9 of 15" in it),
    "--restart": (["--restart"], lambda it: "notice Restarted" in it),
    "--svg": (["--svg"], lambda it: "<svg" in it and it.endswith("</svg>\n")),
    "--ladder": (["--ladder"], lambda it: it.startswith("A" + 76 * " " + "B\n")),
    # a document has them below and in its description
    "--counters": (["--counters"], lambda it: it.count("A counters") in (1, 2)),
    "FILE": ([], None),  # `scripted` sees to it
}


def scripted(command, chosen):
    words = words_of(SIMULATE, chosen)
    if "FILE" in chosen:
        with tempfile.NamedTemporaryFile("w") as file:
            file.write(SCRIPT)
            file.flush()
            ran = started(command, [*words, file.name], "stop A\n")
    else:
        ran = started(command, words, SCRIPT)
    if refused(command, chosen, ran, [{"--svg", "--ladder"}]):
        return
    assert ran[1:] == ("", 0)
    # in a window of 1 nothing else arrives before the first message is taken, as in an inbox of 1
    unseen = ["--inbox"] if set(chosen) == {"--acknowledge-on-take", "--window"} else []
    compare(command, chosen, SIMULATE, ran[0], unseen)


def test_begun():
    """A script that begins with both stations running writes what it writes after three lines that
    have them run, and so does that of docs/USING.md."""
    rest = SCRIPT.split("\n", 3)[3]
    whole = started("simulate", [], SCRIPT)[0]
    assert started("simulate", ["--begun"], rest)[0] == whole.split("\n", 3)[3]
    command = commands_in("USING.md", ".*./ddcmp simulate --begun").split("\n")[0]
    out = subprocess.run(["sh", "-c", command], stdout=subprocess.PIPE, check=True).stdout
    assert out.splitlines()[-1:] == [b"honest yes clean yes up A=0 B=1 acked A=1 B=0"]


# ---- tap

TAP = {"--again": (["--again"], lambda it: it.count("items=") + it.count('"items"') > 2),
       "--json": (["--json"],
                  lambda it: all(line.startswith('{"from":') for line in it.splitlines())),
       "--ladder": (["--ladder"], lambda it: "> who connected" in it.split("\n")[0]),
       "--time": (["--time"],
                  lambda it: re.search(r'(?m)^\d+ |^[<>] \d+ \d+ |^ *\d+ \||"ms":\d', it)),
       "--clock": (["--clock"], lambda it: re.search(r"\d\d:\d\d:\d\d\.\d{3}Z", it)),
       "--max": (["--max", "2"], lambda it: "too long" in it)}


def tap(chosen):
    far, port = server(), free_port()
    words = ["--listen", f"127.0.0.1:{port}", "--connect", f"127.0.0.1:{port_of(far)}"]
    if set(chosen) == {"--json", "--ladder"}:
        refused("tap", chosen, started("tap", [*words, *words_of(TAP, chosen)]), [set(chosen)])
        return
    run, is_again = Process([*PROGRAM, "tap", *words, *words_of(TAP, chosen)]), "--again" in chosen
    for _ in range(1 + is_again):
        with connected(port) as caller:
            called = far.accept()[0]
            caller.sendall(data(b"abc", 1))
            caller.shutdown(socket.SHUT_WR)
            called.settimeout(SECONDS)
            takes(called)
            called.close()
            status = None if is_again else run.ended(SECONDS)
    if is_again:
        with connected(port):
            far.accept()  # then the logs of those before are whole
            status = run.kill()
    assert not run.err and status == (-9 if is_again else 0)
    unseen = ["--time"] if "--clock" in chosen else []  # the time of day is in its place
    compare("tap", chosen, TAP, run.out.decode(), unseen)


# ---- station

STATION = {"--role": (["--role", "connect"], lambda it: it["connects"]),
           "--turns": (["--turns", "60"],
                       lambda it: it["said"].splitlines()[-1].startswith("turns=60 ")),
           "--timer-ms": (["--timer-ms", "50"], lambda it: it["starts"] > 1),
           "--send": (["--send", "6869"], lambda it: it["mail"] == [b"hi"]),
           "--restart": (["--restart"], lambda it: "notice Restarted" in it["said"]),
           "--counters": (["--counters"], lambda it: it["said"].count("counters nak_sent") == 1)}


def late_stack(peer, frame):
    """What a peer answers that leaves the first STRT alone for a while."""
    if frame.name == "STRT" and len(peer.named("STRT")) == 1:
        time.sleep(0.5)
    return good(peer, frame)


def station(chosen):
    words = words_of(STATION, chosen)
    for name, usual in (("--turns", "80"), ("--timer-ms", "3000")):
        words += [] if name in chosen else [name, usual]
    connects = "--role" in chosen
    far = server() if connects else None
    port = port_of(far) if connects else free_port()
    words += ["--addr", f"127.0.0.1:{port}"] + ([] if connects else ["--role", "listen"])
    run = Process([*PROGRAM, "station", *words])
    peer = Peer(far.accept()[0] if connects else connected(port), late_stack)
    peer.runs()
    peer.waits(lambda it: it.mail, SECONDS if "--send" in chosen else 0.1)
    peer.taken = 0
    peer.send(STRT)
    assert run.ended(SECONDS) == 0 and not run.err
    starts = len(peer.named("STRT"))
    seen = {"said": run.out.decode(), "starts": starts, "mail": peer.mail, "connects": connects}
    compare("station", chosen, STATION, seen)


# ---- link: each option has a run in which it is seen


def greets(peer, frame):
    """What a peer answers that sends a message of its own with its first acknowledgement."""
    is_first = frame.name == "DATA" and len(peer.named("DATA")) == 1
    return good(peer, frame) + (data(b"hi", 1, peer.taken) if is_first else b"")


class Ran:
    """A link with a peer in Python: three messages of 1, 2 and 3 bytes are its whole input."""

    def __init__(self, chosen, answer, *more):
        self.server = server()
        words = words_of(LINK, chosen)
        at = 0
        while at < len(more):
            words += more[at:at + 2] if more[at + 1] and more[at] not in chosen else []
            words += [more[at]] if not more[at + 1] and more[at] not in chosen else []
            at += 2
        self.link = Link(f"connect:127.0.0.1:{port_of(self.server)}", *words)
        form = binary if "--binary" in chosen else digits
        self.link.give(form([b"a", b"bc", b"def"]))
        self.peer = Peer(self.server.accept()[0], answer)
        self.taken = 2 if "--max" in chosen else 3  # messages that aren't too long

    def messages(self):
        """The different messages that came."""
        return {it.message for it in self.peer.named("DATA")}

    def output(self):
        """What it wrote, without times of day."""
        return re.sub(r"(?m)^[\dT:.-]+Z ", "", (self.link.out + self.link.err).decode("latin-1"))

    def deliver(self):
        """Waits until the peer has acknowledged all that isn't refused, and its own message was
        taken."""
        self.peer.waits(lambda it: len(it.mail) >= self.taken, SECONDS)
        self.peer.waits(lambda it: any(f.resp == 1 for f in list(it.frames)), SECONDS)

    def ends(self, seconds):
        return self.link.waits(lambda it: it.has_ended()
                               if it.run.returncode is None else True, seconds)


def in_flight(chosen, is_due):
    """The messages that come before one is acknowledged."""
    run = Ran(chosen, no_ack)
    run.peer.waits(lambda it: it.named("DATA"), SECONDS)
    run.peer.waits(lambda it: len(run.messages()) >= run.taken, 0.25 if is_due else SECONDS)
    count = len(run.messages())
    return count == 1


def most_bytes(chosen, _):
    run = Ran(chosen, greets)
    run.deliver()
    longest = max(map(len, run.messages()))
    return longest == 2


def fill(chosen, _):
    run = Ran(chosen, greets)
    run.deliver()
    return run.peer.bytes.startswith(
        b"\x96\x96\x96\x96\5") and run.peer.bytes.count(b"\x96\x96\x96\x96\x81") > 1


def restarts(chosen, _):
    run = Ran(chosen, greets, "--stay", "")
    run.deliver()
    run.peer.send(STRT)
    shown = run.link.waits(lambda _: re.search("notice (Peer)?Restarted", run.output()), SECONDS)
    assert shown, run.output()
    return "notice Restarted" in run.output()


def timer(chosen, is_due):
    run = Ran(chosen, no_ack)
    run.peer.waits(lambda it: it.named("DATA"), SECONDS)
    found = run.peer.waits(lambda it: it.named("REP"), SECONDS if is_due else 0.6)
    took = run.peer.named("REP")[0].moment - run.peer.named("DATA")[0].moment if found else 0
    return found and took < 0.9


def attempts(chosen, is_due):
    run = Ran(chosen, no_ack, "--timer-ms", "100")
    return run.peer.waits(lambda it: it.has_ended, SECONDS if is_due else 1.3)


def stays(chosen, is_due):
    run = Ran(chosen, greets)
    run.deliver()
    return not run.ends(1.2 if is_due else SECONDS)


def seconds(chosen, is_due):
    run = Ran(chosen, no_ack)
    has_ended = run.ends(SECONDS if is_due else 3.5)
    return has_ended and run.link.took > 1.9 and run.link.run.returncode == 3


def in_binary(chosen, _):
    run = Ran(chosen, greets)
    run.deliver()
    return run.link.waits(lambda it: b"\0\2hi" in it.out or b"mail 6869" in it.out,
                           SECONDS) and b"\0\2hi" in run.link.out


def maintains(chosen, is_due):
    """What comes first is a maintenance message, not a STRT; what means nothing there is
    refused."""
    if is_due and NOT_MAINTAINED & set(chosen):
        _, told, status = started("link",
                                  ["--line", "connect:127.0.0.1:1", *words_of(LINK, chosen)])
        return status == 2 and "'--maintenance'" in told
    run = Ran(chosen, silent)
    run.peer.waits(lambda it: len(it.bytes) > 8, SECONDS)
    return run.peer.bytes.lstrip(b"\x96").startswith(b"\x90")


def opens_again(chosen, is_due):
    run = Ran(chosen, no_ack)
    run.peer.waits(lambda it: it.named("DATA"), SECONDS)
    run.peer.close()
    run.server.settimeout(SECONDS if is_due else 0.7)
    try:
        run.server.accept()[0].close()
        found = True
    except TimeoutError:
        found = False
    return found


def counts(chosen, _):
    run = Ran(chosen, greets)
    run.deliver()
    if "--stay" in chosen:  # then it ends with its line
        run.link.waits(lambda it: run.output().count("notice Acknowledged") == run.taken
                       and "mail" in run. output(), 1)
        run.peer.close()
    run.link.ended(SECONDS)
    lines = [it for it in run.output().splitlines() if it.startswith(("counters ", "state="))]
    return [it.split("=")[0] for it in lines] == ["counters nak_sent_header_check", "state"]


def shown(*more):
    """Sees whether a link that runs or has ended wrote what matches a pattern."""
    pattern, more = more[0], more[1:]

    def sees(chosen, is_due):
        run = Ran(chosen, greets, *more)
        run.deliver()
        found = run.link.waits(lambda it: re.search(pattern, it.err.decode("latin-1")),
                               SECONDS if is_due else 1.4)
        return found
    return sees


NOT_MAINTAINED = {"--window", "--restart", "--timer-ms", "--attempts"}
LINK = {
    "--window": (["--window", "1"], in_flight),
    "--inbox": (["--inbox", "1"], None),  # what is written at once isn't in it: it isn't seen
    "--max": (["--max", "2"], most_bytes),
    "--syn": (["--syn", "4"], fill),
    "--restart": (["--restart"], restarts),
    "--timer-ms": (["--timer-ms", "100"], timer),
    "--attempts": (["--attempts", "2"], attempts),
    "--linger-ms": (["--linger-ms", "5000"], stays),
    "--seconds": (["--seconds", "2"], seconds),
    "--report": (["--report", "1"],
                 shown('(?m)^(.*Z )?report state=|"event":"report"', "--stay", "")),
    "--binary": (["--binary"], in_binary),
    "--maintenance": (["--maintenance"], maintains),
    "--stay": (["--stay"], stays),
    "--again": (["--again"], opens_again),
    "--counters": (["--counters"], counts),
    "--trace": (["--trace"],
                shown(r'(?m)^(.*Z )?\d+ > \d+ STRT .*\n(.*\n)*(.*Z )?\d+ < \d+ STACK '
                      r'|"from":">",.*"item":"STRT"(.*\n)+.*"from":"<",.*"item":"STACK"')),
    "--ladder": (["--ladder"], shown(r"(?m)^(.*Z )?\d+ \|-- STRT -+>\|$")),
    "--clock": (["--clock"], shown(r"^\d{4}-\d\d-\d\dT[\d:.]{12}Z connecting ")),
    "--json": (["--json"], shown(r"(?m)^\{.*\}$", "--stay", "", "--report", "1")),
}


DRAWN = [{"--ladder", "--trace"}, {"--ladder", "--json"}]  # no lines then; refused


def link(name, chosen):
    found = LINK[name][1](chosen, name in chosen)
    assert bool(found) == (name in chosen)


def link_runs():
    """Each option's run without it, with it, and with each other one as well."""
    for name, (_, sees) in LINK.items():
        if sees:
            yield name, ()
            for other in LINK:  # in maintenance nothing starts, so most options aren't seen
                if {name, other} not in DRAWN and (other != "--maintenance" or name == other):
                    yield name, tuple(it for it in LINK if it in (name, other))


# ---- bridge

SENT = [data(bytes([it]) * 5, it) for it in range(40)]
BRIDGE = {
    "--seconds": (["--seconds", "2"], lambda it: it["ended"]),
    "--again": (["--again"], lambda it: it["again"]),
    "--lose": (["--lose", "40"], lambda it: len(it["got"]) < len(SENT)),
    "--damage": (["--damage", "40"], lambda it: set(it["got"]) - set(SENT)),
    "--delay": (["--delay", "250"], lambda it: it["after"] >= 0.24),
    "--baud": (["--baud", "3600"], lambda it: it["took"] >= 0.6),
    "--seed": (["--seed", "7"], lambda it: it["got"] == it["by"][7] and it["got"] != it["by"][1]),
    "--trace": (["--trace"], lambda it: re.search(r"(?m)^(.*Z )?\d+ > \d+ DATA ", it["told"])),
    "--ladder": (["--ladder"],
                 lambda it: re.search(r"(?m)^(.*Z )?\d+ \|-- DATA .*->\|$", it["told"])),
    "--json": (["--json"], lambda it: re.search(
        r'(?m)^{("time":"[^"]*Z",)?"from":">","ms":\d+,"offset":0,"item":"DATA",', it["told"])),
    "--report": (["--report", "1"],
                 lambda it: re.search(r'> frames=40 |"event":"report","from":">"', it["told"])),
    "--clock": (["--clock"],
                lambda it: re.search(r"(?m)^\d{4}-\d\d-\d\dT[\d:.]{12}Z ", it["told"])),
    "--save-first": (["--save-first", "FOLDER/first"],
                     lambda it: it["saved"].get("first") == b"".join(SENT)),
    "--save-second": (["--save-second", "FOLDER/second"],
                      lambda it: it["saved"].get("second") == b""),
    "--append": (["--append"], lambda it: it["appends"]),
}


def bridge(chosen):
    with tempfile.TemporaryDirectory() as folder:
        bridge_in(folder, chosen)


def bridge_in(folder, chosen):
    percent = {name: 40 if name in chosen else 0 for name in ("--lose", "--damage")}
    draws = {seed: Draws(0, percent["--lose"], percent["--damage"], seed) for seed in (1, 7)}
    by = {seed: [it for it in map(draws[seed].left_of, SENT) if it] for seed in draws}
    with udp_socket() as one, udp_socket() as two:
        near, far = free_port(socket.SOCK_DGRAM), free_port(socket.SOCK_DGRAM)
        lines = [f"udp:127.0.0.1:{port},127.0.0.1:{port_of(it)}"
                 for port, it in ((near, one), (far, two))]
        words = [it.replace("FOLDER", folder) for it in words_of(BRIDGE, chosen)]
        if set(chosen) == {"--json", "--ladder"}:
            refused("bridge", chosen, started("bridge", [*lines, *words]), [set(chosen)])
            return
        run = Bridge(*lines, *words)
        holds_within(SECONDS, lambda: is_bound(near) and is_bound(far))
        began = time.monotonic()
        for it in SENT:
            one.sendto(it, ("127.0.0.1", near))
        two.settimeout(0.5)
        got = []
        after = took = 0
        while (it := received(two)) is not None:
            after = after or time.monotonic() - began
            took = time.monotonic() - began - after
            got.append(it)
        ended = run.ended(SECONDS if "--seconds" in chosen else 1.4) == 0
    saved = {it: contents(f"{folder}/{it}") for it in os.listdir(folder)}
    in_vain = Bridge(f"connect:127.0.0.1:{free_port()}", lines[0],
                     *(it.replace(f"{folder}/", f"{folder}/vain-") for it in words))
    in_vain.waits(lambda it: b"connection refused" in it.err, SECONDS)
    again = b"; retry in 1 s\n" in in_vain.err
    in_vain.kill()
    unseen = [] if {"--lose", "--damage"} & set(chosen) else ["--seed"]
    # A trace is drawn then, or an object.
    unseen += ["--trace"] if {"--ladder", "--json"} & set(chosen) else []
    assert "--seed" in chosen or got == by[1], "not the faults of seed 1"
    compare("bridge", chosen, BRIDGE, {"ended": ended, "got": got, "after": after, "took": took,
                                       "by": by, "saved": saved, "told": run.err.decode(),
                                       "again": again, "appends": appends(folder, lines[0], words)},
            unseen)


def appends(folder, line, words):
    """Whether a bridge with these options goes on with a file that is there."""
    with open(f"{folder}/old", "wb") as old:
        old.write(b"old")
    kept = [it for it in words if not it.startswith(("--save", folder))]
    run = Bridge(f"connect:127.0.0.1:{free_port()}", line, *kept, "--save-first", old.name)
    run.waits(lambda it: re.search("connection refused|file exists", it.err.decode()), SECONDS)
    run.kill()
    return b"connection refused" in run.err


def received(peer):
    """The next datagram; none if none comes in time."""
    try:
        return peer.recv(1 << 16)
    except TimeoutError:
        return None


COMMANDS = {  # the options of each: those that are in its table, and those that aren't
    "explain": (EXPLAIN, set()), "simulate": (SIMULATE, set()), "pair": (SIMULATE, set()),
    "station": (STATION, {"--addr"}), "tap": (TAP, {"--listen", "--connect", "--report"}),
    # --report of tap needs a second: test_tap.py; --only is for a line with callers, --baud for a device:
    # test_callers.py, test_slow_lines.py; --events: test_commands.py; --acknowledge-early: test_link_output.py.
    "link": (LINK, {"--line", "--only", "--baud", "--events", "--acknowledge-early"}), "bridge": (BRIDGE, set()),
}
RUNS = [*((explain, it) for it in chosen_of(EXPLAIN)),
        *((scripted, name, it) for name in ("simulate", "pair") for it in chosen_of(SIMULATE)),
        *((station, it) for it in chosen_of(STATION)), *((tap, it) for it in chosen_of(TAP)),
        *((link, *it) for it in link_runs()), *((bridge, it) for it in chosen_of(BRIDGE))]


@pytest.mark.parametrize("command", COMMANDS)
def test_options_of_help(command):
    """Each option that the help of a command has is in its table."""
    text = started(command, ["--help"])[0]
    found = set(re.findall(r"(?m)^ +(?:-\w,)?(--[a-z-]+)", text)) - {"--help"}
    table, others = COMMANDS[command]
    assert found | ({"FILE"} if "[FILE]" in text else set()) == set(table) | others


def groups():
    """The runs, by the command and the first of their options."""
    found = {}
    for run, *given in RUNS:
        first = given[-1][0] if given[-1] else "none"
        command = given[0] if run is scripted else run.__name__
        found.setdefault(f"{command} {first}", []).append((run, *given))
    return found


@pytest.mark.limit(300)
@pytest.mark.parametrize("group", groups())
def test_pairs(group):
    """A command with an option alone, and with each of the others: several at a time."""
    with concurrent.futures.ThreadPoolExecutor(6) as pool:
        list(pool.map(lambda it: it[0](*it[1:]), groups()[group]))
