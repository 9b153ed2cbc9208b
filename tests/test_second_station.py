"""Links and stations against c/peer/peer.c, a second DDCMP station by another hand: messages out,
echoes back, compared byte for byte, over TCP both ways, UDP and pseudo-terminals. Each scenario has
the behavior of one peer; the mixed ones draw all of it."""
import os
import random
import socket
import time

import pytest

from .process import (
    PROGRAM, Process, contents, free_port, holds_within, is_listening, udp_names)
from .wire import binary, mail_in, unpacked

LIMIT = 40  # seconds that a scenario may take
QUICK = ("--timer-ms", "150")


def is_part(some, whole):
    """Whether these are messages of the others, in their order."""
    rest = iter(whole)
    return all(it in rest for it in some)


class Scenario:
    """A peer, and what it is tried with. `line` is what the peer does: listen, connect, udp,
    tty."""

    def __init__(self, name, line="listen", count=60, most=600, link=(), how=None, **keys):
        self.name, self.line, self.count, self.most, self.link = name, line, count, most, link
        self.keys = {key.rstrip("_"): value for key, value in keys.items()}
        self.how = how or echoes
        self.seed = sum(name.encode()) * 7 + len(name)

    def __str__(self):
        return self.name

    def messages(self):
        draw = random.Random(self.seed)
        sizes = [draw.choice([1, 2, 3, self.most, draw.randrange(1, self.most + 1)])
                 for _ in range(self.count)]
        return [draw.randbytes(it) for it in sizes]


class Pair:
    """The peer and a program over a line, in a folder of their own."""

    def __init__(self, scenario, folder, station):
        self.folder, self.until = folder, time.monotonic() + LIMIT
        self.scenario, self.station = scenario, station
        self.peer = self.other = None

    def left(self):
        return max(0.1, self.until - time.monotonic())

    def waits(self, process, holds):
        """Waits until this holds of a process; it may not end before."""
        holds_within(self.left(), lambda: holds(process) or process.has_ended())
        assert holds(process), (process.run.args, process.errors()[-3:])

    def start_peer(self, line):
        keys = {"seed": self.scenario.seed, "seconds": LIMIT - 2, "linger": 0,
                "got": f"{self.folder}/got", "sent": f"{self.folder}/sent", **self.scenario.keys}
        words = (f"{key}={value}" for key, value in keys.items())
        self.peer = Process([self.station, line, *words])
        return self.peer

    def start_link(self, line):
        words = "link", "--binary", "--line", line, *self.scenario.link
        self.other = Process([*PROGRAM, *words])
        return self.other

    def join(self):
        """Starts both ends of the line."""
        line = self.scenario.line
        if line == "listen":
            self.waits(self.start_peer("listen:0"), lambda it: b"\n" in it.out)
            self.start_link(f"connect:127.0.0.1:{int(self.peer.out.split()[1])}")
        elif line == "connect":
            self.waits(self.start_link("listen:127.0.0.1:0"), lambda it: b"\n" in it.err)
            port = int(self.other.err.split()[1].rsplit(b":", 1)[1])
            self.start_peer(f"connect:{port}")
        elif line == "udp":
            name = udp_names()[0]
            self.start_link(name)
            own, far = (it.rsplit(":", 1)[1] for it in name.split(","))
            self.start_peer(f"udp:{far},{own}")
        else:
            ends = [f"{self.folder}/{it}" for it in "ab"]
            cable = Process(["socat", *(f"pty,raw,echo=0,link={it}" for it in ends)])
            self.waits(cable, lambda it: all(os.path.exists(end) for end in ends))
            self.start_link(f"device:{ends[0]}")
            self.start_peer(f"tty:{ends[1]}")

    def end(self):
        """The input of the link ends, and with it the link, and then the peer: both by status 0,
        but for a link that has refused a message that was too long."""
        self.other.run.stdin.close()
        status = self.other.ended(self.left())
        error = b"ddcmp: peer's messages are too long: --max is 1500\n"
        is_refused = error in self.other.err
        assert status == 3 * is_refused, self.other
        assert not is_refused or self.scenario.keys.get("toolong"), self.other
        if self.scenario.line in ("udp", "tty"):
            self.peer.run.terminate()
        assert self.peer.ended(self.left()) == 0, self.peer


def echoes(pair):
    """All messages arrive at the peer, and what it sends arrives: echoes, its own, or both."""
    sent = pair.scenario.messages()
    pair.scenario.keys.setdefault("expect", len(sent))
    wanted = len(sent) * pair.scenario.keys.get("echo", 1) + pair.scenario.keys.get("source", 0)
    pair.join()
    pair.other.give(binary(sent), close=False)
    pair.waits(pair.peer, lambda it: b"done\n" in it.out)
    given = contents(f"{pair.folder}/sent")
    pair.waits(pair.other, lambda it: len(it.out) >= len(given))
    pair.end()
    assert contents(f"{pair.folder}/got") == binary(sent), (
        "the peer got other messages than were sent")
    assert pair.other.out == given and len(unpacked(given)) == wanted, (
        "the link got other messages than were sent")


def restarted(pair):
    """The peer starts again with messages outstanding: the link with --restart goes on, at once or,
    if received messages aren't written then, once they are; and each message that it reports
    neither lost nor refused arrived once, in order."""
    sent = pair.scenario.messages()
    pair.scenario.keys.setdefault("expect", 1)
    pair.join()
    pair.other.give(binary(sent), close=False)
    pair.waits(pair.other, lambda it: it.out.endswith(binary(sent[-1:])))
    pair.other.run.stdin.close()
    status = pair.other.ended(pair.left())
    assert pair.peer.ended(pair.left()) is not None, "the peer didn't end"
    lines = pair.other.err.decode().split("\n")
    lost = sum(int(it.split()[1]) for it in lines if it.startswith("lost "))
    got, given, echoed = (unpacked(it) for it in (contents(f"{pair.folder}/got"),
                                                  contents(f"{pair.folder}/sent"), pair.other.out))
    at_once = any(it.startswith("notice Restarted") for it in lines)
    ran = [it for it in lines if it.startswith("notice Running")]
    assert (at_once or "notice PeerRestarted" in lines) and len(ran) == 2
    assert status == (3 if lost else 0)
    assert is_part(got, sent) and is_part(echoed, given) and len(got) >= len(sent) - lost


def program_station(pair):
    """`ddcmp station` with one message, and a peer with many."""
    message, port = pair.scenario.messages()[0], free_port(socket.SOCK_STREAM)
    pair.scenario.keys.setdefault("expect", 1)
    options = ["--addr", f"127.0.0.1:{port}", "--turns", "4294967295", "--timer-ms", "200",
               "--send", message.hex()]
    if pair.scenario.line == "listen":
        pair.waits(pair.start_peer(f"listen:{port}"), lambda it: b"\n" in it.out)
        pair.other = Process([*PROGRAM, "station", "--role", "connect", *options])
    else:
        pair.other = Process([*PROGRAM, "station", "--role", "listen", *options])
        pair.waits(pair.other, lambda _: is_listening(port))
        pair.start_peer(f"connect:{port}")
    assert pair.peer.ended(pair.left()) == 0
    assert pair.other.ended(pair.left()) == 3 and pair.other.err.endswith(b"ddcmp: ended\n")
    given = unpacked(contents(f"{pair.folder}/sent"))
    assert mail_in(pair.other.out) == given, "the station got other messages than were sent"
    assert contents(f"{pair.folder}/got") == binary([message]), (
        "the peer got another message than was sent")


def named():
    """The behaviors one by one."""
    def one(name, line="listen", link=QUICK, **more):
        return Scenario(name, line, link=link, **more)
    yield one("plain")
    yield one("plain-connect", "connect")
    yield one("plain-udp", "udp")
    yield one("plain-tty", "tty", count=40)
    yield one("fill", syn=4, del_=3, nul=3, banner=3)
    yield one("fill-tty", "tty", syn=4, del_=2, nul=2, banner=3, count=40)
    yield one("pieces", chunk=3, most=200)
    yield one("pieces-and-writes", "connect", chunk=40, merge=6)
    yield one("datagrams-of-frames", "udp", merge=4)
    yield one("flags-fill-address", flags=1, fill=1, addr=-1)
    yield one("passive", start=1)
    yield one("passive-late", "connect", start=1, late=500)
    yield one("straight-to-astrt", start=2)
    yield one("straight-to-astrt-udp", "udp", start=2)
    yield one("late", late=600)
    yield one("two-strts", strts=2)
    yield one("three-strts-late", "udp", strts=3, late=300)
    yield one("startup-ended-by-data", start=1, source=40, echo=0, count=20)
    yield one("startup-ended-by-data-udp", "udp", start=2, source=20, count=20)
    yield one("stack-lost", start=2, losestack=3)
    yield one("stack-lost-active", losestack=2)
    yield one("restart", link=(*QUICK, "--restart"), how=restarted, restart=20, count=80)
    yield one("restart-of-large-window", "connect",
              link=("--timer-ms", "150", "--restart", "--window", "40"), how=restarted, restart=60,
              count=200, most=100, window=100)
    yield one("stray-stack", stack=20)
    yield one("ack-delayed", ack=1, ackdelay=80, echo=0)
    yield one("ack-after-rep", ack=2, link=("--timer-ms", "100"), count=35)
    yield one("ack-by-data", ack=3, link=("--timer-ms", "100"))
    yield one("sink", echo=0, count=200)
    yield one("source", echo=0, count=1, source=200)
    for reason in (1, 2, 3, 8, 9, 16, 17, 21):
        yield one(f"nak-{reason}", nak=20, reason=reason, count=40)
    yield one("deaf", deaf=5, timer=100)
    yield one("deaf-often", deaf=40, timer=60, link=("--timer-ms", "60"), count=15)
    yield one("loss", loss=5, timer=100)
    yield one("loss-often", "connect", loss=40, timer=60, link=("--timer-ms", "60"), count=15)
    yield one("damage", "connect", damage=5, timer=100)
    yield one("cut", cut=5, timer=100)
    yield one("noise", noise=5, timer=100)
    yield one("loss-and-damage-udp", "udp", loss=4, damage=4, deaf=4, timer=100)
    yield one("loss-and-damage-tty", "tty", loss=4, damage=4, noise=4, timer=100, syn=4, count=40)
    yield one("twice", dup=30)
    yield one("twice-udp", "udp", dup=30)
    yield one("reordered", "udp", reorder=10, dup=5, timer=100)
    yield one("odd-resp", oddresp=20)
    yield one("old-resp", oldresp=20)
    yield one("needless-rep", rep=20)
    yield one("timer-not-stopped", notstopped=1, timer=50)
    yield one("junk", junk=20)
    yield one("too-long", toolong=3000)
    yield one("maintenance", maint=20)
    yield one("few-buffers", buffers=2, count=100, most=100)
    yield one("few-buffers-large-window", buffers=3, count=100, most=100,
              link=("--timer-ms", "150", "--window", "30"))
    yield one("window-1", window=1, link=(*QUICK, "--window", "1"))
    yield one("window-255", window=255, link=(*QUICK, "--window", "255", "--inbox", "255"),
              count=1200, most=60, loss=1, damage=1, timer=150)
    yield one("numbers-wrap", count=1200, most=20)
    yield one("long", most=16383, count=30, link=(*QUICK, "--max", "16383"))
    yield one("count-believed", framing=1, noise=3, damage=3, idle=300, timer=100)
    yield one("syn-after-error", framing=2, noise=4, damage=4, timer=100,
              link=(*QUICK, "--syn", "4"))
    yield one("station", how=program_station, echo=0, source=60, linger=700)
    yield one("station-connect", "connect", how=program_station, echo=0, source=60, linger=700,
              start=2, nak=10)
    yield one("station-loss", how=program_station, echo=0, source=30, linger=1000, loss=5, damage=5,
              timer=100)


def mixed(number):
    """All of the behaviors, drawn."""
    draw = random.Random(number)
    line = draw.choice(["listen", "connect", "udp"])
    pick = draw.choice
    keys = {"syn": pick([0, 4]), "del_": pick([0, 3]), "nul": pick([0, 2]),
            "banner": pick([0, 1, 2, 3]), "chunk": pick([0, 0, 7, 100]), "merge": pick([1, 4]),
            "flags": pick([0, 1]), "fill": pick([0, 1]), "addr": pick([1, -1]),
            "start": pick([0, 1, 2]), "late": pick([0, 0, 200]), "strts": pick([1, 2]),
            "losestack": pick([0, 0, 1]), "stack": pick([0, 3]), "ack": pick([0, 0, 1, 2, 3]),
            "nak": pick([0, 4]), "deaf": pick([0, 2]), "loss": pick([0, 2]), "damage": pick([0, 2]),
            "cut": pick([0, 2]), "noise": pick([0, 2]), "dup": pick([0, 5]),
            "oddresp": pick([0, 4]), "oldresp": pick([0, 4]), "rep": pick([0, 4]),
            "notstopped": pick([0, 0, 1]), "junk": pick([0, 4]), "toolong": pick([0, 0, 2000]),
            "maint": pick([0, 4]), "buffers": pick([0, 0, 3]), "window": pick([1, 3, 7, 60]),
            "framing": pick([0, 1, 2]), "timer": pick([80, 150]), "idle": 300}
    if line == "udp":
        keys["reorder"] = pick([0, 3])
    link = ("--timer-ms", pick(["100", "150"]), "--window", pick(["3", "7", "40"]),
            "--syn", "4" if keys["framing"] == 2 else pick(["0", "4"]))
    return Scenario(f"mixed-{number}", line, count=30, most=400, link=link, **keys)


@pytest.mark.parametrize("scenario", [*named(), *map(mixed, range(1, 17))])
def test_scenario(scenario, station, tmp_path):
    scenario.how(Pair(scenario, str(tmp_path), station))


@pytest.mark.long
@pytest.mark.parametrize("scenario", map(mixed, range(17, 201)))
def test_more_scenarios(scenario, station, tmp_path):
    scenario.how(Pair(scenario, str(tmp_path), station))
