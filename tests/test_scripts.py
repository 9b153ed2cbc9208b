"""Scripts of `ddcmp simulate`, some written as the replies come: messages are delivered in order,
once and unchanged, or not at all, over lines that lose, damage and cut frames, and all after a
repair; and one too many if the line isn't honest."""
import itertools
import re
import subprocess

import pytest

from .process import PROGRAM
from .wire import STACK, STRT, ack, data, nak, rep

pytestmark = pytest.mark.limit(300)
WINDOWS = [1, 7, 127, 255]
FIRST = data(b"a", 1)
OTHER = {"A": "B", "B": "A"}


class Script:
    """A script that is written line by line, each with its replies."""

    def __init__(self, window=7):
        words = [*PROGRAM, "simulate", "--window", str(window)]
        self.run = subprocess.Popen(words, stdin=subprocess.PIPE, stdout=subprocess.PIPE, text=True)
        for line in ("start A", "start B"):
            self.plays(line, f"{line[-1]} started dropped=0")
        for end, frame in (("A", STRT), ("B", STACK), ("A", ack(0))):
            self.wrote(end, frame)
            self.passes(end, *["notice Running"] * (frame != STRT))

    def does(self, line):
        """The reply to a line; notices are skipped, also those of the line before."""
        self.run.stdin.write(f"{line}\n")
        self.run.stdin.flush()
        while " notice " in (reply := self.run.stdout.readline()):
            pass
        return reply.rstrip("\n")

    def plays(self, line, reply, *notices):
        assert self.does(line) == reply, line
        assert [self.run.stdout.readline().rstrip("\n") for _ in notices] == list(notices)

    def wrote(self, end, frame):
        self.plays(f"poll {end}", f"{end} wrote {frame.hex()}")

    def passes(self, end, *notices):
        """The front of an end's line arrives whole."""
        assert re.fullmatch(rf"{end} passed \d+", self.does(f"pass {end}"))
        for it in notices:
            assert self.run.stdout.readline() == f"{OTHER[end]} {it}\n"

    def carries(self, number):
        """A message of A is delivered, taken and acknowledged."""
        self.plays("send A 61", f"A accepted {number % 256}")
        self.does("poll A")
        self.passes("A", "notice HandedUp")
        self.plays("take B", "B took 61")
        self.does("poll B")
        self.passes("B", "notice Acknowledged 1")

    def arrives(self, end, frame, *notices):
        replies = f"{end} got {len(frame)}", *(f"{end} {it}" for it in notices)
        self.plays(f"raw {end} {frame.hex()}", *replies)

    def must_end(self, last):
        assert self.run.communicate(timeout=60)[0] == last + "\n"
        assert self.run.returncode == 0


def last_line(honest="yes", up="A=0 B=0", acked="A=0 B=0"):
    return f"honest {honest} clean yes up {up} acked {acked}"


@pytest.mark.parametrize("window", WINDOWS)
def test_numbers_go_round(window):
    """Message 256 has number 0; after 300 nothing is queued, received or awaited."""
    script = Script(window)
    for number in range(1, 301):
        script.carries(number)
    for end, numbers in (("A", "R=0 N=44 A=44 T=45"), ("B", "R=44 N=0 A=0 T=1")):
        script.plays(f"state {end}", f"{end} Running {numbers} out=0 in=0 timer=off")
    script.must_end(last_line(up="A=0 B=300", acked="A=300 B=0"))


def test_widest_window_is_sent_again():
    """A REP and a NAK, and then each message and its ACK."""
    script = Script(255)
    for number in range(1, 256):
        script.plays("send A 61", f"A accepted {number}")
    script.plays("send A 61", "A send refused WindowFull")
    for number in range(1, 256):
        script.wrote("A", data(b"a", number))
        script.plays("lose A", "A lost 11")
    script.plays("poll A", "A idle")
    script.plays("expire A", "A expired")
    script.plays("settle", "settled 256 quiet")
    script.plays("recover", "recovered 0 0 0 done")
    script.must_end(last_line(up="A=0 B=255", acked="A=255 B=0"))


def sent_twice(script):
    """Message 1 is lost, and retransmitted after a REP and a NAK."""
    script.plays("send A 61", "A accepted 1")
    script.wrote("A", FIRST)
    script.plays("lose A", "A lost 11")
    script.plays("expire A", "A expired")
    script.wrote("A", rep(1))
    script.passes("A")
    script.wrote("B", nak(3, 0))
    script.passes("B")
    script.wrote("A", FIRST)
    script.passes("A", "notice HandedUp")
    script.plays("take B", "B took 61")
    script.wrote("B", ack(1))
    script.passes("B", "notice Acknowledged 1")


@pytest.mark.parametrize("window", WINDOWS)
def test_lost_message_comes_later(window):
    script = Script(window)
    sent_twice(script)
    script.must_end(last_line(up="A=0 B=1", acked="A=1 B=0"))


@pytest.mark.parametrize("is_lost", [False, True])
def test_frame_that_comes_twice(is_lost):
    """Message 1 arrives again when the next message is 257, which has number 1 too: as a second
    copy, or as the first of two that were sent. One message too many is delivered."""
    script = Script()
    if is_lost:
        sent_twice(script)
    for number in range(1 + is_lost, 257):
        script.carries(number)
    script.arrives("B", FIRST, "notice HandedUp")
    script.must_end(last_line("no", "A=0 B=257", "A=256 B=0"))


class Talk:
    """255 messages each way at once, over a line that loses every third frame, damages every fifth
    and cuts every seventh in half."""

    def __init__(self, window):
        self.script, self.frames = Script(window), itertools.count(1)
        self.messages = {end: [f"{end.lower()}{it:03}".encode().hex() for it in range(1, 256)]
                         for end in "AB"}
        self.offered, self.taken = {"A": 0, "B": 0}, {"A": [], "B": []}

    def offers(self, end):
        """Sends messages until the window is full."""
        for message in self.messages[end][self.offered[end]:]:
            reply = self.script.does(f"send {end} {message}")
            if reply == f"{end} send refused WindowFull":
                break
            self.offered[end] += 1
            assert reply == f"{end} accepted {self.offered[end]}"

    def crosses(self, end):
        """An end's next frame crosses the bad line; what the other received is taken."""
        self.offers(end)
        reply = self.script.does(f"poll {end}")
        if reply == f"{end} idle":
            return
        size, number = len(reply.split()[2]) // 2, next(self.frames)
        if number % 3 == 0:
            self.script.plays(f"lose {end}", f"{end} lost {size}")
            return
        if number % 5 == 0:
            self.script.plays(f"damage {end} {size - 1} 40", f"{end} damaged")
        if number % 5 and number % 7 == 0:
            self.script.does(f"cut {end} {size // 2}")
            self.script.plays(f"lose {end}", f"{end} lost {size - size // 2}")
        else:
            self.script.does(f"pass {end}")
        self.takes(OTHER[end])

    def settles(self):
        """Both timers expire, and frames cross a line that is good until there are none."""
        for end in "AB":
            self.offers(end)
            self.script.does(f"expire {end}")
        while {self.script.does(f"poll {end}") for end in "AB"} != {"A idle", "B idle"}:
            for end in "AB":
                self.script.does(f"pass {end}")
                self.takes(OTHER[end])

    def takes(self, end):
        while (reply := self.script.does(f"take {end}")) != f"{end} nothing":
            self.taken[end].append(reply.removeprefix(f"{end} took "))
            assert self.taken[end] == self.messages[OTHER[end]][:len(self.taken[end])]


@pytest.mark.parametrize("window", WINDOWS)
def test_all_come_over_a_bad_line(window):
    talk = Talk(window)
    for turn in range(600):
        talk.crosses("A")
        talk.crosses("B")
        if turn % 8 == 7:
            talk.script.does("expire A")
            talk.script.does("expire B")
    for _ in range(255):
        if talk.taken != {"A": talk.messages["B"], "B": talk.messages["A"]}:
            talk.settles()
    talk.script.plays("recover", "recovered 0 0 0 done")
    assert talk.taken == {"A": talk.messages["B"], "B": talk.messages["A"]}
    talk.script.must_end(last_line(up="A=255 B=255", acked="A=255 B=255"))
