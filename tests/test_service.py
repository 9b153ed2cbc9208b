"""The unit for systemd: its form, and its commands as systemd would run them, for two links whose
programs exchange numbered messages while either is stopped and started again."""
import collections
import os
import re
import shlex
import subprocess
import threading
import time

import pytest

from .process import PROGRAM, TOP, Process, free_port, holds_within, text_of
from .wire import binary, commands, drawn

UNIT = "systemd/ddcmp.service"
SOON = 30  # seconds that nothing here may take
MOST = 20_000  # messages that a program has to send


def test_form():
    """systemd-analyze finds nothing wrong in it, if the program is where it says."""
    run = subprocess.run(["systemd-analyze", "verify", "--man=no", f"{TOP}/{UNIT}"],
                         capture_output=True, text=True, timeout=SOON)
    assert (run.stdout + run.stderr, run.returncode) == ("", 0)


class Service:
    """The unit in a folder of its own, with this line in place of its own."""

    def __init__(self, folder, line):
        self.folder, self.line, self.link = str(folder), line, None
        self.call("ExecStartPre")
        self.start()

    def words(self, key, **names):
        """The words of a command of the unit, as systemd has them."""
        text = re.search(rf"^{key}=(.*)$", text_of(UNIT), re.M)[1]
        for name, value in names.items():
            text = text.replace(f"${name}", str(value))
        for old, new in (("$$", "$"), ("\\\\", "\\"), ("/run/ddcmp", self.folder),
                         ("/usr/local/bin/ddcmp", PROGRAM[0]),
                         ("connect:127.0.0.1:7000", f"{self.line} --timer-ms 300")):
            text = text.replace(old, new)
        return shlex.split(text)

    def call(self, key, **names):
        subprocess.run(self.words(key, **names), check=True, timeout=SOON)

    def start(self):
        self.link = Process(self.words("ExecStart"), stdin=None, stdout=None)

    def stop(self):
        """Stops it; it must end by the command alone, with all of its own delivered."""
        reaper = threading.Thread(target=self.link.ended)
        reaper.start()
        self.call("ExecStop", MAINPID=self.link.run.pid)
        reaper.join()
        assert self.link.run.returncode in (0, 3), self.link


class Program:
    """A program above a link: it sends numbered messages, those that may be lost again, and takes
    each number once."""

    WINDOW = 7

    def __init__(self, service):
        self.service = service
        self.wanted, self.taken, self.events = 0, 0, []
        self.sent, self.acknowledged, self.is_up = 0, 0, False
        self.lock, self.is_over = threading.Lock(), False
        self.input = os.open(f"{service.folder}/input", os.O_RDWR)
        self.output = os.open(f"{service.folder}/output", os.O_RDWR)
        self.reader = threading.Thread(target=self.read, daemon=True)
        self.reader.start()

    def read(self):
        with open(self.output, "rb", buffering=0, closefd=False) as stream:
            exactly = bytearray()
            while True:
                exactly += stream.read(1 << 16)
                while len(exactly) >= 2:
                    length = int.from_bytes(exactly[:2], "big")
                    size = 2 + length % 0x8000
                    if len(exactly) < size:
                        break
                    record, exactly = bytes(exactly[2:size]), exactly[size:]
                    with self.lock:
                        if length & 0x8000:
                            self.noticed(record.decode())
                        else:
                            self.took(int(record))
                        self.write()

    def took(self, number):
        assert number <= self.taken, "a gap"
        self.taken = max(self.taken, number + 1)

    def noticed(self, text):
        self.events.append(text)
        words = text.split()
        if words[-1].startswith("Running"):
            os.write(self.input, commands("ready"))
            self.is_up, self.sent = True, self.acknowledged
        elif "Restarted" in words:
            os.write(self.input, commands("ready"))
            self.is_up = False
        elif words[1].endswith("Acknowledged"):
            self.acknowledged += int(words[2])

    def write(self):
        """Writes what has room in the window."""
        while self.is_up and self.sent < min(self.wanted, self.acknowledged + self.WINDOW):
            os.write(self.input, binary([b"%d" % self.sent]))
            self.sent += 1

    def send(self, count):
        with self.lock:
            self.wanted += count
            self.write()

    def left(self):
        """How many messages aren't acknowledged, or not even sent."""
        return self.wanted - self.acknowledged

    def stop(self):
        """Stops its link; nothing is written until another one runs."""
        with self.lock:
            self.is_up = False
        self.service.stop()

    def has_all(self, other):
        return self.taken == other.wanted


@pytest.mark.limit(120)
@pytest.mark.parametrize("restarts", [
    3, pytest.param(20, marks=[pytest.mark.long, pytest.mark.limit(600)])])
def test_restarts(tmp_path, restarts):
    """Nothing is lost over restarts of either side while both send, and nothing comes twice or out
    of order, but for what may have been lost and is sent again. A link ends though its peer has
    more to send."""
    port, ends = free_port(), []
    for name, kind in ("one", "listen"), ("two", "connect"):
        (tmp_path / name).mkdir()
        ends.append(Program(Service(tmp_path / name, f"{kind}:127.0.0.1:{port}")))
    for again in range(restarts):
        for end in ends:
            assert holds_within(SOON, lambda it=end: it.is_up), end.service.link
            end.send(MOST - end.left())
        time.sleep(drawn.uniform(0, 0.1))
        ends[again % 2].stop()
        assert ends[1 - again % 2].left(), "it waited for the peer"
        ends[again % 2].service.start()
    for end in ends:
        end.send(100)
    assert holds_within(SOON, lambda: ends[0].has_all(ends[1]) and ends[1].has_all(ends[0])), [
        (it.taken, it.wanted, it.acknowledged, it.events[-3:], it.service.link) for it in ends]
    runs = collections.Counter(it for end in ends for it in end.events if "Running" in it)
    assert sum(runs.values()) >= 2 * restarts, runs
