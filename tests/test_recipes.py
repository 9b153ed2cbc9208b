"""The recipes of docs/INTEROP.md, as they are written there, but with a pseudo-terminal in place of
/dev/ttyS0, with something at its other end, and free ports in place of 7000 and 7001."""
import os
import re
import subprocess
import time

import pytest

from .process import (
    PROGRAM, TOP, Link, Process, Station, free_port, holds_within, is_listening, text_of)
from .wire import mail_in

pytestmark = pytest.mark.limit(200)


@pytest.fixture(scope="module")
def peer(tmp_path_factory):
    """The second station, c/peer/peer.c."""
    made = str(tmp_path_factory.mktemp("peer") / "peer")
    words = ["gcc", "-std=c11", "-O2", f"{TOP}/c/peer/peer.c", "-o", made]
    subprocess.run(words, check=True)
    return made


class Recipe:
    """A folder with the ends of a serial line, and two ports, for the commands of a recipe."""

    def __init__(self, folder, peer=None):
        self.folder, self.peer = folder, peer
        self.port, self.other = free_port(), free_port()

    def cable(self, options=",raw,echo=0"):
        """A pair of pseudo-terminals: the port, which may be made raw at once, and its end."""
        ends = [f"{self.folder}/{it}" for it in ("port", "end")]
        Process(["socat", f"PTY,link={ends[0]}{options}", f"PTY,link={ends[1]},raw,echo=0"])
        assert soon(lambda: all(map(os.path.exists, ends)))

    def commands(self, section):
        """The commands of a section, with these ports and files and a shorter run."""
        text = text_of("docs/INTEROP.md")
        text = re.search(rf"^### {section}\n(.*?)(?=^#|\Z)", text, re.M | re.S)[1]
        commands = "".join(re.findall(r"^    (.*\n)", text, re.M))
        assert commands, f"no recipe '{section}'"
        for old, new in (("/dev/ttyS0", f"{self.folder}/port"), ("from-", f"{self.folder}/from-"),
                         (":7000", f":{self.port}"), (":7001", f":{self.other}"),
                         ("capture.pcap", f"{self.folder}/capture.pcap"),
                         ("flows", f"{self.folder}/flows"), ("./peer", self.peer or "./peer"),
                         ("=received", f"={self.folder}/received"),
                         ("./ddcmp link --", "timeout 8 ./ddcmp link --timer-ms 500 --"),
                         ("timeout 60 ", "timeout 5 "), ("./ddcmp", PROGRAM[0])):
            commands = commands.replace(old, new)
        return commands

    def starts(self, section):
        """Runs the commands of a section."""
        os.chdir(TOP)
        return Process(["timeout", "120", "bash", "-c", self.commands(section)],
                       stderr=subprocess.STDOUT)

    def station(self, role, message, turns=Station.ENDLESS, port=None):
        """A station with a message, once it listens if it does."""
        port = port or self.port
        it = Station(role, port, turns, 1000, "--send", message)
        if role == "listen":
            assert soon(lambda: is_listening(port))
        return it

    def far_station(self):
        """A station at the other end of the serial line, by socat."""
        port = free_port()
        far = self.station("listen", "616263", port=port)
        Process(["socat", f"{self.folder}/end,raw,echo=0", f"TCP:127.0.0.1:{port}"])
        return far


@pytest.fixture
def recipe(tmp_path):
    return Recipe(tmp_path)


@pytest.fixture
def with_peer(tmp_path, peer):
    return Recipe(tmp_path, peer)


def soon(holds):
    return holds_within(15, holds)


def has(run, pattern):
    """Whether the output of a run has, or will soon have, a line of this pattern."""
    return soon(lambda: any(re.fullmatch(pattern, it) for it in run.lines()))


def test_serial_port(recipe):
    """Its other end has a station."""
    recipe.cable()
    far = recipe.far_station()
    near = recipe.starts("A serial port")
    near.ended(120)
    assert has(near, "mail 616263")
    assert has(far, "mail 48656c6c6f") and has(far, "notice .*Acknowledged 1")


def test_converter(recipe):
    """A station at either side."""
    recipe.cable()
    emulator = recipe.station("listen", "78797a")
    recipe.starts("A converter")
    far = recipe.far_station()
    assert has(emulator, "mail 616263") and has(far, "mail 78797a")


def test_serial_port_and_emulator(recipe):
    """Another station stands for the emulator."""
    recipe.cable()
    emulator = recipe.station("listen", "78797a", "300")
    recipe.starts("A serial port and an emulator")
    far = recipe.far_station()
    assert has(emulator, "turns=.*") and has(emulator, "mail 616263")
    assert has(emulator, "notice .*Acknowledged 1") and has(far, "mail 78797a")


def test_serial_port_and_udp(recipe):
    """A link over UDP, and a station at the other end of the port."""
    recipe.cable()
    recipe.starts("A serial port and UDP")
    near = Link(f"udp:127.0.0.1:{recipe.other},127.0.0.1:{recipe.port}", "--timer-ms", "500",
                "--stay")
    near.give(b"78797a\n")
    far = recipe.far_station()
    assert has(far, "mail 78797a") and has(near, "mail 616263")


def test_log_a_line(recipe):
    recipe.station("listen", "616263")
    drawn = recipe.starts("Log a TCP line")
    assert soon(lambda: is_listening(recipe.other))
    caller = recipe.station("connect", "78797a", "300", recipe.other)
    drawn.ended(120)
    assert has(caller, "mail 616263")
    assert has(drawn, ".* STRT .*") and has(drawn, ".* DATA 1 .*")


def test_both_directions(recipe):
    recipe.station("listen", "616263")
    decoded = recipe.starts("Both directions of a connection")
    assert soon(lambda: is_listening(recipe.other))
    caller = recipe.station("connect", "78797a", "300", recipe.other)
    decoded.ended(120)
    assert has(caller, "mail 616263")
    for pattern in (".* STRT .*", ".* DATA .* 78797a", ".* DATA .* 616263", r"\|-- DATA 1 .*>\|",
                    r"\|<-* DATA 1 .* --\|"):
        assert has(decoded, pattern), pattern
    counts = [it for it in decoded.lines() if re.fullmatch("items=[0-9]* .* open=0", it)]
    assert len(counts) == 2
    assert not re.search(b"check|format|too long", decoded.out)


def test_decode_a_port(recipe):
    recipe.cable("")
    decoded = recipe.starts("Decode a serial port")

    def is_raw():
        words = ["stty", "-F", f"{recipe.folder}/port"]
        return b"-icanon" in subprocess.run(words, capture_output=True, check=False).stdout
    assert soon(is_raw)
    with open(f"{recipe.folder}/end", "wb", buffering=0) as it:
        it.write(bytes.fromhex("050100000001fc55960d0503000001018405"))
    decoded.ended(120)
    assert has(decoded, "0 ACK .*") and has(decoded, "10 REP .*")
    assert has(decoded, "items=2 bytes=18 open=0")


@pytest.mark.parametrize("kind", ["-u", "-T"])
def test_capture(recipe, kind):
    """Of frames in two directions, as UDP and as TCP."""
    recipe.port, recipe.other = 7000, 7001
    frames, made = f"{recipe.folder}/frames", f"{recipe.folder}/capture.pcap"
    with open(frames, "w", encoding="ascii") as it:
        it.write("I\n000000 05 01 00 00 00 01 fc 55\nO\n000000 05 03 00 00 01 01 84 05\n")
    words = ["text2pcap", "-q", "-D", kind, "7001,7000", frames, made]
    subprocess.run(words, capture_output=True, check=True)
    decoded, shown = recipe.starts("A capture"), recipe.starts("Wireshark")
    assert (decoded.ended(60), shown.ended(60)) != (None, None)
    assert has(shown, ".* DDCMP .* ACK sub=0 .* addr=1")
    assert has(shown, ".* DDCMP .* REP sub=0 .* addr=1")
    assert has(decoded, "0 ACK .*")
    counts = decoded.lines().count("items=1 bytes=8 open=0")
    assert counts >= 1 if kind == "-u" else counts == 2 and has(decoded, "0 REP .*")


def test_bad_peer(with_peer):
    """A link that sends it 100 messages and gets them back."""
    bad = with_peer.starts("A bad peer")
    assert soon(lambda: is_listening(with_peer.port))
    link = Link(f"connect:127.0.0.1:{with_peer.port}", "--stay", "--timer-ms", "200")
    sent = [bytes.fromhex(f"{it:06}") for it in range(1, 101)]
    link.give("".join(f"{it.hex()}\n" for it in sent).encode())
    assert has(bad, "done.*") and has(link, "mail 000100")
    assert link.mails() == sent


def test_stand_in(with_peer):
    """The peer stands for the machine."""
    with_peer.cable()
    stand_in = with_peer.starts("A stand-in for a machine")
    machine = Process([with_peer.peer, f"tty:{with_peer.folder}/end", "source=3", "longest=5",
                       "seconds=10"])
    machine.ended(30)
    assert has(stand_in, "[0-9]* > [0-9]* STRT .*") and has(machine, "done.*")
    assert soon(lambda: len(mail_in(stand_in.out)) == 3)


def test_quality(with_peer):
    """Of a line that loses and damages some."""
    with_peer.cable()
    machine = ["echo=0", "expect=200", "noise=20", "damage=5", "seed=3", "timer=100"]
    Process([with_peer.peer, f"tty:{with_peer.folder}/end", *machine])
    quality = with_peer.starts("The quality of a line")
    assert quality.ended(30) == 0
    assert has(quality, "state=.* sent=200 acknowledged=200 .*")
    assert has(quality, "counters .*messages_again=[1-9].*")


def test_always_up(with_peer):
    """A peer that comes twice, as the unit's command sees it."""
    command = re.search("^ExecStart=/usr/local/bin/ddcmp(.*)$",
                        with_peer.commands("An end that is always up"), re.M)[1]
    up = Process([*PROGRAM, *command.split(), "--timer-ms", "200"], stdin=subprocess.DEVNULL)
    for _ in range(2):
        words = ["source=3", "seconds=15", "linger=200"]
        comes = Process([with_peer.peer, f"listen:{with_peer.port}", *words])
        comes.ended(20)
        assert any(it.startswith("done") for it in comes.lines())
    assert soon(lambda: up.out.count(b"mail ") == 6)
    time.sleep(0.2)
    assert up.out.count(b"mail ") == 6
