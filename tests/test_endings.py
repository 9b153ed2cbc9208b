"""Each ending of the program: the status and both outputs. What `main` does with an ending, no
contract says."""
import os
import pty
import re
import resource
import subprocess
import threading

import pytest

from .process import (
    PROGRAM, TOP, call, free_port, port_of, refusing, server, takes, version)
from .wire import STACK, STRT, ack, data, header

LONG_NAME = "a" * 300
DIGITS = "050100000001fc55"
ACK = "0 ACK sub=0 q=0 s=0 resp=0 num=0 addr=1\nitems=1 bytes=8 open=0\n"
TOO_LONG = "0 too long DATA count=1501 q=0 s=0 resp=0 num=1 addr=1\nitems=1 bytes=8 open=8\n"
STARTED = "A started dropped=0\nB started dropped=0\n"
NOTHING = "honest yes clean yes up A=0 B=0 acked A=0 B=0\n"
USAGE = "error: .*"
RIGHT, LEFT = "|-- ACK resp=0 " + "-" * 61 + ">|\n", "|<" + "-" * 61 + " ACK resp=0 --|\n"
COUNTS, NO_COUNTS = "items=1 bytes=8 open=0\n", "items=0 bytes=0 open=0\n"
SIZES = "--window=255 --inbox 1 --max 1 --syn 16 --restart"
LONGEST = f"""start A
start B
settle
send A {"5a" * 16383}
send B 61
poll A
cut A 1025
poll B
pass B
pass A
take B
settle
"""


@pytest.fixture(autouse=True)
def files(tmp_path, monkeypatch):
    """A folder with files of each kind, from which the program is run."""
    monkeypatch.chdir(tmp_path)
    texts = {"digits": b"0501 000000\n01fc55", "bytes": ack(0), "wrong": b"05zz",
             "script": b"halt A\n", "other": b"stop A\n"}
    for name, text in texts.items():
        (tmp_path / name).write_bytes(text)
    os.symlink("circle", "circle")
    os.mkdir("folder")


def ends(status, output, fault, given, words):
    """A run ends so; the text on standard error is a pattern if it begins `error: `."""
    words = words.split() if isinstance(words, str) else words
    given = given.encode() if isinstance(given, str) else given
    out, err, got = call(*words, given=given)
    assert (out.decode(), got) == (output, status)
    is_usage = fault.startswith("error: ")
    assert re.fullmatch(fault, err, re.S) if is_usage else err == (fault and fault + "\n")


@pytest.mark.parametrize("status, output, fault, given, words", [
    (0, NO_COUNTS, "", "", "explain"),
    (1, "", "ddcmp: odd number of digits", "050", "explain"),
    (1, "", "ddcmp: not hexadecimal at 2", "05zz", "explain"),
    (1, "", "ddcmp: not hexadecimal at 69999", " " * 69_999 + "x", "explain"),
    (0, ACK, "", ack(0), "explain --raw"),
    (0, "items=0 bytes=8 open=8\n", "", header(1501, 1), "explain --raw"),
    (0, TOO_LONG, "", header(1501, 1), "explain --raw --max 1500"),
    (0, TOO_LONG, "", header(1501, 1), "explain --max 1500 --raw"),
    (2, "", "ddcmp: an argument isn't UTF-8", "", [b"explain", b"\xff"]),
    (3, "", "ddcmp: open a b: no such file", "", ["explain", "a b"]),
    (2, "", USAGE, "", "explain --max 16384"),
    (2, "", USAGE, "", "explain --wrong"),
    # A file in place of standard input.
    (0, ACK, "", "05", "explain digits"),
    (0, ACK, "", "05", "explain --max 1 bytes --raw"),
    (0, ACK, "", "0501000000000001fc55", "explain bytes --raw --discarded"),
    (0, ACK, "", DIGITS, "explain -"),
    (0, ACK, "", "0501 000000\n01fc55", "explain - --discarded"),
    (1, "", "ddcmp: not hexadecimal at 2", "", "explain wrong"),
    (2, "", USAGE, "", "explain digits bytes"),
    (3, "", "ddcmp: open none: no such file", "", "explain none"),
    (3, "", "ddcmp: open digits/none: not a directory", "", "explain digits/none"),
    (3, "", "ddcmp: open circle: links in a circle", "", "explain circle"),
    (3, "", f"ddcmp: open {LONG_NAME}: name too long", "", f"explain {LONG_NAME}"),
    (3, "", "ddcmp: read", "", "explain folder"),
    # Two files as a ladder: a fault names its file, after what is before it and the other file.
    (0, f"{RIGHT}{LEFT}> {COUNTS}< {COUNTS}", "", "05", "explain --ladder digits digits"),
    (0, f"{RIGHT}> {COUNTS}< {NO_COUNTS}", "", "", "explain --ladder digits /dev/null"),
    (1, RIGHT, "ddcmp: wrong: not hexadecimal at 2", "", "explain --ladder digits wrong"),
    (1, LEFT, "ddcmp: wrong: not hexadecimal at 2", "", "explain --ladder wrong digits"),
    (3, LEFT, "ddcmp: folder: read", "", "explain --ladder folder digits"),
    (3, "", "ddcmp: open none: no such file", "", "explain --ladder digits none"),
    (2, "", "error: .*draws two files.*", "", "explain --ladder digits"),
    (2, "", "error: .*draws two files.*", "05", "explain --ladder digits -"),
    (2, "", "error: .*draws two files.*", "05", "explain --ladder"),
    (2, "", "error: .*can.t be used together.*", "", "explain --ladder --json digits digits"),
    (1, "", "ddcmp: line 1: not hexadecimal", "raw B 0", "simulate"),
])
def test_explain(status, output, fault, given, words):
    ends(status, output, fault, given, words)


def test_version():
    ends(0, f"ddcmp {version()}\n", "", "", "--version")


def examples(name):
    """The examples of command lines in a file of `worked`: their heads and what follows each."""
    with open(f"{TOP}/crates/worked/{name}", encoding="utf-8", newline="") as it:
        commands = it.read().split("##### ")[1]
    return [it.split("\n", 1) for it in commands.split("=== ")[1:]]


@pytest.mark.parametrize("example", zip(examples("stdin"), examples("stdout")),
                         ids=lambda it: it[0][0])
def test_worked(example):
    """Command lines that the gate compares as calls are the same here: help, usage errors, runs."""
    (head, given), (same, text) = example
    words = head.removeprefix("? ").split(" ")[1:]
    assert head == same
    if not head.startswith("? "):
        out, err, status = call(*words, given=given.encode())
        assert out.decode() + err + f"-> {status}\n" == text
    elif text.startswith("error: "):
        assert call(*words) == (b"", text, 2)


@pytest.mark.parametrize("command, words, usage", [
    ("explain", "--raw --max 1 three more words", "[OPTIONS] [FILE] [SECOND]"),
    ("explain", "three more" + 38 * " words", "[OPTIONS] [FILE] [SECOND]"),
    ("simulate", "more words", "[OPTIONS] [FILE]"),
])
def test_too_many_words(command, words, usage):
    text = f"error: unexpected argument 'words' found\n\nUsage: ddcmp {command} {usage}\n\n"
    text += "For more information, try '--help'.\n"
    assert call(command, *words.split()) == (b"", text, 2)


@pytest.mark.parametrize("words, option, unit", [
    ("explain --max 2k", "--max", "in bytes, as 1500"),
    ("station --role listen --addr x --turns 1 --timer-ms 3s", "--timer-ms",
     "in milliseconds, as 300"),
    ("link --line x --seconds 3s", "--seconds", "in seconds, as 3"),
    ("link --line x --report 1.5", "--report", "in seconds, as 3"),
    ("link --line x --linger-ms 1s", "--linger-ms", "in milliseconds, as 300"),
    ("bridge x y --lose 10%", "--lose", "in percent, as 10"),
    ("bridge x y --damage 10%", "--damage", "in percent, as 10"),
    ("bridge x y --delay 20ms", "--delay", "in milliseconds, as 300"),
    ("bridge x y --delay 0.5", "--delay", "in milliseconds, as 300"),
    ("bridge x y --baud 9600bps", "--baud", "in bits per second, as 9600"),
    ("simulate --window 7x", "--window", None), ("link --line x --seconds s", "--seconds", None),
])
def test_units(words, option, unit):
    """A number with a unit after it is refused, and the unit that is meant is named."""
    text = f"error: invalid value '{words.rsplit(' ', 1)[1]}' for '{option} <N>': "
    text += "invalid digit found in string\n\n" + (f"  tip: N is {unit}\n\n" if unit else "")
    assert call(*words.split()) == (b"", text + "For more information, try '--help'.\n", 2)


@pytest.mark.parametrize("status, output, fault, given, words", [
    (0, NOTHING, "", "", ""),
    (0, NOTHING, "", "# two ends of other sizes", SIZES),
    (1, "A halted\n", "ddcmp: line 3: not a command", "halt A\n\nstop A\n", ""),
    (2, "", USAGE, "", "--window 256"),
    (2, "", USAGE, "", "--window 7 --window 7"),
    (2, "", USAGE, "", "one more"),
    # A script from a file, and then standard input isn't read.
    (0, f"A halted\n{NOTHING}", "", "stop A", "script"),
    (0, f"A halted\n{NOTHING}", "", "halt A", "--window 1 -"),
    (1, "", "ddcmp: line 1: not a command", "halt A", "other --restart"),
    (2, "", "error: '--svg' and '--ladder' can't be used together.*", "", "--svg --ladder none"),
    (2, "", USAGE, "", "script other"),
    (3, "", "ddcmp: open none: no such file", "", "none"),
    (3, "", "ddcmp: open script/none: not a directory", "", "script/none"),
    (3, "", "ddcmp: open circle: links in a circle", "", "circle"),
    (3, "", f"ddcmp: open {LONG_NAME}: name too long", "", LONG_NAME),
    (3, "", "ddcmp: read", "", "folder"),
])
@pytest.mark.parametrize("command", ["simulate", "pair"])
def test_scripts(command, status, output, fault, given, words):
    ends(status, output, fault, given, f"{command} {words}")


@pytest.mark.parametrize("command", ["explain", "simulate", "pair"])
def test_no_permission(command, tmp_path):
    """A file that may not be read; as root this is another user's run."""
    os.chmod(tmp_path, 0o755)
    other = 65534 if os.geteuid() == 0 else None
    for mode, error in ((0o644, ""), (0, "ddcmp: open other: permission denied\n")):
        os.chmod("other", mode)
        run = subprocess.run([*PROGRAM, command, "other"], capture_output=True, user=other,
                             stdin=subprocess.DEVNULL, check=False)
        assert ("permission" in run.stderr.decode()) == bool(error)
    assert (run.returncode, run.stderr.decode()) == (3, error)


def test_longest_frames():
    """Over a connection a script writes the same, also of the longest frames, which go in many
    pieces."""
    out, _, _ = call("simulate", "--max", "16383", given=LONGEST.encode())
    ends(0, out.decode(), "", LONGEST, "pair --max 16383")


def drawn(words, names, pieces=()):
    """A ladder of two files, or of two pipes that one writer fills with these pieces."""
    words = [*PROGRAM, "explain", "--ladder", *words, *names]
    run = subprocess.Popen(words, stdout=subprocess.PIPE, stderr=subprocess.PIPE)
    if pieces:
        threading.Thread(target=fill, args=(names, pieces), daemon=True).start()
    return *run.communicate(timeout=30), run.returncode


def fill(names, pieces):
    files = [open(name, "wb") for name in names]
    for at, piece in pieces:
        files[at].write(piece)
        files[at].flush()
    for file in files:
        file.close()


@pytest.mark.parametrize("is_swapped", [False, True])
@pytest.mark.parametrize("words", [["--raw"], ["--from", "auto"]])
def test_two_pipes(words, is_swapped):
    """Two pipes that one writer fills in turn, more than a pipe holds of one before anything of the
    other: as two files of the bytes."""
    first, second = data(b"abc", 1), ack(1)
    if words != ["--raw"]:
        first, second = first.hex().encode(), second.hex().encode()
    pieces = [(0, first * 6000), (1, second * 500), (0, first * 6000), (1, second * 1500)]
    if is_swapped:
        pieces = [(1 - at, piece) for at, piece in pieces]
    os.mkfifo("one")
    os.mkfifo("two")
    fill(["there", "back"], pieces)
    assert drawn(words, ["one", "two"], pieces) == drawn(words, ["there", "back"])


@pytest.mark.parametrize("what, given, words", [
    ("hexadecimal digits", DIGITS, []),
    ("bytes", DIGITS, ["--raw"]),
    ("a dump", "00000000  05 01 00 00 00 01 fc 55", ["--from", "hexdump"]),
    ("hexadecimal digits", "0x05, 0x01 00:00:00:01:fc-55 # ACK", ["--from", "text"]),
    ("hexadecimal digits, a dump or bytes", DIGITS, ["--from", "auto"]),
    (None, "", ["digits"]),
])
def test_at_a_terminal(what, given, words):
    """It prints what it reads if no file is given."""
    ours, theirs = pty.openpty()
    words = [*PROGRAM, "explain", *words]
    run = subprocess.Popen(words, stdin=theirs, stdout=subprocess.PIPE, stderr=subprocess.PIPE)
    os.write(ours, given.encode() + b"\n\x04")
    _, err = run.communicate(timeout=60)
    text = f"ddcmp: reads {what} until the end of input\n" if what else ""
    assert (run.returncode, err.decode()) == (0, text)


@pytest.mark.parametrize("refused, text", [
    ("bind:error=EADDRINUSE", ""), ("connect:error=ECONNREFUSED", ""),
    ("sendto:error=EPIPE:when=2", f"{STARTED}B wrote {STRT.hex()}\nB passed 8\n"
                                  f"A wrote {STACK.hex()}\n"),
])
def test_refused_connection(refused, text):
    """`pair` ends if it can't make its connection, or if that fails; `simulate` needs none."""
    script = "start A\nstart B\npoll B\npass B\npoll A\npass A\nstate A\n"
    for command, ends_so in (("pair", (3, text, "ddcmp: carrier\n")), ("simulate", (0, None, ""))):
        words = [*refusing(refused), *PROGRAM, command]
        run = subprocess.run(words, input=script, capture_output=True, text=True, check=False)
        out = run.stdout if command == "pair" else None
        assert (run.returncode, out, run.stderr) == ends_so


def test_fewest_files():
    """With too few files to be had `pair` makes no connection. The program has three before it
    opens any, needs one to listen, one to connect and one to accept, and the system may hold a
    few."""
    for files in range(4, 13):
        def limit(most=files):
            resource.setrlimit(resource.RLIMIT_NOFILE, (most, most))
        run = subprocess.run([*PROGRAM, "pair"], stdin=subprocess.DEVNULL, capture_output=True,
                             preexec_fn=limit, check=False)
        if run.returncode == 0:
            assert (run.stdout.decode(), files >= 6) == (NOTHING, True)
            return
        assert (run.returncode, run.stdout, run.stderr) == (3, b"", b"ddcmp: carrier\n")
    assert False, "no number of files is enough"


@pytest.mark.parametrize("status, fault, words", [
    (2, USAGE, ""),
    (2, USAGE, "--role listen --addr HERE --turns 1"),
    (2, "error: the message of '--send <HEX>' has more than 1500 bytes.*",
     f"--role listen HERE --send {'61' * 1501}"),
    (3, "ddcmp: carrier", "--role connect HERE --send 61"),  # nobody listens there
])
def test_station(status, fault, words):
    here = f"--addr 127.0.0.1:{free_port()} --turns 1 --timer-ms 1"
    words = words.replace("--addr HERE --turns 1", here.removesuffix(" --timer-ms 1"))
    ends(status, "", fault, "", "station " + words.replace("HERE", here))


def station(role, addr, turns=0, timer=0, *more):
    return ["station", "--role", role, "--addr", addr, "--turns", str(turns),
            "--timer-ms", str(timer), *more]


@pytest.mark.parametrize("status, fault, sent", [
    (3, "ddcmp: carrier", "6" * 3000), (1, "ddcmp: not hexadecimal", "6" * 2999),
    (2, USAGE, "6" * 3001), (1, "ddcmp: not hexadecimal", "x" * 3000), (2, USAGE, "x" * 3002),
    *((1, "ddcmp: not hexadecimal", it) for it in ("0", "zz", "6g", " 61", "61 ")),
])
def test_message_of_a_station(status, fault, sent):
    """Too many digits are a usage error, also if they are none; then come digits that are none,
    and last the connection, which can't be made."""
    ends(status, "", fault, "", station("connect", "nowhere", 0, 0, "--send", sent))


@pytest.mark.parametrize("role", ["other", "", "Listen", "listen ", "connects"])
def test_other_roles(role):
    """They are reported before a wrong message."""
    text = "error: '--role' is connect or listen\n\nFor more information, try '--help'.\n"
    out, err, status = call(*station(role, "nowhere", 0, 0, "--send", "zz"))
    assert (out, err, status) == (b"", text, 2)


@pytest.mark.parametrize("role", ["connect", "listen"])
@pytest.mark.parametrize("addr", ["nowhere", "", "127.0.0.1", "127.0.0.1:65536", "256.0.0.1:7000"])
def test_no_address(addr, role):
    ends(3, "", "ddcmp: carrier", "", station(role, addr, 0, 0, "--send", "61"))


def test_port_in_use():
    with server() as used:
        name = f"127.0.0.1:{port_of(used)}"
        ends(3, "", "ddcmp: carrier", "", station("listen", name))


@pytest.mark.parametrize("sent, turns, timer, least, report", [
    (b"", 2, 60_000, STRT, "turns=2 state=IStart read=0 written=8\n"),
    (b"", 20, 30, 3 * STRT, "turns=20 state=IStart read=0 written=[0-9]+\n"),
    (STACK, 200, 60_000, STRT + ack(0),
     "notice Running\nturns=200 state=Running read=8 written=16\n"),
])
def test_peer_of_a_station(sent, turns, timer, least, report):
    """A peer that sends nothing gets a STRT, and more of them when the timer expires; one that
    sends a STACK gets an ACK."""
    with server() as listener:
        words = station("connect", f"127.0.0.1:{port_of(listener)}", turns, timer)
        run = subprocess.Popen([*PROGRAM, *words], stdout=subprocess.PIPE, stderr=subprocess.PIPE)
        peer = listener.accept()[0]
        peer.sendall(sent)
        out, err = run.communicate(timeout=60)
        assert re.fullmatch(report, out.decode()) and (err, run.returncode) == (b"", 0)
        assert takes(peer).startswith(least)


@pytest.mark.parametrize("words, given", [
    ("explain", b"05"), ("explain --ladder digits digits", b""), ("simulate", b""), ("pair", b""),
    ("simulate", b"halt A\n"), ("pair", b"halt A\n"), ("--help", b""),
])
def test_full_output(words, given):
    with open("/dev/full", "wb") as full:
        run = subprocess.run([*PROGRAM, *words.split()], input=given, stdout=full,
                             stderr=subprocess.PIPE, check=False)
    assert (run.returncode, run.stderr) == (3, b"ddcmp: write\n")


@pytest.mark.parametrize("command", ["explain", "simulate", "pair"])
def test_folder_as_input(command):
    """A folder can be opened, and not read."""
    folder = os.open("/", os.O_RDONLY)
    run = subprocess.run([*PROGRAM, command], stdin=folder, capture_output=True, check=False)
    os.close(folder)
    assert (run.returncode, run.stdout, run.stderr) == (3, b"", b"ddcmp: read\n")
