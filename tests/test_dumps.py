"""`ddcmp explain --from` of what hexdump, xxd and od make of drawn bytes of every length: as dumps
by the name of the program, as text and by `auto`, compared with `explain --raw` of the same bytes;
then dumps with lines that are none, texts with a wrong character, and inputs whose form is
detected."""
import re
import subprocess

import pytest
from hypothesis import given

from .captures import randoms, tries
from .process import PROGRAM, call
from .wire import ack, drawn

pytestmark = pytest.mark.limit(300)
WAYS = [["hexdump", "-v", "-C"], ["xxd"], ["xxd", "-u"], ["xxd", "-g1"], ["xxd", "-c", "7"],
        ["od", "-v", "-A", "x", "-t", "x1"], ["od", "-v", "-A", "x", "-t", "x1z"]]
TEXTS = [["xxd", "-i"], ["xxd", "-i", "-u"], ["xxd", "-p"], ["od", "-v", "-A", "n", "-t", "x1"],
         ["hexdump", "-v", "-e", '1/1 "%02x:"'],
         ["hexdump", "-v", "-e", '"# from %_ad: 0x\n" 7/1 "%02X-" "\n"']]
FORMS = [(way[0], way) for way in WAYS] + [("text", way) for way in TEXTS]
OTHERS = [["hexdump", "-v"], ["xxd", "-b"], ["xxd", "-e"], ["od", "-v", "-A", "x", "-t", "x2"]]
PARTS = {b"\n": 2, b"\r": 1, b"0": 3, b"abcDE": 3, b"123456": 3, b"00000000": 3, b":": 3, b" ": 3,
         b"  ": 3, b"05": 3, b"g": 1, b"\t": 1, b"~": 1, b"\x7f": 1, b"\x1f": 1}


def explain(words, text):
    return call("explain", *words, given=text)


def dump(way, data):
    return subprocess.run(way, input=data, capture_output=True, check=True).stdout


def bytes_of(length):
    """Drawn bytes, of which some are frames."""
    made = b""
    while len(made) < length:
        is_frame = drawn.random() < 0.5
        made += ack(drawn.randrange(256)) if is_frame else drawn.randbytes(drawn.randrange(1, 40))
    return made[:length]


def detected(text):
    """The option of the form that `--from auto` is to detect."""
    first = text[:64]
    if not re.fullmatch(rb"[\t\n\r -~]*", first):
        return ["--raw"]
    is_dump = re.match(rb"[\r\n]*[0-9A-Fa-f]{6,15}:? +[0-9A-Fa-f]", first)
    return ["--from", "xxd" if is_dump else "text"]


def slowly(words, text):
    """The same, of an input that comes byte by byte."""
    words = [*PROGRAM, "explain", *words]
    pipes = {"stdin": subprocess.PIPE, "stdout": subprocess.PIPE, "stderr": subprocess.PIPE}
    with subprocess.Popen(words, bufsize=0, **pipes) as ran:
        try:
            for byte in text:
                ran.stdin.write(bytes([byte]))
        except BrokenPipeError:
            pass
        out, err = ran.communicate(timeout=60)
    return out, err.decode(), ran.returncode


@pytest.mark.parametrize("lengths", [range(at, at + 25) for at in range(0, 600, 25)] + [[600]],
                         ids=lambda it: f"from {it[0]}")
def test_each_length(lengths):
    for length in lengths:
        data = bytes_of(length)
        words = drawn.choice([[], ["--json"], ["--discarded"], ["--max", "40"]])
        wanted = explain(["--raw", *words], data)
        for name, way in FORMS:
            assert explain(["--from", name, *words], dump(way, data)) == wanted
        name, way = drawn.choice(FORMS)
        text = dump(way, data).replace(b"\n", b"\r\n") + b"\n"
        assert explain(["--from", name, *words], text) == wanted
        if length > 0:  # an address alone, which od writes of nothing, is text
            assert explain(["--from", "auto", *words], text) == wanted
        as_detected = explain([*detected(data), *words], data)
        assert explain(["--from", "auto", *words], data) == as_detected


@tries(600)
@given(randoms)
def test_detection(draw):
    """Beginnings in which each part of the rule matters, and lengths about 64 bytes."""
    text = b"".join(draw.choices(list(PARTS), list(PARTS.values()), k=draw.randrange(8)))
    if draw.random() < 0.3:
        text = text.ljust(draw.randrange(62, 67), draw.choice([b" ", b"\n", b"0"]))
        text += draw.choice([b"\x05", b"0", b" 1"])
    assert explain(["--from", "auto"], text) == explain(detected(text), text)


@pytest.mark.parametrize("length", [0, 1, 8, 63, 64, 65, 128])
def test_detection_of_slow_input(length):
    frame = ack(0)
    for text in (b" " * length, frame.hex().encode().ljust(length), b"#" * length + frame,
                 b"00000000: 05" + b" " * length):
        wanted = explain(detected(text), text)
        assert explain(["--from", "auto"], text) == wanted
        assert slowly(["--from", "auto"], text) == wanted


@pytest.mark.parametrize("way", OTHERS)
def test_other_dumps(way):
    ends = explain(["--from", "hexdump"], dump(way, bytes_of(40)))
    assert ends == (b"", "ddcmp: line 1: not a line of a dump\n", 1)


@pytest.mark.parametrize("way", [["hexdump", "-C"], ["od", "-A", "x", "-t", "x1"]])
def test_repeated_lines(way):
    ends = explain(["--from", "hexdump"], dump(way, bytes(64)))
    assert ends == (b"", "ddcmp: line 2: repeated lines left out (*): dump with -v\n", 1)


@pytest.mark.parametrize("line", range(1, 40))
def test_wrong_line(line):
    lines = dump(drawn.choice(WAYS), bytes_of(640)).splitlines(keepends=True)
    wrong = [b"nothing\n", b" 00 11\n", b"000000  0\n", b"000000  00,\n", b"00: 00\n"]
    lines.insert(line - 1, drawn.choice([*wrong, b"05" * 8 + b"\n"]))
    _, err, status = explain(["--from", "hexdump"], b"".join(lines))
    assert (status, err) == (1, f"ddcmp: line {line}: not a line of a dump\n")


@pytest.mark.parametrize("length", range(1, 40))
def test_wrong_character(length):
    text = dump(drawn.choice(TEXTS), bytes_of(length))
    text = b"\n".join(line for line in text.splitlines() if not line.startswith(b"#"))
    place = drawn.randrange(len(text) + 1)
    wrong = drawn.choice([b"g", b"0xx", b"0x0x", b"0x,", b"|", b"\0", b"\xff"])
    _, err, status = explain(["--from", "text"], text[:place] + wrong + text[place:])
    at = re.fullmatch(r"ddcmp: not hexadecimal at (\d+)\n", err)
    assert status == 1 and at and place <= int(at[1]) <= place + len(wrong)


@pytest.mark.parametrize("name, way", FORMS)
def test_long_dump(name, way):
    """A long dump whose lines aren't cut where pieces of the input are."""
    data = bytes_of(300_000)
    wanted, text = explain(["--raw"], data), dump(way, data)
    assert explain(["--from", name], text) == wanted
    assert explain(["--from", "auto"], text) == wanted
