"""Pictures of runs with `ddcmp simulate`: those that are stored in docs/pictures are drawn again,
and none of their texts lies on another; of drawn scripts a ladder and a document in SVG agree with
the text. Documents are read by parsers that aren't ours: Python's and xmllint."""
import glob
import os
import re
import select
import subprocess
import xml.etree.ElementTree as tree

import pytest
from hypothesis import given

from .captures import randoms, tries
from .process import PROGRAM, TOP, call

pytestmark = pytest.mark.limit(300)
STARTUP = "start A\nstart B\npoll A\npass A\npoll B\npass B\npoll A\npass A\n"
WORDS = ["poll", "poll", "poll", "pass", "pass", "pass", "send", "take", "lose", "cut", "damage",
         "raw", "expire", "start", "halt", "state", "clear", "settle", "recover", "# words", "",
         "other"]


def run(script, *words):
    out, err, status = call("simulate", *words, given=script.encode())
    return out.decode(), err, status


def texts_of(document):
    """The texts of a document, by Python's parser; xmllint reads it too."""
    root = tree.fromstring(document)
    subprocess.run(["xmllint", "--noout", "-"], input=document.encode(), check=True)
    return [it for it in root.iter() if it.tag.endswith("}text")]


def outline(it):
    """Points of the box that a text has, if a character is 6.5 wide and 9 high: its place, and the
    other two."""
    turn = [float(n) for n in re.findall(r"[-.\d]+", it.get("transform", "1 0 0 1 0 0"))]
    width = 6.5 * len(it.text)
    left = float(it.get("x")) - {"end": width, "middle": width / 2}.get(it.get("text-anchor"), 0)
    return [(turn[0] * x + turn[2] * y + turn[4], turn[1] * x + turn[3] * y + turn[5])
            for y in (float(it.get("y")), float(it.get("y")) - 9) for x in (left, left + width)]


def lie_apart(one, other):
    """Whether a line along a side of one of two boxes has them on both sides."""
    for box in (one, other):
        for end in (box[1], box[2]):
            across = (box[0][1] - end[1], end[0] - box[0][0])
            first, second = ([x * across[0] + y * across[1] for x, y in it] for it in (one, other))
            if max(first) < min(second) or max(second) < min(first):
                return True
    return False


@pytest.mark.parametrize("path", sorted(glob.glob(f"{TOP}/docs/pictures/*.txt")),
                         ids=os.path.basename)
def test_stored(path, request):
    """A stored picture is drawn again; --store makes it anew."""
    with open(path, encoding="utf-8") as it:
        document, err, status = run(it.read(), "--svg")
    assert (err, status) == ("", 0)
    picture = path.removesuffix(".txt") + ".svg"
    if request.config.getoption("--store"):
        with open(picture, "w", encoding="utf-8") as it:
            it.write(document)
    with open(picture, encoding="utf-8") as it:
        assert it.read() == document
    texts = texts_of(document)
    boxes = [outline(it) for it in texts]
    for i, one in enumerate(boxes):
        for j in range(i):
            assert lie_apart(one, boxes[j]), (texts[j].text, texts[i].text)


@pytest.mark.parametrize("words, wanted", [
    ([], b"A started dropped=0\n"), (["--ladder"], b"| start, now IStart "),
])
def test_step_by_step(words, wanted):
    """What a line does is written before the next line is there, in text and in a ladder."""
    words = [*PROGRAM, "simulate", *words]
    with subprocess.Popen(words, stdin=subprocess.PIPE, stdout=subprocess.PIPE) as it:
        it.stdin.write(b"start A\n")
        it.stdin.flush()
        out, piece = b"", b"-"
        while piece and wanted not in out and select.select([it.stdout], [], [], 20)[0]:
            piece = os.read(it.stdout.fileno(), 4096)
            out += piece
        assert wanted in out
        it.communicate(timeout=20)


MARKED = """start A
poll A
cut A 3
lose A
lose A
pass A
poll A
expire A
poll A
damage A 3 01
pass A
expire A
poll A
damage A 0 01
raw B 05
take B
state B
clear
"""
MARKS = """A                                                                            B
| start, now IStart                                                          |
|-- STRT ------------------------>                                           |
|                                           ----------------- STRT, 3 of 8 -||
|-- STRT, rest, lost -----------------X                                      |
| nothing to lose                                                            |
| nothing to pass                                                            |
| idle                                                                       |
| expired                                                                    |
|-- STRT ------------------------>                                           |
|                                           ~~~~~~~~~~~~~~~~ STRT, damaged ->|
|                                                         header check wrong |
| expired                                                                    |
|-- STRT ------------------------>                                           |
|                                           .................... bytes: 05 ->|
|                                                            nothing to take |
|                                                     Halted R=0 N=0 A=0 T=1 |
|                                                       out=0 in=0 timer=off |
|                        line not cleared: not halted                        |
honest yes clean yes up A=0 B=0 acked A=0 B=0
"""
TEXTS = [  # with the flights, of which the last hasn't ended
    "A", "B", "start, now IStart", "nothing to lose", "nothing to pass", "idle", "expired",
    "header check wrong", "expired", "nothing to take", "Halted R=0 N=0 A=0 T=1",
    "out=0 in=0 timer=off", "STRT, 3 of 8", "lost", "STRT, rest", "STRT, damaged", "bytes: 05",
    "line not cleared: not halted", "STRT, damaged",
    "honest yes clean yes up A=0 B=0 acked A=0 B=0"]


def test_marks():
    """Each line of a script has its marks, in a ladder and in a document."""
    assert run(MARKED, "--ladder") == (MARKS, "", 0)
    document, *ends = run(MARKED, "--svg")
    assert [it.text for it in texts_of(document)] == TEXTS and ends == ["", 0]


def drawn_line(draw):
    end, other = draw.sample("AB", 2)
    word = draw.choice(WORDS)
    if word in ("clear", "settle", "recover", "# words", ""):
        return word
    if word == "send":
        return f"send {end} {draw.randbytes(draw.choice([1, 2, 3, 11, 40])).hex()}"
    if word == "raw":
        return f"raw {end} {draw.randbytes(draw.randrange(1, 12)).hex()}"
    if word == "cut":
        return f"cut {end} {draw.randrange(1, 15)}"
    if word == "damage":
        return f"damage {end} {draw.randrange(20)} {draw.randrange(256):02x}"
    if word == "other" and draw.randrange(40) == 0:
        return draw.choice(["boom", f"send {end} 6", f"cut {other} 0", "pass"])
    return f"{word} {end}" if word != "other" else f"poll {other}"


def drawn_script(draw):
    lines = [drawn_line(draw) for _ in range(draw.randrange(60))]
    end = draw.choice(["\n", "", "\r\n"])
    return draw.choice(["", STARTUP, STARTUP]) + draw.choice(["\n", "\r\n"]).join(lines) + end


@tries(300)
@given(randoms)
def test_drawn_scripts(draw):
    """Each picture has the fault and the status of the text and, if it has one, its last line
    below, in a document without the counters that are 0 and within its width; each line of a
    ladder has 78 columns. So has a script that stops at a line."""
    script = drawn_script(draw)
    words = draw.choice([[], ["--counters"], ["--window=2", "--inbox=1"],
                         ["--syn=5", "--counters", "--restart"]])
    text, *ends = run(script, *words)
    ladder, *ladder_ends = run(script, "--ladder", *words)
    document, *document_ends = run(script, "--svg", *words)
    assert ends == ladder_ends == document_ends
    closing = 0 if ends[1] else 3 if "--counters" in words else 1
    last = text.splitlines()[len(text.splitlines()) - closing:]
    rows = ladder.splitlines()
    assert rows[len(rows) - closing:] == last
    for row in rows[:len(rows) - closing]:
        assert len(row) == 78 and row[0] + row[-1] in ("||", "AB")
    texts = [it.text for it in texts_of(document)]
    assert max(map(len, texts), default=0) <= 125
    # The counters come before the last line.
    counters = [it for line in last[:-1] for it in line.split() if not it.endswith("=0")]
    caption = [*counters, *" ".join(last[-1:]).split()]
    assert not caption or " ".join(texts[-40:]).split()[-len(caption):] == caption
