"""What `ddcmp explain` prints of drawn captures, in words and as JSON, with and without
--discarded: compared with what was drawn, with readers of JSON that aren't ours, and with a reader
written here, which has each byte in one line."""
import json
import subprocess

import pytest
from hypothesis import given

from .captures import FAULTY, GOOD, MAX, explain, good_control, in_words, jq, randoms, tries
from .process import PROGRAM, Process, commands_in
from .wire import CONTROL, KINDS, NAMES, REASONS, STARTS, ack, crc

pytestmark = pytest.mark.limit(300)
STARTED_BY = {code: name for name, code in STARTS.items()}


def capture_of(draw, count):
    """The objects of this many items, and their bytes: a good control frame after each fault."""
    objects, text = [], b""
    while len(objects) < count:
        maker = draw.choice([*GOOD, *FAULTY])
        for make in [maker] if maker in GOOD else [maker, good_control]:
            members, piece = make(draw)
            objects.append([("offset", len(text)), *members])
            text += piece
        text += b"\x96" * draw.randrange(3)
    return [*objects, [("items", len(objects)), ("bytes", len(text)), ("open", 0)]], text


def compact(lines):
    return "".join(json.dumps(dict(it), separators=(",", ":")) + "\n" for it in lines)


@tries(200)
@given(randoms)
def test_objects(draw):
    """Each line is an object with the members that were drawn; words and digits say the same."""
    wanted, text = capture_of(draw, 50)
    out = explain(text, "--max", str(MAX), "--json", "--raw")
    objects = [json.loads(it, object_pairs_hook=list) for it in out.splitlines()]
    assert objects == [[list(it) for it in members] for members in wanted] or objects == wanted
    assert out == compact(wanted)
    assert explain(text.hex().encode(), "--max", str(MAX), "--json") == out
    assert jq(out) == out
    words = "".join(in_words(it) + "\n" for it in wanted)
    assert explain(text, "--max", str(MAX), "--raw") == words


def members_of(header):
    """The name of eight bytes whose check is right, their members and how many bytes the frame
    has; or a fault."""
    flags, numbers = header[2] >> 6, header[3:6]
    rest = [("q", flags & 1), ("s", flags >> 1), *zip(("resp", "num", "addr"), numbers)]
    if header[0] == CONTROL:
        name, sub = NAMES.get(header[1]), header[2] & 63
        if name is None:
            return None, [("type", header[1])], 8
        reason = [("reason", REASONS.get(sub, "other"))] if name == "NAK" else []
        return name, [("sub", sub), *reason, *rest], 8
    count = header[1] | (header[2] & 63) << 8
    if count == 0:
        return None, [("count", 0)], 8
    return STARTED_BY[header[0]], [("count", count), *rest], count + 10


def line_of(text, at, name, members, size):
    """The line of an item whose header is whole, and how many of its bytes are in it; None of a
    frame that is cut off."""
    received = min(size, len(text) - at)
    if name is None:
        return 8, [("offset", at), ("item", "format"), *members]
    if members[0][0] != "count":
        return 8, [("offset", at), ("item", name), *members]
    if members[0][1] > MAX:
        line = [("offset", at), ("item", "too long"), ("of", name), *members]
        return size if received == size else 0, line
    data, check = text[at + 8:at + size - 2], text[at + size - 2:at + size]
    if received < size:
        return None
    if crc(data) == check:
        return size, [("offset", at), ("item", name), *members, ("data", data.hex())]
    return size, [("offset", at), ("item", "data check"), ("of", name), *members]


def read(text):
    """The lines of a capture, each with how many of its bytes are in it, without those that were
    skipped; and where what is open begins."""
    lines, at, lost = [], 0, False
    while at < len(text):
        if text[at] not in (*STARTED_BY, CONTROL):
            at += 1
            continue
        header = text[at:at + 8]
        if len(header) < 8:
            begins = [("offset", at), ("unfinished", "header"), ("have", len(header)), ("of", 8)]
            return [*lines, (len(header), begins)], at
        if crc(header[:6]) != header[6:]:
            if not lost:
                lines.append((0, [("offset", at), ("item", "header check")]))
            at, lost = at + 1, True
            continue
        name, members, size = members_of(header)
        line, received = line_of(text, at, name, members, size), min(size, len(text) - at)
        lines += [line] if line else []
        if received < size:
            begins = [("offset", at), ("unfinished", name), *members]
            return [*lines, (received, [*begins, ("have", received), ("of", size)])], at
        at, lost = at + size, False
    return lines, len(text)


def all_lines(text):
    """All lines with those of skipped bytes, so that each byte is in one of them."""
    lines, begins = read(text)
    reached, found = 0, []
    count = sum(it[1][0] == "item" for _, it in lines)
    last = [("items", count), ("bytes", len(text)), ("open", len(text) - begins)]
    for size, members in [*lines, (0, [("offset", begins)])]:
        offset = members[0][1]
        if reached < offset:
            found.append((offset - reached, [("offset", reached), ("discarded", offset - reached)]))
            reached = offset
        if len(members) > 1:
            found.append((size, members))
            reached = max(reached, offset + size)
    at = 0
    for size, members in found:
        assert size == 0 or members[0][1] == at
        at += size
    assert at == len(text), "a byte is in no line"
    return [*(members for _, members in found), last]


def piece(draw):
    """Some bytes of a capture: an item, the beginning of one, junk, or start bytes among junk."""
    kind = draw.randrange(5)
    if kind < 3:
        made = draw.choice([*GOOD, *FAULTY])(draw)[1]
        return made if kind else made[:draw.randrange(len(made) + 1)]
    if kind == 3:
        return draw.randbytes(draw.randrange(20))
    return bytes(draw.choices([0x81, 5, 0x90, 0x96, 0, 1], k=draw.randrange(20)))


@tries(3000)
@given(randoms)
def test_each_byte_in_a_line(draw):
    """Of captures with damage, junk and cuts, in words and as objects, and without --discarded."""
    text = b"".join(piece(draw) for _ in range(draw.randrange(12)))
    lines = all_lines(text)
    good = {*KINDS, *STARTS}
    is_good = any(dict(it).get("item") in good for it in lines)
    note = "" if is_good else "no good frame was found\n"  # which words alone have
    words = "".join(in_words(it) + "\n" for it in lines[:-1]) + note + in_words(lines[-1]) + "\n"
    options = "--raw", "--max", str(MAX)
    assert explain(text, *options, "--discarded") == words
    assert explain(text, *options, "--discarded", "--json") == compact(lines)
    plain = [it for it in lines if not {"discarded", "unfinished"} & dict(it).keys()]
    assert explain(text, *options) == "".join(in_words(it) + "\n" for it in plain)


def test_open_input():
    """The line of a frame is printed while the input is open."""
    run = Process([*PROGRAM, "explain", "--raw"])
    run.give(ack(0), close=False)
    assert run.waits(lambda it: it.out == b"0 ACK sub=0 q=0 s=0 resp=0 num=0 addr=1\n", 10)


def test_example_without_a_frame():
    """What docs/USING.md prints of a capture without a good frame."""
    command = commands_in("USING.md", ".*# no good frame was found").split("\n")[0]
    out = subprocess.run(["sh", "-c", command], stdout=subprocess.PIPE, check=True).stdout
    assert b"no good frame was found\n" in out
