"""Drawn frames, good and damaged, with fill and junk between, as captures over TCP and UDP in
tshark with wireshark/ddcmp.lua: the fields that it shows are those of `ddcmp explain --json`."""
import json
import re
import subprocess

import pytest

from .captures import (
    GOOD, counted, good_control, good_data, no_count, wrong_data, wrong_header, wrong_type)
from .process import TOP, explained
from .wire import KINDS, NAMES, STARTS, checked, crc, drawn

pytestmark = pytest.mark.limit(300)
PORTS = "28700,28701"
HERE = "10.1.1.1"  # where text2pcap has the first of the ports
STARTED_BY = {code: name for name, code in STARTS.items()}
NUMBERS = ("sub", "count", "q", "s", "resp", "num", "addr")


def fill():
    return bytes(drawn.choices([0x96, 0xFF], k=drawn.randrange(1, 6)))


def junk():
    """Bytes of which many or few begin what is no frame."""
    return bytes(
        drawn.choices(drawn.choice([[0x81, 5, 0x90, 0x96], range(256)]), k=drawn.randrange(1, 20)))


def long_data():
    name, data = drawn.choice(list(STARTS)), drawn.randbytes(drawn.randrange(1, 700))
    members, header = counted(drawn, name, len(data))
    return members, header + checked(data)


def cut_frame():
    frame = good_data(drawn)[1]
    return frame[:drawn.randrange(1, len(frame))]


def line_of(count):
    """The bytes of a direction: frames, one in three with a fault, fill and junk."""
    good = [*GOOD, lambda _: long_data()]
    bad = [wrong_data, wrong_header, wrong_type, no_count, lambda _: (None, cut_frame()),
           lambda _: (None, junk()), lambda _: (None, junk())]
    pieces = []
    for _ in range(count):
        pieces.append(drawn.choice(bad if drawn.randrange(3) == 0 else good)(drawn)[1])
        if drawn.randrange(3) == 0:
            pieces.append(fill())
    return [*pieces, good_control(drawn)[1]]  # what a stream waits for at its end isn't shown


def cut_anywhere(pieces):
    """The segments of a stream, whatever was in them: some pieces are cut at each byte, some here
    and there."""
    text, cuts, at = b"".join(pieces), set(), 0
    for piece in pieces:
        often = drawn.randrange(6)
        if often == 0 and len(piece) < 30:
            cuts.update(range(at, at + len(piece) + 1))
        elif often < 4:
            cuts.update(at + drawn.randrange(len(piece) + 1) for _ in range(often))
        at += len(piece)
    places = sorted(cuts | {0, len(text)})
    return [text[one:other] for one, other in zip(places, places[1:])]


def together(pieces):
    """Datagrams of one to four pieces."""
    parts = []
    while pieces:
        count = drawn.choice([1, 1, 2, 4])
        parts.append(b"".join(pieces[:count]))
        pieces = pieces[count:]
    return parts


def run(words):
    return subprocess.run(words, stdout=subprocess.PIPE, timeout=60, check=True).stdout.decode()


def in_words(text):
    """The column of information for these bytes: explain's lines, but for offsets, fill and long
    data."""
    lines = []
    for line in explained(text, "--discarded")[:-1]:
        if line == "no good frame was found":
            continue
        offset, line = line.split(" ", 1)
        passed = re.fullmatch(r"discarded (\d+)", line)
        if not passed or text[int(offset):][: int(passed[1])].strip(b"\x96\xff"):
            line = re.sub(r" \d+ of \d+$", "", line)
            lines.append(re.sub(r"(?<= [0-9a-f]{32})[0-9a-f]+$", "..", line))
    return " | ".join(lines)


def items_of(text):
    """What `explain` prints of these bytes: of each item its kind and numbers, with what was
    skipped joined."""
    found = []
    *lines, last = map(json.loads, explained(text, "--json", "--discarded"))
    assert "items" in last
    for line in lines:
        line.pop("offset")
        if "discarded" in line:
            add(found, {"discarded": line["discarded"]})
        else:
            if "unfinished" in line:
                line["of"] = line.pop("unfinished")
                line["item"] = "unfinished"
            found.append(line)
    return found


def add(found, item):
    """Adds an item; what is passed over in two pieces counts as one, whatever was found wrong
    inside."""
    if "discarded" in item and found and "discarded" in found[-1]:
        found[-1]["discarded"] += item["discarded"]
    else:
        found.append(item)


def checks_of(it):
    """The checks that a good frame with these fields has."""
    flags = int(it["q"]) << 6 | int(it["s"]) << 7
    if "count" in it:
        two = (int(it["count"]) | flags << 8).to_bytes(2, "little")
    else:
        two = bytes([int(it["type"]), int(it["sub"]) | flags])
    header = bytes([int(it["class"], 16)]) + two + bytes(
        int(it[name]) for name in ("resp", "num", "addr"))
    texts = {"blkck1": header, **({"blkck2": bytes.fromhex(it["data"].replace(":", ""))}
                                  if "data" in it else {})}
    return {name: int.from_bytes(crc(text), "little") for name, text in texts.items()}


def shown(layer):
    """An item as explain has it, of the fields that tshark shows."""
    it = {name.removeprefix("ddcmp."): value for name, value in layer if name.startswith("ddcmp.")}
    experts = {name for key, value in layer if key == "_ws.expert" for name, _ in value}
    kind = it["item"]
    if kind in ("fill", "discarded"):
        text = bytes.fromhex(it[kind].replace(":", ""))
        assert (kind == "fill") == (not text.strip(b"\x96\xff"))
        assert ("ddcmp.junk" in experts) == (kind == "discarded")
        return {"discarded": len(text)}
    found = {"item": kind}
    header_is_good = it.get("blkck1.status") == "1"
    assert (kind == "header check") == ("ddcmp.blkck1.bad" in experts)
    assert "blkck1.status" not in it or header_is_good != (kind == "header check")
    assert (kind == "data check") == ("ddcmp.blkck2.bad" in experts)
    assert kind not in KINDS or kind == NAMES[int(it["type"])]
    if kind == "header check":
        return found
    if kind == "format":
        return {**found, **({"count": int(it["count"])} if "count" in it
                            else {"type": int(it["type"])})}
    named = "class" in it and (STARTED_BY.get(int(it["class"], 16)) or NAMES[int(it["type"])])
    numbers = {name: int(it[name], 16) for name in ("blkck1", "blkck2") if name in it}
    assert kind != named or checks_of(it) == numbers
    assert (named == "NAK") == ("ddcmp.nak" in experts)
    if kind in ("unfinished", "data check"):
        found["of"] = named or "header"
    found.update((name, int(it[name])) for name in NUMBERS if name in it)
    if "reason" in it:
        found["reason"] = it["reason"]
    if "have" in it:
        found["have"] = int(it["have"])
    if "data" in it and kind != "data check":
        found["data"] = it["data"].replace(":", "")
    return found


def members(layers, name):
    return [value for key, value in layers if key == name]


def tshark(capture, words):
    return run(["tshark", "-X", f"lua_script:{TOP}/wireshark/ddcmp.lua", "-r", capture, *words])


def read(capture, words):
    """Of each packet of a capture its address and port and the items that tshark shows."""
    text = tshark(capture, [*words, "-T", "json", "-J", "ip tcp udp ddcmp"])
    for packet in json.loads(text, object_pairs_hook=list):
        layers = dict(dict(packet)["_source"])["layers"]
        ends = [it for name in ("tcp", "udp") for it in members(layers, name)]
        port = int(dict(ends[0])[f"{'tcp' if members(layers, 'tcp') else 'udp'}.srcport"])
        address = dict(members(layers, "ip")[0])["ip.src"]
        assert not any("Lua Error" in key for key, _ in layers)
        found = [shown(it) for it in members(layers, "ddcmp") if not isinstance(it, str)]
        yield (address, port), found


def capture(kept, kind, both, ports=PORTS):
    """Writes a capture of the pieces of both directions, mixed."""
    left = [list(it) for it in both]
    with open(f"{kept}/frames", "w", encoding="ascii") as it:
        while any(left):
            way = drawn.choice([way for way in (0, 1) if left[way]])
            it.write(f"{'IO'[way]}\n000000 {left[way].pop(0).hex(' ')}\n")
    run(["text2pcap", "-q", "-D", kind, ports, f"{kept}/frames", f"{kept}/capture"])
    return f"{kept}/capture"


def without_open(found):
    """What a stream still waits for isn't shown."""
    return [it for it in found if it.get("item") != "unfinished"]


def test_streams(tmp_path):
    """Over TCP, by either port, and with the same port at both ends; in one pass and in two."""
    both = [cut_anywhere(line_of(400)) for _ in range(2)]
    wanted = [without_open(items_of(b"".join(it))) for it in both]
    made = capture(tmp_path, "-T", both)
    ways = [(["-o", "ddcmp.ports:28690-28700"], PORTS),
            (["-2", "-d", "tcp.port==28701,ddcmp"], PORTS),
            (["-o", "ddcmp.ports:28700"], "28700,28700")]
    for words, ports in ways:
        if ports != PORTS:
            made = capture(tmp_path, "-T", both, ports)
        got = [[], []]
        for (address, _port), found in read(made, words):
            for it in found:
                add(got[address != HERE], it)
        assert got == wanted


def test_datagrams(tmp_path):
    """Over UDP, each datagram by itself, and its line in the column of information."""
    both = [together(line_of(200)) for _ in range(2)]
    made = capture(tmp_path, "-u", both)
    words, got, column = ["-o", "ddcmp.ports:1-5,28701"], [[], []], [[], []]
    for (_address, port), found in read(made, words):
        got[port != 28700].append(found)
    words += ["-T", "fields", "-e", "udp.srcport", "-e", "_ws.col.Info"]
    for port, info in [line.split("\t") for line in tshark(made, words).splitlines()]:
        column[port != "28700"].append(info)
    for way in (0, 1):
        wanted = [in_words(it) for it in both[way]]
        assert len(got[way]) == len(column[way]) == len(wanted)
        assert [it if words else "" for it, words in zip(column[way], wanted)] == wanted
        for found, text in zip(got[way], both[way]):
            joined = []
            for it in found:
                add(joined, it)
            assert joined == items_of(text), text.hex()
