"""Drawn items of a capture, each with the members that `explain --json` has of it and its bytes."""
import subprocess

from hypothesis import HealthCheck, settings
from hypothesis import strategies as st

from .process import call
from .wire import CONTROL, DATA, KINDS, MAINTENANCE, REASONS, STARTS, checked, crc

MAX = 40  # the most bytes of data that are read; longer frames are too long
START = (DATA, CONTROL, MAINTENANCE)
JUNK = [it for it in range(256) if it not in START]
randoms = st.randoms(use_true_random=False)


def tries(count):
    """Settings of a test with this many drawn inputs, the same in each run."""
    return settings(max_examples=count, deadline=None, database=None, derandomize=True,
                    suppress_health_check=list(HealthCheck))


def fields(draw):
    """The fields that all headers have, as members and as bytes with the flags apart."""
    flags, numbers = draw.randrange(4), [draw.randrange(256) for _ in range(3)]
    members = [("q", flags & 1), ("s", flags >> 1), *zip(("resp", "num", "addr"), numbers)]
    return members, flags << 6, bytes(numbers)


def control(draw, code, sub):
    members, flags, numbers = fields(draw)
    return members, checked(bytes([CONTROL, code, sub | flags]) + numbers)


def counted(draw, name, count):
    members, flags, numbers = fields(draw)
    header = bytes([STARTS[name], count & 255, count >> 8 | flags]) + numbers
    return [("count", count), *members], checked(header)


def good_control(draw):
    kind = draw.choice(list(KINDS))
    sub = draw.choice(list(REASONS)) if draw.randrange(2) else draw.randrange(64)
    members, frame = control(draw, KINDS[kind], sub)
    reason = [("reason", REASONS.get(sub, "other"))] if kind == "NAK" else []
    return [("item", kind), ("sub", sub), *reason, *members], frame


def good_data(draw):
    name, data = draw.choice(list(STARTS)), draw.randbytes(draw.randrange(1, MAX + 1))
    members, header = counted(draw, name, len(data))
    return [("item", name), *members, ("data", data.hex())], header + checked(data)


def wrong_data(draw):
    """A frame whose last byte is another one."""
    (_, name), *members, _ = (it := good_data(draw))[0]
    frame = it[1][:-1] + bytes([it[1][-1] ^ draw.randrange(1, 256)])
    return [("item", "data check"), ("of", name), *members], frame


def too_long(draw):
    name, count = draw.choice(list(STARTS)), draw.randrange(MAX + 1, 300)
    members, header = counted(draw, name, count)
    return [("item", "too long"), ("of", name), *members], header + draw.randbytes(count + 2)


def wrong_header(draw):
    """Eight bytes, the first alone a start byte, whose check is wrong."""
    while True:
        header = bytes([draw.choice(START), *draw.choices(JUNK, k=7)])
        if crc(header[:6]) != header[6:]:
            return [("item", "header check")], header


def wrong_type(draw):
    code = draw.choice([it for it in JUNK if it not in KINDS.values()])
    return no_form(draw, ("type", code), bytes([CONTROL, code]))


def no_count(draw):
    return no_form(draw, ("count", 0), bytes([draw.choice(list(STARTS.values())), 0]))


def no_form(draw, member, begins):
    """A header of no form, in which no other candidate begins."""
    while True:
        size = 6 - len(begins)
        is_counted = member[0] == "count"
        high = bytes(it & 0xC0 for it in draw.choices(JUNK, k=1)) if is_counted else b""
        header = checked(begins + high + bytes(draw.choices(JUNK, k=size - len(high))))
        if not set(START) & set(header[1:]):
            return [("item", "format"), member], header


GOOD = [good_control, good_data]
FAULTY = [wrong_data, too_long, wrong_header, wrong_type, no_count]


def in_words(members):
    """The line in words that says the same."""
    it = dict(members)
    if "items" in it:
        return " ".join(f"{name}={value}" for name, value in members)
    if "discarded" in it:
        return f"{it['offset']} discarded {it['discarded']}"
    it.pop("reason", None)
    if "unfinished" in it:
        name, front = it.pop("unfinished"), it.pop("offset")
        numbers = f"{it.pop('have')} of {it.pop('of')}"
        values = (f"{key}={value}" for key, value in it.items())
        return " ".join([f"{front} unfinished {name}", *values, numbers])
    text = f"{it.pop('offset')} {it.pop('item')}"
    text += f" {it.pop('of')}" if "of" in it else ""
    data = it.pop("data", None)
    values = (f"{name}={value}" for name, value in it.items())
    return " ".join([text, *values, *[data] * (data is not None)])


def explain(text, *words):
    """What `explain` writes of a capture, without a fault."""
    out, err, status = call("explain", *words, given=text)
    assert (err, status) == ("", 0)
    return out.decode()


def jq(text):
    return subprocess.run(["jq", "-c", "."], input=text.encode(), stdout=subprocess.PIPE,
                          check=True).stdout.decode()
