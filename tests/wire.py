"""DDCMP as bytes: the CRC, frames, a reader of what a station sends, and messages as a link reads
them."""
import random
import time

DATA, CONTROL, MAINTENANCE = 0x81, 0x05, 0x90  # the first bytes of frames
SYN, DEL = 0x96, 0xFF
STARTS = {"DATA": DATA, "MAINT": MAINTENANCE}
KINDS = {"ACK": 1, "NAK": 2, "REP": 3, "STRT": 6, "STACK": 7}
NAMES = {code: name for name, code in KINDS.items()}
REASONS = {1: "header check", 2: "data check", 3: "reply to REP",
           8: "buffer temporarily unavailable", 9: "receive overrun", 16: "message too long",
           17: "header format error"}
drawn = random.Random()  # each trial has its own inputs of it: conftest.py seeds it


def shifted(register):
    """A register of the CRC after a byte of zeros."""
    for _ in range(8):
        register = register >> 1 ^ (0xA001 if register & 1 else 0)
    return register


SHIFTED = [shifted(byte) for byte in range(256)]


def crc(data):
    """CRC-16 of 0x8005, low bit first, begun at 0; low byte first."""
    register = 0
    for byte in data:
        register = register >> 8 ^ SHIFTED[(register ^ byte) & 255]
    return bytes([register & 255, register >> 8])


def checked(data):
    """With its CRC."""
    return data + crc(data)


def control(kind, sub=0, resp=0, num=0):
    return checked(bytes([CONTROL, kind, sub, resp & 255, num & 255, 1]))


STRT, STACK = control(6, 0xC0), control(7, 0xC0)


def ack(resp):
    return control(1, 0, resp)


def nak(reason, resp):
    return control(2, reason, resp)


def rep(num):
    return control(3, 0, 0, num)


def header(count, num, resp=0):
    return checked(bytes([DATA, count & 255, count >> 8, resp & 255, num & 255, 1]))


def data(message, num, resp=0):
    return header(len(message), num, resp) + checked(message)


def maintenance(message):
    """A maintenance message: DLE, COUNT with both flags, two bytes of zero, the address, CRCs."""
    count = len(message)
    head = bytes([MAINTENANCE, count & 255, count >> 8 | 0xC0, 0, 0, 1])
    return checked(head) + checked(message)


class Frame:
    """A frame that was received, at its moment."""

    def __init__(self, name, resp, num, message, sub):
        self.name, self.resp, self.num, self.message, self.sub = name, resp, num, message, sub
        self.moment = time.monotonic()

    def __repr__(self):
        return f"{self.name} resp={self.resp} num={self.num} sub={self.sub} of {len(self.message)}"


class Reader:
    """Finds the frames in received bytes; what is none, and no fill, is junk."""

    def __init__(self):
        self.rest, self.junk = b"", b""

    def push(self, piece):
        rest, found, at = self.rest + piece, [], 0
        while at < len(rest):
            byte = rest[at]
            if byte in (SYN, DEL):
                at += 1
                continue
            head = rest[at:at + 8]
            if byte in (CONTROL, DATA) and len(head) < 8:
                break
            if byte not in (CONTROL, DATA) or checked(head[:6]) != head:
                self.junk += rest[at:at + 1]
                at += 1
                continue
            count = head[1] + ((head[2] & 63) << 8) + 2 if byte == DATA else 0
            body = rest[at + 8:at + 8 + count]
            if len(body) < count:
                break
            if count and checked(body[:-2]) != body:
                self.junk += head + body
            else:
                name = "DATA" if count else NAMES.get(head[1], "?")
                found.append(Frame(name, head[3], head[4], body[:-2], head[2] & 63))
            at += 8 + count
        self.rest = rest[at:]
        return found


def binary(messages):
    """Messages as `link --binary` reads and writes them."""
    return b"".join(len(it).to_bytes(2, "big") + it for it in messages)


def commands(*texts):
    """Commands as `link --binary --events` reads them, each after its length, whose top bit is set."""
    return b"".join((0x8000 + len(it)).to_bytes(2, "big") + it.encode() for it in texts)


def digits(messages):
    """Messages as a link reads them, a line each."""
    return "".join(it.hex() + "\n" for it in messages).encode()


def command_lines(*texts):
    """Commands as `link --events` reads them among lines."""
    return "".join(f"?{it}\n" for it in texts).encode()


def unpacked(text):
    """The messages of a binary output."""
    found, at = [], 0
    while at + 2 <= len(text):
        length = int.from_bytes(text[at:at + 2], "big")
        found.append(text[at + 2:at + 2 + length])
        at += 2 + length
    return found


def in_lines(text):
    """An output with events as lines: of each record whose length has the top bit set its text, of
    another its message as digits."""
    lines, at = [], 0
    while at + 2 <= len(text):
        length = int.from_bytes(text[at:at + 2], "big")
        record = text[at + 2:at + 2 + length % 0x8000]
        lines.append(record.decode() if length & 0x8000 else f"mail {record.hex()}")
        at += 2 + length % 0x8000
    assert at == len(text)
    return lines


def mail_in(text):
    """The messages among the lines of an output."""
    lines = text.split(b"\n")[:-1]
    return [bytes.fromhex(it[5:].decode()) for it in lines if it.startswith(b"mail ")]


def drawn_frame(sizes):
    """A drawn frame, whole, damaged or cut off, and what follows it; data of any of these sizes and
    of up to 60 bytes."""
    kind = drawn.randrange(6)
    if kind < 2:
        made = control(drawn.choice([1, 2, 3, 6, 7, 7, 9]), drawn.randrange(64),
                       drawn.randrange(256), drawn.randrange(256))
    elif kind == 2:
        made = maintenance(drawn.randbytes(drawn.randrange(1, 40)))
    else:
        size = drawn.choice(sizes) if kind == 5 else drawn.randrange(1, 60)
        made = data(drawn.randbytes(size), drawn.randrange(256), drawn.randrange(256))
    fate = drawn.randrange(8)
    if fate == 0:
        at = drawn.randrange(len(made))
        made = made[:at] + bytes([made[at] ^ drawn.randrange(1, 256)]) + made[at + 1:]
    elif fate == 1:
        made = made[:drawn.randrange(len(made))]
    return made + drawn.randbytes(drawn.choice([0, 0, 0, 3])) + b"\x96" * drawn.randrange(3)


def drawn_frames(count, sizes=(1, 2, 60)):
    return b"".join(drawn_frame(sizes) for _ in range(count))


def messages_of(count, most=1500):
    """Drawn messages, many of them as short or as long as can be."""
    return [drawn.randbytes(drawn.choice([1, 2, 3, most, drawn.randrange(1, most + 1)]))
            for _ in range(count)]
