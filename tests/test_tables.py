"""Inputs and outputs of `ddcmp explain` by hand: in words and as JSON, of digits, bytes, dumps and
logs, each input also in pieces of several sizes; two captures as a ladder; reads that fail, and
writes that fail after each byte."""
import contextlib
import fcntl
import os
import resource
import select
import socket
import subprocess
import termios
import threading
import time

import pytest

from .process import PROGRAM, call, refusing, reset_at_close
from .wire import STACK, STRT, ack, data, header, maintenance, nak, rep

pytestmark = pytest.mark.limit(300)
SIZES = 1, 2, 3, 5, 7, 63, 64, 65, 4096
ODD, LINE = "odd number of digits", "line {}: not a line of a dump"


def trickle(pipe, text, most):
    """Writes pieces of at most this many bytes, each once nothing is left of the one before."""
    reader = select.poll()
    reader.register(pipe, 0)
    with open(pipe, "wb", buffering=0) as it, contextlib.suppress(BrokenPipeError):
        for at in range(0, len(text), most):
            if reader.poll(0):  # that nobody reads
                break
            it.write(text[at:at + most])
            while fcntl.ioctl(pipe, termios.FIONREAD, bytes(4)) != bytes(4) and not reader.poll(0):
                time.sleep(0.0001)


def in_pieces(most, words, *texts):
    """What `explain` writes of these inputs, of which no read returns more bytes than this."""
    pipes = [os.pipe() for _ in texts]
    readers = [reading for reading, _ in pipes]
    words = [*PROGRAM, "explain", *words, *(f"/dev/fd/{it}" for it in readers)]
    run = subprocess.Popen(words, stdin=subprocess.DEVNULL, stdout=subprocess.PIPE,
                           stderr=subprocess.PIPE, pass_fds=readers, text=True)
    for (reading, writing), text in zip(pipes, texts):
        os.close(reading)
        threading.Thread(target=trickle, args=(writing, text, most), daemon=True).start()
    out, err = run.communicate(timeout=60)
    return out, err, run.returncode


def items(*lines, size, opened=0):
    """The lines of these items, and the last line."""
    return "".join(f"{it}\n" for it in (*lines, f"items={len(lines)} bytes={size} open={opened}"))


def ending(out, fault=""):
    return out, f"ddcmp: {fault}\n" if fault else "", 1 if fault else 0


ACK = "{} ACK sub=0 q=0 s=0 resp=0 num=0 addr=1"
DATA = "{} DATA count=3 q=0 s=0 resp=0 num=1 addr=1"
FORMATS = items("0 format count=0", "8 format type=4", ACK.format(16), size=24)
STARTUP = items("0 STRT sub=0 q=1 s=1 resp=0 num=0 addr=1",
                "11 STACK sub=0 q=1 s=1 resp=0 num=0 addr=1", size=19)
OF_STRT, OF_ACK = STARTUP.splitlines(True)[0], ACK.format(0) + "\n"
BOTH = items(ACK.format(0), DATA.format(8) + " 616263", size=21)
TOO_LONG = "0 too long DATA count=1501 q=0 s=0 resp=0 num=1 addr=1"
BAD_DATA = "0 data check DATA count=3 q=0 s=0 resp=0 num=1 addr=1"
OBJECT = '{"offset":0,"item":"%s","count":3,"q":0,"s":0,"resp":0,"num":1,"addr":1%s}\n'
OF_DATA = OBJECT % ("DATA", ',"data":"616263"')
OF_BAD_DATA = OBJECT % ('data check","of":"DATA', "")
TOTALS = '{"items":1,"bytes":13,"open":0}\n'
FRAME = data(b"abc", 1)
RAW = ack(0) + FRAME
FORMAT_BYTES = bytes.fromhex("810000000101de41 0504000000013055 050100000001fc55")
# An ACK as `hexdump -C` writes it, and the bytes after it as `xxd` does.
DUMPS = b"""00000000  05 01 00 00 00 01 fc 55                           |.......U|
00000008
00000008: 8103 0000 0101 9a41 6162 6338 97         .......Aabc8.
"""
DUMP = b"""00000000: 0501 0000 0001 fc55 8103 0000 0101 9a41  .......U.......A
00000010: 6162 6338 97                             abc8.
"""
LOG = (b"# from A: 0x05\n0x05, 0x01, 0x00, 0x00,\t0X00, 0x01, 0xFC, 0x55\r\n"
       b"81:03:00:00:01:01:9a:41-616263 38,97# data")
DIGITS = b"0506c00000017595 9696ff 0507c00000014855"

EXPLAINED = {"": [
    (b"050100000001fc55", items(ACK.format(0), size=8)),
    (b"", items(size=0)),
    (DIGITS, STARTUP),
    (b"05 01 40 05 00 07 79 96", items("0 ACK sub=0 q=1 s=0 resp=5 num=0 addr=7", size=8)),
    (b"0501000000", items(size=5, opened=5)),
    (b"05 0\t1\r\n000 00001FC55", items(ACK.format(0), size=8)),
    (b"050", "", ODD),
    (b"05zz", "", "not hexadecimal at 2"),
    (b"050100000001fc55x", ACK.format(0) + "\n", "not hexadecimal at 16"),
    (b"0 ", "", ODD),
    (b"81 050100000001fc55", items("0 header check", ACK.format(1), size=9)),
    (b"0504000000013055", items("0 format type=4", size=8)),
    (b"050100000001fc54 050100000001fc55", items("0 header check", ACK.format(8), size=16)),
    (b"05" * 300, items("0 header check", size=300, opened=7)),  # one loss of synchronism
], "--max 1500": [
    (b"8103000001019a4161626338", items(size=12, opened=12)),
    (b"8103000001019a416162633897", items(DATA.format(0) + " 616263", size=13)),
    (b"9003c0000001a4906162633897",
     items("0 MAINT count=3 q=1 s=1 resp=0 num=0 addr=1 616263", size=13)),
    (b"8103000001019a416162633896", items(BAD_DATA, size=13)),
    (b"810000000101de41 0504000000013055 050100000001fc55", FORMATS),
    (b"81dd05000101329e", items(TOO_LONG, size=8, opened=8)),
], "--max 1500 --raw": [  # what is too long is skipped without a check of its CRC
    (header(1501, 1) + b"\x05" * 1502, items(TOO_LONG, size=1510, opened=1510)),
    (header(1501, 1) + b"\x05" * 1503 + ack(0),
     items(TOO_LONG, ACK.format(1511), size=1519)),
], "--raw": [
    (ack(0), items(ACK.format(0), size=8)),
    (FORMAT_BYTES, FORMATS),
    # A frame that has begun is open, and yields no item.
    *((FRAME[:it], items(size=it, opened=it)) for it in range(13)),
    *((b"\x81" + ack(0)[:it - 1], items(size=it, opened=it)) for it in range(1, 8)),
    (b"\x81" + ack(0)[:7], items("0 header check", size=8, opened=7)),
    # A beginning of a frame, 1600 zeros and an ACK. An incomplete header has a wrong CRC. Eight
    # bytes are a complete one, and three zeros with their CRC of 0 are good data.
    *((FRAME[:it] + bytes(1600) + ack(0), items(text, ACK.format(it + 1600), size=it + 1608))
      for it, text in (*((it, "0 header check") for it in range(1, 8)),
                       (8, DATA.format(0) + " 000000"), *((it, BAD_DATA) for it in range(9, 13)))),
], "--max 1500 --json": [
    (b"8103000001019a416162633897", OF_DATA + TOTALS),
    (b"8103000001019a416162633896", OF_BAD_DATA + TOTALS),
    (b"810000000101de41 0504000000013055 0",
     '{"offset":0,"item":"format","count":0}\n{"offset":8,"item":"format","type":4}\n', ODD),
], "--from xxd": [
    (DUMPS, BOTH),
    (b"000000  05\nx\n000000  01\n", "", LINE.format(2)),
    (b"000000\n000000  0\n", "", LINE.format(2)),
    (b"\n000000: 05010\n", "", LINE.format(2)),
    (b"000000\r\n000000  01\rx\n", "", LINE.format(2)),
    (b"000000\n000000 01 0", "", LINE.format(2)),
    (b"000000  05\n\n*\n000010\n", "", "line 3: repeated lines left out (*): dump with -v"),
], "--from text": [
    (LOG, BOTH),
    *((text, "", f"not hexadecimal at {at}") for text, at in (
        (b"05 01 0 0", 7), (b"05 0x 01", 5), (b"0x0x05", 3), (b"00x05", 2), (b"5x05", 1),
        (b"05; 01", 2), (b"# 05\n05h", 7), (b"05 # 0\n0#1", 8))),
    (b"05 01 0", "", ODD), (b"05 01 0x", "", ODD), (b"0x05 0x1", "", ODD),
], "--from auto": [
    (RAW, BOTH), (DUMP, BOTH), (LOG, BOTH),
    (b"", items(size=0)),
    (b"\n# nothing", items(size=0)),
    (b"\x05", items(size=1, opened=1)),
    (b"0", "", ODD),
    (b"05 g", "", "not hexadecimal at 3"),
    # Six digits and a blank begin a dump, five don't; nor do sixteen, which are a frame.
    (b"000000 050", "", LINE.format(1)),
    (b"00000 05", "", "not hexadecimal at 5"),
    (b"050100000001fc55 05", items(ACK.format(0), size=9, opened=1)),
]}


@pytest.mark.parametrize("words, text, wanted", [
    (words, it[0], ending(*it[1:])) for words, rows in EXPLAINED.items() for it in rows])
def test_explained(words, text, wanted):
    for most in SIZES:
        assert in_pieces(most, words.split(), text) == wanted


# The frames of the published layouts.
PUBLISHED = {
    "0506c00000017595": (STRT, "STRT sub=0 q=1 s=1 resp=0 num=0 addr=1"),
    "0507c00000014855": (STACK, "STACK sub=0 q=1 s=1 resp=0 num=0 addr=1"),
    "050100000001fc55": (ack(0), "ACK sub=0 q=0 s=0 resp=0 num=0 addr=1"),
    "050100010001ad95": (ack(1), "ACK sub=0 q=0 s=0 resp=1 num=0 addr=1"),
    "0501000200015d95": (ack(2), "ACK sub=0 q=0 s=0 resp=2 num=0 addr=1"),
    "050201000001b9a9": (nak(1, 0), "NAK sub=1 q=0 s=0 resp=0 num=0 addr=1"),
    "050202000001b9ed": (nak(2, 0), "NAK sub=2 q=0 s=0 resp=0 num=0 addr=1"),
    "050203000001b811": (nak(3, 0), "NAK sub=3 q=0 s=0 resp=0 num=0 addr=1"),
    "050208010001ebf5": (nak(8, 1), "NAK sub=8 q=0 s=0 resp=1 num=0 addr=1"),
    "050210000001bc95": (nak(16, 0), "NAK sub=16 q=0 s=0 resp=0 num=0 addr=1"),
    "0503000001018405": (rep(1), "REP sub=0 q=0 s=0 resp=0 num=1 addr=1"),
    "05030000020184f5": (rep(2), "REP sub=0 q=0 s=0 resp=0 num=2 addr=1"),
    "8103000001019a416162633897":
        (data(b"abc", 1), "DATA count=3 q=0 s=0 resp=0 num=1 addr=1 616263"),
    "8103000002019ab16162633897":
        (data(b"abc", 2), "DATA count=3 q=0 s=0 resp=0 num=2 addr=1 616263"),
    "810100000101e38161c1e8": (data(b"a", 1), "DATA count=1 q=0 s=0 resp=0 num=1 addr=1 61"),
    "810100000201e3716281e9": (data(b"b", 2), "DATA count=1 q=0 s=0 resp=0 num=2 addr=1 62"),
    "9003c0000001a4906162633897":
        (maintenance(b"abc"), "MAINT count=3 q=1 s=1 resp=0 num=0 addr=1 616263"),
}


@pytest.mark.parametrize("digits, frame, text", [(it, *PUBLISHED[it]) for it in PUBLISHED])
def test_published(digits, frame, text):
    """As they are read here, and written by tests/wire.py, with which written ones are compared."""
    assert frame.hex() == digits
    assert in_pieces(7, [], digits.encode()) == ending(items(f"0 {text}", size=len(frame)))


@pytest.mark.parametrize("words, text", [
    ("--from xxd", DUMPS), ("--from text", LOG),
    ("--from auto", RAW), ("--from auto", DUMP), ("--from auto", LOG)])
def test_each_cut(words, text):
    for most in range(1, len(text)):
        assert in_pieces(most, words.split(), text) == ending(BOTH)


@pytest.mark.parametrize("digits", range(1, 40))
def test_addresses(digits):
    """An address has 6 to 15 digits."""
    for rest, size in ((b": 05\n", 1), (b" 05\n", 1), (b"  05  |.|\r\n", 1), (b"\n", 0)):
        is_address = 6 <= digits <= 15
        wanted = ending(items(size=size, opened=size)) if is_address else ending("", LINE.format(1))
        assert in_pieces(7, ["--from", "xxd"], b"0" * digits + rest) == wanted


@pytest.mark.parametrize("count", [1, 2, 1500, 16383])
def test_longest_data(count):
    """Of the maximum, which fill several pages of output, and of a byte more, which are skipped.
    The CRC of zeros is 0."""
    text = header(count, 1) + bytes(count + 2)
    fields = f"DATA count={count} q=0 s=0 resp=0 num=1 addr=1"
    whole = ending(items(f"0 {fields} {'00' * count}", size=count + 10))
    short = ending(items(f"0 too long {fields}", size=count + 10))
    for most, wanted in ((count, whole), *([(count - 1, short)] if count > 1 else [])):
        words = ["--max", str(most)]
        assert in_pieces(4096, words, text.hex().encode()) == wanted
        assert in_pieces(4096, [*words, "--raw"], text) == wanted


def failing(words, stdin):
    """What `explain` writes of an input."""
    run = subprocess.run([*PROGRAM, "explain", *words.split()], stdin=stdin, capture_output=True,
                         text=True, check=False)
    return run.stdout, run.stderr, run.returncode


@pytest.mark.parametrize("words, text, counts, lines", [
    ("", DIGITS, range(41), [(16, OF_STRT), (40, STARTUP.splitlines(True)[1])]),
    ("--from xxd", DUMPS, [80], [(80, OF_ACK)]),
    # To detect the form takes 64 bytes, or all.
    ("--from auto", LOG, range(65), [(64, OF_ACK)]),
    ("--from auto", DUMP, range(64), []),
    ("--from auto", RAW, [21], []),
])
def test_failed_reads(words, text, counts, lines):
    """A read fails after so many bytes, or has nothing yet: the lines of the items before stay."""
    for count in counts:
        wanted = "".join(line for at, line in lines if at <= count), "ddcmp: read\n", 3
        with socket.create_server(("127.0.0.1", 0)) as listener:
            sender = socket.create_connection(listener.getsockname())
            reader = listener.accept()[0]
        sender.sendall(text[:count])
        reset_at_close(sender)
        sender.close()
        assert failing(words, reader) == wanted
        reader.close()
        reading, writing = os.pipe()
        os.set_blocking(reading, False)
        os.write(writing, text[:count])
        assert failing(words, reading) == wanted
        os.close(reading)
        os.close(writing)


@pytest.mark.parametrize("words, text, wanted", [
    ([], DIGITS, STARTUP),
    (["--json", "--max", "1500"], b"81 050100000001fc55", '{"offset":0,"item":"header check"}\n'),
])
def test_failed_writes(words, text, wanted, tmp_path):
    """A file that may have no more bytes: what there is room for stays."""
    for size in range(len(wanted)):
        def limit(most=size):
            resource.setrlimit(resource.RLIMIT_FSIZE, (most, most))
        with open(tmp_path / "out", "wb") as out:
            run = subprocess.run([*PROGRAM, "explain", *words], input=text, stdout=out,
                                 stderr=subprocess.PIPE, preexec_fn=limit, restore_signals=False,
                                 check=False)
        assert (run.returncode, run.stderr) == (3, b"ddcmp: write\n")
        assert (tmp_path / "out").read_text() == wanted[:size]


@pytest.mark.parametrize("call_of, how, fault", [
    *(("read", f"error={it}", "read") for it in ("EPIPE", "EAGAIN", "EINTR", "ETIMEDOUT")),
    *(("write", it, "write") for it in ("error=EPIPE", "error=EINTR", "retval=0")),
])
def test_refused_streams(call_of, how, fault, tmp_path):
    """Each error of a read and a write is a fault, and so is a write of nothing."""
    for name in ("in", "out"):
        (tmp_path / name).write_bytes(b"050100000001fc55" if name == "in" else b"")
    path = str(tmp_path / ("in" if call_of == "read" else "out"))
    words = refusing(f"{call_of}:{how}", "-P", path)
    with open(tmp_path / "out", "wb") as out:
        run = subprocess.run([*words, *PROGRAM, "explain", str(tmp_path / "in")], stdout=out,
                             stderr=subprocess.PIPE, check=False)
    assert (run.returncode, run.stderr) == (3, f"ddcmp: {fault}\n".encode())
    assert (tmp_path / "out").read_bytes() == b""


def right(text, line="-"):
    return f"|-- {text} ".ljust(76, line) + ">|\n"


def left(text, line="-"):
    return "|<" + f" {text} --|".rjust(76, line) + "\n"


def totals(first, second):
    """The last lines of a ladder: how many items and bytes each side has."""
    return "".join("{} items={} bytes={} open={}\n".format(*it)
                   for it in ((">", *first), ("<", *second)))


D = [data(b"abc", it) for it in range(5)]
MARK = [f"DATA {it} resp=0 (3 bytes)" for it in range(5)]
LADDERS = {
    "startups and data": (
        [STRT, ack(0), D[1], D[2]], [STACK, ack(1), ack(2)],
        [right("STRT"), left("STACK"), right("ACK resp=0"), right(MARK[1]), left("ACK resp=1"),
         right(MARK[2]), left("ACK resp=2"), totals((4, 42, 0), (3, 24, 0))]),
    # A NAK is drawn after the damaged message, and the ACK after the retransmission.
    "damaged data": (
        [D[1][:-2] + b"\x39\x97", D[2], D[1], D[2]], [nak(2, 0), ack(2)],
        [right("data check " + MARK[1], "~"), left("NAK 2 (data check) resp=0"), right(MARK[2]),
         right(MARK[1]), right(MARK[2]), left("ACK resp=2"), totals((4, 52, 0), (2, 16, 0))]),
    # A NAK of reason 3, and an ACK of nothing new, are drawn after a REP.
    "asked by REP": (
        [D[1], D[2], rep(2), D[2], rep(2)], [nak(3, 1), ack(2), ack(2)],
        [right(MARK[1]), right(MARK[2]), right("REP 2"), left("NAK 3 (reply to REP) resp=1"),
         right(MARK[2]), left("ACK resp=2"), right("REP 2"), left("ACK resp=2"),
         totals((5, 55, 0), (3, 24, 0))]),
    # Captures that begin in the middle: data are drawn before their acknowledgement.
    "from the middle": (
        [ack(57), data(b"abc", 9, 57)], [data(b"abc", 57, 8), ack(9)],
        [left("DATA 57 resp=8 (3 bytes)"), right("ACK resp=57"), right("DATA 9 resp=57 (3 bytes)"),
         left("ACK resp=9"), totals((2, 21, 0), (2, 21, 0))]),
    # The ACK of a message that is missing in one capture is drawn at once after later data.
    "a missing message": (
        [D[1], D[3], D[4]], [ack(1), ack(2), ack(4)],
        [right(MARK[1]), left("ACK resp=1"), right(MARK[3]), left("ACK resp=2"), right(MARK[4]),
         left("ACK resp=4"), totals((3, 39, 0), (3, 24, 0))]),
    "one is empty": ([STRT], [], [right("STRT"), totals((1, 8, 0), (0, 0, 0))]),
    "both are empty": ([], [], [totals((0, 0, 0), (0, 0, 0))]),
}


@pytest.mark.parametrize("first, second, lines", LADDERS.values(), ids=LADDERS.keys())
def test_ladders(first, second, lines):
    """Two captured directions, in an order that neither of them has."""
    for most in (1, 7, 64, 100_000):
        for words in (["--ladder"], ["--ladder", "--from", "auto"]):
            digits = [b"".join(it).hex().encode() for it in (first, second)]
            assert in_pieces(most, words, *digits) == ending("".join(lines))


@pytest.mark.parametrize("words, first, second, lines, fault", [
    ("", STRT, b"0507c00000014855 x", [right("STRT"), left("STACK")],
     "second: not hexadecimal at 17"),
    ("", b"0506c00000017595 0", b"0507c00000014855 x", [right("STRT"), left("STACK")],
     "first: odd number of digits"),
    ("--from xxd", b"", b"\nx\n", [], "second: line 2: not a line of a dump"),
    ("--from xxd", b"", b"00000000: 0\n", [], "second: line 1: not a line of a dump"),
    ("--from auto", D[1], f"00000000: {ack(1).hex(' ', 2)}\n".encode(),
     [right(MARK[1]), left("ACK resp=1"), totals((1, 13, 0), (1, 8, 0))], ""),
    ("--raw --discarded", b"abc" + ack(0) + b"de\x05", b"f",
     ["> 0 discarded 3\n", right("ACK resp=0"), "> 11 discarded 2\n",
      "> items=1 bytes=14 open=1\n", "< 0 discarded 1\n", "< items=0 bytes=1 open=0\n"], ""),
])
def test_ladders_of_files(words, first, second, lines, fault, tmp_path, monkeypatch):
    """What comes before a fault is drawn, and all of the other side. Of two faults that of the
    first file is reported. Bytes that belong to no item have lines, if these are requested."""
    monkeypatch.chdir(tmp_path)
    for name, text in (("first", first), ("second", second)):
        (tmp_path / name).write_bytes(text.hex().encode() if text == STRT else text)
    got = call("explain", "--ladder", *words.split(), "first", "second")
    assert (got[0].decode(), *got[1:]) == ending("".join(lines), fault)


def test_ladder_of_a_failed_read(tmp_path):
    """All that was read before is drawn."""
    names = [str(tmp_path / it) for it in ("first", "second")]
    for name, text in zip(names, (STRT, STACK)):
        with open(name, "wb") as it:
            it.write(text.hex().encode())
    words = refusing("read:error=EIO:when=2", "-P", names[1])
    run = subprocess.run([*words, *PROGRAM, "explain", "--ladder", *names], capture_output=True,
                         text=True, check=False)
    fault = f"ddcmp: {names[1]}: read\n"
    drawn = right("STRT") + left("STACK")
    assert (run.stdout, run.stderr, run.returncode) == (drawn, fault, 3)
