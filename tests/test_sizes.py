"""The program over the whole of each range and with long inputs, compared with what this module
computes by itself. No contract says that memory is there at every size."""
import os
import random
import time

import pytest

from .process import Link, call, into_pipe, listening
from .wire import binary, data, rep

pytestmark = pytest.mark.limit(300)
STARTS = ["start A", "start B", "settle"]
STARTED = ["A started dropped=0", "B started dropped=0", "settled 2 quiet"]
MANY = 5_100  # frames on one line


def varied(length, seed=0):
    """Bytes that differ from their neighbours, and from another message's at the same place."""
    return bytes((i * 7 + i // 256 * 31 + seed * 101) % 256 for i in range(length))


def prints(words, given, status, output, error=""):
    given = given.encode() if isinstance(given, str) else given
    assert call(*words, given=given) == (output.encode(), error, status)


def plays(words, steps, texts, last, command="simulate"):
    lines = [*STARTED, *texts, last]
    prints([command, *words], "\n".join([*STARTS, *steps]), 0, "\n".join(lines) + "\n")


def last_line(up_b, acked_a):
    return f"honest yes clean yes up A=0 B={up_b} acked A={acked_a} B=0"


def test_windows():
    """A window takes as many messages as it has, and no more."""
    for window in range(1, 256):
        messages = [varied(3, i).hex() for i in range(window + 1)]
        steps = [f"send A {it}" for it in messages] + ["settle"]
        texts = [f"A accepted {i}" for i in range(1, window + 1)] + ["A send refused WindowFull"]
        texts += [f"settled {window} quiet"]
        plays(["--window", str(window)], steps, texts, last_line(window, window))


def test_inboxes():
    """An inbox keeps as many messages as it has; of one more it says that there is no buffer."""
    for inbox in range(1, 256):
        steps, texts = [], []
        for i in range(1, min(inbox + 1, 255) + 1):
            message = varied(2, i)
            frame = data(message, i)
            steps += [f"send A {message.hex()}", "poll A", "pass A"]
            texts += [f"A accepted {i}", f"A wrote {frame.hex()}", f"A passed {len(frame)}"]
            texts += ["B notice HandedUp"] * (i <= inbox)
        steps += ["take B"] * (inbox + 1)
        texts += [f"B took {varied(2, i).hex()}" for i in range(1, inbox + 1)] + ["B nothing"]
        plays(["--window", "255", "--inbox", str(inbox)], steps, texts, last_line(inbox, 0))


def lengths():
    """The lengths that are tried of a message, and of a frame's data."""
    drawn = random.Random(4)
    some = {*range(1, 20), 90, 100, 198, *range(254, 260), *range(1498, 1503), 2000, 4096, 8192}
    more = {15999, 16000, 16382, 16383, *(drawn.randrange(1, 16384) for _ in range(60))}
    return sorted(some | more)


@pytest.mark.parametrize("most", lengths())
def test_maxima(most):
    """The largest message is sent, passes in two pieces, and is received unchanged; a larger one
    isn't."""
    message = varied(most)
    frame = data(message, 1)
    cut = most // 2 + 1
    steps = [f"send A {varied(most + 1).hex()}", f"send A {message.hex()}", "poll A"]
    texts = ["A send refused TooLong", "A accepted 1", f"A wrote {frame.hex()}"]
    steps += [f"cut A {cut}", "pass A", "take B"]
    texts += [f"A passed {cut}", f"A passed {len(frame) - cut}"]
    texts += ["B notice HandedUp", f"B took {message.hex()}"]
    words = ["--max", str(most)]
    plays(words, steps, texts, last_line(1, 0))
    if most in (1, 100, 1500, 16383):
        plays(words, steps, texts, last_line(1, 0), "pair")


@pytest.mark.parametrize("fill", range(17))
def test_fills(fill):
    """As many SYN bytes go before each frame as are asked for."""
    message = varied(9)
    frame = b"\x96" * fill + data(message, 1)
    steps = [f"send A {message.hex()}", "poll A", "pass A", "take B"]
    texts = ["A accepted 1", f"A wrote {frame.hex()}", f"A passed {len(frame)}"]
    texts += ["B notice HandedUp", f"B took {message.hex()}"]
    for command in ("simulate", "pair"):
        plays(["--syn", str(fill)], steps, texts, last_line(1, 0), command)


@pytest.mark.parametrize("most", lengths())
def test_explained(most):
    """A frame of as many bytes as are asked for is read, and one of a byte more is too long."""
    message = varied(most, 3)
    fields = f"count={most} q=0 s=0 resp=0 num=1 addr=1"
    frame = data(message, 1)
    last = f"items=1 bytes={len(frame)} open=0\n"
    text = f"0 DATA {fields} {message.hex()}\n{last}"
    prints(["explain", "--raw", "--max", str(most)], frame, 0, text)
    prints(["explain", "--max", str(most)], frame.hex(), 0, text)
    if most > 1:
        text = f"0 too long DATA {fields}\n{last}"
        prints(["explain", "--raw", "--max", str(most - 1)], frame, 0, text)


def test_long_lines():
    """Lines of a script of any length, and many frames on a line."""
    junk = bytes(it % 5 for it in range(30_001))
    steps = [f"raw B {junk.hex()}", "# " + "x" * 100_000, "state B"]
    texts = ["B got 30001", "B Running R=0 N=0 A=0 T=1 out=0 in=0 timer=off"]
    plays([], steps, texts, last_line(0, 0))
    error = "ddcmp: line 2: not hexadecimal\n"
    for wrong in "raw B " + "ab" * 30_000 + "a\n", "send A " + "ab" * 30_000 + "zz\n":
        prints(["simulate"], "start A\n" + wrong, 1, "A started dropped=0\n", error)
    steps = ["send A 616263", "poll A"] + ["expire A", "poll A"] * MANY
    texts = ["A accepted 1", f"A wrote {data(b'abc', 1).hex()}"]
    texts += ["A expired", f"A wrote {rep(1).hex()}"] * MANY
    steps += ["pass A"] * (MANY + 2)
    texts += ["A passed 13", "B notice HandedUp", *["A passed 8"] * MANY, "A empty"]
    plays([], steps, texts, last_line(1, 0))


def test_many_waiting():
    """A settle takes what is queued, however much it is."""
    steps, texts = [], []
    for i in range(1, 201):
        message = varied(4, i)
        frame = data(message, i)
        steps += [f"send A {message.hex()}", "poll A", "pass A"]
        texts += [f"A accepted {i}", f"A wrote {frame.hex()}", f"A passed {len(frame)}"]
        texts += ["B notice HandedUp"]
    plays(["--window", "255", "--inbox", "255"], [*steps, "settle"],
          [*texts, "settled 1 quiet"], last_line(200, 200))


@pytest.mark.parametrize("traced", [False, True])
@pytest.mark.parametrize("window, inbox, longest", [(1, 1, 1), (7, 8, 1500), (255, 255, 16383)])
def test_memory(window, inbox, longest, traced):
    """A link allocates before its line is open, and nothing after that, whatever comes in and is
    not taken out: 700 KB, and `window + inbox + 12` times the longest message, are enough; with a
    trace 600 KB more."""
    sizes = "--binary", f"--window={window}", f"--inbox={inbox}", f"--max={longest}"
    link, reading = into_pipe(Link, "listen:127.0.0.1:0", *sizes, *["--trace"] * traced)
    port, before = listening(link), link.memory("VmData")
    peer = Link(f"connect:127.0.0.1:{port}", *sizes)
    for it in (link, peer):
        it.give(binary([varied(longest, i) for i in range((1 << 23) // (longest + 40))]), False)
    assert peer.waits(lambda it: len(it.out) > 1 << 17, 20)
    time.sleep(1)
    after = link.memory("VmData")
    for it in (peer, link):
        it.kill()
    os.close(reading)
    assert after == before <= 700 + 600 * traced + (window + inbox + 12) * longest / 1024
