"""Programs that read a link's output only as fast as it takes their own messages: nothing may
stick."""
import os
import subprocess
import sys
import time

import pytest

from .process import Link, into_pipe, listening, times
from .wire import binary, digits, drawn, unpacked

SIZE = 3_000_000  # bytes of messages: several times what all pipes and queues between them hold
COPIES_MAIL = """import sys
for line in sys.stdin.buffer:
    if line.startswith(b"mail "):
        sys.stdout.buffer.write(line[5:])
        sys.stdout.buffer.flush()
"""


def messages_in_all(size=SIZE):
    made, length = [], 0
    while length < size:
        made.append(drawn.randbytes(drawn.randrange(1, 1500)))
        length += len(made[-1])
    return made


def copying(form):
    """A program that copies each message, from its standard input to its standard output."""
    return ["cat"] if form is binary else [sys.executable, "-c", COPIES_MAIL]


def received(link, form):
    return unpacked(link.out) if form is binary else link.mails()


def all_received(name, link, form, sent, seconds=50):
    """All of these messages are on a link's output in time: what is looked at first is its size."""
    size = len(binary(sent)) if form is binary else sum(
        len(b"mail \n") + 2 * len(it) for it in sent)
    assert link.waits(lambda it: len(it.out) >= size and len(received(it, form)) >= len(sent),
                      seconds), (name, len(received(link, form)), len(sent))
    assert received(link, form) == sent, name


@pytest.mark.parametrize("window", [
    7, *(pytest.param(it, marks=pytest.mark.long) for it in (31, 127, 255))])
@pytest.mark.parametrize("form", [binary, digits])
def test_copier(form, window):
    """A link beside a program that copies what it reads, and a client that reads all that is
    returned."""
    from_copier, to_copier = os.pipe(), os.pipe()
    options = ("--stay", "--window", str(window)) + (("--binary",) if form is binary else ())
    one = Link("listen:127.0.0.1:0", *options, stdin=from_copier[0], stdout=to_copier[1])
    with subprocess.Popen(copying(form), stdin=to_copier[0], stdout=from_copier[1]) as copier:
        for it in (*from_copier, *to_copier):
            os.close(it)
        two = Link(f"connect:127.0.0.1:{listening(one)}", *options)
        sent = messages_in_all(SIZE if form is binary else SIZE // 2)  # a byte is two digits
        two.give(form(sent), close=False)
        all_received(f"{form.__name__}, window {window}", two, form, sent)
        for it in (one, two):
            it.kill()
        copier.kill()


def test_back_to_back():
    """Two links, each of which reads what the other writes, between two that send and read at the
    ends."""
    there, back = os.pipe(), os.pipe()
    one = Link("listen:127.0.0.1:0", "--binary", "--stay", stdin=back[0], stdout=there[1])
    two = Link("listen:127.0.0.1:0", "--binary", "--stay", stdin=there[0], stdout=back[1])
    for it in (*there, *back):
        os.close(it)
    ends = [Link(f"connect:127.0.0.1:{listening(it)}", "--binary", "--stay") for it in (one, two)]
    sent = [messages_in_all(), messages_in_all()]
    for end, messages in zip(ends, sent):
        end.give(binary(messages), close=False)
    all_received("from the second end", ends[0], binary, sent[1])
    all_received("from the first end", ends[1], binary, sent[0])


@times
def test_sleeping_reader():
    """While a reader sleeps, its link's own messages are delivered; once it wakes it gets all of
    the others."""
    one, reading = into_pipe(Link, "listen:127.0.0.1:0", "--binary", "--stay")
    two = Link(f"connect:127.0.0.1:{listening(one)}", "--binary", "--stay")
    sent, own = messages_in_all(1_000_000), messages_in_all(200_000)
    two.give(binary(sent), close=False)
    time.sleep(1)
    one.give(binary(own), close=False)
    all_received("while it sleeps", two, binary, own, 20)
    used = one.processor_time() + two.processor_time()
    time.sleep(2)
    used = one.processor_time() + two.processor_time() - used
    assert used <= 0.1
    got = b""
    until = time.monotonic() + 20
    while len(got) < len(binary(sent)) and time.monotonic() < until:
        got += os.read(reading, 1 << 16)
    assert unpacked(got) == sent, f"{len(unpacked(got))} of {len(sent)} messages after it woke"
