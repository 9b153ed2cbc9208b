"""Refuses each allocation of `ddcmp link` and `ddcmp tap` in turn, by a malloc of its own (gcc),
until a run refuses none: they end in time, with a status and a text that fit, and what they pass on
is a beginning. A link whose station runs allocates nothing, and a tap nothing for a log that isn't
longer than one before."""
import contextlib
import os
import re
import socket
import subprocess
import tempfile

import pytest

from .process import (
    PROGRAM, Link, Process, free_port, holds_within, is_listening, line_names, port_of, server)
from .wire import ack, digits, mail_in

# Refuses the allocation whose number is in REFUSED, and writes a byte for each to the descriptor
# in COUNTED.
SOURCE = r"""
#include <errno.h>
#include <stdlib.h>
#include <unistd.h>

void *__libc_malloc(size_t), *__libc_calloc(size_t, size_t), *__libc_realloc(void *, size_t);

static int is_refused(void)
{
    static long number;
    const char *refused = getenv("REFUSED"), *counted = getenv("COUNTED");
    int kept = errno, is = refused && ++number == atol(refused);
    if (counted && write(atoi(counted), is ? "x" : ".", 1) != 1)
        abort();
    errno = is ? ENOMEM : kept;
    return is;
}

void *malloc(size_t size) { return is_refused() ? NULL : __libc_malloc(size); }
void *calloc(size_t count, size_t size) { return is_refused() ? NULL : __libc_calloc(count, size); }
void *realloc(void *old, size_t size) { return is_refused() ? NULL : __libc_realloc(old, size); }
"""
pytestmark = pytest.mark.long
LONG = 10  # seconds that no run may take
MESSAGES = [b"one", b"two" * 300, b"three"]
DIGITS = digits(MESSAGES)
FRAMES = (ack(0) + bytes.fromhex("81050100") + ack(0)) * 5


@pytest.fixture(scope="module", autouse=True)
def library(tmp_path_factory):
    """The malloc that refuses, as a library."""
    made = str(tmp_path_factory.mktemp("malloc") / "refused.so")
    words = ["gcc", "-O1", "-shared", "-fPIC", "-x", "c", "-o", made, "-"]
    subprocess.run(words, input=SOURCE.encode(), check=True)
    Run.library = made


class Run(Process):
    """A run of the program whose `number`th allocation is refused; 0 is none."""

    def __init__(self, number, *words):
        self.log = tempfile.TemporaryFile()
        given = {"LD_PRELOAD": Run.library, "REFUSED": str(number),
                 "COUNTED": str(self.log.fileno())}
        super().__init__([*PROGRAM, *words], env={**os.environ, **given},
                         pass_fds=(self.log.fileno(),))

    def count(self):
        """How many allocations it has made."""
        return os.fstat(self.log.fileno()).st_size

    def was_refused(self):
        self.log.seek(0)
        return b"x" in self.log.read()

    def last(self):
        """Its last line on standard error."""
        return "".join(self.err.decode().splitlines()[-1:])


def each(trial):
    """Tries with each allocation refused, until none is."""
    number, is_refused = 0, True
    while is_refused:
        number += 1
        is_refused, ending, fault = trial(number)
        assert (fault or fault_of(is_refused, *ending)) is None, (number, ending)
    print(f"the last allocation is {number - 1}")


def fault_of(is_refused, status, error):
    """What is wrong with an ending: all is done, or it reports why not."""
    if status is None:
        return "hangs"
    is_reported = error == "ddcmp: memory" or re.fullmatch(
        r"ddcmp: (connect|listen|udp) \S+: out of memory", error)
    return None if status == 0 or is_refused and status == 3 and is_reported else "another ending"


def other(line):
    """A link that takes lines as they come, and sends the messages."""
    it = Link(line, "--again", "--restart", "--timer-ms", "200")
    it.give(DIGITS, close=False)
    return it


def has_all(peer, count=len(MESSAGES)):
    return peer.waits(lambda it: len(it.mails()) == count, LONG)


def begun(peer, kind):
    """The peer's line can be called, if it is one that is."""
    if kind == "connect":
        holds_within(LONG, lambda: is_listening(int(peer.split(":")[2])))


def link(kind, number):
    ours, its = line_names(kind)
    peer = other(its)
    begun(its, kind)
    run = Run(number, "link", "--line", ours, "--timer-ms", "200", "--linger-ms", "400")
    run.give(DIGITS)
    status = run.ended(LONG)
    is_lost = status == 0 and not has_all(peer)
    peer.kill()
    is_beginning = all(it == MESSAGES[:len(it)] for it in (mail_in(run.out), peer.mails()))
    fault = "messages are lost" if is_lost else None if is_beginning else "other messages"
    return run.was_refused(), (status, run.last()), fault


def link_that_runs(kind):
    """How much a link allocates after its first notice, whatever comes and goes."""
    ours, its = line_names(kind)
    peer = other(its)
    begun(its, kind)
    run = Run(0, "link", "--line", ours, "--timer-ms", "200", "--report", "1", "--trace", "--clock")
    assert run.waits(lambda it: it.out.startswith(b"notice Running"), LONG)
    before = run.count()
    run.give(20 * DIGITS, close=False)
    assert has_all(peer, 20 * len(MESSAGES)) and run.count() == before
    for it in (peer, run):
        it.kill()


class Talk:
    """A tap between two sockets; without them if it has ended before."""

    def __init__(self, number, *words):
        self.sides, port = [], free_port()
        with server() as far:
            to = f"127.0.0.1:{port_of(far)}"
            self.run = Run(number, "tap", "--listen", f"127.0.0.1:{port}", "--connect", to, *words)
            holds_within(LONG, lambda: self.has_ended() or is_listening(port))
            far.settimeout(0.05)
            with contextlib.suppress(OSError):
                caller = socket.create_connection(("127.0.0.1", port), LONG)
                while not self.has_ended() and not self.sides:
                    with contextlib.suppress(TimeoutError):
                        self.sides = [caller, far.accept()[0]]

    def has_ended(self):
        return not self.run.is_running()

    def passes(self, data):
        """What comes out of bytes from each side, one after the other."""
        got = [b"", b""]
        with contextlib.suppress(OSError):
            for at, it in enumerate(self.sides):
                it.settimeout(LONG)
                it.sendall(data)
                while len(got[at]) < len(data):
                    piece = self.sides[1 - at].recv(1 << 16)
                    got[at] += piece
                    if not piece:
                        return got
        return got

    def ends(self):
        """Its status, None if it hangs, and its outputs."""
        for it in self.sides:
            it.close()
        return self.run.ended(LONG), self.run.out, self.run.err


def tap(words, whole, number):
    talk = Talk(number, *words)
    got = talk.passes(FRAMES)
    status, said, _ = talk.ends()
    is_beginning = all(FRAMES.startswith(it) for it in got) and whole.startswith(said)
    is_lost = status == 0 and (got != [FRAMES, FRAMES] or said != whole)
    fault = "bytes are lost" if is_lost else None if is_beginning else "other bytes"
    return talk.run.was_refused(), (status, talk.run.last()), fault


def tap_that_runs(words):
    """How much a tap allocates after it has written a longer log."""
    talk = Talk(0, *words)
    talk.passes(4 * FRAMES)
    talk.passes(FRAMES)  # until the longer log is written
    before = talk.run.count()
    for _ in range(10):  # a pipe has room for these logs
        assert talk.passes(FRAMES) == [FRAMES, FRAMES]
    after = talk.run.count()
    talk.ends()
    assert after == before


@pytest.mark.parametrize("words", [(), ("--json",), ("--ladder",)])
def test_tap(words):
    talk = Talk(0, *words)
    talk.passes(FRAMES)
    status, whole, errors = talk.ends()
    assert (status, errors) == (0, b"")
    each(lambda number: tap(words, whole, number))
    tap_that_runs(words)


@pytest.mark.parametrize("kind", ["connect", "listen", "udp"])
def test_link(kind):
    each(lambda number: link(kind, number))
    link_that_runs(kind)
