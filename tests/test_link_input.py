"""What standard input is: whether a run that ends before it was wholly read has ended well, and
FIFOs that stay."""
import contextlib
import os
import pty
import signal
import socket
import subprocess
import tempfile
import time

from .peers import called
from .process import must_end, times


@contextlib.contextmanager
def fifo():
    """The name of a FIFO, and its reading end."""
    with tempfile.TemporaryDirectory() as folder:
        name = f"{folder}/fifo"
        os.mkfifo(name)
        reads = os.open(name, os.O_RDONLY | os.O_NONBLOCK)
        os.set_blocking(reads, True)
        yield name, reads
        os.close(reads)


def write(name, data):
    """Writes to a FIFO as a process of its own would."""
    with open(name, "wb", buffering=0) as it:
        it.write(data)


def ends_before(name, stdin, writes, status, *options):
    """The line ends after a message was acknowledged, and the input is still open."""
    link, peer = called(*options, stdin=stdin)
    if writes is not None:
        os.write(writes, b"61\n")
    assert (link.waits(
        lambda it: b"Acknowledged 1" in it.out or writes is None and b"Running" in it.out, 10))
    time.sleep(0.2)
    peer.close()
    must_end(f"{name} {options}", link, status, "ddcmp: ended" if status else None)
    assert peer.mail == [b"a"] * (writes is not None)


def test_input_still_open():
    """Each message that came was acknowledged, and the line ends: that isn't well if more of the
    input may come, as from a pipe, a socket or a FIFO that is open; it is at a terminal and at
    /dev/null, and for a file that was read."""
    for options in ((), ("--stay",)):
        reads, writes = os.pipe()
        ends_before("a pipe", reads, writes, 3, *options)
        ours, theirs = socket.socketpair()
        ends_before("a socket", theirs, ours.fileno(), 3, *options)
        ours, theirs = pty.openpty()
        ends_before("a terminal", theirs, ours, 0, *options)
    with fifo() as (name, reads):
        writes = os.open(name, os.O_WRONLY)
        ends_before("a FIFO", reads, writes, 3)
        ends_before("a FIFO", reads, writes, 0, "--stay")
    ends_before("/dev/null", subprocess.DEVNULL, None, 0, "--stay")
    with tempfile.TemporaryFile() as file:
        ends_before("an empty file", file, None, 0, "--stay")


def test_input_still_open_in_time():
    """The time is over while the input is open: no message was lost, but more might have come."""
    reads, writes = os.pipe()
    ours, theirs = pty.openpty()
    links = [("a pipe", called("--seconds", "1", stdin=reads), writes, 3),
             ("a terminal", called("--seconds", "1", stdin=theirs), ours, 0)]
    for _, _, writes, _ in links:
        os.write(writes, b"61\n")
    for name, (link, peer), _, status in links:
        must_end(name, link, status, "ddcmp: ended" if status else None, seconds=10)
        assert peer.mail == [b"a"]


@times
def test_fifo_with_stay():
    """With --stay each writer of a FIFO is read, also those who come after the others have gone,
    and a last line without LF goes on with the next one. It waits meanwhile."""
    with fifo() as (name, reads):
        link, peer = called("--stay", stdin=reads)
        for data, mail in ((b"61\n", [b"a"]), (b"62\n63", [b"a", b"b"]), (b"64\n65\n", [
                b"a", b"b", b"cd", b"e"
        ])):
            time.sleep(0.5)
            write(name, data)
            assert (peer.waits(lambda it: len(it.mail) >= len(mail), 10) and peer.mail == mail)
        time.sleep(1)
        assert link.is_running() and link.processor_time() <= 0.3
        link.run.send_signal(signal.SIGTERM)
        assert link.ended(5) == -signal.SIGTERM
    with fifo() as (name, reads):
        writes = os.open(name, os.O_WRONLY)
        link, peer = called(stdin=reads)
        os.write(writes, b"61\n62")
        os.close(writes)
        must_end("without --stay", link, 0, seconds=10)
        assert peer.mail == [b"a", b"b"]


@times
def test_pipe_with_stay():
    """With --stay the end of a pipe is an end, as is that of a FIFO without a name: a last line
    without LF is sent."""
    link, peer = called("--stay")
    link.give(b"61\n62")
    with fifo() as (name, reads):
        writes = os.open(name, os.O_WRONLY)
        os.unlink(name)
        unnamed, its_peer = called("--stay", stdin=reads)
    os.write(writes, b"61\n62")
    os.close(writes)
    for what, run, other in (("a pipe", link, peer), ("a FIFO without a name", unnamed, its_peer)):
        assert other.waits(lambda it: len(it.mail) == 2, 10) and other.mail == [b"a", b"b"]
        time.sleep(0.5)
        assert run.is_running() and run.processor_time() <= 0.3
        other.close()
        must_end(what, run, 0)
