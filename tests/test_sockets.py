"""The options of each connection that the program opens, read from the sockets of the running
program: none holds bytes back to fill a packet, a station waits 10 ms for bytes and 5 s for room,
and taps and links don't wait; these test a quiet connection, and a link has room for a window of
datagrams as far as the system lets it."""
import contextlib
import ctypes
import errno
import os
import socket
import stat
import struct
import subprocess

import pytest

from .process import LONG, PROGRAM, Link, connected, free_port, holds_within, server, udp_names

PIDFD_GETFD = 438  # the number of the system call
LIBC = ctypes.CDLL(None, use_errno=True)
STATION, AT_ONCE = (True, True, 10, 5000), (True, False, 0, 0)
USUAL = ["--turns", "4294967295", "--timer-ms", "1000"]
TESTS = 60, 10, 6


def sockets_of(pid):
    """The sockets that a process has, each once, as sockets of ours that are the same."""
    handle = os.pidfd_open(pid)
    found = {}
    for name in os.listdir(f"/proc/{pid}/fd"):
        lent = LIBC.syscall(PIDFD_GETFD, handle, int(name), 0)
        if lent < 0 and ctypes.get_errno() == errno.EBADF:  # closed meanwhile
            continue
        if lent < 0:
            raise OSError(ctypes.get_errno(), "pidfd_getfd")
        about = os.fstat(lent)
        if not stat.S_ISSOCK(about.st_mode):
            os.close(lent)
            continue
        found[about.st_ino] = socket.socket(fileno=lent)
    os.close(handle)
    return list(found.values())


def connections_of(pid):
    """The connections that a process has."""
    found = []
    for it in sockets_of(pid):
        with contextlib.suppress(OSError):  # it has no peer yet
            it.getpeername()
            found.append(it)
    return found


@pytest.fixture(autouse=True)
def lends():
    """Nothing can be tried if the system lends no sockets of another process (Linux 5.6)."""
    with subprocess.Popen(["sleep", str(LONG)]) as other:
        try:
            sockets_of(other.pid)
        except OSError:
            pytest.skip("the system lends no sockets of another process (pidfd_getfd)")
        finally:
            other.kill()


def milliseconds(it, option):
    """A time that a socket waits, of which the system keeps whole ticks: to ten milliseconds,
    rounded down."""
    seconds, micros = struct.unpack("ll", it.getsockopt(socket.SOL_SOCKET, option, 16))
    return (seconds * 1000 + micros // 1000) // 10 * 10


def options_of(it):
    """Whether it sends at once, whether it is left waiting, and how long it waits for bytes and for
    room."""
    at_once = it.getsockopt(socket.IPPROTO_TCP, socket.TCP_NODELAY) == 1
    times = milliseconds(it, socket.SO_RCVTIMEO), milliseconds(it, socket.SO_SNDTIMEO)
    return at_once, os.get_blocking(it.fileno()), *times


def keepalive_of(it):
    """After how many seconds a quiet connection is tested, then how often, and how many tests end
    it; none if it isn't."""
    if not it.getsockopt(socket.SOL_SOCKET, socket.SO_KEEPALIVE):
        return None
    options = socket.TCP_KEEPIDLE, socket.TCP_KEEPINTVL, socket.TCP_KEEPCNT
    return tuple(it.getsockopt(socket.IPPROTO_TCP, option) for option in options)


@pytest.mark.parametrize("words, connects, listens, count, wanted, tests", [
    (["station", "--role", "connect", "--addr", "FAR", *USUAL], True, False, 1, STATION, None),
    (["station", "--role", "listen", "--addr", "OWN", *USUAL], False, True, 1, STATION, None),
    (["tap", "--listen", "OWN", "--connect", "FAR"], True, True, 2, AT_ONCE, TESTS),
    (["link", "--line", "connect:FAR"], True, False, 1, AT_ONCE, TESTS),
    (["link", "--line", "listen:OWN"], False, True, 1, AT_ONCE, TESTS),
])
def test_connections(words, connects, listens, count, wanted, tests):
    """A run of the program, which connects to us, or to which we connect, or both, has this many
    connections with these options."""
    far, own = server(), free_port()
    names = {"FAR": "127.0.0.1:{1}".format(*far.getsockname()), "OWN": f"127.0.0.1:{own}"}
    for name, address in names.items():
        words = [it.replace(name, address) for it in words]
    pipes = {"stdin": subprocess.PIPE, "stdout": subprocess.DEVNULL, "stderr": subprocess.DEVNULL}
    run = subprocess.Popen([*PROGRAM, *words], **pipes)
    peers = [connected(own)] if listens else []
    peers += [far.accept()[0]] if connects else []
    found = []

    def is_as_wanted():
        found[:] = [(options_of(it), keepalive_of(it)) for it in connections_of(run.pid)]
        return found == [(wanted, tests)] * count
    assert holds_within(LONG, is_as_wanted), (peers, found)


def test_datagrams():
    """A link over datagrams has the most room for what it receives."""
    with open("/proc/sys/net/core/rmem_max", encoding="ascii") as it:
        most = 2 * int(it.read())  # the system counts each byte twice
    wanted, link, room = min(most, 2 * 255 * 17408), Link(udp_names()[0]), []

    def has_room():
        sockets = sockets_of(link.run.pid)
        room[:] = [it.getsockopt(socket.SOL_SOCKET, socket.SO_RCVBUF) for it in sockets]
        return room == [wanted]
    assert holds_within(LONG, has_room), room
