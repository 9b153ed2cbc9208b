"""Links at serial devices that are slower than what is written to them, and bridges that make slow
lines."""
import contextlib
import os
import socket
import threading
import time

import pytest

from .process import (
    Bridge, Link, free_port, holds_within, is_bound, must_end, port_of, server, terminals, times,
    udp_socket)
from .wire import STACK, Reader, ack, data


class Terminal:
    """A peer at the other end of a serial line: it reads at once, and acknowledges each message
    after a pause."""

    def __init__(self, path, pause=0.0):
        self.file, self.pause, self.reader = os.open(path, os.O_RDWR | os.O_NOCTTY), pause, Reader()
        self.came, self.frames = [], []
        threading.Thread(target=self.work, daemon=True).start()

    def work(self):
        with contextlib.suppress(OSError):
            while piece := os.read(self.file, 4096):
                self.came.append((time.monotonic(), len(piece)))
                for frame in self.reader.push(piece):
                    self.take(frame)

    def take(self, frame):
        self.frames.append(frame)
        if frame.name == "STRT":
            os.write(self.file, STACK)
        elif frame.name == "DATA":
            time.sleep(self.pause)
            os.write(self.file, ack(frame.num))


@times
def test_paced():
    """With --baud N a device is given bytes at that speed, a quarter of a second ahead at most; N
    is no other number."""
    with terminals() as ends:
        peer = Terminal(ends[1])
        link = Link(f"device:{ends[0]}", "--baud", "9600", "--max", "4000", "--timer-ms", "500",
                    "--attempts", "3")
        link.give(b"61" * 2400 + b"\n")
        must_end("paced", link, 0)
        start = next(moment for moment, count in peer.came if count > 100)
        took = peer.came[-2][0] - start if len(peer.came) > 1 else 0
        size = sum(count for _, count in peer.came)
        assert 1.9 < took < 4 and 2400 < size < 2700
        ahead = max(sum(n for moment, n in peer.came if start <= moment <= at) - 960 * (at - start)
                    for at, _ in peer.came)
        assert ahead <= 0.3 * 960 + 40


def test_underway():
    """A try doesn't count while a device may have bytes underway: at 9600 baud if its speed isn't
    known."""
    with terminals() as ends:
        peer = Terminal(ends[1], pause=2.5)
        link = Link(f"device:{ends[0]}", "--max", "4000", "--timer-ms", "400", "--attempts", "3")
        link.give(b"61" * 3900 + b"\n")
        must_end("underway", link, 0)
        assert [it.name for it in peer.frames].count("DATA") == 1, (
            f"{[it.name for it in peer.frames]}")


def arrivals(end, size, came):
    """Notes when so many bytes arrive at an end, and which."""
    end.settimeout(20)
    with contextlib.suppress(TimeoutError):
        while sum(len(it) for _, it in came) < size and (piece := end.recv(1 << 16)):
            came.append((time.monotonic(), piece))


def at_once(calls):
    """Makes calls side by side, until all have ended."""
    threads = [threading.Thread(target=it, daemon=True) for it in calls]
    for it in threads:
        it.start()
    for it in threads:
        it.join(30)


@times
@pytest.mark.parametrize("words, least, most", [
    (["--baud", "9600"], 0.7, 2.0), ([], 0.0, 1.0),
])
def test_slow_bridge(words, least, most):
    """With --baud N a bridge writes to each of its lines at that speed, a quarter of a second ahead
    at most; else at once."""
    at = server()
    bridge = Bridge("listen:127.0.0.1:0", f"connect:127.0.0.1:{port_of(at)}", *words)
    one = socket.create_connection(("127.0.0.1", bridge.ports(1)[0]))
    one.sendall(b"\x96")
    two = at.accept()[0]
    # To one end what takes a second and a half at that speed, to the other what takes two and
    # a half.
    texts = [b"".join(data(bytes([it]) * size, it) for it in range(6)) for size in (230, 390)]
    came = [], []
    began = time.monotonic()
    at_once([lambda: one.sendall(texts[1]), lambda: two.sendall(texts[0]),
             lambda: arrivals(one, len(texts[0]), came[0]),
             lambda: arrivals(two, len(texts[1]), came[1])])
    for text, pieces in zip(texts, came):
        took = pieces[-1][0] - began if pieces else 99
        assert (b"".join(it for _, it in pieces) == text
                and least * len(text) / 960 <= took <= most * len(text) / 960)
        ahead = max((sum(len(it) for moment, it in pieces if moment <= now) - 960 * (now - began)
                     for now, _ in pieces), default=0)
        assert not words or ahead <= 0.3 * 960 + 40
    one.close()
    must_end("slow bridge", bridge, 0)


@times
def test_slow_datagrams():
    """With --baud N a bridge sends each frame over UDP in a datagram of its own, whole, and not
    before it has had its time."""
    far, near = udp_socket(), udp_socket()
    ports = free_port(socket.SOCK_DGRAM), free_port(socket.SOCK_DGRAM)
    lines = [f"udp:127.0.0.1:{port},127.0.0.1:{port_of(it)}"
             for port, it in zip(ports, (far, near))]
    bridge = Bridge(*lines, "--baud", "9600", "--seconds", "4")
    holds_within(10, lambda: all(map(is_bound, ports)))
    frames = [data(bytes([it]) * 470, it) for it in range(4)]
    began = time.monotonic()
    for it in frames:
        far.sendto(it, ("127.0.0.1", ports[0]))
    near.settimeout(3)
    got = [near.recv(1 << 16) for _ in frames]
    took = time.monotonic() - began
    assert got == frames and 1.0 < took < 2.8, f"{[len(it) for it in got]} after {took:.2f} s"
    must_end("slow datagrams", bridge, 0)
