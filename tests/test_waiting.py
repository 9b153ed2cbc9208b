"""The processor time of what waits: for a line or an output that takes nothing, for a peer that is
silent, for a reader of its standard error. What waits in a loop uses all of it."""
import contextlib
import os
import socket
import time

import pytest

from .peers import at_a_full_device, running, silent
from .process import (
    PROGRAM, Link, Process, bridged, connected, free_port, port_of, server, times)
from .wire import STACK, ack, data, digits

pytestmark = times


def flood(sock, piece):
    """Sends as often as a connection takes something, until it has taken nothing for a while."""
    sock.settimeout(0.5)
    with contextlib.suppress(OSError):
        while True:
            sock.sendall(piece)


def uses_little(run, most=0.1):
    """Once it has done what it can, it runs and uses next to no processor time."""
    last = run.processor_time()
    for _turn in range(80):
        time.sleep(0.5)
        before, last = last, run.processor_time()
        if last - before <= 0.02:
            break
    time.sleep(1.5)
    used = run.processor_time() - last
    assert run.is_running() and used <= most, f"{used} s of processor time in 1.5 s"


@pytest.mark.parametrize("options", [(), ("--delay", "100000"), ("--baud", "300")], ids=" ".join)
def test_bridge_to_a_line_that_takes_nothing(options):
    """Nobody reads one of its lines, or it doesn't pass frames on yet."""
    bridge, first, _second = bridged(*options)
    flood(first, data(b"x" * 1000, 1) * 50)
    uses_little(bridge)


@pytest.fixture(name="unread")
def pipe_that_nobody_reads():
    there, back = os.pipe()
    yield back
    os.close(there)
    os.close(back)


def test_bridge_whose_trace_nobody_reads(unread):
    """Its lines for standard error find no room."""
    bridge, first, second = bridged("--trace", stderr=unread)
    for it in (first, second):
        it.sendall(ack(0) * 5000)
    uses_little(bridge)


def test_link_whose_trace_nobody_reads(unread):
    """Its lines for standard error find no room."""
    link, peer = running("--trace", stderr=unread)
    peer.send(ack(0) * 5000)
    uses_little(link)


def test_link_whose_peer_is_silent_at_the_end():
    """Its last message isn't acknowledged: it asks at the pace of its reply timer."""
    link, _peer = running(answer=silent)
    link.give(b"6162\n")
    uses_little(link)


def test_link_to_a_connection_that_takes_nothing():
    """What it has to send finds no room."""
    with server() as it:
        it.setsockopt(socket.IPPROTO_TCP, socket.TCP_MAXSEG, 536)  # so that little has room
        it.setsockopt(socket.SOL_SOCKET, socket.SO_RCVBUF, 4096)
        link = Link(f"connect:127.0.0.1:{port_of(it)}", "--window", "100", "--max", "16383")
        peer = it.accept()[0]
    peer.sendall(STACK)
    link.give(digits([bytes(16383)] * 20), close=False)
    uses_little(link)


def test_link_to_a_device_that_takes_nothing():
    """What it has to send finds no room."""
    link, _end = at_a_full_device()
    uses_little(link)


def test_link_whose_output_is_a_socket_that_nobody_reads():
    """Received messages wait; the line is read no further once its inbox is full."""
    output, _reader = socket.socketpair()
    link, peer = running(stdout=output)
    for num in range(1, 256):
        with contextlib.suppress(OSError):
            peer.send(data(b"x" * 1000, num))
    uses_little(link)


def test_tap_to_a_side_that_takes_nothing():
    """Nobody reads the connection that it made."""
    port = free_port()
    with server() as it:
        words = ["tap", "--listen", f"127.0.0.1:{port}", "--connect",
                 f"127.0.0.1:{it.getsockname()[1]}"]
        tap = Process([*PROGRAM, *words])
        caller = connected(port)
        side = it.accept()[0]
    flood(caller, data(b"x" * 1000, 1) * 50)
    uses_little(tap)
    side.close()
