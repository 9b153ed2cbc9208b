"""Who has a line for callers: strangers at a bridge, callers of other hosts, and second callers."""
import contextlib
import re
import socket
import time

import pytest

from .peers import Peer, good
from .process import (
    Bridge, Link, connected, holds_within, is_listening, listening, must_end, port_of,
    reset_at_close, server, times)
from .wire import control, data


@pytest.mark.parametrize("is_reset", [False, True])
def test_strangers_at_a_bridge(is_reset):
    """A caller who closes, or is reset, before he sent anything doesn't have the line; nor has one
    who is silent, once another calls. Who sends has it, and then the port refuses."""
    it = server()
    bridge = Bridge("listen:127.0.0.1:0", f"connect:127.0.0.1:{port_of(it)}")
    port = bridge.ports(1)[0]
    for count in range(1, 4):
        with socket.create_connection(("127.0.0.1", port)) as stranger:
            bridge.waits(lambda it: it.err.count(b"connected ") >= count, 5)
            if is_reset:
                reset_at_close(stranger)
    time.sleep(0.2)
    assert bridge.is_running() and is_listening(port), "a stranger ended it"
    silent, caller = (socket.create_connection(("127.0.0.1", port)) for _ in range(2))
    caller.sendall(control(1))
    called = it.accept()[0]
    called.settimeout(5)
    assert called.recv(100) == control(1), "another frame came over the bridge"
    assert not is_listening(port), "it listens while its lines are up"
    called.sendall(control(2, 1))
    caller.settimeout(5)
    assert caller.recv(100) == control(2, 1), "another frame came back"
    caller.close()
    must_end("a good caller", bridge, 0)
    assert bridge.counts() == ((1, 0, 0, 0, 0), (1, 0, 0, 0, 0))


@times
def test_processor_of_a_waiting_bridge():
    """A bridge with a silent caller waits without a busy loop, and its time ends it."""
    bridge = Bridge("listen:127.0.0.1:0", "listen:127.0.0.1:0", "--seconds", "2")
    with socket.create_connection(("127.0.0.1", bridge.ports(2)[0])):
        must_end("silent", bridge, 0, seconds=6)
    assert bridge.used <= 0.6 and 1.8 < bridge.took < 4


def called_from(host, port):
    """A connection from an address of this machine."""
    return socket.create_connection(("127.0.0.1", port), 5, source_address=(host, 0))


@pytest.mark.parametrize("host", ["127.0.0.2", "localhost"])
def test_callers_of_one_host(host):
    """With --only a caller of another host is refused at once and reported; those of the host have
    the line."""
    own = "127.0.0.2" if host == "127.0.0.2" else "127.0.0.1"
    link = Link("listen:0.0.0.0:0", "--only", host)
    port = listening(link)
    refused = []
    for _stranger in range(3):
        with called_from("127.0.0.3", port) as stranger:
            refused.append(f"refused 127.0.0.3:{port_of(stranger)}")
            stranger.settimeout(3)
            with contextlib.suppress(ConnectionResetError):
                assert stranger.recv(1) == b"", "a stranger was sent something"
    burst = [called_from("127.0.0.3", port) for _ in range(5)]
    refused += [f"refused 127.0.0.3:{port_of(it)}" for it in burst]
    peer = Peer(called_from(own, port), good)
    assert peer.runs(5)
    link.give(b"61\n")
    must_end(host, link, 0)
    told = [it for it in link.errors() if it.startswith("refused ")]
    assert peer.mail == [b"a"] and told == refused


def test_only_of_no_callers():
    """--only is for a line with callers; of an unknown host nobody may call."""
    for line in ("connect:127.0.0.1:1", "udp:127.0.0.1:0,127.0.0.1:9", "device:/dev/null"):
        link = Link(line, "--only", "127.0.0.1")
        assert link.ended(10) == 2 and b"'--only' is for a line listen:HOST:PORT" in link.err
    link = Link("listen:127.0.0.1:0", "--only", "nosuchhost.invalid", "--seconds", "20")
    port = listening(link)
    with called_from("127.0.0.1", port) as caller:
        caller.settimeout(15)
        with contextlib.suppress(ConnectionResetError):
            assert caller.recv(1) == b"", "a caller of no host was sent something"


def test_second_caller():
    """Once a peer has started, the port refuses, and who was waiting is reset; with --again it
    listens there for the next."""
    link = Link("listen:127.0.0.1:0", "--again")
    port = listening(link)
    for count in range(3):
        first = connected(port)
        waiting = socket.create_connection(("127.0.0.1", port), 5)
        peer = Peer(first, good)
        assert peer.runs(5)
        assert holds_within(3, lambda: not is_listening(port))
        with contextlib.suppress(ConnectionRefusedError):
            socket.create_connection(("127.0.0.1", port), 5).close()
            pytest.fail(f"line {count}: a second caller isn't refused")
        waiting.settimeout(3)
        with contextlib.suppress(ConnectionResetError):
            assert waiting.recv(1) != b""
        waiting.close()
        peer.send(data(b"a", 1))
        link.waits(lambda it: len(it.mails()) > count, 5)
        peer.close()
    assert link.mails() == [b"a"] * 3 and holds_within(5, lambda: is_listening(port))
    told = [re.sub("connected .*", "connected", it) for it in link.errors()]
    assert (told[:4] == [f"listening 127.0.0.1:{port}", "connected",
                         "line down: closed by the other end", f"listening 127.0.0.1:{port}"])


def test_port_taken_meanwhile():
    """If another program has the port as the line ends, it is tried again until it is free."""
    link = Link("listen:127.0.0.1:0", "--again")
    port = listening(link)
    peer = Peer(connected(port), good)
    peer.runs(5)
    holds_within(3, lambda: not is_listening(port))
    other = socket.socket()
    other.setsockopt(socket.SOL_SOCKET, socket.SO_REUSEADDR, 1)
    other.bind(("127.0.0.1", port))
    other.listen()
    peer.close()
    fault = "ddcmp: listen 127.0.0.1:0: address in use; retry in 1 s"
    assert link.waits(lambda it: fault in it.errors(), 5)
    other.close()
    peer = Peer(connected(port), good)
    assert peer.runs(10), "it doesn't listen again"
