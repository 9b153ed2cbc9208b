"""A station in Python, the other end of a link: it keeps each byte and frame that it receives."""
import contextlib
import os
import socket
import threading
import tty

from .process import LONG, Link, free_port, holds_within, port_of, server, udp_socket
from .wire import STACK, Reader, ack, digits, nak


def good(peer, frame):
    """What a peer answers that takes each message."""
    if frame.name == "STRT":
        return STACK
    if frame.name == "STACK":
        return ack(0)
    if frame.name == "DATA":
        if frame.num == peer.taken + 1 & 255:
            peer.taken = frame.num
            peer.mail.append(frame.message)
        return ack(peer.taken)
    if frame.name == "REP":
        return ack(peer.taken) if frame.num == peer.taken else nak(3, peer.taken)
    return b""


def no_ack(_peer, frame):
    """What a peer answers that starts, and then acknowledges nothing."""
    return {"STRT": STACK, "STACK": ack(0)}.get(frame.name, b"")


def silent(_peer, _frame):
    return b""


# what a link says of a peer that refuses a message for these reasons
REFUSED = {16: "ddcmp: peer refuses: message too long", 8: "ddcmp: peer has no buffer"}


class Refusing:
    """Answers each data frame, and each REP, by a NAK, until it takes messages."""

    def __init__(self, reason):
        self.reason, self.takes = reason, False

    def __call__(self, peer, frame):
        if self.takes or frame.name in ("STRT", "STACK"):
            return good(peer, frame)
        if frame.name == "DATA":
            return nak(self.reason, 0) if self.reason != 3 else b""
        return nak(3, 0) if frame.name == "REP" else b""


class Peer:
    """A peer over a connection, or over datagrams: a function has what it answers to each frame."""

    def __init__(self, sock, answer=good):
        self.sock, self.answer, self.reader = sock, answer, Reader()
        self.is_datagram = sock.type == socket.SOCK_DGRAM
        self.bytes, self.frames, self.mail, self.pieces, self.sent = b"", [], [], [], 0
        self.taken, self.remote, self.has_ended = 0, None, False
        sock.settimeout(None)
        self.thread = threading.Thread(target=self.work, daemon=True)
        self.thread.start()

    def __repr__(self):
        return f"<{self.mail[-3:]} {self.frames[-3:]}>"

    def work(self):
        with contextlib.suppress(OSError):
            while True:
                if self.is_datagram:
                    piece, self.remote = self.sock.recvfrom(1 << 16)
                    self.reader.rest = b""
                else:
                    piece = self.sock.recv(1 << 16)
                    if not piece:
                        break
                self.bytes += piece
                self.pieces.append(piece)
                for frame in self.reader.push(piece):
                    self.frames.append(frame)
                    self.send(self.answer(self, frame))
        self.has_ended = True

    def send(self, piece):
        if piece:
            self.sent += len(piece)
            if self.is_datagram:
                self.sock.sendto(piece, self.remote)
            else:
                self.sock.sendall(piece)

    def named(self, name):
        return [it for it in list(self.frames) if it.name == name]

    def waits(self, holds, seconds=LONG):
        return holds_within(seconds, lambda: holds(self))

    def runs(self, seconds=10):
        """Whether the startup handshake came to its end."""
        return self.waits(
            lambda it: any(f.name in ("ACK", "DATA") for f in list(it.frames)), seconds)

    def close(self):
        with contextlib.suppress(OSError):
            self.sock.shutdown(socket.SHUT_RDWR)
        self.sock.close()


def dials(*options, **streams):
    """A link that connects to a server, and that server."""
    it = server()
    return Link(f"connect:127.0.0.1:{port_of(it)}", *options, **streams), it


def linked(*options, **streams):
    """A link that connects, and the other end of its connection."""
    link, it = dials(*options, **streams)
    with it:
        return link, it.accept()[0]


def called(*options, answer=good, **streams):
    """A link that connects to a peer, and that peer."""
    link, sock = linked(*options, **streams)
    return link, Peer(sock, answer)


def at_a_full_device(*options):
    """A link at a device whose other end is read no more after the startup handshake, with more
    messages than find room; and that end."""
    end, device = os.openpty()  # not by socat, whose own writes would block
    tty.setraw(device)
    link = Link(f"device:{os.ttyname(device)}", "--window", "100", "--max", "16383", *options)
    reader = Reader()
    while not any(it.name == "STRT" for it in reader.push(os.read(end, 4096))):
        pass
    os.write(end, STACK)
    link.waits(lambda it: b"Running" in it.out, 10)
    link.give(digits([bytes(16383)] * 20), close=False)
    return link, end


def joined(it, answer=good):
    """The next peer that a link connects to at a server, after the startup handshake."""
    peer = Peer(it.accept()[0], answer)
    peer.runs()
    return peer


def running(*options, answer=good, **streams):
    """A link and a peer, after the startup handshake."""
    link, peer = called(*options, answer=answer, **streams)
    peer.runs()
    return link, peer


def datagram_peer(*options, answer=good, timer=("--timer-ms", "200")):
    """A link over datagrams, its peer, once that was heard, and the port of the link."""
    sock, local = udp_socket(), free_port(socket.SOCK_DGRAM)
    link = Link(f"udp:127.0.0.1:{local},127.0.0.1:{port_of(sock)}", *timer, *options)
    peer = Peer(sock, answer)
    assert peer.waits(lambda it: it.remote, 5) and peer.remote == ("127.0.0.1", local)
    return link, peer, local
