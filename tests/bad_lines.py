"""Lines that damage bytes, lines that lose frames, and what a bridge loses and damages."""
import contextlib
import random
import select
import socket
import threading

from .process import Link, connected, free_port, holds_within, is_bound, port_of, server, udp_socket


class Bad:
    """A line between two sockets that flips bits, drops pieces and cuts them."""

    def __init__(self, rate):
        self.rate, self.server = rate, server()
        self.port, self.target = port_of(self.server), free_port()
        threading.Thread(target=self.join, daemon=True).start()

    def join(self):
        near = self.server.accept()[0]
        far = connected(self.target)
        for seed, (a, b) in enumerate(((near, far), (far, near))):
            draw = random.Random(seed)
            threading.Thread(target=self.carry, args=(a, b, draw), daemon=True).start()

    def carry(self, a, b, draw):
        with contextlib.suppress(OSError):
            while piece := a.recv(draw.randrange(1, 4000)):
                piece, fate = bytearray(piece), draw.random()
                if fate < self.rate:
                    piece[draw.randrange(len(piece))] ^= 1 << draw.randrange(8)
                elif fate < 2 * self.rate:
                    del piece[draw.randrange(len(piece)):]
                elif fate < 3 * self.rate:
                    continue
                b.sendall(piece)
        with contextlib.suppress(OSError):
            b.shutdown(socket.SHUT_WR)


class Loss:
    """What a lossy line does with a frame, drawn from a seed."""

    def __init__(self, seed):
        self.drawn, self.lost = random.Random(seed), 0

    def takes(self):
        is_lost = self.drawn.random() < 0.1
        self.lost += is_lost
        return is_lost


def whole_frames(text):
    """The frames at the front of the bytes that a station sent, and the rest."""
    frames, at = [], 0
    while len(text) - at >= 8:
        count = int.from_bytes(text[at + 1:at + 3], "little") & 0x3FFF
        length = 8 if text[at] == 5 else 8 + count + 2
        if len(text) - at < length:
            break
        frames.append(text[at:at + length])
        at += length
    return frames, text[at:]


def carry(one, other, loss):
    """Carries frames between two connections until both have ended."""
    kept = {one: b"", other: b""}
    to = {one: other, other: one}
    while to:
        for sock in select.select(list(to), [], [], 60)[0]:
            try:
                piece = sock.recv(1 << 16)
            except OSError:
                piece = b""
            target = to[sock]
            if not piece:
                del to[sock]
                for it in (sock, target):
                    with contextlib.suppress(OSError):
                        it.shutdown(socket.SHUT_RDWR)
                continue
            frames, kept[sock] = whole_frames(kept[sock] + piece)
            with contextlib.suppress(OSError):
                target.sendall(b"".join(it for it in frames if not loss.takes()))


def carry_datagrams(left, right, loss, is_over):
    """Carries datagrams between two sockets, each of which knows the address of its own link."""
    to = {left[0]: right, right[0]: left}
    while not is_over.is_set():
        for sock in select.select(list(to), [], [], 0.1)[0]:
            frame = sock.recv(1 << 16)
            target, address = to[sock]
            if not loss.takes():
                target.sendto(frame, address)


@contextlib.contextmanager
def lossy_datagrams(seed, *options):
    """Two links over UDP between which a tenth of the datagrams is lost, and that loss."""
    relays, ports = [udp_socket(), udp_socket()], []
    for _ in relays:
        with udp_socket() as it:
            ports.append(port_of(it))
    links = [Link(f"udp:127.0.0.1:{port},127.0.0.1:{port_of(relay)}", *options)
             for port, relay in zip(ports, relays)]
    loss, is_over = Loss(seed), threading.Event()
    ends = [(relay, ("127.0.0.1", port)) for port, relay in zip(ports, relays)]
    threading.Thread(target=carry_datagrams, args=(*ends, loss, is_over), daemon=True).start()
    assert holds_within(10, lambda: all(map(is_bound, ports)))  # else datagrams are lost
    yield *links, loss
    is_over.set()


class Draws:
    """What becomes of the frames of a direction, by the PCG32 of its seed."""

    def __init__(self, direction, lose=0, damage=0, seed=1):
        self.lose, self.damage = lose, damage
        self.step = direction << 1 | 1
        self.state = seed + self.step
        self.word()

    def word(self):
        old, self.state = self.state, (self.state * 6364136223846793005 + self.step) % 2**64
        mixed, turn = (old >> 18 ^ old) >> 27 & 0xFFFFFFFF, old >> 59
        return (mixed >> turn | mixed << (-turn & 31)) & 0xFFFFFFFF

    def left_of(self, frame):
        """What is left of the next frame."""
        first, second = self.word(), self.word()
        if first % 100 < self.lose:
            return b""
        if first // 100 % 100 < self.damage:
            at = 1 + second % (len(frame) - 1)
            return frame[:at] + bytes([frame[at] ^ 1 + second // 65536 % 255]) + frame[at + 1:]
        return frame
