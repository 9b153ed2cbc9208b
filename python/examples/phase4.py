#!/usr/bin/env python3
"""An end node's side of a circuit of DECnet Phase IV: initialization, hellos and packets over a
station. As remembered of Phase IV's routing layer, and not tried against a DECnet node.

    phase4.py NODE LINE [--hello S] [--packets N] [--link PROGRAM [--lines]]

NODE is AREA.NUMBER, as 1.5, and LINE listen:HOST:PORT, connect:HOST:PORT or udp:LOCAL,REMOTE, as
`ddcmp link` has them. A hello goes S seconds after the last message [default: 15], and while the
adjacency is up N packets a second, which are numbered [default: 0]. The reply timer has --timer S
seconds [default: 3]. Standard output has, a line each: `up NODE`, `packet NODE TEXT`, and
`down REASON`, after which the circuit starts again. A connection is tried again each second.

A routing layer must tell the incarnations of a circuit apart: the first message of each is the
initialization message, and none of the one before may follow. So this feeds a station itself: each
call of `feed` returns one notice or message, in the order in which they came, and what waits for
room in the window is dropped by whatever starts the circuit again. With --link the station is that
of `PROGRAM link --binary --events`, which has its notices among its messages, and refuses what it
reads until each incarnation is acknowledged; with --lines, too, of `PROGRAM link --events`.
"""
import argparse
import asyncio
import collections
import math
import os
import struct
import sys
import time
from typing import Any, Deque, List, Optional, Sequence

import ddcmp

INITIALIZATION, VERIFICATION, HELLO, PACKET = 0x01, 0x03, 0x05, 0x02
END_NODE, WANTS_VERIFICATION = 3, 4  # of the byte TIINFO
BLOCK, VERSION, TEST_DATA = 576, b"\2\0\0", b"\xaa" * 4
WINDOW = 7  # messages that the link may have unacknowledged
MULTIPLIER = 2  # a neighbour is gone after so many of its hello times
RETRY = 1.0  # seconds between connections that are tried
_RUNS = ddcmp.NoticeKind.RUNNING, ddcmp.NoticeKind.RUNNING_AND_HANDED_UP


def node_of(text: str) -> int:
    """Returns the address of a node AREA.NUMBER in 16 bits."""
    area, _, number = text.partition(".")
    if not (area.isdigit() and number.isdigit() and 0 < int(area) < 64 and 0 < int(number) < 1024):
        raise argparse.ArgumentTypeError("a node is AREA.NUMBER, as 1.5")
    return int(area) << 10 | int(number)


def node_text(node: int) -> str:
    return f"{node >> 10}.{node & 1023}"


def report(*words: object) -> None:
    """Prints a line; if nobody reads it, that is the end."""
    try:
        print(*words, flush=True)
    except BrokenPipeError:
        os._exit(1)


class Circuit:
    """The routing layer's side of a circuit."""

    def __init__(self, node: int, hello: int, packets: float, timer: float) -> None:
        self.node, self.hello, self.packets, self.timer = node, hello, packets, timer
        self.begin()

    def begin(self) -> None:
        """Begins an incarnation: nothing of the one before is sent in it."""
        self.unsent: Deque[bytes] = collections.deque()
        self.neighbour: Optional[int] = None
        self.patience, self.numbered = float(MULTIPLIER * self.hello), 0
        self.heard_at = self.sent_at = time.monotonic()

    def down(self, reason: str) -> None:
        """Ends the adjacency, if it is up."""
        if self.neighbour is not None:
            report("down", reason)
        self.begin()

    def restart(self, reason: str) -> None:
        """Restarts the circuit, as whatever is against the rules does."""
        self.down(reason)
        self.start_again()

    def start_again(self) -> None:
        raise NotImplementedError

    def write(self) -> None:
        """Sends what there is room for."""
        raise NotImplementedError

    def runs(self) -> bool:
        raise NotImplementedError

    def begun(self) -> None:
        """Handles the start of an incarnation."""
        self.down("the circuit has restarted")
        self.send(struct.pack("<BHBH3sHB", INITIALIZATION, self.node, END_NODE, BLOCK, VERSION,
                              self.hello, 0))

    def send(self, message: bytes) -> None:
        self.unsent.append(message)
        self.sent_at = time.monotonic()
        self.write()

    def received(self, message: bytes) -> None:
        """Handles a message of the neighbour; one that may not come now restarts the circuit."""
        self.heard_at = time.monotonic()
        kind, is_up = message[0], self.neighbour is not None
        if kind == INITIALIZATION and not is_up and len(message) >= 12:
            self.initialized(message)
        elif kind == HELLO and is_up and message[4:] == TEST_DATA[:1] * len(message[4:]):
            pass
        elif kind == PACKET and is_up and len(message) >= 6:
            source = struct.unpack_from("<H", message, 3)[0]
            report("packet", node_text(source), message[6:].decode("ascii", "replace"))
        elif kind != VERIFICATION:
            self.restart(f"unexpected message of type {kind}")

    def initialized(self, message: bytes) -> None:
        _, node, info, _, version, hello, _ = struct.unpack_from("<BHBH3sHB", message)
        if version[0] != VERSION[0]:
            self.restart(f"version {version[0]} of the neighbour")
            return
        if info & WANTS_VERIFICATION:
            self.send(struct.pack("<BHB", VERIFICATION, self.node, 0))
        self.neighbour, self.patience = node, float(MULTIPLIER * hello)
        report("up", node_text(node))

    async def run(self) -> None:
        """Sends hellos and packets, and restarts a circuit on which nothing comes."""
        every = 1 / self.packets if self.packets else math.inf
        due = 0.0
        while True:
            await asyncio.sleep(min(0.1, every / 2))
            now = time.monotonic()
            if not self.runs():
                continue
            if now - self.heard_at >= self.patience:
                self.restart("nothing was heard")
                self.write()
            elif self.neighbour is not None and now >= due and self.packets and not self.unsent:
                due = now + every
                header = struct.pack("<BHHB", PACKET, self.neighbour, self.node, 0)
                self.send(header + b"%d %d" % (os.getpid(), self.numbered))
                self.numbered += 1
            elif self.neighbour is not None and now - self.sent_at >= self.hello:
                self.send(struct.pack("<BHB", HELLO, self.node, len(TEST_DATA)) + TEST_DATA)


class StationCircuit(Circuit, asyncio.Protocol, asyncio.DatagramProtocol):
    """A circuit over one line after another: a connection, or datagrams of one peer."""

    def __init__(self, node: int, hello: int, packets: float, timer: float) -> None:
        super().__init__(node, hello, packets, timer)
        self.station = ddcmp.Station(max=BLOCK, restart=True)
        self.transport: Any = None
        self.is_writable = True
        self.expiry: Optional[asyncio.TimerHandle] = None
        self.is_over = asyncio.Event()

    def start_again(self) -> None:
        self.station.halt()
        self.station.start()

    def runs(self) -> bool:
        return self.station.state == ddcmp.State.RUNNING

    def noticed(self, notice: ddcmp.Notice) -> None:
        if notice.kind in _RUNS:
            self.begun()
        elif notice.kind == ddcmp.NoticeKind.RESTARTED:
            self.down("the neighbour has restarted")

    def connection_made(self, transport: Any) -> None:
        if self.transport:  # one caller at a time
            transport.abort()
            return
        self.transport, self.is_writable = transport, True
        self.is_over.clear()
        self.begin()
        self.station.start()
        self.write()

    def connection_lost(self, exc: Optional[BaseException]) -> None:
        if self.transport and self.transport.is_closing():
            self.transport = None
            self.down("the line has ended")
            self.station.halt()
            self.station.clear_line()
            self.is_over.set()

    def pause_writing(self) -> None:
        self.is_writable = False

    def resume_writing(self) -> None:
        self.is_writable = True
        self.write()

    def error_received(self, exc: Exception) -> None:
        """Nobody is at the peer's port yet, or any more: the timers see to that."""

    def datagram_received(self, data: bytes, addr: Any) -> None:
        self.data_received(data)

    def data_received(self, data: bytes) -> None:
        while data and self.transport:
            used, notice = self.station.feed(data)
            data = data[used:]
            self.arm()
            if notice:
                self.noticed(notice)
            message = self.station.take()
            if message:
                self.received(message)
        self.write()

    def write(self) -> None:
        """Sends what has room in the window, and writes the station's frames."""
        while self.unsent and self.station.room:
            self.station.send(self.unsent.popleft())
        write = getattr(self.transport, "sendto", None) or getattr(self.transport, "write", None)
        while write and self.is_writable:
            frame = self.station.poll()
            self.arm()
            if not frame:
                return
            write(frame)

    def arm(self) -> None:
        """Sets the deadline of the reply timer if it was started."""
        if self.station.take_arm():
            if self.expiry:
                self.expiry.cancel()
            self.expiry = asyncio.get_running_loop().call_later(self.timer, self.expire)

    def expire(self) -> None:
        if self.transport and self.station.timer_on:
            self.station.expire()
            self.write()


class LinkCircuit(Circuit):
    """A circuit over `ddcmp link`, which opens its lines."""

    form: Sequence[str] = ("--binary", "--events")
    is_running = False

    def begin(self) -> None:
        super().begin()
        self.unacknowledged = 0

    def start_again(self) -> None:
        self.is_running = False
        self.command("restart")

    def runs(self) -> bool:
        return self.is_running

    def command(self, text: str) -> None:
        self.stdin.write(struct.pack(">H", 0x8000 + len(text)) + text.encode())

    def message(self, message: bytes) -> None:
        self.stdin.write(struct.pack(">H", len(message)) + message)

    def write(self) -> None:
        """Sends what has room in the window, so that no command waits behind messages."""
        while self.unsent and self.is_running and self.unacknowledged < WINDOW:
            self.message(self.unsent.popleft())
            self.unacknowledged += 1

    def noticed(self, text: str) -> None:
        """Handles an event: `notice NAME`, also with a count, `lost COUNT` or `line down: REASON`."""
        if text.startswith("line down: "):
            self.is_running = False
            self.down(text)
            return
        name, count = (text.split() + ["0"])[1:3]
        if name in ("Running", "RunningAndHandedUp"):
            self.command("ready")
            self.is_running = True
            self.begun()
        elif name == "Restarted":
            self.command("ready")
            self.is_running = False
            self.down("the neighbour has restarted")
        elif name.endswith("Acknowledged"):
            self.unacknowledged = max(0, self.unacknowledged - int(count))

    async def follow(self, program: str, line: str) -> None:
        """Runs the link, and handles what it writes."""
        words = [program, "link", *self.form, "--restart", "--again", "--max", str(BLOCK),
                 "--window", str(WINDOW), "--timer-ms", str(int(1000 * self.timer)), "--line", line]
        run = await asyncio.create_subprocess_exec(
            *words, stdin=asyncio.subprocess.PIPE, stdout=asyncio.subprocess.PIPE)
        assert run.stdin and run.stdout
        self.stdin = run.stdin
        while True:
            await self.read_one(run.stdout)
            self.write()

    async def read_one(self, output: asyncio.StreamReader) -> None:
        """Handles an event or a message."""
        length, = struct.unpack(">H", await output.readexactly(2))
        record = await output.readexactly(length % 0x8000)
        if length & 0x8000:
            self.noticed(record.decode("ascii"))
        else:
            self.received(record)


class LineCircuit(LinkCircuit):
    """The same in lines."""

    form = "--events",

    def command(self, text: str) -> None:
        self.stdin.write(f"?{text}\n".encode())

    def message(self, message: bytes) -> None:
        self.stdin.write(f"{message.hex()}\n".encode())

    async def read_one(self, output: asyncio.StreamReader) -> None:
        line = (await output.readuntil()).decode("ascii").rstrip()
        if line.startswith("mail "):
            self.received(bytes.fromhex(line[5:]))
        elif line.startswith(("notice ", "lost ", "line down: ")):
            self.noticed(line)


def line_of(text: str) -> List[Any]:
    """Returns the kind of a line, and its addresses."""
    kind, _, names = text.partition(":")
    found = [it.rpartition(":") for it in names.split(",")]
    wanted = {"listen": 1, "connect": 1, "udp": 2}.get(kind)
    if len(found) != wanted or not all(
            host and port.isdigit() and int(port) < 1 << 16 for host, _, port in found):
        raise argparse.ArgumentTypeError("a line is listen:HOST:PORT, connect:HOST:PORT or udp:..")
    return [kind, *((host, int(port)) for host, _, port in found)]


async def lines(circuit: StationCircuit, kind: str, here: Any, there: Any = None) -> None:
    """Opens the lines of a circuit, one after another."""
    loop = asyncio.get_running_loop()
    if kind == "udp":
        await loop.create_datagram_endpoint(lambda: circuit, local_addr=here, remote_addr=there)
    elif kind == "listen":
        await loop.create_server(lambda: circuit, *here)
    while kind == "connect":
        try:
            await loop.create_connection(lambda: circuit, *here)
            await circuit.is_over.wait()
        except OSError as it:
            print(f"phase4: {it}, still trying", file=sys.stderr, flush=True)
        await asyncio.sleep(RETRY)


async def main() -> None:
    words = argparse.ArgumentParser(description=__doc__.partition("\n\n")[0])
    words.add_argument("node", metavar="NODE", type=node_of)
    words.add_argument("line", metavar="LINE")
    words.add_argument("--hello", metavar="S", type=int, default=15)
    words.add_argument("--packets", metavar="N", type=float, default=0)
    words.add_argument("--timer", metavar="S", type=float, default=3)
    words.add_argument("--link", metavar="PROGRAM")
    words.add_argument("--lines", action="store_true")
    given = words.parse_args()
    sizes = given.node, given.hello, given.packets, given.timer
    if given.link:
        linked = (LineCircuit if given.lines else LinkCircuit)(*sizes)
        await asyncio.gather(linked.run(), linked.follow(given.link, given.line))
    else:
        circuit = StationCircuit(*sizes)
        await asyncio.gather(circuit.run(), lines(circuit, *line_of(given.line)))


if __name__ == "__main__":
    try:
        asyncio.run(main())
    except (OSError, argparse.ArgumentTypeError) as it:
        sys.exit(f"phase4: {it}")
    except asyncio.IncompleteReadError:
        sys.exit("phase4: the link has ended")
    except KeyboardInterrupt:
        pass
