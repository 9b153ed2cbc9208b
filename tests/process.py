"""The program as it runs: its lines, its output, how it ends, and what is at the other end."""
import contextlib
import os
import random
import re
import socket
import struct
import subprocess
import sys
import tempfile
import threading
import time

import pytest

from .wire import binary, drawn, mail_in, unpacked

TOP = os.path.dirname(os.path.dirname(os.path.realpath(__file__)))
sys.path.insert(0, f"{TOP}/tools")
import sources  # noqa: E402, F401

PROGRAM = [f"{TOP}/crates/ddcmp/out/ddcmp"]  # --program names another one
LONG = 40  # seconds that nothing here may take
times = pytest.mark.xdist_group("times")  # trials that measure time: one after the other
EVENT = re.compile(r"(listening|connecting|connected|opened) \S+$|bound \S+, peer \S+$|line down: |"
                   r"retry in \d+ s$")


def free_port(kind=socket.SOCK_STREAM, step=1):
    """A port that nothing uses, and that the system gives to no connection meanwhile: a multiple
    of this number."""
    while True:
        port = random.SystemRandom().randrange(12000, 32000, step)
        with contextlib.suppress(OSError), socket.socket(socket.AF_INET, kind) as it:
            if kind == socket.SOCK_STREAM:  # a process that starts may have it for a moment
                it.setsockopt(socket.SOL_SOCKET, socket.SO_REUSEADDR, 1)
            it.bind(("127.0.0.1", port))
            return port


def is_listening(port):
    """Whether something listens at this port, without a connection to it."""
    with open("/proc/net/tcp", encoding="ascii") as lines:
        return any(it.split()[3] == "0A" and it.split()[1].endswith(f":{port:04X}") for it in lines)


def is_bound(port):
    """Whether a port has a socket of datagrams."""
    with open("/proc/net/udp", encoding="ascii") as lines:
        return any(it.split()[1].endswith(f":{port:04X}") for it in lines)


def server(backlog=128):
    made = socket.create_server(("127.0.0.1", 0), backlog=backlog)
    made.settimeout(LONG)
    return made


def port_of(sock):
    return sock.getsockname()[1]


def udp_socket():
    it = socket.socket(socket.AF_INET, socket.SOCK_DGRAM)
    it.bind(("127.0.0.1", 0))
    return it


def udp_names():
    """The names of the two ends of a line over UDP."""
    a, b = free_port(socket.SOCK_DGRAM), free_port(socket.SOCK_DGRAM)
    return f"udp:127.0.0.1:{a},127.0.0.1:{b}", f"udp:127.0.0.1:{b},127.0.0.1:{a}"


def line_names(kind):
    """The names of the two ends of a line over UDP, or over TCP: that of this kind is the first."""
    if kind == "udp":
        return udp_names()
    port = free_port()
    ends = f"connect:127.0.0.1:{port}", f"listen:127.0.0.1:{port}"
    return ends if kind == "connect" else ends[::-1]


def connected(port, seconds=20):
    """A connection to a port, once something listens there."""
    holds_within(seconds, lambda: is_listening(port))
    return socket.create_connection(("127.0.0.1", port), seconds)


def reset_at_close(sock):
    """Has the close of a connection be a reset."""
    sock.setsockopt(socket.SOL_SOCKET, socket.SO_LINGER, struct.pack("ii", 1, 0))


def sends(peer, text, most=1 << 16, ends=False):
    """Sends bytes in drawn pieces, and perhaps their end."""
    at = 0
    while at < len(text):
        size = drawn.randrange(1, most)
        peer.sendall(text[at:at + size])
        at += size
    if ends:
        peer.shutdown(socket.SHUT_WR)


def takes(peer):
    """All bytes that a connection receives, to its end."""
    return b"".join(iter(lambda: peer.recv(1 << 16), b""))


def receives(peer, size, seconds=LONG):
    """The bytes that a connection receives: this many, or those up to the time or its end."""
    found, until = bytearray(), time.monotonic() + seconds
    while len(found) < size and time.monotonic() < until:
        peer.settimeout(max(0.01, until - time.monotonic()))
        with contextlib.suppress(TimeoutError):
            piece = peer.recv(1 << 20)
            if not piece:
                break
            found += piece
    return bytes(found)


def holds_within(seconds, holds):
    until = time.monotonic() + seconds
    while not holds() and time.monotonic() < until:
        time.sleep(0.005)
    return bool(holds())


def contents(path):
    with open(path, "rb") as it:
        return it.read()


def text_of(path):
    """A text of the repository."""
    return contents(f"{TOP}/{path}").decode()


def version():
    return re.search('^#define DDCMP_VERSION "(.*)"$', text_of("include/ddcmp.h"), re.M)[1]


def call(*words, given=b"", seconds=60):
    """What a run of the program has written, its standard error as text, and its status."""
    it = subprocess.run([*PROGRAM, *words], input=given, capture_output=True, timeout=seconds)
    return it.stdout, it.stderr.decode(errors="replace"), it.returncode


def refusing(calls, *options):
    """What a command begins with, so that the system refuses its calls."""
    return ["strace", "-qq", "-o", "/dev/null", *options, "-e", f"inject={calls}"]


def explained(text, *options):
    """The lines of `explain` for these bytes."""
    out, err, status = call("explain", "--raw", *options, given=text)
    assert (err, status) == ("", 0)
    return out.decode().splitlines()


class Process:
    """A program that runs, with what it has written so far."""

    def __init__(self, words, stdin=subprocess.PIPE, stdout=subprocess.PIPE,
                 stderr=subprocess.PIPE, **how):
        self.begun = time.monotonic()
        self.run = subprocess.Popen(words, stdin=stdin, stdout=stdout, stderr=stderr, **how)
        self.out, self.err, self.readers, self.took, self.used = b"", b"", [], None, 0.0
        for name, stream in (("out", self.run.stdout), ("err", self.run.stderr)):
            if stream:
                reader = threading.Thread(target=self.read, args=(name, stream), daemon=True)
                reader.start()
                self.readers.append(reader)

    def __repr__(self):
        return f"<{self.run.poll()} {self.err[-90:]!r} {self.out[-90:]!r}>"

    def read(self, name, stream):
        for piece in iter(lambda: os.read(stream.fileno(), 1 << 16), b""):
            setattr(self, name, getattr(self, name) + piece)

    def give(self, text, close=True):
        def write():
            with contextlib.suppress(BrokenPipeError):
                self.run.stdin.write(text)
                self.run.stdin.flush()
            if close:
                with contextlib.suppress(BrokenPipeError):
                    self.run.stdin.close()
        writer = threading.Thread(target=write, daemon=True)
        writer.start()
        return writer

    def waits(self, holds, seconds=LONG):
        """Whether this holds of it within the time."""
        return holds_within(seconds, lambda: holds(self))

    def is_running(self):
        return self.run.poll() is None

    def ended(self, seconds=LONG):
        """Its status; None and killed, if it goes on."""
        holds_within(seconds, lambda: self.run.returncode is not None or self.has_ended())
        status = self.run.returncode
        if status is None:
            self.run.kill()
            self.has_ended(0)
        for it in self.readers:
            it.join(5)
        return status

    def has_ended(self, options=os.WNOHANG):
        """Whether it has ended; then how long it took, and its processor time."""
        pid, status, usage = os.wait4(self.run.pid, options)
        if not pid:
            return False
        self.run.returncode = os.waitstatus_to_exitcode(status)
        self.took = time.monotonic() - self.begun
        self.used = usage.ru_utime + usage.ru_stime
        return True

    def lines(self):
        """The lines on standard output."""
        return self.out.decode(errors="replace").split("\n")[:-1]

    def errors(self):
        """The lines on standard error."""
        return self.err.decode(errors="replace").split("\n")[:-1]

    def memory(self, name="VmRSS"):
        """Kilobytes that it has, or had at most (VmHWM)."""
        with open(f"/proc/{self.run.pid}/status", encoding="ascii") as lines:
            return next(int(it.split()[1]) for it in lines if it.startswith(name))

    def processor_time(self):
        with open(f"/proc/{self.run.pid}/stat", encoding="ascii") as it:
            fields = it.read().rsplit(")", 1)[1].split()
        return (int(fields[11]) + int(fields[12])) / os.sysconf("SC_CLK_TCK")

    def kill(self):
        if self.run.returncode is None:
            self.run.kill()
        return self.ended()


class Link(Process):
    """A link that runs."""

    WORDS = ["link", "--line"]

    def __init__(self, *words, **streams):
        super().__init__([*PROGRAM, *self.WORDS, *words], **streams)

    def events(self):
        """Those that report an event of the line."""
        return [it for it in self.errors() if EVENT.match(it)]

    def faults(self):
        """Those that don't."""
        return [it for it in self.errors() if not EVENT.match(it)]

    def mails(self):
        return mail_in(self.out)

    def last(self):
        """The fields of the last line."""
        return dict(it.split("=") for it in ([""] + self.lines())[-1].split() if "=" in it)


class Bridge(Link):
    """A bridge that runs; the line that Link names first is its first."""

    WORDS = ["bridge"]

    def ports(self, count):
        """The ports that it listens at."""
        self.waits(lambda it: it.err.count(b"listening ") >= count and it.err.endswith(b"\n"), 10)
        return [int(it.rsplit(":", 1)[1]) for it in self.errors() if it.startswith("listening ")]

    def counts(self):
        """What it counted each way: frames, skipped bytes, damaged frames, lost, altered ones."""
        lines = [it.split() for it in self.lines()]
        assert [it[0] for it in lines] == [">", "<"] and all(len(it) == 6 for it in lines), lines
        return tuple(tuple(int(it.split("=")[1]) for it in line[1:]) for line in lines)

    def traces(self):
        """The moments and the rest of the lines of its trace."""
        found = [re.match(r"(\d+) ([<>] .*|\|.*)", it) for it in self.errors()]
        return [(int(it[1]), it[2]) for it in found if it]


class Station(Process):
    """A station that runs; if it connects, once its peer listens."""

    ENDLESS = 4294967295  # turns

    def __init__(self, role, port, turns, timer, *options):
        if role == "connect":
            holds_within(10, lambda: is_listening(port))
        words = ["--role", role, "--addr", f"127.0.0.1:{port}", "--turns", str(turns)]
        words += ["--timer-ms", str(timer), *options]
        super().__init__([*PROGRAM, "station", *words])

    def has(self, pattern):
        return any(re.fullmatch(pattern, it) for it in self.lines())

    def must_end(self, status, fault=""):
        assert self.ended(120) == status, self
        assert re.fullmatch(fault, self.err.decode().rstrip("\n")), self


def into_pipe(made, *words, stream="stdout", **streams):
    """What is made of these words with an output that nobody reads yet, and where to read it."""
    reading, writing = os.pipe()
    run = made(*words, **{stream: writing}, **streams)
    os.close(writing)
    return run, reading


def rest_of(reading):
    """What is left in a pipe, to its end."""
    return b"".join(iter(lambda: os.read(reading, 1 << 16), b""))


def bridged(*options, **streams):
    """A bridge that connects to two servers, and the connections of its first and second line."""
    with server() as first, server() as second:
        names = [f"connect:127.0.0.1:{port_of(it)}" for it in (first, second)]
        bridge = Bridge(*names, *options, **streams)
        ends = first.accept()[0], second.accept()[0]
    for it in ends:
        it.settimeout(LONG)
    return bridge, *ends


def must_end(name, link, status, last=None, seconds=LONG):
    """A link ends with this status, and this last line on standard error; None is no line that
    begins `ddcmp:`."""
    got = link.ended(seconds)
    faults = [it for it in link.errors() if it.startswith("ddcmp: ")]
    assert (got, faults[-1:]) == (status, [last] if last else []), f"{name}: {link.lines()[-3:]}"


def listening(link):
    """The port that a link listens at."""
    assert link.waits(lambda it: b"\n" in it.err, 10), link.run.poll()
    return int(link.err.split(b"\n")[0].rsplit(b":", 1)[1])


def tcp_pair(left, right):
    """Two links over TCP: that which listens, and that which connects."""
    one = Link("listen:127.0.0.1:0", *left)
    return one, Link(f"connect:127.0.0.1:{listening(one)}", *right)


def unacknowledged(count):
    """The last line of a link, some of whose messages weren't acknowledged."""
    some = f"{count} messages not acknowledged: they" if count > 1 else (
        "1 message not acknowledged: it")
    return f"ddcmp: {some} may have arrived"


def exchange(name, one, two, to_two, to_one, form=binary):
    """Gives each side its messages, waits for all, and then ends both inputs: all arrived."""
    one.give(form(to_two), close=False)
    two.give(form(to_one), close=False)
    got = unpacked if form is binary else mail_in
    size = len(form(to_two)), len(form(to_one))
    holds_within(LONG, lambda: len(two.out) >= size[0] and len(one.out) >= size[1]
                 and got(two.out)[len(to_two) - 1:] and got(one.out)[len(to_one) - 1:])
    time.sleep(0.05)
    counts = len(got(two.out)), len(to_two), len(got(one.out)), len(to_one)
    assert got(two.out) == to_two and got(one.out) == to_one, (name, counts)
    one.run.stdin.close()
    two.run.stdin.close()
    for it in (one, two):
        must_end(name, it, 0)


@contextlib.contextmanager
def terminals():
    """The names of the two ends of a serial line, pseudo-terminals of socat."""
    with tempfile.TemporaryDirectory() as folder:
        ends = [f"{folder}/{it}" for it in "ab"]
        cable = ["socat", *(f"pty,raw,echo=0,link={it}" for it in ends)]
        with subprocess.Popen(cable) as between:
            assert holds_within(10, lambda: all(os.path.exists(it) for it in ends))
            try:
                yield ends
            finally:
                between.kill()


def commands_in(document, begins, has_blanks=False):
    """The indented lines of a document from the first one that begins so, with our program."""
    lines = text_of(f"docs/{document}").split("\n")
    first = next(at for at, line in enumerate(lines) if re.match(f"    {begins}", line))
    last = next(at for at in range(first, len(lines)) if lines[at][:4] != "    "
                and (lines[at] or not has_blanks))
    text = "\n".join(it[4:] for it in lines[first:last])
    return text.replace('"./ddcmp"', repr(PROGRAM[0])).replace("./ddcmp", PROGRAM[0])


def omitted(lines):
    """How many lines these lines report as left out, and how many lines do."""
    found = [re.fullmatch(r"ddcmp: (\d+) lines? left out", it) for it in lines]
    return sum(int(it[1]) for it in found if it), sum(bool(it) for it in found)
