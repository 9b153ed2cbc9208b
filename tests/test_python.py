"""python/ddcmp.py: its numbers, texts, layouts and calls against include/ddcmp.h, its examples, two
processes that exchange messages over sockets, a line that loses bytes and a pseudo-terminal,
refusals, memory, calls after a close, and what pip installs."""
import contextlib
import copy
import ctypes
import doctest
import gc
import os
import pydoc
import re
import select
import socket
import subprocess
import sys
import termios
import threading
import time
import traceback

import pytest

from .process import TOP, contents, text_of, version
from .wire import drawn

pytestmark = pytest.mark.limit(240)
SOON = 30  # seconds within which a busy machine does what takes no time
LETTERS = {"void": "v", "bool": "t", "size_t": "n", "uint8_t": "1", "uint16_t": "2",
           "uint32_t": "4", "uint64_t": "8"}  # of types of a call


@pytest.fixture(scope="module", autouse=True)
def module(library):
    """The module, over the C library."""
    global ddcmp
    os.environ["DDCMP_LIBRARY"] = f"{library}/libddcmp.so"
    sys.path.insert(0, f"{TOP}/python")
    import ddcmp


@pytest.fixture
def pair():
    """The two ends of a connection."""
    ends = socket.socketpair()
    yield ends
    for it in ends:
        it.close()


def refused(kind, text, call, *arguments):
    """A call raises an exception of this kind with this text."""
    with pytest.raises(kind) as fault:
        call(*arguments)
    assert str(fault.value) == text


def raised(call):
    """What a call returns or raises."""
    try:
        return call()
    except Exception as fault:  # whatever it is, it is what is looked at
        return str(fault)


# ---- the header

def found_in_c(header):
    """What a C program prints of the header: each number with its text, the size of each struct,
    and the offset and size of each field."""
    texts = {"code": "ddcmp_strerror", "state": "ddcmp_state_name", "kind": "ddcmp_notice_name",
             "header_kind": "ddcmp_header_name"}
    for enum, body in re.findall(r"^enum ddcmp_(\w+) \{(.*?)\};", header, re.M | re.S):
        for name in re.findall(r"DDCMP_(\w+) =", body):
            if not name.startswith("NO_"):  # that is nothing, which is None in Python
                text = f"{texts[enum]}(DDCMP_{name})" if enum in texts else '""'
                yield f'printf("{enum} {name} %d %s\\n", DDCMP_{name}, {text});'
    for struct, body in re.findall(r"^struct ddcmp_(\w+) \{(.*?)\};", header, re.M | re.S):
        yield f'printf("{struct} %zu\\n", sizeof(struct ddcmp_{struct}));'
        for name in re.findall(r"(\w+);", body):
            place = f"offsetof(struct ddcmp_{struct}, {name})"
            size = f"sizeof(((struct ddcmp_{struct} *)0)->{name})"
            yield f'printf("{struct}.{name} %zu %zu\\n", {place}, {size});'


def found_in_python():
    """The same of the module."""
    enums = {"code": ddcmp.Code, "state": ddcmp.State, "kind": ddcmp.NoticeKind,
             "header_kind": ddcmp.HeaderKind, "item_kind": ddcmp.ItemKind, "fault": ddcmp.Fault}
    structs = {"config": ddcmp._Config, "notice": ddcmp._Notice, "numbers": ddcmp._Numbers,
               "nak_counts": ddcmp._NakCounts, "counters": ddcmp._Counters,
               "header": ddcmp._Header, "item": ddcmp._Item}
    before = {"header_kind": "HEADER_", "item_kind": "ITEM_", "fault": "FAULT_"}
    for enum, made in enums.items():
        for it in made:
            begins = "IS_" if it is ddcmp.NoticeKind.RUNNING else before.get(enum, "")
            yield f"{enum} {begins}{it.name} {it.value} {getattr(it, 'text', '')}".strip()
    for struct, made in structs.items():
        yield f"{struct} {ctypes.sizeof(made)}"
        for name, _ in made._fields_:
            yield f"{struct}.{name} {getattr(made, name).offset} {getattr(made, name).size}"


def test_numbers_and_layouts(tmp_path):
    """Each number of the header, with its text, and each field, in their order; the defaults."""
    header = re.sub(r"/\*.*?\*/", "", text_of("include/ddcmp.h"), flags=re.S)
    lines = "\n".join(found_in_c(header))
    source = f'#include "ddcmp.h"\n#include <stdio.h>\nint main(void) {{\n{lines}\n}}\n'
    words = ["gcc", f"-I{TOP}/include", "-x", "c", "-", "-o", f"{tmp_path}/all"]
    subprocess.run(words, input=source, text=True, check=True)
    out = subprocess.run([f"{tmp_path}/all"], stdout=subprocess.PIPE, text=True, check=True).stdout
    assert [it.strip() for it in out.splitlines()] == list(found_in_python())
    config = re.search(r"DDCMP_DEFAULT_CONFIG \{ (.*) \}", header)[1]
    assert [int(it) for it in ddcmp.Config()] == [int(it) for it in config.split(", ")]


def test_calls():
    """Each call of the header, with the types of its result and its arguments."""
    wanted = {}
    calls = r"^(?:DDCMP_CALL|extern) (\w+) ddcmp_(\w+)\(([^)]*)\);"
    for result, name, arguments in re.findall(calls, text_of("include/ddcmp.h"), re.M):
        types = ["p" if "*" in it else LETTERS[it.split()[0]] for it in arguments.split(",")]
        wanted[name] = LETTERS[result] + "".join(types).replace("v", "")
    assert ddcmp._CALLS == wanted


def test_examples():
    assert doctest.testmod(ddcmp).failed == 0


# ---- stations that this module carries

def carry(source, target):
    frame = left = source.poll() or b""
    while left:
        used, _ = target.feed(left)
        left = left[used:]
    return frame != b""


def running(config=None):
    """Two stations that run."""
    config = config or ddcmp.Config()
    ends = ddcmp.Station(config), ddcmp.Station(config)
    for it in ends:
        it.start()
    while carry(*ends) or carry(*ends[::-1]):
        pass
    return ends


@pytest.mark.parametrize("name, values", [
    ("window", (0, 256, 65543, -1)), ("inbox", (0, 256, -7)), ("max", (0, 16384, 65537, -1)),
    ("syn", (17, 256, -1)),
])
def test_refused_sizes(name, values):
    for value in values:
        refused(ddcmp.Error, ddcmp.Code[name.upper()].text, ddcmp.Station,
                ddcmp.Config(**{name: value}))


def test_sizes_by_keyword():
    assert ddcmp.Station(max=512, restart=True).config == ddcmp.Config(max=512, restart=True)
    assert ddcmp.Station(ddcmp.Config(3, 4), inbox=5).config == ddcmp.Config(3, 5)
    with pytest.raises(TypeError):
        ddcmp.Station(size=3)


def test_refused_readers():
    for value in (0, 16384, -1, 65536 + 5):
        refused(ddcmp.Error, ddcmp.Code.MAX.text, ddcmp.Reader, value)


def test_refusals():
    one, other = running(ddcmp.Config(window=2, inbox=1, max=3))
    refused(TypeError, "memoryview: a bytes-like object is required, not 'int'", one.send, 3)
    refused(ddcmp.Error, "the message is empty", one.send, b"")
    refused(ddcmp.Error, "the message is too long", one.send, b"abcd")
    assert one.send_refusal(b"abcd") == ddcmp.Code.TOO_LONG
    sent = [one.send(b"abc"), one.room, one.send(bytearray(b"de")), one.room]
    assert sent == [1, True, 2, False]
    refused(ddcmp.Error, "the window is full", one.send, memoryview(b"f"))
    refused(ddcmp.Error, "the station isn't halted", one.start)
    refused(ddcmp.Error, "the station doesn't run", one.send_maintenance, b"a")
    carry(one, other)
    assert [other.waiting, other.waiting_length(0), other.waiting_at(0)] == [1, 3, b"abc"]
    refused(ddcmp.Error, "there is no such message", other.waiting_at, -1)
    assert [other.clear_line(), other.halt(), other.clear_line()] == [False, None, True]
    refused(ddcmp.Error, "the inbox isn't empty", other.start)
    assert [other.take(), other.take(), other.start()] == [b"abc", None, 0]


def test_refused_frames():
    refused(ddcmp.Error, "the data aren't as many as the header says", ddcmp.write_frame,
            ddcmp.Header(ddcmp.HeaderKind.DATA, count=2), b"a")
    for fields in ({"sub": 64}, {"num": 256}, {"resp": -1}):
        refused(ddcmp.Error, "a number of the header is out of range", ddcmp.write_frame,
                ddcmp.Header(ddcmp.HeaderKind.NAK, **fields))


def test_maintenance(pair):
    ends = ddcmp.Station(), ddcmp.Station()
    for it in ends:
        it.enter_maintenance()
    refused(ddcmp.Error, "the station doesn't run", ddcmp.Line(ends[0], pair[0]).send, b"x", 1)
    ends[0].send_maintenance(b"boot")
    frame = ends[0].poll()
    assert ends[1].feed(frame) == (len(frame), (ddcmp.NoticeKind.MAINTENANCE_HANDED_UP, 0))
    assert ends[1].take() == b"boot"


def written_frame():
    """A drawn frame, and what a reader is to find in it."""
    kind = drawn.choice(list(ddcmp.HeaderKind))
    has_data = kind in (ddcmp.HeaderKind.DATA, ddcmp.HeaderKind.MAINT)
    data = drawn.randbytes(drawn.randint(1, 50)) if has_data else b""
    header = ddcmp.Header(kind, count=len(data), q=True, s=True, addr=drawn.randrange(256))
    frame = ddcmp.write_frame(header, data)
    if has_data and drawn.randrange(4) == 0:
        return frame[:-1] + bytes([frame[-1] ^ 1]), (ddcmp.ItemKind.DATA_CHECK, header, b"")
    return frame, (ddcmp.ItemKind.GOOD, header, data)


def test_reader():
    """What a reader finds in frames that were written, good and damaged, in chunks of any size."""
    wanted, text = [], b""
    for _ in range(200):
        frame, (kind, header, data) = written_frame()
        wanted.append((len(text), kind, header.kind, header.addr, data))
        text += frame
    for size in (1, 7, 100, len(text)):
        it, found = ddcmp.Reader(50), []
        for begin in range(0, len(text), size):
            found += it.push(memoryview(text)[begin:begin + size])
        assert [(at, kind, h.kind, h.addr, data) for at, kind, h, data, *_ in found] == wanted
    long = ddcmp.write_frame(ddcmp.Header(list(ddcmp.HeaderKind)[0], count=3), b"abc")
    found = ddcmp.Reader(2).push(bytes.fromhex("0504000000013d95") + long)
    assert found[-1].kind == ddcmp.ItemKind.TOO_LONG
    assert ddcmp.check(bytes.fromhex("050100000001")) == 0x55FC


@pytest.mark.parametrize("name, words", [("Station", [b"a", 0]), ("Reader", [b"a"])])
def test_closed(name, words):
    """After a close each call is refused, and no handle is copied or used by another thread."""
    kind, met = getattr(ddcmp, name), []
    with kind() as it:
        refused(TypeError, "a station or reader can't be copied", copy.copy, it)
        other = threading.Thread(target=lambda: met.append(raised(it.close)))
        other.start()
        other.join()
        assert met == ["a station or reader stays on the thread that made it"]
    it.close()
    for call in dir(kind):
        if not call.startswith("_") and call != "close":
            # A property is read; a method takes nothing, or one of these words.
            met = [raised(lambda: getattr(it, call)(*some)) for some in [[], *([w] for w in words)]]
            assert "the handle has no station or reader" in met, call


def resident():
    gc.collect()
    with open("/proc/self/statm", encoding="ascii") as it:
        return int(it.read().split()[1]) * os.sysconf("SC_PAGE_SIZE")


def test_memory():
    """10,000 pairs of stations, and as many readers, dropped or closed, leave nothing."""
    for count in (500, 10000):
        before = resident()
        for i in range(count):
            one, other = running()
            one.send(b"abc")
            carry(one, other)
            it = ddcmp.Reader()
            it.push(b"\x81")
            if i % 2:
                it.close()
                one.close()
            raised(lambda: ddcmp.Station(ddcmp.Config(syn=17)))
    assert resident() - before <= 2 << 20


# ---- lines

def messages_of(count):
    return [drawn.randbytes(drawn.choice((1, 5, 100, 1500))) for _ in range(count)]


def child(closes, work, *arguments):
    """A process that closes the ends of others and does this work, whose faults it prints."""
    pid = os.fork()
    if pid == 0:
        status = 1
        try:
            for it in closes:
                it.close()
            work(*arguments)
            status = 0
        except BaseException:  # whatever it is, this process ends here
            traceback.print_exc()
            sys.stderr.flush()
        finally:
            os._exit(status)
    return pid


def must_end_well(pid):
    assert os.waitpid(pid, 0)[1] == 0, "a fault of the other process"


@contextlib.contextmanager
def started(transport, timer=None, *more, on_take=False, **sizes):
    """A line with a station of its own."""
    with ddcmp.Station(ddcmp.Config(**sizes)) as station:
        station.acknowledge_on_take(on_take)
        station.start()
        times = [] if timer is None else [timer]
        yield ddcmp.Line(station, transport, *times, *more)


def exchange(line, mine, others):
    """Sends messages and receives others, in turn, and waits until all is acknowledged."""
    found = []
    for i in range(max(len(mine), len(others))):
        if i < len(mine):
            line.send(mine[i], SOON)
        if i < len(others):
            found.append(line.receive(SOON))
    line.flush(SOON)
    assert found == others, f"{len(found)} messages, not these {len(others)} in their order"


def end_of(transport, mine, others, timer, told=None):
    """An end that leaves once it has all, and its peer too if that tells it."""
    notices = []
    with started(transport, timer, notices.append) as line:
        exchange(line, mine, others)
        while told and not select.select([told], [], [], 0)[0]:
            raised(lambda: line.receive(timer))
        counts = [it.count for it in notices if it.kind in (
            ddcmp.NoticeKind.ACKNOWLEDGED, ddcmp.NoticeKind.HANDED_UP_AND_ACKNOWLEDGED)]
        assert sum(counts) == len(mine)
        return line.station.counters


def lingers(transport, mine, others, timer, tells=None):
    """An end that answers its peer until that leaves, and tells it when it has all itself."""
    with started(transport, timer) as line:
        exchange(line, mine, others)
        if tells:
            tells.send(b".")
        with pytest.raises((EOFError, ConnectionResetError)):
            line.receive(SOON)


def test_sockets():
    mine, others = messages_of(300), messages_of(200)
    here, there = socket.socketpair()
    pid = child([here], lingers, there, others, mine, 5)
    there.close()
    end_of(here, mine, others, 5)
    here.close()
    must_end_well(pid)


def lossy(one, other, chance):
    """Carries bytes both ways, and drops some of the chunks, until an end closes."""
    with contextlib.suppress(BrokenPipeError, ConnectionResetError):
        while True:
            for source in select.select([one, other], [], [])[0]:
                chunk = source.recv(65536)
                if not chunk:
                    return
                if drawn.random() >= chance:
                    (other if source is one else one).sendall(chunk)


@contextlib.contextmanager
def lossy_line(mine, others):
    """A line that loses chunks: this end, and a socket that can be read once its peer has all of
    mine."""
    (here, near), (there, far), (told, tells) = (socket.socketpair() for _ in range(3))
    pids = [child([here, there], lossy, near, far, 0.1),
            child([here, near, far, told], lingers, there, others, mine, 0.05, tells)]
    for it in (near, far, there):
        it.close()
    yield here, told
    here.close()
    for pid in pids:
        must_end_well(pid)


def test_lost_bytes():
    """A line that loses chunks: the reply timer has them retransmitted."""
    mine, others = messages_of(60), messages_of(60)
    with lossy_line(mine, others) as (here, told):
        counters = end_of(here, mine, others, 0.05, told)
    assert counters.expiries != 0 and counters.rep_sent != 0


def test_attributes_of_a_port(monkeypatch):
    """A serial port is raw, at its speed."""
    _, device = os.openpty()
    path = os.ttyname(device)
    with ddcmp.serial_port(path, 19200) as port:
        found = termios.tcgetattr(port)
        found[2] &= ~termios.CRTSCTS
        assert [found[it] for it in (0, 1, 3, 4, 5)] == [0, 0, 0, termios.B19200, termios.B19200]
        refused(ValueError, "no serial port has the speed 7", ddcmp.serial_port, path, 7)
        controls = []
        monkeypatch.setattr(termios, "tcsetattr", lambda *words: controls.append(words[2][2]))
        ddcmp.serial_port(path).close()
        assert controls == [termios.CS8 | termios.CREAD | termios.CLOCAL]


def test_terminal():
    """A pseudo-terminal, whose other end opens late: what was written before is lost."""
    mine, others = messages_of(40), messages_of(40)
    control, device = os.openpty()
    with ddcmp.serial_port(os.ttyname(device), 19200) as port:
        def late():
            os.close(control)
            os.close(device)
            time.sleep(0.3)
            termios.tcflush(port, termios.TCIFLUSH)
            end_of(port, others, mine, 0.1)
        pid = child([], late)
    os.close(device)
    assert end_of(control, mine, others, 0.1).expiries != 0
    must_end_well(pid)
    with started(control) as line:
        refused(EOFError, "the line has ended", line.receive, SOON)
    os.close(control)


def fills(transport):
    """An end that sends three messages, receives up to the last of its peer, and restarts."""
    with started(transport, inbox=255) as line:
        for text in (b"1", b"2", b"3"):
            line.send(text, SOON)
        while line.receive(SOON) != b"last":
            pass
        line.flush(SOON)
        line.station.halt()
        line.station.start()
        refused(EOFError, "the line has ended", line.receive, SOON)


def test_not_started(pair):
    with ddcmp.Station() as station:
        line = ddcmp.Line(station, pair[0])
        for call in ([line.receive], [list, line], [line.send, b"x"]):
            refused(ConnectionResetError, "the station is halted", *call)


def test_late(pair):
    with started(pair[0], 0.05) as line:
        begun = time.monotonic()
        refused(TimeoutError, "the line took too long", line.receive, 0.3)
        assert 0.3 <= time.monotonic() - begun < 5 and 2 <= line.station.counters.expiries <= 7
        refused(TimeoutError, "the line took too long", line.receive, 0)


def test_full_and_restarted():
    """The inbox is full while the peer sends on; then the peer restarts."""
    here, there = socket.socketpair()
    notices = []
    with started(here, 0.05, notices.append, inbox=2) as line:
        pid = child([here], fills, there)
        there.close()
        refused(BlockingIOError, "the inbox is full",
                lambda: [line.send(b"x", SOON) for _ in range(100)])
        assert [line.receive(SOON) for _ in range(3)] == [b"1", b"2", b"3"]
        line.send(b"last", SOON)
        refused(ConnectionResetError, "the station is halted", line.receive, SOON)
        assert notices[-1].kind == ddcmp.NoticeKind.PEER_RESTARTED
    here.close()
    must_end_well(pid)


def test_ended(pair):
    pair[1].close()
    with started(pair[0]) as line:
        refused(EOFError, "the line has ended", line.send, b"x")


def test_not_written(pair):
    with started(pair[0]) as line:
        while raised(lambda: pair[0].send(bytes(4096))) == 4096:  # nobody reads
            pass
        refused(TimeoutError, "the line took too long", line.flush, 0.1)


def over_library(**more):
    """The environment of a program with the module of these sources."""
    names = {"PYTHONPATH": f"{TOP}/python", "PYTHONDONTWRITEBYTECODE": "1"}
    return {**os.environ, **names, **more}


def echoes(listener):
    with started(listener.accept()[0]) as line:
        line.send(line.receive(SOON)[::-1], SOON)
        line.flush(SOON)
        refused(EOFError, "the line has ended", line.receive, SOON)


@pytest.mark.parametrize("number, notices", [(0, 1), (1, 0)])
def test_documented_program(number, notices):
    """The programs of docs/LIBRARY.md, over a connection of this machine."""
    section = text_of("docs/LIBRARY.md").split("\n## Python\n")[1].split("\n## ")[0]
    programs = re.findall(r"^    import .*\n(?:(?:    .*)?\n)*", section, re.M)
    assert len(programs) == 2
    text = re.sub("^    ", "", programs[number], flags=re.M)
    with socket.create_server(("127.0.0.1", 0)) as listener:
        pid = child([], echoes, listener)
        text = text.replace('"pdp11", 7000', str(listener.getsockname())[1:-1])
        it = subprocess.run([sys.executable, "-c", text], env=over_library(),
                            capture_output=True, text=True, check=False)
    assert [it.returncode, it.stderr] == [0, ""]
    assert it.stdout.splitlines().count("b'olleH'") == 1
    assert it.stdout.count("Notice(kind=<NoticeKind.RUNNING") == notices
    must_end_well(pid)


def sends_what_is_left(connection, messages, first):
    """Sends messages from this one on, until the line ends; how many are acknowledged then."""
    with ddcmp.Station(window=7) as station:
        station.start()
        line = ddcmp.Line(station, connection, timer=0.2)
        sent = first
        with contextlib.suppress(EOFError, OSError):
            for it in messages[first:]:
                line.send(it, SOON)
                sent += 1
            line.flush(SOON)
        return sent - station.outgoing


def test_taken_by_the_program(pair):
    """What a line returned and the program then took itself isn't taken twice."""
    with started(pair[0], on_take=True) as line, started(pair[1]) as other:
        while other.station.state != ddcmp.State.RUNNING:
            raised(lambda: line.receive(0.01))
            raised(lambda: other.receive(0.01))
        for it in b"1", b"2":
            other.send(it)
        assert [line.receive(SOON), line.station.take(), line.receive(SOON)] == [b"1", b"1", b"2"]


KEEP = """import os, socket, sys
import ddcmp
line = ddcmp.ThreadLine(socket.create_connection(("127.0.0.1", int(sys.argv[1]))), inbox=16,
                        acknowledge_on_take=True)
with open(sys.argv[2], "ab", buffering=0) as file:
    for message in line:
        file.write(message + b"\\n")
        os.fsync(file.fileno())
"""
KEEP_ASYNC = """import asyncio, os, socket, sys
import ddcmp
async def main(port, name):
    station = ddcmp.Station(inbox=16)
    station.acknowledge_on_take()
    station.start()
    loop = asyncio.get_running_loop()
    _, line = await loop.create_connection(lambda: ddcmp.AsyncLine(station), "127.0.0.1", int(port))
    with open(name, "ab", buffering=0) as file:
        async for message in line:
            file.write(message + b"\\n")
            os.fsync(file.fileno())
asyncio.run(main(*sys.argv[1:]))
"""


@pytest.fixture
def keep_in_c(library, tmp_path):
    """The example in C that keeps what it receives."""
    made = f"{tmp_path}/keep"
    words = ["gcc", "-std=c99", "-Wall", "-Wextra", "-Werror", f"-I{TOP}/include"]
    subprocess.run([*words, f"{TOP}/c/examples/keep.c", f"{library}/libddcmp.a", "-o", made],
                   check=True)
    return made


@pytest.mark.parametrize("kills, program", [
    (100, [sys.executable, f"{TOP}/python/examples/keep.py"]), (100, None),
    (25, [sys.executable, "-c", KEEP]), (25, [sys.executable, "-c", KEEP_ASYNC]),
], ids=["Line", "C", "ThreadLine", "AsyncLine"])
def test_killed_receivers(request, tmp_path, kills, program):
    """A receiver that acknowledges on take and is killed many times: it has stored whatever was
    acknowledged, and in the end all messages, in order."""
    program = program or [request.getfixturevalue("keep_in_c")]
    name, done, stored = f"{tmp_path}/kept", 0, []
    messages = [b"%d" % i for i in range(100000)]
    with socket.create_server(("127.0.0.1", 0)) as listener:
        words = [*program, str(listener.getsockname()[1])]
        for _ in range(kills):
            receiver = subprocess.Popen([*words, name], env=over_library())
            connection, _ = listener.accept()
            threading.Timer(drawn.uniform(0, 0.05), receiver.kill).start()
            with connection:
                done = max(done, sends_what_is_left(connection, messages, done))
            receiver.wait()
            stored = contents(name).splitlines()
            assert set(messages[:done]) <= set(stored)
        assert done < len(messages)
        messages = messages[:done + 100]
        receiver = subprocess.Popen([*words, name], env=over_library())
        connection, _ = listener.accept()
        with connection:
            assert sends_what_is_left(connection, messages, done) == len(messages)
        receiver.wait()
    kept = [int(it) for it in contents(name).splitlines()]
    assert all(0 <= then <= now + 1 for now, then in zip(kept, kept[1:]))
    assert sorted(set(kept)) == list(range(len(messages)))


def test_installed_by_pip(library, tmp_path):
    """`pip install ./python` into a new environment, without a network: the module, and the library
    that is named or built."""
    made, names = str(tmp_path / "made"), {**os.environ, "PIP_NO_INDEX": "1"}
    subprocess.run([sys.executable, "-m", "venv", made], check=True)
    words = [f"{made}/bin/pip", "install", "--disable-pip-version-check", "./python"]
    subprocess.run(words, cwd=TOP, env=names, capture_output=True, check=True)
    del names["DDCMP_LIBRARY"]
    text = ("import ddcmp, importlib.metadata as known\n"
            "print(ddcmp.__version__, known.version('ddcmp'), ddcmp._LIBRARY._name)\n")
    found = subprocess.check_output([f"{made}/bin/python", "-I", "-c", text], env=names, text=True)
    *versions, path = found.split()
    assert versions == [version(), version()]
    assert path.startswith(f"{made}/lib/") and path.endswith("/ddcmp.libs/libddcmp.so.0")
    assert contents(path) == contents(f"{library}/libddcmp.so")


def test_version():
    """It is that of the header, and of the library."""
    major, minor, patch = map(int, ddcmp.__version__.split("."))
    assert ddcmp.__version__ == version()
    assert ddcmp._call("version") == major * 10000 + minor * 100 + patch


def test_no_library():
    it = subprocess.run([sys.executable, "-c", "import ddcmp"], capture_output=True, text=True,
                        env=over_library(DDCMP_LIBRARY="/nowhere"), check=False)
    assert it.returncode == 1 and it.stderr.splitlines()[-1].startswith("ImportError: /nowhere: ")
    assert it.stderr.endswith("; DDCMP_LIBRARY names the library\n")


def test_help():
    """It has no methods of numbers; as text a number is its name in words."""
    text = pydoc.plain(pydoc.render_doc(ddcmp))
    assert "bit_length" not in text and "PEER_RESTARTED" in text and "send(self, message" in text
    words = [ddcmp.State.ISTART, ddcmp.Code.EMPTY, ddcmp.ItemKind.TOO_LONG, ddcmp.Fault.COUNT_ZERO]
    assert [f"{it}" for it in words] == [str(it) for it in words] == [
        "IStart", "the message is empty", "too long", "count zero"]


def by_hand(there, other):
    """Carries what came to a station, and its frames back; the messages that it received."""
    found, left = [], b""
    with contextlib.suppress(BlockingIOError):
        left = there.recv(1 << 20)
    while left:
        left = left[other.feed(left).used:]
        found += iter(other.take, None)
    for frame in iter(other.poll, None):
        there.send(frame)
    return found


@contextlib.contextmanager
def beside_a_station(here, there, *timer, **sizes):
    """A line that runs, and a station that is run by hand at its other end."""
    there.setblocking(False)
    with started(here, *timer, **sizes) as line, ddcmp.Station(ddcmp.Config(**sizes)) as other:
        other.start()
        while line.station.state != ddcmp.State.RUNNING:
            raised(lambda: line.receive(0))
            by_hand(there, other)
        yield line, other


def test_line_in_turn():
    """The reply timer begins when the station starts it, however long ago its last deadline was;
    and a line that takes a part of a frame has the rest later."""
    with socket.create_server(("127.0.0.1", 0)) as listener:
        here = socket.create_connection(listener.getsockname())
        there = listener.accept()[0]
    here.setsockopt(socket.SOL_SOCKET, socket.SO_SNDBUF, 40000)  # no multiple of a frame
    with beside_a_station(here, there, 60, window=255, inbox=255, max=16383) as (line, other):
        line._expiry = 0
        messages = [drawn.randbytes(16383) for _ in range(40)]
        for it in messages:
            line.send(it, SOON)
            raised(lambda: line.receive(0))
        assert line.station.counters.expiries == 0
        found = []
        while line.station.outgoing:
            found += by_hand(there, other)
            raised(lambda: line.receive(0.001))
        assert found == messages and line.station.counters.messages_again == 0
        line.send(b"x")
        line._expiry = 0
        raised(lambda: line.receive(0))
        assert line.station.counters.expiries == 1


def test_last_words(pair):
    """What a peer sent before it closed is received, though no frame can be written any more."""
    here, there = pair
    with beside_a_station(here, there) as (line, other):
        other.send(b"last")
        by_hand(there, other)
        there.close()
        assert raised(lambda: line.send(b"x", SOON)) == 1
        assert raised(lambda: line.receive(SOON)) == b"last"
        refused(EOFError, "the line has ended", line.receive, SOON)
