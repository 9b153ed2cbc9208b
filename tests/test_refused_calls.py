"""The system refuses a link's calls, each in turn (strace): it ends in time, with a status and a
text that fit, prints that its line is down if a write to that was refused, and what the other link
prints is a beginning of what this one read; a call that was only interrupted, or a caller that went
before it was accepted, changes nothing."""
import collections
import concurrent.futures
import contextlib
import os
import pty
import re
import subprocess
import tempfile
import tty

import pytest

from .process import PROGRAM, holds_within, is_listening, line_names
from .wire import digits, mail_in

# The calls of a link, and how the system may refuse each.
CALLS = {
    "socket": ("EMFILE", "ENOBUFS"), "bind": ("EACCES",), "listen": ("EADDRINUSE",),
    "getsockname": ("ENOBUFS",), "accept4": ("ECONNABORTED", "EMFILE", "EINTR"),
    "connect": ("ENETUNREACH", "EINTR"), "getsockopt": ("ENOBUFS",), "getpeername": ("ENOTCONN",),
    "setsockopt": ("EINVAL",), "epoll_create1": ("EMFILE",), "shutdown": ("ENOTCONN",),
    "epoll_ctl": ("ENOMEM", "ENOSPC"), "epoll_wait": ("EINTR", "ENOMEM"),
    "recvfrom": ("EINTR", "ECONNRESET", "ENOMEM"), "sendto": ("EINTR", "EPIPE", "ENOBUFS"),
    "read": ("EINTR", "EIO"), "write": ("EINTR", "EIO", "ENOSPC"), "openat": ("EMFILE",),
    "statx": ("ENOMEM",), "ioctl": ("ENOTTY",), "fcntl": ("EINVAL",), "flock": ("EWOULDBLOCK",),
}
HARMLESS = ("EINTR", "ECONNABORTED")  # but for a connect, which may fail so
SECONDS = 2  # of the link whose calls are refused
MESSAGES = [b"one", b"two" * 100, b"three"]


def calls_in(log):
    return collections.Counter(re.findall(r"^\d+ +(\w+)\(", log, re.M))


def calls_of_loader():
    """How often each call is made before the program begins: by one that does nothing."""
    with tempfile.NamedTemporaryFile("r") as log:
        words = ["strace", "-f", "-o", log.name, *PROGRAM, "--version"]
        subprocess.run(words, stdout=subprocess.DEVNULL, check=True)
        made = calls_in(log.read())
    made["write"] = 0  # that of the version is the program's own
    return made


@contextlib.contextmanager
def lines(kind):
    """The names of a line's two ends: that of the link whose calls are refused comes first."""
    if kind == "device":
        ours, its = pty.openpty(), pty.openpty()
        for ends in (ours, its):
            tty.setraw(ends[1])
        cable = ["socat", f"FD:{ours[0]}", f"FD:{its[0]}"]
        forward = subprocess.Popen(cable, pass_fds=(ours[0], its[0]), stderr=subprocess.DEVNULL)
        yield f"device:{os.ttyname(ours[1])}", f"device:{os.ttyname(its[1])}"
        forward.kill()
        forward.wait()
        for end in ours + its:
            os.close(end)
    else:
        yield line_names(kind)


def words(line, *options):
    return [*PROGRAM, "link", "--line", line, "--timer-ms", "200", *options]


def filled_input():
    """A pipe that has all messages and their end: how a link whose line fails ends depends on what
    its input has then."""
    reading, writing = os.pipe()
    os.write(writing, digits(MESSAGES))
    os.close(writing)
    return reading


def other_link(kind, line):
    pipes = {"stdin": subprocess.PIPE, "stdout": subprocess.PIPE, "stderr": subprocess.DEVNULL}
    made = subprocess.Popen(words(line, "--seconds", str(SECONDS + 1), "--again"), **pipes)
    if kind == "connect":
        holds_within(5, lambda: is_listening(int(line.split(":")[2])))
    return made


def traced(kind, options):
    """Runs two links, of which the first is traced: its status and outputs, None if it hangs, the
    output of the other, and the trace."""
    with lines(kind) as (line, its), tempfile.NamedTemporaryFile("r") as log:
        other = other_link(kind, its)
        given = filled_input()
        link = words(line, "--seconds", str(SECONDS))
        it = subprocess.Popen(["strace", "-f", "-o", log.name, *options, *link], stdin=given,
                              stdout=subprocess.PIPE, stderr=subprocess.PIPE)
        os.close(given)
        outputs = []
        for one, more in ((it, None), (other, digits(MESSAGES))):
            try:
                outputs.append(one.communicate(more, timeout=SECONDS + 8))
            except subprocess.TimeoutExpired:
                one.kill()
                one.communicate()
                outputs.append(None)
        return it.returncode, outputs[0], (outputs[1] or (b"",))[0], log.read()


def fails_a_line(kind, error, log):
    """Whether the refused call is a write to a line, by which that is down; a datagram that can't
    be sent is lost."""
    refused = r"(sendto\(|write\(\d+</dev/pts/).*INJECTED"
    return kind != "udp" and error not in ("EINTR", "ENOBUFS") and re.search(refused, log)


def fault_of(kind, call, error, number, before):
    """Runs two links, of which the first is refused this call once: what is wrong."""
    refuse = f"inject={call}:error={error}:when={before + number}"
    options = ["-y", "-e", f"trace={call}", "-e", refuse]
    status, output, other_out, log = traced(kind, options)
    if not output:
        return "hangs"
    if "INJECTED" not in log:
        return None
    out, err = output
    if fails_a_line(kind, error, log) and b"\nline down: " not in b"\n" + err:
        return f"{err.decode()!r} doesn't report that the line is down"
    faults = [it for it in err.decode().splitlines() if it.startswith("ddcmp: ")]
    if status not in (0, 3) or status == 3 and not faults:
        return f"status {status} and {faults}"
    got, its = mail_in(out), mail_in(other_out)
    if its != MESSAGES[:len(its)] or got != MESSAGES[:len(got)]:
        return f"{got} {its} are no beginnings"
    if status == 0 and its != MESSAGES:
        return f"only {len(its)} arrived"
    if error in HARMLESS and call != "connect" and status:
        return f"{status} {faults}: not as without that"
    return None


@pytest.mark.limit(300)
@pytest.mark.parametrize("kind", ["connect", "listen", "udp", "device"])
def test_refused_calls(kind, request):
    """Each call that such a link makes is refused, its first and second time; with --long six."""
    before = calls_of_loader()
    made = calls_in(traced(kind, [])[3]) - before
    most = 6 if request.config.getoption("--long") else 2
    runs = [(kind, call, error, number, before[call]) for call, errors in CALLS.items()
            for error in errors for number in range(1, 1 + min(most, made[call]))]
    assert len(runs) > 20
    with concurrent.futures.ThreadPoolExecutor(8) as pool:
        faults = zip(runs, pool.map(lambda it: fault_of(*it), runs))
        assert [it for it in faults if it[1]] == []
