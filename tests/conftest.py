"""Runs the trials of the built program: `pytest tests`, or `pytest tests -k tap`; with -n 4, four
at a time. A trial has a limit of time, inputs of its own, and what it starts ends with it. What
fails is tried once more, alone. Those that pass then are unsteady: named in the last lines, and
more than three of them fail the run; with CI=true, so does whatever is left out."""
import contextlib
import fcntl
import os
import signal
import subprocess
import tempfile

import pytest
from _pytest.runner import runtestprotocol

from . import process
from .process import sources
from .wire import drawn

LIMIT, LONG_LIMIT = 60, 600  # seconds that a trial may take; a long one
MOST_UNSTEADY = 3


def pytest_addoption(parser):
    parser.addoption("--program", metavar="FILE", help="the program, in place of the proved one")
    parser.addoption("--library", metavar="FOLDER", help="a C library, in place of the proved one")
    parser.addoption("--long", action="store_true", help="the long trials too")
    parser.addoption("--store", action="store_true", help="stores what is drawn or counted now")
    parser.addoption("--strict-trials", action="store_true", help="no second try")


def pytest_configure(config):
    config.addinivalue_line("markers", "long: takes minutes: it is for --long")
    config.addinivalue_line("markers", "limit(seconds): may take so long")
    config.room = Room(getattr(config, "workerinput", {}).get("testrunuid"))
    program = config.getoption("--program")
    if program:
        process.PROGRAM[:] = [os.path.abspath(program)]
    elif not sources.is_program_fresh():
        raise pytest.UsageError("no proved program of these sources: ./prove, or --program FILE")


def pytest_make_parametrize_id(val):
    return getattr(val, "__name__", str(val))[:40]


def pytest_collection_modifyitems(config, items):
    if not config.getoption("--long"):
        long = [it for it in items if it.get_closest_marker("long")]
        config.hook.pytest_deselected(items=long)
        items[:] = [it for it in items if it not in long]


class Room:
    """Where trials are beside each other, in all workers of a run, or one of them alone."""

    def __init__(self, run):
        self.names = [f"{tempfile.gettempdir()}/ddcmp-tests-{run}-{it}" for it in ("door", "room")]
        self.is_shared = run is not None

    @contextlib.contextmanager
    def entered(self, is_alone):
        if not self.is_shared:
            yield
            return
        with open(self.names[0], "wb") as door, open(self.names[1], "wb") as room:
            fcntl.flock(door, fcntl.LOCK_EX)
            fcntl.flock(room, fcntl.LOCK_EX if is_alone else fcntl.LOCK_SH)
            if not is_alone:
                fcntl.flock(door, fcntl.LOCK_UN)
            yield


@pytest.hookimpl(tryfirst=True)
def pytest_runtest_protocol(item, nextitem):
    """Runs a trial, and once more alone if it fails."""
    item.ihook.pytest_runtest_logstart(nodeid=item.nodeid, location=item.location)
    with item.config.room.entered(False):
        reports = runtestprotocol(item, nextitem=nextitem, log=False)
    if any(it.failed for it in reports) and not item.config.getoption("--strict-trials"):
        first = reports
        with item.config.room.entered(True):
            reports = runtestprotocol(item, nextitem=nextitem, log=False)
        if not any(it.failed for it in reports):
            for it in [it for it in first if it.failed]:
                it.outcome = "unsteady"
                item.ihook.pytest_runtest_logreport(report=it)
    for it in reports:
        item.ihook.pytest_runtest_logreport(report=it)
    item.ihook.pytest_runtest_logfinish(nodeid=item.nodeid, location=item.location)
    return True


def pytest_report_teststatus(report):
    if report.outcome == "unsteady":
        return "unsteady", "U", ("UNSTEADY", {"yellow": True})
    return None


@pytest.hookimpl(tryfirst=True)
def pytest_sessionfinish(session):
    """In the process that has all reports: too many unsteady trials, and what CI leaves out."""
    reporter = session.config.pluginmanager.getplugin("terminalreporter")
    if reporter and not hasattr(session.config, "workerinput"):
        is_left_out = os.environ.get("CI") == "true" and reporter.stats.get("skipped")
        if len(reporter.stats.get("unsteady", [])) > MOST_UNSTEADY or is_left_out:
            session.exitstatus = session.exitstatus or pytest.ExitCode.TESTS_FAILED


def pytest_terminal_summary(terminalreporter):
    for it in terminalreporter.stats.get("unsteady", []):
        crash = getattr(it.longrepr, "reprcrash", None)
        reason = crash.message.splitlines()[0] if crash else "failed at first"
        terminalreporter.write_line(f"unsteady: {it.nodeid}: {reason[:200]}")
    for it in terminalreporter.stats.get("skipped", []):
        reason = it.longrepr[2] if isinstance(it.longrepr, tuple) else it.longreprtext
        terminalreporter.write_line(f"left out: {it.nodeid}: {reason.removeprefix('Skipped: ')}")


def descendants():
    """The processes that a trial has started, and those that these have."""
    parents = {}
    for pid in filter(str.isdigit, os.listdir("/proc")):
        with contextlib.suppress(OSError), open(f"/proc/{pid}/stat", encoding="latin-1") as it:
            parents[int(pid)] = int(it.read().rsplit(")", 1)[1].split()[1])
    found = [os.getpid()]
    for it in found:
        found += [pid for pid, parent in parents.items() if parent == it]
    return found[1:]


@pytest.fixture(scope="session")
def library(request, tmp_path_factory):
    """The folder of the C library. c/build makes it, in one process at a time: it may prove."""
    given, top = request.config.getoption("--library"), process.TOP
    if given:
        return os.path.abspath(given)
    if request.config.getoption("--program"):
        pytest.skip("the C library, which is of the proved sources (--library FOLDER)")
    made = tmp_path_factory.mktemp("library")
    with open(f"{top}/c/build", "rb") as it:
        fcntl.flock(it, fcntl.LOCK_EX)
        subprocess.run([it.name, made], check=True, timeout=LONG_LIMIT)
    return str(made)


@pytest.fixture(scope="session")
def station(tmp_path_factory):
    """A second station, by another hand, built by gcc."""
    made = str(tmp_path_factory.mktemp("peer") / "peer")
    strict = ["-std=c11", "-O1", "-g", "-Wall", "-Wextra", "-Werror", "-fno-sanitize-recover=all"]
    subprocess.run(["gcc", *strict, "-fsanitize=address,undefined",
                    f"{process.TOP}/c/peer/peer.c", "-o", made], check=True)
    return made


@pytest.fixture(autouse=True)
def contained(request):
    """Each trial has its own inputs and a limit of time; what it starts ends with it."""
    drawn.seed(request.node.name)
    marker = request.node.get_closest_marker("limit")
    is_long = request.node.get_closest_marker("long")
    limit = marker.args[0] if marker else LONG_LIMIT if is_long else LIMIT

    def late(*_):
        pytest.fail(f"hangs: ended after {limit} s")
    before = signal.signal(signal.SIGALRM, late)
    signal.alarm(limit)
    yield
    signal.alarm(0)
    signal.signal(signal.SIGALRM, before)
    for pid in descendants():
        with contextlib.suppress(ProcessLookupError):
            os.kill(pid, signal.SIGKILL)
