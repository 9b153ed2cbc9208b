"""The program and the C library for ARM64 Linux, run by qemu-user beside those for x86-64: the same
output of `explain`, `simulate` and usage errors, links between both kinds of machine over bad
lines, the trials of the C library, and the package, with the C library of such a machine alone."""
import contextlib
import gzip
import os
import shutil
import socket
import subprocess

import pytest

from . import test_c_library as c_library
from .process import PROGRAM, TOP, Bridge, Link, call, contents, exchange, free_port, version
from .test_pictures import drawn_script
from .wire import ack, drawn, drawn_frames, messages_of

pytestmark = [pytest.mark.limit(300), pytest.mark.xdist_group("arm")]
GNU, TARGET, MADE = "aarch64-linux-gnu", "aarch64-unknown-linux-gnu", f"{TOP}/out/arm64"
QEMU = ["qemu-aarch64", "-L", f"/usr/{GNU}"]
SECONDS = 600  # that a proof may take


@pytest.fixture(scope="module", autouse=True)
def made(request):
    """What ./prove makes for ARM64."""
    if request.config.getoption("--program"):
        pytest.skip("what is made for ARM64, which is of the proved sources")
    subprocess.run([f"{TOP}/prove", "--target", TARGET], check=True, timeout=SECONDS)


@contextlib.contextmanager
def on_arm(*words):
    """What starts as the program meanwhile is that for ARM64."""
    own, PROGRAM[:] = PROGRAM[:], words or [*QEMU, f"{MADE}/ddcmp"]
    try:
        yield
    finally:
        PROGRAM[:] = own


def same(*words, given=b""):
    """What both programs print, and how they end."""
    wanted = call(*words, given=given)
    with on_arm():
        assert call(*words, given=given) == wanted
    return wanted


@pytest.mark.parametrize("words", [
    "--raw", "--raw --json", "--raw --discarded", "--raw --max 40 --discarded --json", "",
    "--from auto --max 16383"])
def test_explain(words):
    text = drawn_frames(3000, (1, 2, 60, 1500))
    out, err, status = same("explain", *words.split(),
                            given=text if "--raw" in words else text.hex().encode())
    assert (err, status) == ("", 0) and out.count(b"\n") > 1000


@pytest.mark.parametrize("words", [
    "", "--counters", "--ladder --window=2 --inbox=1", "--svg --syn=5 --counters --restart"])
def test_simulate(words):
    for _ in range(30):
        same("simulate", *words.split(), given=drawn_script(drawn).encode())


@pytest.mark.parametrize("words, status", [
    ("--help", 0), ("help link", 0), ("--version", 0), ("explain --max 0", 2), ("explain none", 3),
    (f"explain {'long' * 30000}", 3), (f"explain --max {'9' * 100_000}", 2), ("explain", 1),
    ("link --line connect:localhost:1", 3), ("link --line connect:nosuchhost.invalid:1", 3),
    ("link --line device:/dev/null/none", 3), ("explain --ladder / /dev/null", 3)])
def test_ends(words, status):
    """Help, usage errors and faults, among them those that the system reports, and arguments of any
    length."""
    assert same(*words.split(), given=b"05zz")[2] == status


def lines_between(kind):
    """The options of a bridge over TCP or UDP."""
    if kind == "tcp":
        return ["listen:127.0.0.1:0"] * 2
    ports = [(free_port(socket.SOCK_DGRAM), free_port(socket.SOCK_DGRAM)) for _ in range(2)]
    return [f"udp:127.0.0.1:{own},127.0.0.1:{far}" for own, far in ports]


@pytest.mark.parametrize("is_arm", [False, True], ids=["x86-64", "arm64"])
@pytest.mark.parametrize("kind", ["tcp", "udp"])
def test_link(kind, is_arm):
    """Links of both kinds of machine, with a bridge of one that loses and damages frames: messages
    arrive both ways, in order."""
    names = lines_between(kind)
    with on_arm(*([] if is_arm else PROGRAM)):
        bridge = Bridge(*names, "--lose", "5", "--damage", "5", "--trace")
    if kind == "tcp":
        ends = [f"connect:127.0.0.1:{it}" for it in bridge.ports(2)]
    else:
        ends = ["udp:" + ",".join(reversed(it[4:].split(","))) for it in names]
    options = "--binary", "--timer-ms", "200", "--linger-ms", "3000"
    one = Link(ends[0], *options)
    with on_arm():
        two = Link(ends[1], *options)
    exchange(kind, one, two, messages_of(300), messages_of(300))
    assert {"> lost", "< lost"} <= {it for _, it in bridge.traces()}
    assert kind == "udp" or bridge.ended() == 0


def test_waits():
    """A link without a peer takes next to no processor time."""
    with on_arm():
        link = Link("listen:127.0.0.1:0", "--seconds", "3")
    assert link.ended() == 3 and link.used < 1, f"{link.used} s"


class Cross(c_library.Compiler):
    """A compiler for ARM64; a program of it is a script that has qemu run it."""

    def made(self, source, way="C", *more):
        program = super().made(source, way, *more)
        os.rename(program, f"{program}.arm64")
        with open(program, "w", encoding="utf-8") as it:
            it.write(f'#!/bin/sh\nexec {" ".join(QEMU)} {program}.arm64 "$@"\n')
        os.chmod(program, 0o755)
        return program


@pytest.mark.parametrize("trial, argument", [
    (c_library.test_two_stations, "C"), (c_library.test_two_stations, "shared"),
    (c_library.test_explain, "C"), (c_library.test_tcp, "C"), (c_library.test_calls, ()),
    (c_library.test_calls, ("-DDDCMP_CHECKED",)), (c_library.test_null_pointers, "C")])
def test_c_library(trial, argument, tmp_path):
    trial(Cross(f"{GNU}-gcc", MADE, tmp_path), argument)


def test_names():
    c_library.test_names(MADE)


@pytest.mark.parametrize("text, other, is_right", [
    ("EPIPE: i32 = 32", "EPIPE: i32 = 32", True), ("EPIPE: i32 = 32", "EPIPE: i32 = 31", False),
    ("pub tv_nsec: i64", "pub tv_nsec: u32", False), ('"INT", "QUIT"', '"QUIT", "INT"', False)])
def test_layout(text, other, is_right, tmp_path):
    """It is compiled only if this machine has what the toolchain's crates declare."""
    kit = os.path.dirname(os.path.dirname(os.path.realpath(shutil.which("rt"))))
    for it in "libc/src/lib libc/src/net libc/src/types os/src/lib std/src/process/status".split():
        path = f"{tmp_path}/rattle/{it}.rt"
        os.makedirs(os.path.dirname(path), exist_ok=True)
        with open(path, "w", encoding="utf-8") as copy:
            copy.write(contents(f"{kit}/rattle/{it}.rt").decode().replace(text, other))
    program = subprocess.check_output([f"{TOP}/c/arm64/layout", tmp_path])
    words = [f"{GNU}-gcc", "-std=gnu11", "-fsyntax-only", "-x", "c", "-"]
    assert (subprocess.run(words, input=program, check=False).returncode == 0) == is_right


def test_package(tmp_path):
    """What it installs, in a folder that has the C library of ARM64 and nothing else."""
    subprocess.run([f"{TOP}/tools/deb", "--arm64", tmp_path], check=True)
    package, root = f"{tmp_path}/ddcmp_{version()}_arm64.deb", f"{tmp_path}/root"
    subprocess.run(["dpkg-deb", "-x", package, root], check=True)
    os.mkdir(f"{root}/lib")
    for it in ("ld-linux-aarch64.so.1", "libc.so.6"):
        shutil.copy(f"/usr/{GNU}/lib/{it}", f"{root}/lib/{it}")
    with on_arm(QEMU[0], "-L", root, f"{root}/usr/bin/ddcmp"):
        assert call("--version") == (f"ddcmp {version()}\n".encode(), "", 0)
        assert call("explain", "--raw", given=ack(0))[0].endswith(b"items=1 bytes=8 open=0\n")


def test_release(tmp_path):
    """What is published: twice the same, with right sums; an archive has what its package has, and
    the page is the one in web/."""
    made = [f"{tmp_path}/{it}" for it in "ab"]
    for it in made:
        subprocess.run([f"{TOP}/tools/release", it], check=True, stdout=subprocess.DEVNULL)
    subprocess.run(["diff", "-r", *made], check=True)
    subprocess.run(["sha256sum", "--quiet", "-c", "SHA256SUMS"], cwd=made[0], check=True)
    names = [f"ddcmp_{version()}_{it}" for it in ("amd64", "arm64")]
    assert sorted(os.listdir(made[0])) == sorted([
        "CHANGELOG.md", "MADE-OF", "SHA256SUMS", "ddcmp.d.ts", "ddcmp.html", "ddcmp.mjs",
        "ddcmp.wasm",
        *(f"{name}.{form}" for name in names for form in ("deb", "tar.gz"))])
    for it in names:
        tar = subprocess.check_output(["dpkg-deb", "--fsys-tarfile", f"{made[0]}/{it}.deb"])
        assert gzip.decompress(contents(f"{made[0]}/{it}.tar.gz")) == tar
    is_kept = contents(f"{made[0]}/ddcmp.html") == contents(f"{TOP}/web/ddcmp.html")
    assert is_kept, "web/ddcmp.html is of other sources: web/build"
    assert subprocess.run([f"{TOP}/tools/release", made[0]], capture_output=True, text=True,
                          check=False).stderr == f"release: {made[0]} isn't empty\n"
