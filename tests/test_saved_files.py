"""The files that a bridge saves what comes over its lines in: new ones and old, moved away and
removed while they are written to, full, and of another owner."""
import json
import os
import shutil
import socket
import subprocess
import tempfile
import threading
import time

import pytest

from .bad_lines import Draws
from .process import (
    LONG, PROGRAM, Bridge, Process, bridged, contents, explained, free_port, must_end, port_of,
    server, takes, times)
from .test_bridge import ends_first, good_frames, text_of
from .wire import KINDS, STARTS, control, data, drawn


def fate_of(frame, draws):
    """What a bridge does to its next good frame, as an object; None if it passes it on."""
    left = draws.left_of(frame)
    if not left:
        return {"item": "lost"}
    return next(({"item": "altered", "byte": at} for at, it in enumerate(left) if it != frame[at]),
                None)


def objects_of(mark, text, direction, *faults):
    """The objects of a trace for what comes over a line, with the fates of its frames."""
    found, frames, draws = [], iter(good_frames(text)[0]), Draws(direction, *faults)
    for it in map(json.loads, explained(text, "--json")[:-1]):
        found.append({"from": mark, **it})
        if it["item"] in (*KINDS, *STARTS) and (fate := fate_of(next(frames), draws)):
            found.append({"from": mark, **fate})
    return found


def test_saved(tmp_path):
    """The files have all bytes that came over each line; JSON is that of tap."""
    files = [f"{tmp_path}/{it}" for it in ("first", "second")]
    saves = "--save-first", files[0], "--save-second", files[1]
    bridge, *ends = bridged(*saves, "--json", "--lose", "30", "--damage", "30")
    texts = [text_of(60), text_of(60)]
    wanted = [objects_of(mark, text, direction, 30, 30)
              for direction, (mark, text) in enumerate(zip("><", texts))]
    for end, text in zip(ends, texts):
        end.sendall(text)
    bridge.waits(lambda it: it.err.count(b'{"from"') >= len(wanted[0]) + len(wanted[1]), 10)
    ends[0].shutdown(socket.SHUT_WR)
    assert bridge.ended() == 0 and [contents(it) for it in files] == texts
    objects = [json.loads(it) for it in bridge.errors() if it.startswith("{")]
    assert all(isinstance(it.pop("ms"), int) for it in objects)
    for mark, all_wanted, counts in zip("><", wanted, bridge.counts()):
        assert [it for it in objects if it["from"] == mark] == all_wanted
        fates = [it["item"] for it in all_wanted]
        assert (fates.count("lost"), fates.count("altered")) == counts[3:]


def test_not_saved(tmp_path):
    """A file that is there is left as it is, one that can't be made is reported, with nothing left
    behind, and one that can't be written ends the bridge."""
    old, new, first, second = f"{tmp_path}/old", f"{tmp_path}/new", server(), server()
    with open(old, "wb") as it:
        it.write(b"old")
    lines = [f"connect:127.0.0.1:{port_of(it)}" for it in (first, second)]
    for words, path, why in (
            (["--save-first", old], old, "file exists"),
            (["--save-first", new, "--save-second", new], new, "file exists"),
            (["--save-first", new, "--save-second", old], old, "file exists"),
            (["--save-second", f"{new}/it"], f"{new}/it", "no such file")):
        must_end(why, Bridge(*lines, *words), 3, f"ddcmp: create {path}: {why}")
    closed = f"127.0.0.1:{free_port()}"
    run = Bridge(f"connect:{closed}", lines[1], "--save-first", new, "--save-second", f"{new}er")
    must_end("no line", run, 3, f"ddcmp: connect {closed}: connection refused")
    assert contents(old) == b"old" and os.listdir(tmp_path) == ["old"]
    limits = ["sh", "-c", "trap '' XFSZ; ulimit -f 1; exec \"$@\"", "sh"]
    for at in (0, 1):
        files = [f"{tmp_path}/{name}-{at}" for name in ("first", "second")]
        saves = "--save-first", files[0], "--save-second", files[1]
        run = Process([*limits, *PROGRAM, "bridge", *lines, *saves])
        ends = first.accept()[0], second.accept()[0]
        ends[at].sendall(data(bytes(3000), 1))
        assert run.ended(20) == 3 and b"<>"[1 - at:2 - at] + b" frames=1 " in run.out
        assert run.errors()[4:] == [f"write {files[at]}: failed", "ddcmp: ended"]


def saving(folder, *options):
    """A bridge that appends what comes over its lines to two files; its lines, and the files."""
    files = [f"{folder}/{it}" for it in ("first", "second")]
    saves = "--append", "--save-first", files[0], "--save-second", files[1]
    return *bridged(*saves, *options), files


def test_appended(tmp_path):
    """Files that are there are appended to, and others are made."""
    old = b"old"
    with open(f"{tmp_path}/first", "wb") as it:
        it.write(old)
    wanted = [old, b""]
    for _run in range(2):
        bridge, one, two, files = saving(tmp_path)
        texts = text_of(10), text_of(10)
        wanted = [a + b for a, b in zip(wanted, texts)]
        one.sendall(texts[0])
        two.sendall(texts[1])
        assert bridge.waits(lambda _, files=files, wanted=wanted: [
            os.path.getsize(it) for it in files] == [len(it) for it in wanted], 10)
        ends_first(bridge, one)
        assert [contents(it) for it in files] == wanted


def test_not_appended(tmp_path):
    """A file that can't be opened, or is being saved in, is reported; what was there stays as it
    is, and what wasn't isn't left behind."""
    old, new, lines = f"{tmp_path}/old", f"{tmp_path}/new", ["udp:127.0.0.1:0,127.0.0.1:9"] * 2
    with open(old, "wb") as it:
        it.write(b"old")
    os.utime(old, (1, 1))
    closed = f"127.0.0.1:{free_port()}"
    unopened = f"connect {closed}: connection refused"
    for words, why in (
            (["--save-first", tmp_path], f"open {tmp_path}: is a directory"),
            (["--save-second", f"{new}/it"], f"open {new}/it: no such file"),
            (["--save-first", old, "--save-second", old], f"open {old}: already in use"),
            (["--save-first", new, "--save-second", new], f"open {new}: already in use"),
            (["--save-first", new, "--save-second", tmp_path], f"open {tmp_path}: is a directory"),
            (["--save-first", old, "--save-second", new, f"connect:{closed}"], unopened),
            (["--save-first", new, "--save-second", old, f"connect:{closed}"], unopened)):
        names = lines[:1] if words[-1] == f"connect:{closed}" else lines
        must_end(why, Bridge(*names, "--append", *words), 3, f"ddcmp: {why}")
        assert contents(old) == b"old" and os.listdir(tmp_path) == ["old"], words
    assert os.stat(old).st_mtime == 1
    bridge, one, _two, files = saving(tmp_path)
    other = Bridge(*lines, "--append", "--save-first", files[0])
    must_end("another", other, 3, f"ddcmp: open {files[0]}: already in use")
    ends_first(bridge, one)


def moved(path, to):
    subprocess.run(["mv", path, to], check=True)


class Stream:
    """Sends bytes over a line, without a pause, until it is stopped."""

    def __init__(self, peer):
        self.sent, self.goes_on = b"", True
        self.thread = threading.Thread(target=self.run, args=(peer,))
        self.thread.start()

    def run(self, peer):
        while self.goes_on:
            text = text_of(3)
            peer.sendall(text)
            self.sent += text
            time.sleep(0.002)

    def stop(self):
        self.goes_on = False
        self.thread.join(LONG)
        return self.sent


def drained(peer):
    """Reads what comes over a line, and drops it."""
    threading.Thread(target=takes, args=(peer,), daemon=True).start()


@times
def test_rotated(tmp_path):
    """Files that are moved away while they are written to are made again, within about a second:
    no byte is lost, and none is in two of them. So it is with one that is removed, and with one in
    whose place another was made."""
    bridge, one, two, files = saving(tmp_path)
    streams = [Stream(it) for it in (one, two)]
    for it in (one, two):
        drained(it)
    for at in range(3):
        time.sleep(0.2 + drawn.random())
        for it in files:
            moved(it, f"{it}.{at}")
        if at == 1:  # as logrotate does
            with open(files[0], "wb"):
                pass
        began = time.monotonic()
        assert bridge.waits(lambda _: all(os.path.exists(it) and os.path.getsize(it)
                                          for it in files), 5)
        assert time.monotonic() - began < 3
    removed = [open(it, "rb") for it in files]  # pylint: disable=consider-using-with
    for it in files:
        os.remove(it)
    assert bridge.waits(lambda _: all(map(os.path.exists, files)), 5)
    sent = [it.stop() for it in streams]
    names = [[f"{it}.{at}" for at in range(3)] for it in files]
    for path, parts, gone, text in zip(files, names, removed, sent):
        with gone:
            before = b"".join(map(contents, parts)) + gone.read()
        bridge.waits(lambda _, path=path, size=len(text) - len(before):
                     os.path.getsize(path) >= size, 10)
        assert before + contents(path) == text
    one.shutdown(socket.SHUT_WR)
    bridge.ended()


@times
def test_moved_without_append(tmp_path):
    """Without --append a file that is moved away is written to on."""
    bridge, one, two = bridged("--save-first", f"{tmp_path}/first")
    drained(two)
    stream = Stream(one)
    time.sleep(0.3)
    moved(f"{tmp_path}/first", f"{tmp_path}/other")
    time.sleep(2.5)
    sent = stream.stop()
    assert bridge.waits(lambda _: os.path.getsize(f"{tmp_path}/other") == len(sent), 10)
    ends_first(bridge, one)
    assert os.listdir(tmp_path) == ["other"] and contents(f"{tmp_path}/other") == sent


def test_truncated(tmp_path):
    """A file that is emptied in its place, as by logrotate's copytruncate, begins anew."""
    bridge, one, _two, files = saving(tmp_path)
    text = text_of(5)
    for _turn in range(2):
        one.sendall(text)
        assert bridge.waits(lambda _: contents(files[0]) == text, 10)
        os.truncate(files[0], 0)
    ends_first(bridge, one)


def looked_up(bridge, one, path):
    """Has the name of a file be looked up, so that it isn't again for a second."""
    size = os.path.getsize(path)
    one.sendall(control(1))
    assert bridge.waits(lambda _: os.path.getsize(path) > size, 10)


@pytest.mark.parametrize("why, begins", [
    ("is a directory", lambda path: os.mkdir(path)),
    ("no such file", lambda path: moved(os.path.dirname(path), f"{os.path.dirname(path)}.1")),
    ("no space left on device", lambda path: os.symlink("/dev/full", path))])
def test_not_opened_again(tmp_path, why, begins):
    """A file that can't be opened again, or then not be written, ends the bridge as one that can't
    be written does."""
    folder = f"{tmp_path}/logs"
    os.mkdir(folder)
    bridge, one, _two, files = saving(folder)
    looked_up(bridge, one, files[0])
    moved(files[0], f"{tmp_path}/first.1")
    begins(files[0])
    time.sleep(1.1)
    one.sendall(control(1))
    assert bridge.ended(20) == 3 and b"> frames=2 " in bridge.out
    assert bridge.errors()[4:] == [f"write {files[0]}: {why}", "ddcmp: ended"]
    assert contents(f"{tmp_path}/first.1") == control(1)


def test_appended_to_a_full_disk():
    """So does a disk that is full from the start."""
    bridge, one, _two = bridged("--append", "--save-first", "/dev/full")
    one.sendall(control(1))
    assert bridge.ended(20) == 3 and b"> frames=1 " in bridge.out
    assert bridge.errors()[4:] == ["write /dev/full: no space left on device", "ddcmp: ended"]


def test_file_of_another():
    """A file of another owner is appended to if that is allowed, and stays his; else it is left as
    it is."""
    other = 65534 if os.geteuid() == 0 else None
    lines = ["udp:127.0.0.1:0,127.0.0.1:9"] * 2
    with tempfile.TemporaryDirectory() as folder:
        os.chmod(folder, 0o777)
        program, path = shutil.copy(PROGRAM[0], folder), f"{folder}/first"
        with open(path, "wb") as it:
            it.write(b"old")
        owner = os.stat(path).st_uid
        words = [program, "bridge", "--seconds", "3", "--append", "--save-first", path]
        os.chmod(path, 0o444)
        it = Process([*words, *lines], user=other)
        assert it.ended() == 3 and it.errors()[-1] == f"ddcmp: open {path}: permission denied"
        os.chmod(path, 0o666)
        with server() as near, server() as far:
            names = [f"connect:127.0.0.1:{port_of(it)}" for it in (near, far)]
            it = Process([*words, *names], user=other)
            one, _two = near.accept()[0], far.accept()[0]
        one.sendall(control(1))
        assert it.waits(lambda _: contents(path) == b"old" + control(1), 10)
        ends_first(it, one)
        assert os.stat(path).st_uid == owner
