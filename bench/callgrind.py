"""Instructions of programs, as callgrind counts them. Runs of the same program count the same, whatever else
the machine does, with the same libc: valgrind shows each program the same processor, if that of the machine has
AVX2."""
import os
import re
import shutil
import subprocess

MISSING = "valgrind, which counts instructions, isn't here (Debian: apt-get install valgrind)"


def is_here():
    return bool(shutil.which("valgrind"))


def instructions(command, given=os.devnull, within=()):
    """Those of one run with this file as input; with names of functions only those in them and below them."""
    words = ["valgrind", "--tool=callgrind", "--callgrind-out-file=/dev/null"]
    words += [f"--toggle-collect={it}" for it in within]
    with open(given, "rb") as source:
        pipes = {"stdin": source, "stdout": subprocess.DEVNULL, "stderr": subprocess.PIPE}
        ran = subprocess.run([*words, *command], check=False, **pipes)
    told = re.search(rb"Collected : (\d+)", ran.stderr)
    if ran.returncode or not told:
        said = ran.stderr.decode(errors="replace")[-500:]
        raise SystemExit(f"callgrind: {command} ended with {ran.returncode}: {said}")
    return int(told[1])


def each(run, few, many):
    """Instructions for each of what a run of a size goes over; those with which every run begins drop out."""
    return (run(many) - run(few)) / (many - few)


def of_each_byte(program, drawn, form, work):
    """Instructions of `PROGRAM explain` for each byte of a capture, given raw or as digits."""
    text, words = (drawn, ["--raw"]) if form == "raw" else ((drawn.hex() + "\n").encode(), [])

    def run(times):
        with open(f"{work}/counted", "wb") as sink:
            sink.write(text * times)
        return instructions([program, "explain", *words], f"{work}/counted")

    return each(run, 1, 2) / len(drawn)
