"""Reads crates.txt and the sources: which crates there are, what each is made of, and whether the
program is built of the sources as they are."""
import hashlib
import os
import re

TOP = os.path.dirname(os.path.dirname(os.path.realpath(__file__)))
PROGRAM = f"{TOP}/crates/ddcmp/out/ddcmp"


def read(path):
    with open(path, encoding="utf-8") as it:
        return it.read()


def first_sentence(text, mark):
    """Of the comment that a file begins with."""
    lines = re.match(rf"(?:{mark} ?.*\n)*", text[text.index(mark) :] if mark in text else "")[0]
    said = " ".join(it.removeprefix(mark).strip() for it in lines.split("\n"))
    return re.split(r"(?<=\.) ", said.strip())[0]


def lines_of_crates(top=TOP):
    """Of each crate its line in crates.txt."""
    found = re.findall(r"^(([a-z]\w*)[^:\n]*:.*)$", read(f"{top}/crates.txt"), re.M)
    return {name: line for line, name in found}


def crates(top=TOP):
    """Of each crate those that it uses directly, of this repository and of the toolchain."""
    lines = lines_of_crates(top)
    return {name: line.split(":", 1)[1].split("#")[0].split() for name, line in lines.items()}


def made_of(crate, top=TOP):
    """The crates of this repository that a crate is made of, itself last, lower ones first."""
    uses, found = crates(top), []

    def visit(name):
        if name in uses and name not in found:
            for it in uses[name]:
                visit(it)
            found.append(name)
    visit(crate)
    return found


def files_of(crate, top=TOP):
    """The files of a crate that its proof and build rest on, in an order of their own."""
    found = []
    for part in ("src", "specs", "proofs"):
        for at, folders, files in os.walk(f"{top}/crates/{crate}/{part}"):
            folders.sort()
            found += [os.path.relpath(f"{at}/{it}", top) for it in sorted(files)]
    return found


def sum_of_program(top=TOP):
    """One sum over the program, the sources of its crates and what each of them uses; ./ddcmp
    computes the same."""
    lines, found = lines_of_crates(top), hashlib.sha256()
    parts = made_of("ddcmp", top)
    found.update("".join(lines[it] + "\n" for it in parts).encode())
    for path in sorted((it for part in parts for it in files_of(part, top)), key=os.fsencode):
        found.update(f"{sum_of_file(f'{top}/{path}')}  {path}\n".encode())
    found.update(f"{sum_of_file(f'{top}/crates/ddcmp/out/ddcmp')}  -\n".encode())
    return found.hexdigest()


def sum_of_file(path):
    with open(path, "rb") as it:
        return hashlib.sha256(it.read()).hexdigest()


def note_program(top=TOP):
    """Notes that the program was proved and built of the sources as they are."""
    with open(f"{top}/crates/ddcmp/out/ddcmp.sum", "w", encoding="utf-8") as it:
        it.write(f"{sum_of_program(top)}  -\n")


def is_program_fresh(top=TOP):
    """Whether the program is built and is that of the sources: nothing that it is made of is newer,
    or all has the same bytes. Files of tests count for nothing."""
    program = f"{top}/crates/ddcmp/out/ddcmp"
    if not os.access(program, os.X_OK):
        return False
    built = os.stat(program).st_mtime_ns
    paths = ["crates.txt"]
    for crate in made_of("ddcmp", top):
        files = files_of(crate, top)
        paths += files + sorted({os.path.dirname(it) for it in files})
    if all(os.stat(f"{top}/{it}").st_mtime_ns <= built for it in paths):
        return True
    note = f"{program}.sum"
    return os.path.isfile(note) and read(note) == f"{sum_of_program(top)}  -\n"
