#!/usr/bin/env python3
"""Prints the files of definitions that a law rests on, with what each has: those that it cites, and all that these
import, none before one that it uses.

    tools/rests.py ddcmp_pair::laws::in_order
"""
import os
import re
import sys

from sources import TOP, first_sentence, read

USE = re.compile(r"^\s*(?:ghost |pub )*use Rattle\.(\w+)\.specs\.(\w+)[\w.]*?(?:\.\{([^}]*)\}| as (\w+))?;?$", re.M)


class Definitions:
    """The definitions below a folder of crates. A file is named as ddcmp_pair/specs/Run.antt."""

    def __init__(self, crates):
        self.crates = crates
        self.known = {}

    def file_of(self, crate, name):
        """The file that a module of `specs` is, perhaps of another crate; None of a type of the code, or of std."""
        path = f"{crate}/specs/{name}.antt"
        if os.path.isfile(f"{self.crates}/{path}"):
            return path
        passing = f"{self.crates}/{crate}/specs/Lib.antt"
        if os.path.isfile(passing):
            for other, module in re.findall(r"^pub use Rattle\.(\w+)\.specs\.(\w+)$", read(passing), re.M):
                if module == name:
                    return self.file_of(other, module)
        return None

    def imports(self, text):
        """Each word that a text imports, with its file."""
        found = {}
        for crate, name, words, other_name in USE.findall(text):
            path = self.file_of(crate, name)
            if path:
                for word in [*words.split(","), other_name, name]:
                    found[word.split(" as ")[-1].strip()] = path
        return found

    def below(self, path):
        """A file, and all that it imports."""
        if path not in self.known:
            self.known[path] = {path}
            for other in set(self.imports(read(f"{self.crates}/{path}")).values()):
                self.known[path] = self.known[path] | self.below(other)
        return self.known[path]

    def of_law(self, law):
        """The files that a law rests on, which is named as ddcmp_pair::laws::in_order; None if there is none."""
        crate, module, name = law.split("::")
        source = f"{self.crates}/{crate}/src/{module}.rt"
        text = read(source) if os.path.isfile(source) else ""
        found = re.search(rf"^pub fn {name}\b.*?^\{{", text, re.M | re.S)
        if not found:
            return None
        words = set(re.findall(r"[^\s(){}\[\],;.]+", found[0]))
        cited = {path for word, path in self.imports(text).items() if word in words}
        return set().union(*map(self.below, cited))


def main(law):
    definitions = Definitions(f"{TOP}/crates")
    files = definitions.of_law(law) or sys.exit(f"rests: there is no law {law}")
    texts = {it: read(f"{TOP}/crates/{it}") for it in sorted(files, key=lambda it: (len(definitions.below(it)), it))}
    for path, text in texts.items():
        print(f"{path} ({len(text.splitlines())} lines): {first_sentence(text, '--')}")
    print(f"{len(texts)} files, {sum(len(it.splitlines()) for it in texts.values())} lines")


if __name__ == "__main__":
    main(*sys.argv[1:2] or sys.exit(__doc__))
