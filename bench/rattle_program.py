"""Proves and builds a program of one file over crates of this repository, outside crates.txt."""
import importlib.machinery
import importlib.util
import os
import subprocess
import sys

TOP = os.path.dirname(os.path.dirname(os.path.realpath(__file__)))


def prover():
    """The script ./prove, as a module."""
    sys.dont_write_bytecode = True
    loader = importlib.machinery.SourceFileLoader("prove", f"{TOP}/prove")
    module = importlib.util.module_from_spec(importlib.util.spec_from_loader("prove", loader))
    loader.exec_module(module)
    return module


def build(source, work, crates):
    """The program of this source over these crates, in a folder beside links to them; ./prove has made them."""
    name = os.path.basename(source).split(".")[0]
    prove = prover()
    os.makedirs(f"{work}/crates/{name}/src")
    os.makedirs(f"{work}/crates/{name}/out/proved")
    for crate in os.listdir(f"{TOP}/crates"):
        os.symlink(f"{TOP}/crates/{crate}", f"{work}/crates/{crate}")
    os.symlink(f"{TOP}/crates.txt", f"{work}/crates.txt")
    os.symlink(source, f"{work}/crates/{name}/src/main.rt")
    prove.TOP, prove.PROGRAM = work, name
    known = {it.name: it for top in crates for it in prove.crates_of(top)}
    crate = prove.Crate(name, crates, known)
    for step in crate.steps(2):
        ran = subprocess.run(step, cwd=crate.folder, capture_output=True, text=True, check=False)
        if ran.returncode:
            sys.exit(f"{source} isn't proved and built:\n{ran.stdout}{ran.stderr}")
    return crate.program
