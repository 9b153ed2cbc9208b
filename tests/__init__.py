"""Trials of the built program, by pytest: conftest.py has how they are run."""
import sys

sys.dont_write_bytecode = True
