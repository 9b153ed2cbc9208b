"""Refuses each allocation of the tests of crates in turn, until a run refuses none. The tests
refused_memory_.. accept exactly an allocation failure with nothing changed, or the full result, so
they pass in each run. The tests ample_memory_.. make the same calls and require the full result, so
they pass in the run that refuses none. The other tests of a crate aren't run."""
import glob
import re
import shutil
import subprocess

import pytest

from .process import TOP, contents

pytestmark = [pytest.mark.long, pytest.mark.limit(7200)]
MOST = 300  # refusals; more than any of these tests has allocations
SOURCES = glob.glob(f"{TOP}/crates/*/src/**/*.rt", recursive=True)
CRATES = {it.removeprefix(f"{TOP}/crates/").split("/")[0] for it in SOURCES
          if b"fn refused_memory" in contents(it)}


@pytest.fixture(scope="module")
def copy(tmp_path_factory):
    """A copy without the other tests, and without comments that may be above them."""
    kept = tmp_path_factory.mktemp("copy")
    for it in ("HANDLES", "crates.txt"):
        shutil.copy(f"{TOP}/{it}", kept)
    shutil.copytree(f"{TOP}/crates", kept / "crates", ignore=shutil.ignore_patterns("out"))
    other = re.compile(r"^#\[test\]\n(?!.*fn (?:refused|ample)_memory)(?:.*\n)*?\}\n", re.M)
    for path in (kept / "crates").glob("**/*.rt"):
        text = re.sub(r"^ *///.*\n", "", path.read_text(), flags=re.M)
        path.write_text(other.sub("", text))
    return kept


def passed(name, output):
    """Whether there are tests of such a name among those that ran, and all have passed."""
    results = re.findall(rf"^test \S*{name}\S* \.\.\.(.*)$", output, re.M)
    return results and all(it.endswith(" ok") for it in results)


@pytest.mark.parametrize("crate", sorted(CRATES))
def test_refused_memory(copy, crate):
    for number in range(1, MOST + 1):
        words = ["rt", "try", "--test", "--fail-alloc", str(number)]
        output = subprocess.run(words, cwd=copy / "crates" / crate, stdout=subprocess.PIPE,
                                stderr=subprocess.STDOUT, text=True, check=False).stdout
        assert passed("refused_memory", output), f"refusal {number}: {output[-2000:]}"
        if passed("ample_memory", output):
            print(f"the last allocation is {number - 1}")
            return
    pytest.fail(f"{MOST} refusals, and still a test of ample memory fails: {output[-2000:]}")
