"""The instructions that `ddcmp explain` takes for each byte of a capture, and a station for each
message, as callgrind counts them: at most 5 % more than bench/instructions.txt has, which --store
writes anew. `explain` reads the captures of bench/capture.py. The station is that of the C library
in c/bench/throughput.c, counted in the calls that are named."""
import re
import subprocess
import sys

import pytest

from .process import PROGRAM, TOP, text_of

sys.path.insert(0, f"{TOP}/bench")
import callgrind  # noqa: E402
import capture  # noqa: E402

# One after the other, since each may write its line of the file.
pytestmark = [pytest.mark.limit(300), pytest.mark.xdist_group("instructions")]
STORED = "bench/instructions.txt"
MOST = 1.05
FEW, MANY = 1_400, 2_800  # messages each way
CAPTURES = {"data frames": True, "control frames": False}
CALLS = {"feed and take": ("ddcmp_feed", "ddcmp_take"),
         "send and poll": ("ddcmp_send", "ddcmp_poll")}
ROW = re.compile(r"^(\w.*?) +([\d.]+)$", re.M)


@pytest.fixture(autouse=True)
def counter(request):
    assert callgrind.is_here(), callgrind.MISSING
    if request.config.getoption("--program"):
        pytest.skip("instructions, which are those of the proved program")


def stored():
    return {name: float(count) for name, count in ROW.findall(text_of(STORED))}


def compare(request, name, count):
    """A count is at most a little above the stored one; with --store it becomes that."""
    if request.config.getoption("--store"):
        head = re.findall(r"^#.*\n", text_of(STORED), re.M)
        rows = {**stored(), name: count}
        with open(f"{TOP}/{STORED}", "w", encoding="utf-8") as it:
            it.writelines([*head, *(f"{name:<32} {count:8.2f}\n" for name, count in rows.items())])
    wanted = stored()[name]
    assert count <= MOST * wanted, f"{100 * (count / wanted - 1):.1f} % more than {wanted:.2f}"


def test_all_are_stored():
    names = {f"explain, {it}, {form}" for it in CAPTURES for form in ("raw", "digits")}
    assert stored().keys() == names | {f"station, {it}" for it in CALLS}


@pytest.mark.parametrize("form", ["raw", "digits"])
@pytest.mark.parametrize("kind", CAPTURES)
def test_explain(request, tmp_path, kind, form):
    drawn = capture.capture(1, CAPTURES[kind])
    count = callgrind.of_each_byte(PROGRAM[0], drawn, form, tmp_path)
    compare(request, f"explain, {kind}, {form}", count)


@pytest.mark.parametrize("calls", CALLS)
def test_station(request, library, tmp_path, calls):
    program = f"{tmp_path}/throughput"
    words = ["gcc", "-std=c99", "-O2", f"-I{TOP}/include", f"{TOP}/c/bench/throughput.c"]
    subprocess.run([*words, f"{library}/libddcmp.a", "-o", program], check=True)

    def run(count):
        return callgrind.instructions([program, str(count)], within=CALLS[calls])
    compare(request, f"station, {calls}", callgrind.each(run, FEW, MANY) / 2)
