"""The C library: what it defines and asks for, its header, and its examples and tests, compiled as
strictly as its users may, by gcc and by clang, and run."""
import re
import shutil
import subprocess

import pytest

from .process import TOP, Station, call, free_port, holds_within, is_listening, text_of

pytestmark = pytest.mark.limit(120)
STRICT = ["-Wall", "-Wextra", "-Wpedantic", "-Werror", f"-I{TOP}/include"]
HEAP = "-Wl,--wrap=malloc,--wrap=realloc,--wrap=free"
COMPILERS = {"gcc": "g++", "clang": "clang++"}
WAYS = {"C": ["-std=c99", "-O2"], "C++": ["-std=c++17", "-O2", "-x", "c++"],
        "sanitized": ["-std=c99", "-O1", "-g", "-fsanitize=address,undefined",
                      "-fno-sanitize-recover=all"],
        "shared": ["-std=c99", "-O2"]}
EACH_WAY = pytest.mark.parametrize("way", ["C", "C++", "sanitized"])
RIGHT = bytes.fromhex(
    "96968103400205012c8161626338970501000200015d950503000200012455050600020001e8550507000200"
    "01d595050203000001b8119004c00000011150646566676565")
DAMAGED = bytes.fromhex(
    "81030002060139b161626438970509000000011d94810000000001dfd178780501000200015d009004c00000"
    "0111506465666765658103400205012c")


def printed(*words, **how):
    """What a run that succeeds prints."""
    return subprocess.run(words, stdout=subprocess.PIPE, check=True, timeout=100, **how).stdout


class Compiler:
    """A compiler of C, and the one of C++ beside it, for programs with the library."""

    def __init__(self, name, library, folder):
        self.name, self.library, self.program = name, library, f"{folder}/program"

    def made(self, source, way="C", *more):
        """A program of this source."""
        linked = [f"{self.library}/libddcmp.a"]
        if way == "shared":
            linked = [f"-L{self.library}", "-lddcmp", f"-Wl,-rpath,{self.library}"]
        words = [COMPILERS[self.name] if way == "C++" else self.name, *WAYS[way], *STRICT, *more]
        words += [f"{TOP}/c/{source}", "-x", "none", *linked, "-o", self.program]
        subprocess.run(words, check=True)
        return self.program


@pytest.fixture(params=COMPILERS)
def compiler(request, library, tmp_path):
    both = request.param, COMPILERS[request.param]
    if request.param == "clang" and not all(map(shutil.which, both)):
        pytest.skip("clang as a second compiler (no clang)")
    return Compiler(request.param, library, tmp_path)


@pytest.fixture
def gcc(library, tmp_path):
    return Compiler("gcc", library, tmp_path)


def test_names(library):
    """It defines the calls that the header declares and no other name; it asks for an allocator and
    for what moves bytes."""
    archive = f"{library}/libddcmp.a"
    defined = re.findall(r" [A-Z] (.*)$", printed("nm", "-g", "--defined-only", archive, text=True),
                         re.M)
    declared = re.findall(r"^(?:DDCMP_CALL|extern) .*(ddcmp_[a-z_]*)\(",
                          text_of("include/ddcmp.h"), re.M)
    assert sorted(defined) == sorted(declared) != []
    asked = re.findall(r"^ *U (.*)$", printed("nm", "-u", archive, text=True), re.M)
    assert sorted(asked) == ["free", "malloc", "memcpy", "memmove", "memset", "realloc"]


def test_header_of_the_crate(library, tmp_path):
    """The numbers of the header are those that the crate exports, all of them."""
    source = printed(f"{TOP}/c/header_test", text=True)
    met = set(re.findall(r"DDCMP_[A-Z_]*(?= ==)", source))
    numbers = set(re.findall(r"^    (DDCMP_[A-Z_]*) = ", text_of("include/ddcmp.h"), re.M))
    assert met == numbers - {"DDCMP_NULL"} != set()
    words = ["gcc", "-std=c11", "-Wall", "-Wextra", "-Werror", f"-I{TOP}/include", "-x", "c", "-"]
    words += ["-x", "none", f"{library}/libddcmp.a", "-o", f"{tmp_path}/header"]
    subprocess.run(words, input=source, text=True, check=True)
    subprocess.run([f"{tmp_path}/header"], check=True)


@pytest.mark.parametrize("more", [(), ("-DDDCMP_CHECKED",)])
def test_calls(compiler, more):
    """Each call, with right and wrong arguments, over a heap that is counted and that refuses."""
    subprocess.run([compiler.made("tests/calls.c", "C", *more, HEAP)], check=True)


@pytest.mark.parametrize("way", ["C", "sanitized"])
def test_null_pointers(compiler, way):
    """A null pointer at each call, with DDCMP_CHECKED."""
    subprocess.run([compiler.made("tests/checked.c", way)], check=True)


def test_throughput(gcc):
    assert b"1000 1000" in printed(gcc.made("bench/throughput.c"), "1000").splitlines()


@pytest.mark.parametrize("way", WAYS)
def test_two_stations(compiler, way):
    program = compiler.made("examples/two_stations.c", way)
    for sizes in ("1000", "300 1500 20 64 3", "300 16383 10 0 5 255", "2000 1 5 3 7 1"):
        lines = printed(program, *sizes.split()).splitlines()
        assert sum(b" messages came in order" in it for it in lines) == 2, sizes


@EACH_WAY
def test_explain(compiler, way):
    """What a reader in C finds in made-up bytes is what `ddcmp explain` prints of them."""
    program = compiler.made("examples/explain.c", way)
    for text, most in [(text, most) for text in (RIGHT, DAMAGED) for most in "16383 4 3".split()
                       ] + [(b"", "1")]:
        out, _, status = call("explain", "--raw", "--max", most, given=text)
        assert status == 0 and printed(program, most, input=text) == out


@EACH_WAY
def test_tcp(compiler, way):
    """A station in C and one of `ddcmp station` over a connection: each has the other's message."""
    port = free_port()
    station = Station("listen", port, Station.ENDLESS, 1000, "--send", "616263")
    program = compiler.made("examples/tcp.c", way)
    assert holds_within(20, lambda: is_listening(port))
    lines = printed(program, "connect", str(port), "xyz", text=True).splitlines()
    assert "mail 616263" in lines
    assert any(re.fullmatch("notice .*Acknowledged.* 1", it) for it in lines), lines
    assert station.ended(20) == 3 and "mail 78797a" in station.lines(), station


@pytest.mark.long
@pytest.mark.parametrize("source, words, given", [
    ("examples/two_stations.c", "100 1500 10 64", b""),
    ("examples/two_stations.c", "300 16383 10 0 5 255", b""),
    ("tests/checked.c", "", b""), ("examples/explain.c", "16383", RIGHT),
])
def test_under_valgrind(gcc, source, words, given):
    """No read or write outside what is its own, inside the library too, and nothing left over."""
    careful = "valgrind", "-q", "--leak-check=full", "--error-exitcode=9"
    printed(*careful, gcc.made(source), *words.split(), input=given)
