"""The crate for Rust: its calls, structs, numbers and texts against include/ddcmp.h; and its tests
and its example, as cargo builds them without a registry."""
import os
import re
import subprocess

import pytest

from .process import TOP, Process, Station, free_port, holds_within, is_listening, text_of, version

pytestmark = pytest.mark.limit(240)
TYPES = {"void": "", "bool": "bool", "size_t": "usize",
         **{f"uint{it}_t": f"u{it}" for it in (8, 16, 32, 64)}}


@pytest.fixture(scope="module")
def cargo(library, tmp_path_factory):
    """Runs cargo on the crate; gives the folder of what it made, and what it printed."""
    target = str(tmp_path_factory.mktemp("target"))
    names = {**os.environ, "DDCMP_LIB_DIR": library, "CARGO_TARGET_DIR": target,
             "RUSTFLAGS": "-D warnings"}

    def run(*words):
        it = subprocess.run(["cargo", *words, "--offline", "--locked"], cwd=f"{TOP}/rust",
                            env=names, capture_output=True, text=True, check=False)
        assert it.returncode == 0, it.stderr
        return target, it.stdout
    return run


def header():
    return re.sub(r"\s+", " ", re.sub(r"/\*.*?\*/", "", text_of("include/ddcmp.h"), flags=re.S))


def foreign():
    return re.sub(r",? \)", ")", re.sub(r"\s+", " ", text_of("rust/src/ffi.rs"))).replace("( ", "(")


def in_rust(declared):
    """What C declares, as Rust does: `const uint8_t *out` is `out: *const u8`."""
    const, kind, star, name = re.fullmatch(
        r"(const )?(?:struct )?(\w+) (\*?)(\w+)", declared.strip()).groups()
    before = "" if not star else "*const " if const else "*mut "
    return f"{name}: {before}{TYPES.get(kind, kind)}"


def test_calls():
    wanted = []
    for result, name, words in re.findall(
            r"(?:DDCMP_CALL|extern) (\w+) (ddcmp_\w+)\(([^)]*)\);", header()):
        words = ", ".join(in_rust(it) for it in words.split(",") if it != "void")
        wanted.append((name, words, TYPES[result]))
    found = re.findall(r"pub fn (\w+)\(([^)]*)\)(?: -> (\w+))?;", foreign())
    assert found == wanted != []


def test_structs():
    wanted = {}
    for name, body in re.findall(r"(?<!typedef )struct (ddcmp_\w+) \{(.*?)\};", header()):
        wanted[name] = [in_rust(it) for it in body.split(";")[:-1]]
    found = {name: re.findall(r"pub (\w+: \w+),", body) for name, body in re.findall(
        r"#\[repr\(C\)\] #\[derive\([\w, ]*\)\] pub struct (\w+) \{(.*?)\}", foreign())}
    handles = "ddcmp_station", "ddcmp_reader"
    assert [found.pop(it) for it in handles] == [[], []]  # a pointer
    assert found == wanted != {}


@pytest.mark.parametrize("enum, name", [
    ("code", "Error"), ("state", "State"), ("kind", "NoticeKind")])
def test_numbers(enum, name):
    """Each number, by its name and its text."""
    body = re.search(rf"enum ddcmp_{enum} \{{(.*?)\}};", header())[1]
    texts = dict(re.findall(r'case DDCMP_(\w+): return "(.*?)";', header()))
    wanted = [(it.replace("IS_", "").replace("_", "").lower(), number, texts[it])
              for it, number in re.findall(r"DDCMP_(\w+) = (\d+)", body)
              if it not in ("OK", "NO_STATE", "NO_NOTICE")]
    body = re.search(rf'numbers! \{{ "[^"]*" {name} \{{(.*?)^\}} \}}', text_of("rust/src/lib.rs"),
                     re.M | re.S)[1]
    found = re.findall(r'^ +(\w+) = (\d+), "(.*)";$', body, re.M)
    assert [(it.lower(), *rest) for it, *rest in found] == wanted != []


def test_version():
    assert re.search('^version = "(.*)"$', text_of("rust/Cargo.toml"), re.M)[1] == version()


def test_crate(cargo):
    """Its own tests, and the program in its documentation."""
    counts = re.findall(r"^test result: ok\. (\d+) passed; 0 failed; 0 ignored",
                        cargo("test")[1], re.M)
    tests = text_of("rust/tests/station.rs").count("#[test]")
    assert counts.count("0") == len(counts) - 2 and [str(tests), "1"] == [
        it for it in counts if it != "0"]


def test_example(cargo):
    """The example and a station of the program: each has the other's message."""
    port = free_port()
    target, _ = cargo("build", "--examples")
    station = Station("listen", port, Station.ENDLESS, 1000, "--send", "616263")
    assert holds_within(20, lambda: is_listening(port))
    example = Process([f"{target}/debug/examples/tcp", f"127.0.0.1:{port}", "xyz"])
    assert (example.ended(20), example.errors()) == (0, [])
    assert any(re.fullmatch("notice .*Acknowledged 1", it) for it in example.lines()), example
    assert "mail abc" in example.lines()
    assert station.ended(20) == 3 and "mail 78797a" in station.lines(), station
