"""What people take: ./install and its removal, below folders of their own; what was installed, as
its users use it; the completion for shells, the man page, the licenses and the version."""
import fnmatch
import os
import re
import shlex
import shutil
import stat
import subprocess
import tempfile

import pytest

from .process import PROGRAM, TOP, contents, free_port, text_of, version

pytestmark = [pytest.mark.limit(300), pytest.mark.xdist_group("package"),
              pytest.mark.usefixtures("library")]
FILES = """bin/ddcmp include/ddcmp.h include/ddcmp_checked.h lib/libddcmp.a lib/libddcmp.so
lib/libddcmp.so.0 lib/pkgconfig/ddcmp.pc share/bash-completion/completions/ddcmp
share/ddcmp/installed share/ddcmp/python/ddcmp.py share/ddcmp/web/ddcmp.html
share/ddcmp/systemd/ddcmp.service
share/ddcmp/wireshark/ddcmp.lua
share/doc/ddcmp/CHANGELOG.md share/doc/ddcmp/LICENSE share/doc/ddcmp/NOTICES
share/fish/vendor_completions.d/ddcmp.fish
share/man/man1/ddcmp.1 share/zsh/site-functions/_ddcmp""".split()
RIGHTS = {"bin/ddcmp": "-rwxr-xr-x", "lib/libddcmp.so": "lrwxrwxrwx libddcmp.so.0"}
INSTALLED = {it[:end.start()]: "drwxr-xr-x" for it in FILES for end in re.finditer("/", it)}
INSTALLED |= {it: RIGHTS.get(it, "-rw-r--r--") for it in FILES}
INSTALL, NOBODY = f"{TOP}/install", 65534
BLANKS = "a folder/of my/own programs"
COMPLETES = ('. completion/ddcmp.bash; COMP_WORDS=("$@") COMP_CWORD=$(($# - 1)); _ddcmp; '
             'echo "${COMPREPLY[*]}"')


def ran(*words, cwd=TOP, **variables):
    """A run with these variables, and else without DESTDIR: its status and what it prints."""
    others = {name: value for name, value in os.environ.items() if name != "DESTDIR"}
    it = subprocess.run(words, stdout=subprocess.PIPE, stderr=subprocess.STDOUT, text=True,
                        cwd=cwd, env={**others, **variables}, check=False)
    return it.returncode, it.stdout.rstrip("\n")


def gives(status, says, *words, **how):
    """A run ends with this status, and what it prints is of this pattern."""
    got, said = ran(*words, **how)
    assert got == status and fnmatch.fnmatchcase(said, says), said


def installs(prefix, *before, **how):
    gives(0, "installed below *", *before, INSTALL, prefix, **how)


def removes(prefix, *before):
    gives(0, "removed from *", *before, INSTALL, "--remove", prefix)


def there(folder):
    """All that is in a folder, each with its rights and kind, and where a link leads."""
    found = {}
    for at, folders, files in os.walk(folder):
        for path in (f"{at}/{it}" for it in folders + files):
            link = f" {os.readlink(path)}" if os.path.islink(path) else ""
            found[os.path.relpath(path, folder)] = stat.filemode(os.lstat(path).st_mode) + link
    return found


def needs(program, what):
    if not shutil.which(program):
        pytest.skip(f"{what} (no {program})")


def imports(prefix, **variables):
    """The Python module below a prefix is over the library there."""
    words = "import ddcmp; print(ddcmp.check(b'abc'), ddcmp._LIBRARY._name)"
    said = f"38712 {os.path.realpath(prefix)}/lib/libddcmp.so.0"
    path = f"{prefix}/share/ddcmp/python"
    assert ran("python3", "-c", words, PYTHONPATH=path, **variables) == (0, said)


@pytest.fixture
def kept():
    """A folder that others may read."""
    with tempfile.TemporaryDirectory() as folder:
        os.chmod(folder, 0o755)
        yield folder


@pytest.fixture(scope="module", params=["empty", BLANKS])
def prefix(request):
    """What is installed below a folder that is empty; and below one that isn't there, with blanks,
    named from another folder."""
    with tempfile.TemporaryDirectory() as folder:
        above, _, name = f"{folder}/{request.param}".rpartition("/of my/")
        os.mkdir(above or name)
        if above:
            installs(f"of my/{name}", cwd=above)
        else:
            installs(name)
        yield f"{folder}/{request.param}"


def test_installed(prefix):
    """All files with their rights, and nothing else."""
    assert there(prefix) == INSTALLED


def test_installed_program(prefix):
    it = subprocess.run([f"{prefix}/bin/ddcmp", "explain"], input=b"050100000001fc55\n",
                        stdout=subprocess.PIPE, check=True)
    assert it.stdout.splitlines()[-1] == b"items=1 bytes=8 open=0"


def test_installed_page(prefix):
    needs("man", "man ddcmp")
    assert re.search("^EXIT STATUS", ran("man", "-P", "cat", "ddcmp",
                                         MANPATH=f"{prefix}/share/man")[1], re.M)


def test_installed_module(prefix):
    imports(prefix, PYTHONDONTWRITEBYTECODE="1")


def test_installed_library(prefix, tmp_path):
    """C programs by pkg-config, over the shared object and over the archive; a blank in a path has
    a backslash, as for a shell."""
    needs("pkg-config", "a C program over what is installed")
    paths = {"PKG_CONFIG_PATH": f"{prefix}/lib/pkgconfig", "LD_LIBRARY_PATH": f"{prefix}/lib"}
    status, flags = ran("pkg-config", "--cflags", "--libs", "ddcmp", **paths)
    assert status == 0 and ran("pkg-config", "--modversion", "ddcmp", **paths) == (0, version())
    for kind in ("-g", "-static"):
        words = ["gcc", "-std=c99", kind, "c/examples/two_stations.c", *shlex.split(flags)]
        assert ran(*words, "-o", f"{tmp_path}/program") == (0, "")
        status, said = ran(f"{tmp_path}/program", **paths)
        assert status == 0 and said.count(" messages came in order") == 2


@pytest.mark.parametrize("name", ["empty", BLANKS])
def test_again_and_away(kept, name):
    """Again over it, and away, with what Python keeps of the module, so that nothing is left."""
    prefix, first = f"{kept}/{name}", f"{kept}/{name.split('/')[0]}"
    os.mkdir(first)
    for _ in range(2):
        installs(prefix)
        assert there(prefix) == INSTALLED
    imports(prefix)
    removes(prefix)
    assert os.listdir(first) == []
    gives(73, "install: nothing of ddcmp was installed below *", INSTALL, "--remove", prefix)


def put(path, text="mine\n", how="w"):
    os.makedirs(os.path.dirname(path), exist_ok=True)
    with open(path, how, encoding="utf-8") as it:
        it.write(text)


def test_files_of_others_stay(kept):
    """Files, and folders that were there, empty or not; and a file that was changed."""
    for it in ("lib", "share/man"):
        os.makedirs(f"{kept}/{it}")
    put(f"{kept}/bin/mine")
    before = there(kept)
    installs(kept)
    put(f"{kept}/include/mine.h")
    removes(kept)
    assert contents(f"{kept}/include/mine.h") == b"mine\n"
    shutil.rmtree(f"{kept}/include")
    assert there(kept) == before
    installs(kept)
    page = f"{kept}/share/man/man1/ddcmp.1"
    put(page, how="a")
    gives(73, "install: not as it was installed, so it stays: */ddcmp.1", INSTALL, "--remove", kept)
    assert contents(page).endswith(b"\nmine\n")


def test_file_of_another_in_its_place(kept):
    put(f"{kept}/bin/ddcmp")
    before = there(kept)
    gives(73, "install: */bin/ddcmp is there, and isn't as ./install makes it", INSTALL, kept)
    assert there(kept) == before and contents(f"{kept}/bin/ddcmp") == b"mine\n"


def test_no_rights(kept):
    """A user without rights, who may read the sources: into a folder of his own, and not into
    another's."""
    is_root = os.geteuid() == 0
    path = f"{os.path.dirname(shutil.which('rt'))}:/usr/local/bin:/usr/bin:/bin"
    nobody = ["setpriv", f"--reuid={NOBODY}", f"--regid={NOBODY}", "--clear-groups", "env",
              f"PATH={path}", "HOME=/"] if is_root else []
    if ran(*nobody, "test", "-r", f"{TOP}/prove")[0]:
        pytest.skip(f"what a user without rights meets (he can't read {TOP})")
    own, other = f"{kept}/own", f"{kept}/not-own"
    os.mkdir(own)
    os.makedirs(f"{other}/bin")
    if is_root:
        os.chown(own, NOBODY, NOBODY)
    else:
        for it in (other, f"{other}/bin"):
            os.chmod(it, 0o555)
    installs(f"{own}/x", *nobody)
    assert there(f"{own}/x") == INSTALLED
    gives(73, "install: */not-own/bin can't be written", *nobody, INSTALL, other)
    assert list(there(other)) == ["bin"]
    removes(f"{own}/x", *nobody)
    assert os.listdir(own) == []


def test_no_folder(kept):
    put(f"{kept}/file")
    gives(73, "install: */file is no folder", INSTALL, f"{kept}/file/x")


def test_below_another_folder(kept):
    """For those who pack: with the prefix in ddcmp.pc."""
    installs("/usr", DESTDIR=f"{kept}/stage")
    assert there(f"{kept}/stage/usr") == INSTALLED
    assert b"prefix=/usr\n" in contents(f"{kept}/stage/usr/lib/pkgconfig/ddcmp.pc")


@pytest.mark.parametrize("status, words", [(64, ["--wrong"]), (64, ["x", "y"]), (0, ["--help"])])
def test_other_words(kept, status, words):
    gives(status, "*./install --remove*", INSTALL, *words, cwd=kept)
    assert there(kept) == {}


def test_version():
    assert ran(*PROGRAM, "--version") == (0, f"ddcmp {version()}")


def test_notices():
    """The licenses of what the program contains of the toolchain's crates."""
    assert ran("tools/notices") == (0, text_of("NOTICES").rstrip("\n"))


@pytest.mark.parametrize("words, wanted", [
    (["link", "--l"], "--line --linger-ms --ladder"), (["l"], "link"), (["link", "--window", ""], ""),
    (["link", "--line", ""], "connect: listen: udp: device:"), (["explain", "READ"], "README.md"),
    (["link", "--line", "device", ":", "/dev/nul"], "/dev/null"), (["--v"], "--version"),
    (["explain", "--from", ""], "hexdump xxd od text auto"), (["station", "--role", "l"], "listen"),
    (["help", "t"], "tap"), (["tap", "-h"], "-h"),
])
def test_completion(words, wanted):
    """What bash completes of the last word."""
    assert ran("bash", "-c", COMPLETES, "bash", "ddcmp", *words) == (0, wanted)


@pytest.mark.parametrize("shell, file", [("zsh", "_ddcmp"), ("fish", "ddcmp.fish")])
def test_completion_is_read(shell, file):
    needs(shell, f"the completion for {shell}")
    assert ran(shell, "-n", f"completion/{file}") == (0, "")


def test_page_is_made(kept):
    """The man page is what its script makes of the stored texts of help, in the right form."""
    assert ran("man/generate", kept)[0] == 0
    assert contents(f"{kept}/ddcmp.1").decode() == text_of("man/ddcmp.1")
    needs("mandoc", "the form of ddcmp.1")
    assert ran("mandoc", "-Tlint", "man/ddcmp.1") == (0, "")


@pytest.mark.parametrize("number, line", enumerate([
    "items=1 bytes=8 open=0", "recovered .* done", "notice .*Acknowledged 1", "mail 48656c6c6f"]))
def test_example_of_the_page(kept, number, line):
    os.symlink(PROGRAM[0], f"{kept}/ddcmp")
    text = re.findall(r"^\.Bd -literal.*\n((?:.*\n)*?)\.Ed", text_of("man/ddcmp.1"), re.M)[number]
    text = text.replace("\\e", "\\").replace(":7000", f":{free_port()}")
    path = f"{kept}:{os.environ['PATH']}"
    _, said = ran("timeout", "60", "bash", "-c", f"{text}\nwait", PATH=path)
    lines = said.splitlines()[-1 if number == 0 else 0:]
    assert any(re.fullmatch(line, it) for it in lines), said
