"""The page web/ddcmp.html as a person uses it, and its module by web/ddcmp.mjs, in Chromium and
Firefox: what they show of drawn captures and scripts is what the program prints."""
import base64
import glob
import os
import re
import subprocess
import time

import pytest
from hypothesis import given
from selenium.webdriver.common.by import By
from selenium.webdriver.common.keys import Keys
from selenium.webdriver.support.ui import Select, WebDriverWait

from .browsers import Chromium, Firefox
from .captures import FAULTY, GOOD, randoms, tries
from .peers import good
from .process import LONG, TOP, call, contents, holds_within, text_of
from .test_pictures import WORDS
from .wire import STRT, Reader, ack, data, nak

pytestmark = pytest.mark.limit(300)
PAGE = f"{TOP}/web/ddcmp.html"
FRAMES = STRT + b"\xff\xff" + data(b"Hello", 1) + nak(2, 1) + data(b"x" * 300, 2) + ack(2)[:5]
FORMS = {"hex": [], "text": ["--from", "text"], "raw": ["--raw"], "dump": ["--from", "xxd"],
         "detect": ["--from", "auto"]}
ARGUMENTS = {"send": "6162", "damage": "3 40", "cut": "5", "raw": "0501"}
ALONE = ("clear", "settle", "recover", "other", "", "# words")  # lines that name no end
# A serial port whose bytes the test carries.
SERIAL = """
const wrote = [], port = {
  open: async (how) => { window.opened = how; },
  close: async () => { window.opened = null; },
  writable: new WritableStream({ write: (piece) => { wrote.push(...piece); } }),
};
// After an error, as of a frame of bits, there is another stream.
const opens = () => {
  port.readable = new ReadableStream({ start: (it) => {
    window.arrive = (bytes) => it.enqueue(Uint8Array.from(bytes));
    window.fails = () => { opens(); it.error(new DOMException('', 'FramingError')); };
  } });
};
opens();
Object.defineProperty(navigator, 'serial', { value: { requestPort: async () => port } });
window.wrote = () => wrote.splice(0);
// How many timers are set, at most.
const set = setTimeout, clear = clearTimeout, timers = new Set();
window.mostTimers = 0;
window.setTimeout = (run, ms) => {
  const it = set(() => { timers.delete(it); run(); }, ms);
  window.mostTimers = Math.max(window.mostTimers, timers.add(it).size);
  return it;
};
window.clearTimeout = (it) => { timers.delete(it); clear(it); };
"""


# Drops files with these names and bytes.
DROP = """
const list = new DataTransfer();
for (const [name, bytes] of arguments[0]) list.items.add(new File([Uint8Array.from(bytes)], name));
document.body.dispatchEvent(new DragEvent('drop', { dataTransfer: list, bubbles: true }));
"""
# Runs code over the module of the page, in a page without anything.
SET_UP = """
const [code, module, done] = arguments;
const bytes = Uint8Array.from(atob(module), (it) => it.charCodeAt(0));
new (async () => {}).constructor('bytes', code)(bytes).then(done, (fault) => done(fault.message));
"""


def module_text():
    """The module of the page, in base64."""
    return re.search('id="module">([^<]*)<', text_of("web/ddcmp.html"))[1]


def example():
    """The example of docs/LIBRARY.md."""
    text = text_of("docs/LIBRARY.md").split("## JavaScript")[1]
    return "".join(it[4:] for it in text.splitlines(True) if it.startswith("    "))


class Module:
    """web/ddcmp.mjs, a call at a time, over the module of the page."""

    def __init__(self, driver):
        self.driver = driver
        code = "const ddcmp = await load(bytes);" + text_of("tests/module.mjs")
        assert self.runs(code) is None

    def runs(self, code):
        """Runs code after that of web/ddcmp.mjs."""
        parts = re.sub("^export ", "", text_of("web/ddcmp.mjs"), flags=re.M), code
        return self.driver.execute_async_script(SET_UP, "\n".join(parts), module_text())

    def __call__(self, name, *given):
        given = [{"hex": it.hex()} if isinstance(it, bytes) else it for it in given]
        return self.driver.execute_script("return answer(...arguments)", name, *given)


@pytest.fixture(params=[Chromium, Firefox])
def module(request, tmp_path):
    it = Module(request.param(tmp_path))
    yield it
    it.driver.quit()


def capture(draw):
    """Frames, faults and noise, at times without the end."""
    parts = [draw.choice([*GOOD, *FAULTY])(draw)[1] if draw.randrange(8)
             else draw.randbytes(draw.randrange(30)) for _ in range(draw.randrange(30))]
    return b"".join(parts)[:draw.choice([None, -1, -7])]


def written(draw, text, form):
    """An input that encodes these bytes, at times with a fault."""
    fault = draw.choice([b"", b"", b"", b"f", b" zz", b"\n*\n"])
    if form in ("hex", "text"):
        return (text.hex(" ") if draw.randrange(2) else text.hex()).encode() + fault
    if form == "dump" or form == "detect" and draw.randrange(2):
        words = ["xxd", "-g1"]
        return subprocess.run(words, input=text, stdout=subprocess.PIPE, check=True).stdout + fault
    return text


def is_same(reply, ran):
    """Whether a reply of the module is what the program printed: its output, its fault."""
    out, err, _ = ran
    fault = f"ddcmp: {reply['fault']}\n" if "fault" in reply else ""
    return reply.get("is", reply.get("output")) == out.decode() and fault == err


@tries(1000)
@given(randoms)
def test_explain_as_program(module, draw):
    form, (is_json, skipped) = draw.choice(list(FORMS)), draw.choices([True, False], k=2)
    most, bytes_of = draw.choice([16383, 1, 40]), capture(draw)
    text = written(draw, bytes_of, form)
    words = [*FORMS[form], *["--json"] * is_json, *["--discarded"] * skipped, f"--max={most}"]
    how = {"form": form, "json": is_json, "discarded": skipped, "max": most}
    reply = module("explain", text, how)
    assert is_same(reply, call("explain", *words, given=text))
    if "is" in reply and form != "detect":
        assert module("bytes", text, form)["is"] == bytes_of.hex()


@tries(300)
@given(randoms)
def test_chunks_as_whole(module, draw):
    text = capture(draw) + draw.randbytes(draw.choice([0, 0, 500]))
    how = {"json": bool(draw.randrange(2)), "discarded": bool(draw.randrange(2)), "max": 40}
    sizes = [draw.randrange(1, draw.choice([4, 40, 400])) for _ in range(5)]
    assert module("pieces", text, sizes, how) == module("explain", text, {**how, "form": "raw"})


@tries(200)
@given(randoms)
def test_ladder_as_program(module, tmp_path, draw):
    form, most = draw.choice(["raw", "hex"]), draw.choice([16383, 40])
    both = {f"{tmp_path}/{name}": written(draw, capture(draw), form) for name in "ab"}
    for path, text in both.items():
        with open(path, "wb") as it:
            it.write(text)
    words = [*FORMS[form], "--ladder", "--discarded", f"--max={most}", *both]
    out, err, status = call("explain", *words)
    reply = module("ladder", *both.values(), {"form": form, "discarded": True, "max": most})
    faulty = next((of for of, path in enumerate(both) if path in err), 0)
    assert is_same(reply, (out, err.replace(f"{list(both)[faulty]}: ", ""), status))
    assert reply.get("of", 0) == faulty


@tries(600)
@given(randoms)
def test_script_as_program(module, draw):
    lines = ["start A", "start B", "settle"] * draw.randrange(2)
    for word in draw.choices(WORDS[:-1] if draw.randrange(4) else WORDS, k=draw.randrange(25)):
        end = "" if word in ALONE else f" {draw.choice('AB')} {ARGUMENTS.get(word, '')}"
        lines.append(f"{word}{end}".rstrip())
    sizes = {"window": draw.randrange(1, 9), "inbox": draw.randrange(1, 9),
             "max": draw.randrange(1, 99), "syn": draw.randrange(17)}
    flags = {it: bool(draw.randrange(2)) for it in ("restart", "begun", "counters")}
    view, script = draw.choice(["text", "ladder", "svg"]), "".join(f"{it}\n" for it in lines)
    words = [*[f"--{view}"] * (view != "text"), *(f"--{it}={n}" for it, n in sizes.items()),
             *(f"--{it}" for it in flags if flags[it])]
    reply = module("simulate", script, {"view": view, **sizes, **flags})
    assert is_same(reply, call("simulate", *words, given=script.encode()))


def test_refusals(module):
    """Numbers that don't fit, what isn't bytes, and a station after it was freed."""
    for name, wrong, why in (("window", 65537, "the window isn't 1 to 255"),
                             ("inbox", -1, "the inbox isn't 1 to 255"),
                             ("max", 1.5, "the largest message isn't 1 to 16383"),
                             ("syn", "1", "the SYN fill is above 16")):
        assert module("simulate", "", {name: wrong})["fault"] == why
        assert module("station", {name: wrong})["fault"] == why
    why = "the largest message isn't 1 to 16383"
    assert module("explain", "", {"max": 2**32 + 1})["fault"] == why
    assert module("explain", 5)["name"] == module("bytes", "", "none")["name"] == "TypeError"
    it = module("station", {"max": 5})["is"]
    assert module("call", it, "send", "a")["fault"] == "the station doesn't run"
    assert module("call", it, "close") == {"is": None}
    for name, how in (("start", "call"), ("poll", "call"), ("state", "of"), ("counters", "of")):
        assert module(how, it, name)["fault"] == "the handle has no station or reader"


def test_memory(tmp_path):
    """If the browser refuses memory, a call is refused, and a later one is right."""
    module = Module(Chromium(tmp_path, "--js-flags=--wasm-max-mem-pages=100"))
    given = [FRAMES * count for count in range(1, 5000, 250)]
    replies = [module("explain", it, {"form": "raw"}) for it in given]
    assert {it.get("fault") for it in replies} == {None, "memory"}
    for text, reply in zip(given, replies):
        assert "fault" in reply or is_same(reply, call("explain", "--raw", given=text))
    assert module("explain", STRT.hex())["is"].endswith("items=1 bytes=8 open=0\n")
    module.driver.quit()


def settle(module, *ends):
    """Carries frames to and fro until neither station has one."""
    while frames := [module("call", it, "poll")["is"] for it in ends]:
        if not any(frames):
            return
        for to, frame in zip(reversed(ends), frames):
            left = bytes.fromhex(frame or "")
            while left:
                left = left[module("call", to, "feed", left)["is"]["used"]:]


def test_stations(module):
    """Two stations exchange messages in both directions."""
    a, b = (module("station", {"max": 9000, "window": 3})["is"] for _ in range(2))
    assert [module("call", it, "start")["is"] for it in (a, b)] == [0, 0]
    settle(module, a, b)
    assert [module("of", it, "state")["is"] for it in (a, b)] == ["Running", "Running"]
    sent = [b"hello", bytes(range(256)) * 35]
    assert [module("call", a, "send", it)["is"] for it in sent] == [1, 2]
    assert module("call", b, "send", "yes")["is"] == 1
    settle(module, a, b)
    assert [module("call", b, "take")["is"] for _ in range(3)] == [*(it.hex() for it in sent), None]
    assert module("call", a, "take")["is"] == b"yes".hex()
    assert module("of", a, "counters")["is"]["bytesSent"] == sum(map(len, sent))
    assert module("of", a, "numbers")["is"] == {"r": 1, "n": 2, "a": 2, "t": 3}


def test_acknowledged_on_take(module):
    """Messages are acknowledged when they are taken, and not when they arrive; or the other way
    round, if the station is halted and its inbox empty."""
    ends = a, b = [module("station")["is"] for _ in range(2)]

    def choose(*on_take):
        return module("call", b, "acknowledgeOnTake", *on_take).get("fault")

    def start():
        for it in ends:
            module("call", it, "start")
        settle(module, *ends)

    def outgoing(*messages):
        """How many messages aren't acknowledged after these, too."""
        for it in messages:
            module("call", a, "send", it)
        settle(module, *ends)
        return module("of", a, "outgoing")["is"]
    assert choose() is None
    start()
    assert outgoing("x", "yz") == 2 and module("call", b, "waitingAt", 1)["is"] == b"yz".hex()
    assert module("call", b, "take")["is"] == b"x".hex() and outgoing() == 1
    assert choose(False) == "the station isn't halted"
    for it in ends:
        module("call", it, "halt")
    assert choose(False) == "the inbox isn't empty"
    assert module("call", b, "take")["is"] == b"yz".hex() and choose(False) is None
    start()
    assert outgoing("x", "yz") == 0


def test_example(module):
    """The example of docs/LIBRARY.md runs in a browser."""
    code = re.sub("^import .*", "", example(), flags=re.M)
    code = code.replace("readFileSync('ddcmp.wasm')", "bytes")
    assert module.runs(f"{code}\nreturn station.state;") == "Halted"


def test_node(tmp_path):
    """It runs by node; one before 20 is told what it lacks."""
    for name, text in (("ddcmp.mjs", contents(f"{TOP}/web/ddcmp.mjs")),
                       ("ddcmp.wasm", base64.b64decode(module_text())),
                       ("example.mjs", f"{example()}console.log(station.state);\n".encode())):
        (tmp_path / name).write_bytes(text)
    version = subprocess.run(["node", "--version"], stdout=subprocess.PIPE, check=True).stdout
    knows = int(version[1:].split(b".")[0]) >= 20
    words = ["node", *["--experimental-wasm-memory64"] * knows, "example.mjs"]
    ran = subprocess.run(words, cwd=tmp_path, capture_output=True)
    assert ran.stdout == b"Halted\n" * knows
    assert knows or b"memory of 64 bits is needed" in ran.stderr


@pytest.mark.parametrize("name, words, why", [
    ("@llvm.trap", ["--target=x86_64-unknown-linux-gnu", "-O3"], ""),
    ("@llvm.x86.sse2.pause", ["--target=x86_64-unknown-linux-gnu", "-O3"], "not known on Web"),
    ("@elsewhere", ["--target=x86_64-unknown-linux-gnu", "-O3"], "not known on WebAssembly"),
    ("@llvm.trap", ["--target=x86_64-unknown-linux-gnu", "-O2"], "an unknown call"),
])
def test_compiler(tmp_path, name, words, why):
    """web/clang stops at a function, an intrinsic or a call that it doesn't know."""
    text = f"declare void {name}()\ndefine void @f() {{ call void {name}() ret void }}\n"
    (tmp_path / "module.bc").write_text(text)
    ran = subprocess.run([f"{TOP}/web/clang", *words], cwd=tmp_path, capture_output=True)
    assert ran.returncode == (2 if why else 0) and why in ran.stderr.decode()
    assert (tmp_path / "module.o").exists() != bool(why)


def test_made_again(tmp_path):
    """The page of the repository is what is made of the proved code now, byte for byte."""
    subprocess.run([f"{TOP}/web/build", tmp_path], check=True, stdout=subprocess.DEVNULL)
    assert (tmp_path / "ddcmp.html").read_bytes() == contents(PAGE)


# ---- the page

class Page:
    """The page in a browser, which saves into a folder."""

    def __init__(self, driver, folder):
        self.folder, self.driver = folder, driver
        self.js = driver.execute_script

    def open(self, address, path=PAGE):
        self.driver.get("about:blank")
        self.driver.get(f"file://{path}#{address}")
        self.until(lambda: self(address.split("=")[0]).is_displayed())

    def open_after(self, script, address):
        """Opens the page with a script before what forbids others than its own."""
        head, rest = text_of("web/ddcmp.html").split("<meta", 1)
        path = self.folder / "page.html"
        path.write_text(f"{head}<script>{script}</script><meta{rest}")
        self.open(address, path)

    def __call__(self, name):
        return self.driver.find_element(By.ID, name)

    def until(self, holds):
        WebDriverWait(self.driver, LONG, 0.05).until(lambda _: holds())

    def click(self, *names):
        for it in names:
            self(it).click()

    def type(self, name, text):
        self(name).clear()
        self(name).send_keys(text)

    def choose(self, name, text):
        Select(self(name)).select_by_visible_text(text)

    def text(self, name):
        return self.js("return arguments[0].textContent", self(name))

    def rows(self):
        return self.js("return [...document.querySelectorAll('#rows tr[id]')]"
                       ".map((it) => [...it.cells].map((cell) => cell.textContent))")

    def saved(self, button, name):
        """What a button saves."""
        path = self.folder / name
        path.unlink(missing_ok=True)
        self.click(button)
        assert holds_within(LONG, lambda: path.exists() and path.stat().st_size), name
        return path.read_text()


@pytest.fixture(params=[Chromium, Firefox])
def page(request, tmp_path):
    it = Page(request.param(tmp_path), tmp_path)
    yield it
    faults = it.driver.faults()
    it.driver.quit()
    assert not faults


SKIPPED = ("explain", "--raw", "--discarded")


def test_decode(page):
    """Digits that are typed: items, the bytes of one, filters by mouse and keys, what is saved."""
    page.open("decode")
    page.type("bytes", FRAMES.hex(" "))
    page.until(lambda: f"{len(FRAMES)} bytes" in page.text("totals"))
    items = ["STRT", "discarded", "DATA", "NAK", "DATA", "unfinished"]
    assert [it[3] for it in page.rows()] == items
    assert page.rows()[2][2:] == ["10", "DATA", "5", "0", "1", "", "1", "48656c6c6f  Hello"]
    page("rows").send_keys(Keys.HOME, Keys.DOWN, Keys.DOWN)
    page.until(lambda: page.text("item").startswith("DATA at 10"))
    right = "CRC([0-9a-f]{2} ){2}right"
    assert re.search(f"header {right}data48 65 6c 6c 6f Hellodata {right}$", page.text("item"))
    page.choose("kind", "NAK")
    assert [it[3:] for it in page.rows()] == [["NAK", "", "1", "0", "", "1", "data check"]]
    page("rows").send_keys(Keys.HOME)
    page.until(lambda: page.text("item").startswith("NAK at 25"))
    page.choose("kind", "all items")
    page.click("errors")
    assert [it[3] for it in page.rows()] == ["discarded", "unfinished"]
    page.type("longest", f"40{Keys.ENTER}")
    page.until(lambda: "1 too long" in page.text("totals"))
    for kind, more in (("txt", []), ("json", ["--json"])):
        ran = call(*SKIPPED, "--max=40", *more, given=FRAMES)[0].decode()
        assert page.saved(f"save-{'json' if more else 'text'}", f"items.{kind}") == ran
    page.type("bytes", "05 0z")
    page.until(lambda: page.text("decode-fault") == "not hexadecimal at 4")
    page.click("forget")
    page.until(lambda: not page("found").is_displayed())
    assert not page("decode-fault").is_displayed()


def test_files(page, tmp_path):
    """Two files, dropped, as a table and as a ladder; a long one; a capture of packets."""
    files = {"a": FRAMES, "b": STRT + ack(1) + data(b"yes", 1, 2), "long": FRAMES * 12000,
             "packets": bytes.fromhex("d4c3b2a1020004")}
    for name, text in files.items():
        (tmp_path / name).write_bytes(text)
    page.open("decode")
    for names in "aab", "ab":
        page.js(DROP, [[name, list(files[name])] for name in names])
        held = sum(len(files[it]) for it in names[:2])
        page.until(lambda held=held: f"{held} bytes" in page.text("totals"))
        assert page("decode-fault").is_displayed() == (len(names) > 2)
    page.choose("end", "B to A")
    assert [it[1] + it[3] for it in page.rows()] == ["BSTRT", "BACK", "BDATA"]
    page("rows").send_keys(Keys.HOME)
    page.until(lambda: "B to A" in page.text("item"))
    page.click("as-ladder")
    ran = call(*SKIPPED, "--ladder", f"{tmp_path}/a", f"{tmp_path}/b")[0].decode()
    page.until(lambda: page.text("ladder") == ran)
    assert page.saved("save-text", "ladder.txt") == ran
    page.click("as-ladder")
    for kind, more, form in (("text", [], "{0} {1}"), ("json", ["--json"], '{{"from":"{0}",{2}')):
        both = [(end.upper(), line) for end in "ab"
                for line in call(*SKIPPED, *more, given=files[end])[0].decode().splitlines(True)]
        name = f"items.{'json' if more else 'txt'}"
        assert page.saved(f"save-{kind}", name) == "".join(
            form.format(end, line, line[1:]) for end, line in both)
    page.js("document.getElementById('second').value = ''")
    page("first").send_keys(f"{tmp_path}/long")
    page.until(lambda: f"{len(files['long'])} bytes" in page.text("totals"))
    ran = call(*SKIPPED, "--json", given=files["long"])[0].decode()
    assert page.saved("save-json", "items.json") == ran
    page.js("document.getElementById('rows').scrollTop = 26 * 3000")
    page.until(lambda: page.driver.find_elements(By.ID, "row-3002"))
    row = next(it for it in page.rows() if it[0] == "3003")
    page.js("document.getElementById('row-3002').cells[0].click()")
    page.until(lambda: page.text("item").startswith(f"{row[3]} at {row[2]}"))
    page("second").send_keys(f"{tmp_path}/packets")
    page.until(lambda: page.text("decode-fault").startswith("B: packets (pcap)"))
    page.type("bytes", "05 0z")
    page.until(lambda: page.text("decode-fault") == "not hexadecimal at 4")


@pytest.mark.parametrize("path", sorted(glob.glob("docs/pictures/*.txt", root_dir=TOP)),
                         ids=os.path.basename)
def test_picture(page, path):
    """A script that is typed shows the picture that is stored."""
    page.open("simulate")
    page.type("script", text_of(path))
    assert page.saved("save-picture", "script.svg") == text_of(f"{path[:-4]}.svg")
    page.until(lambda: page("picture").get_property("naturalWidth") == 1000)


def test_simulate(page):
    """A wrong line is marked; a script is in the address, which opens it again."""
    page.open("simulate")
    page.type("script", "start A\nbogus\n# <img src=x onerror=alert(1)>\n")
    assert page.text("script-fault") == "line 2: not a command"
    assert page.driver.find_element(By.CSS_SELECTOR, "#gutter b").text == "2"
    script = "start A\nstart B\nsettle\n# 50% = é #1 & +?\n"
    page.type("script", script)
    assert not page("script-fault").is_displayed()
    address = page.driver.current_url.split("#")[1]
    page.click("begun", "counters")
    page.choose("view", "text")
    words = ["simulate", "--begun", "--counters"]
    ran = call(*words, given=script.encode())[0].decode()
    assert page.text("shown") == page.saved("save-picture", "script.txt") == ran
    page.open(address)
    assert page("script").get_property("value") == script


def test_two_stations(page):
    """Buttons make a script, whose replies are shown, and which Simulate takes over."""
    page.open("stations")
    page.click("start-A", "poll-A", "damage-A", "start-B", "both-settle", "send-A", "poll-A",
               "damage-A", "lose-A", "expire-A", "both-settle", "send-B", "take-B")
    lines = ["start A", "poll A", "damage A 6 01", "start B", "settle",
             f"send A {b'hello'.hex()}", "poll A", "damage A 8 01", "lose A", "expire A", "settle",
             f"send B {b'yes'.hex()}", "take B"]
    assert page.text("made").splitlines() == lines and page.text("reply") == "B nothing"
    assert page.text("state-A").startswith("Running R=0 N=1")
    page.click("undo", "take-over")
    page.until(lambda: page("simulate").is_displayed())
    assert page("script").get_property("value").splitlines() == lines[:-1]


class Far:
    """A peer in Python at the other end of the serial port, over a line that loses the first
    message to it and damages the third, and what it says once before a NAK."""

    def __init__(self, page):
        self.page, self.reader, self.taken, self.mail, self.count = page, Reader(), 0, [], 0
        self.refused = self.came = b""

    def sends(self, piece):
        self.page.js("window.arrive(arguments[0])", list(piece))

    def sends_damaged(self, piece):
        self.refused = piece
        self.sends(piece[:-1] + bytes([piece[-1] ^ 1]))

    def answer(self, frame):
        self.count += frame.name == "DATA"
        if frame.name == "NAK":
            return self.refused
        if frame.name == "DATA" and self.count in (1, 3):
            return b"" if self.count == 1 else nak(2, self.taken)
        return good(self, frame)

    def carries(self, holds):
        """Answers what the page wrote until this holds."""
        end = time.monotonic() + LONG
        while not holds():
            assert time.monotonic() < end
            piece = bytes(self.page.js("return window.wrote()"))
            self.came += piece
            for frame in self.reader.push(piece):
                self.sends(self.answer(frame))


def test_port(page):
    """A station on a serial port: messages in both directions, over loss, damage and a restart."""
    page.open_after(SERIAL, "port")
    page.type("timer", "0.4")
    page.click("connect")
    far = Far(page)
    far.carries(lambda: page.text("port-state").startswith("Running"))
    assert page.js("return window.opened.baudRate") == 9600
    page.type("message", "hello" + Keys.ENTER)
    page.click("as-digits")
    page.type("message", "00 ff" + Keys.ENTER)
    far.carries(lambda: " 0 messages not acknowledged" in page.text("port-state")
                and far.mail == [b"hello", b"\0\xff"])
    assert far.count > 3 and "──> REP" in page.text("frames")
    assert far.came.startswith(b"\x96" * 4 + STRT) and page.js("return window.mostTimers") == 1
    far.sends(data(b"yes", 1, 2))
    far.carries(lambda: page.text("mail") == f"{b'yes'.hex()}\n")
    page.js("window.fails()")
    page.until(lambda: "FramingError" in page.text("frames"))
    far.sends_damaged(data(b"again", 2, 2))
    far.carries(lambda: page.text("mail").endswith(f"{b'again'.hex()}\n"))
    assert "──> NAK" in page.text("frames") and "<── DATA" in page.text("frames")
    numbers = range(3, 13)  # more than its inbox holds, in one piece
    far.sends(b"".join(data(bytes([it]), it, 2) for it in numbers))
    far.carries(lambda: page.text("mail").split()[2:] == [f"{it:02x}" for it in numbers])
    far.taken = 0
    far.sends(STRT)
    far.carries(lambda: page.text("port-state").startswith("Running, R=0 N=0"))
    page.type("message", "61" + Keys.ENTER)
    far.sends(data(b"anew", 1, 0))
    far.carries(lambda: far.mail[2:] == [b"a"]
                and page.text("mail").split()[12:] == [b"anew".hex()])
    page.click("disconnect")
    page.until(lambda: page.js("return window.opened === null"))
    assert page.text("port-state") == "Not connected."
    assert page("connect").is_enabled() and not page("disconnect").is_enabled()


def test_without_serial(page):
    """Where there is no Web Serial, Port says so in place of its buttons."""
    page.open_after("delete Navigator.prototype.serial", "port")
    assert page("no-serial").is_displayed() and not page("serial").is_displayed()
