#!/usr/bin/env python3
"""Tries the page in Chromium without a window, and says that it does not where there is no Chromium.

    web/test.py [--pictures FOLDER] [--only WORD] [PAGE]      PAGE: a folder that web/build.sh made, with the module

Without PAGE a stand-in answers in the device's place, by the reports of examples/ and of ../shared/cases where that is there: then
the page is tried, and the module is not. --pictures keeps pictures of the page.
"""
import argparse
import base64
import functools
import hashlib
import http.server
import json
import os
import pathlib
import re
import shutil
import subprocess
import sys
import tempfile
import threading
import time
import urllib.request

HERE = pathlib.Path(__file__).resolve().parent
TOP = HERE.parent
sys.path.insert(0, str(HERE / "test"))
import answers  # noqa: E402
import browser  # noqa: E402
import small  # noqa: E402

CASES = TOP.parent / "shared/cases"
KINDS = ("rich", "meet", "replay", "legacy", "suspend", "hostile", "audit")
OPTIONS = {"--trace": 1, "--ppm": 2}
WHY = {1: "bytes", 2: "cut", 3: "form", 4: "label", 5: "limit"}
CONTROL, SHIFT = 2, 8  # of a key
MOST_BYTES, MOST_COMMANDS = 1 << 20, 4096  # of a script, and of a client
CALLS = "kms_one kms_replay kms_verdicts kms_suspend kms_legacy kms_audit".split()
HEAP_CALLS = "rattle_alloc rattle_realloc rattle_dealloc memcmp memmove memset product left right signed_right".split()
WIDE, NARROW = (1500, 1000), (420, 1800)  # of the page, in pixels
FEW_TICKS = 0.5  # seconds, in which the page might guess nothing
STACKS = (1 << 10, 1 << 16)  # bytes, all too few
PAGES = (0, 256)  # by which a memory may grow: with fewer than 256 there is no heap, and with so many there is none for a large frame
HEAP_MEMORY, ECHO_MEMORY = 1 << 28, 1 << 30  # bytes at most
ENDED = "document.body?.dataset.ended !== undefined"
IS_BAD = "document.getElementById('status')?.classList.contains('bad')"
WIDE_MEMORY = "WebAssembly.validate(Uint8Array.of(0, 97, 115, 109, 1, 0, 0, 0, 5, 3, 1, 4, 0))"  # as module.js asks


CALL = """(async () => {
    const { compile, open } = await import('./module.js'), script = Uint8Array.from(atob('%s'), it => it.charCodeAt(0));
    window.compiled ??= compile();
    const device = await open(compiled), word = '%s';
    const { text, ...told } = word === 'audit' ? device.audit(script) : device.call(word, script, %d, 65536);
    return { ...told, text: text ? new TextDecoder().decode(text) : '' };
})()"""


DROP = """{
    delete document.body.dataset.ended;
    const data = new DataTransfer(), bytes = (text) => Uint8Array.from(atob(text), it => it.charCodeAt(0));
    for (const text of %s) data.items.add(new File([bytes(text)], 'own.kms'));
    document.dispatchEvent(new DragEvent('drop', { dataTransfer: data, cancelable: true }));
}"""


# Keeps what the phases tell of themselves while they go on.
WATCH = """{
    window.notes = [];
    window.watch?.disconnect();
    window.watch = new MutationObserver(() => {
        const now = document.querySelector('#phases .now');
        if (now) notes.push([now.dataset.phase, now.querySelector('.note').textContent]);
    });
    watch.observe(phases, { subtree: true, childList: true });
}"""
NOTE = re.compile(r"about (\d{1,2}) %|longer than estimated|\d+ of \d+|")  # (of two digits: 100 % is told by no guess)


class Files(http.server.SimpleHTTPRequestHandler):
    """A folder's files, without a log. The browser may keep none: a file that was written twice in a second has the same date."""

    def end_headers(self):
        self.send_header("Cache-Control", "no-store")
        super().end_headers()

    def log_message(self, *_):
        pass


def serve(folder):
    """Serves a folder; its address."""
    server = http.server.ThreadingHTTPServer(("127.0.0.1", 0), functools.partial(Files, directory=str(folder)))
    threading.Thread(target=server.serve_forever, daemon=True).start()
    return f"http://127.0.0.1:{server.server_port}/"


def cases():
    """Scripts of cases whose reports have steps and no pictures."""
    words = [(it, it.read_text().split()) for it in sorted((CASES / "rich").glob("*.words"))]
    found = [it.with_suffix(".in") for it, said in words if said == ["one", "--trace"]]
    return [it for it in found if it.with_suffix(".out").read_text()]


def all_cases():
    """All cases for which the page has a call: the script's file, the word and the number of the options."""
    for kind in KINDS:
        for file in sorted((CASES / kind).glob("*.words")):
            word, *options = file.read_text().split()
            yield file.with_suffix(".in"), word, sum(OPTIONS[it] for it in options)


def large(is_stand_in):
    """A script of 1 MiB whose commands are short; the stand-in answers a script that begins otherwise."""
    script = "large\nclient\n" if is_stand_in else "kms 1\ncrtcs 1\nplane primary 0 XR24\nconn 0\nclient\nblob label_01 00\n"
    line, most = "destroy label_01\n", MOST_COMMANDS - 1
    while len(script) + len("client\n") + len(line) <= MOST_BYTES:
        more = (MOST_BYTES - len(script)) // len(line)
        script += line * (more if is_stand_in else min(more, most)) + ("" if is_stand_in else "client\n")
        most = MOST_COMMANDS
    return script.removesuffix("client\n")


def wide(is_stand_in):
    """A script with one frame of 4096x4096."""
    if is_stand_in:
        return "wide\nclient\natomic 0x400 0\n"
    size, source = 4096, 4096 << 16
    plane = f"plane0.FB_ID=@f plane0.CRTC_ID=crtc0 plane0.CRTC_W={size} plane0.CRTC_H={size} plane0.SRC_W={source} plane0.SRC_H={source}"
    lit = f"atomic 0x400 0 crtc0.ACTIVE=1 crtc0.MODE_ID=@m conn0.CRTC_ID=crtc0 {plane}\n"
    things = f"buffer b {size} {size} XR24 ramp\naddfb f b\nmode m 1000" + f" {size}" * 4 + " 0" + f" {size}" * 4 + " 0 60 0 0 wide\n"
    return f"kms 1\ncrtcs 1\nplane primary 0 XR24\nconn 0\nclient\n{things}{lit}"


def wide_digest():
    """The digest of the frame of `wide`, a ramp: in each pixel its column, its row, and their sum."""
    ramp, rows = bytes(range(256)), bytearray()
    for row in range(256):
        pixels = bytearray(3 * 4096)
        pixels[0::3], pixels[1::3], pixels[2::3] = ramp * 16, bytes([row]) * 4096, (ramp[row:] + ramp[:row]) * 16
        rows += pixels
    return hashlib.sha256(rows * 16).hexdigest()


def error_of(told):
    """What the program writes to standard error where a call told this."""
    fault, step = f"line {told['line']}: {WHY.get(told['why'])}", f"event {told['place']} is not legal"
    said = {4: fault, 7: step, 8: "open", 9: f"audit: line {told['line']}", 10: f"closed {told['object']}"}
    return f"kms: {said[told['status']]}\n" if told["status"] in said else None


def make_stand_in(folder):
    """The page with the stand-in in the module's place."""
    subprocess.run([HERE / "build.sh", "--page", folder], check=True, stdout=subprocess.DEVNULL)
    shutil.copy(HERE / "test/stand_in.js", folder / "module.js")
    (folder / "answers.json").write_text(json.dumps(answers.answers(cases())))


def toolchain():
    """The folder of the toolchain's programs, or none."""
    rt = shutil.which("rt")
    kit = os.environ.get("RT_KIT") or (rt and pathlib.Path(rt).resolve().parents[1])
    return pathlib.Path(kit) / "toolchain/bin" if kit else None


def make_module(made, sources, exports, most_memory):
    """Makes a module of files in C."""
    flags = "--target=wasm64-unknown-unknown -mcpu=lime1 --no-default-config -O2 -std=c11 -ffreestanding -fno-builtin -nostdinc".split()
    objects = [made.with_name(f"{source.stem}.o") for source in sources]
    for source, to in zip(sources, objects):
        subprocess.run([toolchain() / "clang", *flags, "-mbulk-memory", "-c", source, "-o", to], check=True)
    link = f"-flavor wasm -mwasm64 --no-entry --stack-first --max-memory={most_memory}".split()
    subprocess.run([toolchain() / "ld.lld", *link, *(f"--export={it}" for it in exports), "-o", made, *objects], check=True)


def make_echo(folder):
    """The page with the library of test/echo.c in the device's place."""
    subprocess.run([HERE / "build.sh", "--page", folder], check=True, stdout=subprocess.DEVNULL)
    shutil.copy(HERE / "test/tries.js", folder)
    make_module(folder / "kms.wasm", [HERE / "heap.c", HERE / "mem.c", HERE / "test/echo.c"], CALLS, ECHO_MEMORY)


class Tests:
    """The page's tests, on a browser. Each is a method `test_..`; what it says is its first line."""

    def __init__(self, page, address, folder, is_stand_in):
        self.page, self.address, self.folder, self.is_stand_in = page, address, folder, is_stand_in

    def open(self, fragment=""):
        """Opens the page, which runs a script at once. (A page that says that it has none to run would not end.)"""
        self.page.go("about:blank")
        self.page.go(self.address + fragment)
        self.page.wait(f"{ENDED} || {IS_BAD}")
        assert self.page.value(ENDED), self.text("status")

    def run(self, script, word="one"):
        """Runs a script; how it ended."""
        self.begin(script, word)
        return self.ended()

    def ended(self):
        """How the run ends."""
        self.page.wait(ENDED)
        return self.page.value("document.body.dataset.ended")

    def begin(self, script, word="one"):
        self.page.value(f"{{ script.value = {json.dumps(script)}; word.value = {json.dumps(word)}; run.click(); }}")

    def text(self, id_):
        return self.page.value(f"document.getElementById({json.dumps(id_)}).textContent")

    def test_examples(self):
        """each example's report, by the list of examples"""
        self.open()
        for name in self.page.value("[...example.options].map(it => it.value).filter(it => it.endsWith('.kms'))"):
            report = (TOP / "examples" / name).with_suffix(".report")
            if "." in pathlib.Path(name).stem or not report.exists() or name == "older_calls.kms":
                continue
            self.page.value("{ script.value = ''; delete document.body.dataset.ended; }")
            self.page.value(f"{{ example.value = {json.dumps(name)}; example.dispatchEvent(new Event('change')); }}")
            self.page.wait(f"{ENDED} && script.value.length > 0")
            wanted, shown = report.read_text(), self.shown_report(name)
            if "\nT " not in wanted:
                shown = "".join(line for line in shown.splitlines(keepends=True) if not line.startswith("T "))
            assert shown == wanted, name

    def shown_report(self, name):
        script = (TOP / "examples" / name).read_text()
        word = "suspend" if name == "sleep.kms" else "one"
        assert self.run(script, word) == "status 0", name
        return self.text("report")

    def test_cases(self):
        """the reports of cases, with their steps"""
        for file in cases():
            ended, wanted = self.run(file.read_text()), file.with_suffix(".out").read_text()
            assert ended.startswith("status") and self.text("report") == wanted, f"{file.name}: {ended}"

    def test_calls_by_cases(self):
        """what each call of the library tells of each case, and each text byte for byte"""
        chosen = [(it, "one", 1) for it in cases()] if self.is_stand_in else list(all_cases())
        for file, word, options in chosen:
            told = self.call(file.read_bytes(), word, options)
            if word == "audit" and told["status"] == 0:
                told["text"] = "audit yes\n"  # (the call has no text)
            assert told["text"] == file.with_suffix(".out").read_text(), file
            if not self.is_stand_in:  # (which knows no status but that of a script that drains)
                error, status = error_of(told), int(file.with_suffix(".status").read_text())
                assert told["status"] == status and error in (None, file.with_suffix(".err").read_text()), f"{file} {told}"
        print(f"        ({len(chosen)} cases)")

    def call(self, script, word, options):
        """What a call of the library tells, with its text."""
        return self.page.value(CALL % (base64.b64encode(script).decode(), word, options))

    def test_replies(self):
        """each line has its reply, and each refusal its rule in words"""
        assert self.run((TOP / "examples/two_screens.kms").read_text()) == "status 0"
        self.page.wait("document.querySelectorAll('#replies .done').length > 0")
        parts = "[it.className, ...[...it.children].map(part => part.textContent)]"
        rows = self.page.value(f"[...document.querySelectorAll('#replies li')].map(it => {parts})")
        assert len(rows) == 37
        assert rows[30][1:4] == ["31", "EINVAL 10", "atomic 0x0 3 plane2.CRTC_ID=crtc1"], rows[30]
        assert rows[30][4].startswith("10 FRAMEBUFFER_XOR_CRTC: a plane has a framebuffer without a CRTC"), rows[30]

    def test_frames(self):
        """frames are shown as the pictures that are kept"""
        pixel = """(() => {
            const figure = document.querySelector('figure[data-commit="2"] canvas');
            const copy = new OffscreenCanvas(figure.width, figure.height);
            copy.getContext('2d').drawImage(figure, 0, 0);
            return [figure.width, figure.height, [...copy.getContext('2d').getImageData(0, 0, figure.width, figure.height).data]];
        })()"""
        width, height, data = self.page.value(pixel)
        rows = answers.frame_rows("two_screens", 0, 2)
        shown = bytes(byte for at, byte in enumerate(data) if at % 4 < 3)
        assert (len(rows[0]) // 3, len(rows)) == (width, height) and shown == b"".join(rows)

    def test_step(self):
        """a click on the timeline tells the step's line and what it changed, and keys go on from there"""
        self.run((TOP / "examples/meeting.kms").read_text())
        self.page.value("document.querySelector('#rows').scrollIntoView()")
        self.page.wait("document.querySelector('.steps svg') !== null")
        place = "document.querySelector('circle[data-command=\"1.6\"]').getBoundingClientRect().toJSON()"
        mark = self.page.value(place)
        self.page.click(mark["x"] + mark["width"] / 2, mark["y"] + mark["height"] / 2)
        self.page.wait("explained.textContent.includes('plane0.alpha: 65535 → 32768')")
        assert "line 14: " in self.text("explained")
        number = self.page.value("Number(step.value)")
        self.page.key("ArrowRight", "ArrowRight", 39)
        self.page.wait(f"Number(step.value) === {number + 1}")
        assert self.page.value("document.querySelector('#replies .chosen') !== null")

    def test_keys(self):
        """arrows go from reply to reply, and Ctrl and Enter run the script"""
        self.page.value("replies.focus()")
        line = "Number(document.querySelector('#replies .chosen').dataset.line)"
        began = self.page.value(line)
        self.page.key("ArrowUp", "ArrowUp", 38)
        self.page.wait(f"{line} === {began - 1}")
        self.page.key("ArrowDown", "ArrowDown", 40)
        self.page.wait(f"{line} === {began}")
        self.page.value("{ script.focus(); delete document.body.dataset.ended; }")
        self.page.key("Enter", "Enter", 13, CONTROL)
        self.ended()

    def link(self):
        """The fragment with the link that the button makes. The link comes later than the click, so the one before is taken away."""
        self.page.value("{ history.replaceState(null, '', location.pathname); link.click(); }")
        self.page.wait("location.hash.startsWith('#script=')")
        return self.page.value("location.hash")

    def test_link(self):
        """a link holds its script"""
        script = (TOP / "examples/first_light.kms").read_text()
        self.page.value(f"script.value = {json.dumps(script)}")
        self.open(self.link())
        assert self.page.value("script.value") == script
        assert "ba7816bf" in self.text("report")

    def test_broken_link(self):
        """a broken link is told"""
        self.page.go("about:blank")
        self.page.go(self.address + "#script=AAAA")
        self.page.wait(IS_BAD)
        assert "link" in self.text("status")

    def test_fault(self):
        """a bad script's line is told"""
        assert self.run("kms 1\nbad\n") == "status 4"
        assert self.text("status").startswith("Line 2: not the form"), self.text("status")
        assert "not the form" in self.page.value("document.querySelector('#replies li:nth-child(2)').textContent")
        assert self.page.value("script.value.slice(script.selectionStart, script.selectionEnd)") == "bad"

    def test_unreadable(self):
        """a script that the page cannot read is run, and nothing is shown of the one before"""
        for line in ("plane primary 0", "conn", "__proto__ 1"):
            assert self.run((TOP / "examples/first_light.kms").read_text()) == "status 0"
            assert self.run(f"kms 1\n{line}\nconn 0\nclient\n") == "status 4", line
            assert self.text("status").startswith("Line 2: not the form"), (line, self.text("status"))
            assert self.text("report") == "" and self.page.value("written.hidden && shown.hidden"), line
            lines = self.page.value("[...document.querySelectorAll('#replies li code')].map(it => it.textContent)")
            assert lines == ["kms 1", line, "conn 0", "client"], lines

    def drop(self, *files):
        """Drops files with these bytes; how their run ended."""
        self.page.value(DROP % json.dumps([base64.b64encode(it).decode() for it in files]))
        return self.ended()

    def test_file(self):
        """a file that is dropped is run"""
        script = (TOP / "examples/scaling.kms").read_bytes()
        assert self.drop(script) == "status 0" and self.page.value("kept.hidden")
        assert self.page.value(f"script.value === {json.dumps(script.decode())}") and "D drained" in self.text("report")

    def test_odd_file(self):
        """a file with bytes that the editor does not hold is run byte for byte, until the text is changed"""
        script = (TOP / "examples/first_light.kms").read_bytes()
        odd = [script.replace(b"\n", b"\r\n"), script.replace(b"\n", b"\r"), b"\xef\xbb\xbf" + script, b"\xff" + script]
        for bytes_ in odd:
            assert self.drop(bytes_) == "status 4" and not self.page.value("kept.hidden"), bytes_[:10]
            said = self.text("status")
            assert self.is_stand_in or said.startswith("Line 1: a byte"), (bytes_[:10], said)
            self.open(self.link())
            assert self.page.value("document.body.dataset.ended") == "status 4" and not self.page.value("kept.hidden"), bytes_[:10]
            self.page.value("{ script.value += '\\n'; script.dispatchEvent(new Event('input')); }")
            assert self.page.value("kept.hidden"), bytes_[:10]
            assert self.run(script.decode()) == "status 0" and "ba7816bf" in self.text("report")

    def test_own_audit(self):
        """the report of a run is audited by a click and by a key, and stays as it is"""
        script, report = (TOP / f"examples/meeting.{it}" for it in ("kms", "report"))
        assert self.run(script.read_text()) == "status 0" and not self.page.value("audit.hidden")
        for ask in (lambda: self.page.value("audit.click()"), lambda: self.page.key("Enter", "Enter", 13, CONTROL | SHIFT)):
            self.page.value("delete document.body.dataset.ended")
            ask()
            assert self.ended() == "status 0" and self.text("status").startswith("Audit: yes"), self.text("status")
            assert self.text("report") == report.read_text() and self.page.value("!shown.hidden && script.value") == script.read_text()
        cut = "document.getElementById('report').textContent = 'J 1 1\\n'"
        self.page.value(f"{{ {cut}; delete document.body.dataset.ended; audit.click(); }}")
        assert self.ended() == "status 9" and self.text("status").startswith("Line 2 of the report"), self.text("status")
        assert self.run((TOP / "examples/sleep.kms").read_text(), "suspend") == "status 0" and self.page.value("audit.hidden")

    def test_audit(self):
        """a report that is dropped or pasted is audited behind its script, and its first wrong line is told in words"""
        script, report = ((TOP / f"examples/first_light.{it}").read_bytes() for it in ("kms", "report"))
        both = (script + b"report\n" + report).decode()
        for files in ([script, report], [report], [both.encode()], [report, script]):
            assert self.drop(*files) == "status 0" and self.text("status").startswith("Audit: yes"), self.text("status")
            assert self.page.value("script.value") == both and self.page.value("word.value") == "audit"
        wrong = {
            report.replace(b"commit 0", b"EINVAL 10"): (8, "client 1's command 4 (atomic 0x400, line 9 of the script)", "10 FRAMEBUFFER"),
            report.replace(b"ba7816bf", b"ba7816be"): (9, "CRTC 0 latched commit 0, whose frame has the SHA-256 ba7816be"),
            report.removesuffix(b"D drained\n"): (10, "ends too early"),
            report.replace(b"D drained", b"constructor it"): (10, "No report has such a line"),
        }  # fmt: skip
        for changed, (line, *words) in wrong.items():
            assert self.drop(changed) == "status 9", changed
            assert self.text("status") == f"Line {line} of the report is the first that is not right.", self.text("status")
            item = f"#replies [data-line='{10 + line}'], #replies ol:last-child .refused"
            shown = self.page.value(f"document.querySelector({json.dumps(item)}).textContent")
            assert all(it in shown for it in words), (shown, words)
        self.page.value(f"{{ script.value = {json.dumps(both)}; word.value = 'one'; script.dispatchEvent(new Event('input')); }}")
        assert self.run(both, self.page.value("word.value")) == "status 0" and self.text("status").startswith("Audit: yes")
        assert self.run(script.decode(), "audit") == "status 4" and "no report" in self.text("status"), self.text("status")

    def test_estimate(self):
        """how far the phases of a long script are is estimated, unless its first part has a fault; never are they done too early"""
        guessed = self.guesses(large(self.is_stand_in), "status 0")
        took = self.page.value("document.querySelector('[data-phase=\"replies\"] .time').textContent")
        # (The report may be there before the page has shown the replies.)
        assert float(took.removesuffix(" s")) < FEW_TICKS or "replies" in guessed, guessed
        for phase, shares in guessed.items():
            assert shares == sorted(shares), (phase, shares)
        print("        (" + ", ".join(f"{phase}: {shares[0]} to {shares[-1]} %" for phase, shares in guessed.items()) + ")")
        part = "document.querySelector('[data-phase=\"part\"]') !== null"
        assert self.guesses("kms 1\nbad\n" * 8000, "status 4") == {} and self.page.value(part)
        assert self.guesses((TOP / "examples/two_screens.kms").read_text(), "status 0") == {} and not self.page.value(part)

    def guesses(self, script, wanted):
        """By phase, the per cent that were guessed while the script was run."""
        found = {}
        self.page.value(WATCH)
        ended = self.run(script)
        assert ended == wanted, ended
        for phase, note in self.page.value("notes"):
            said = NOTE.fullmatch(note)
            assert said, note
            if said[1]:
                found.setdefault(phase, []).append(int(said[1]))
        assert "about" not in self.text("phases") and "estimated" not in self.text("phases"), self.text("phases")
        return found

    def test_legacy(self):
        """older calls are translated into the editor"""
        script = (TOP / "examples/older_calls.kms").read_text()
        assert self.run(script, "legacy") == "status 0"
        assert self.page.value("script.value") == (TOP / "examples/older_calls.atomic.kms").read_text()
        assert self.page.value("word.value") == "one" and self.text("status").startswith("Translated")

    def test_large_script(self):
        """a script of 1 MiB, with as many replies as it has commands"""
        script = large(self.is_stand_in)
        began = time.monotonic()
        assert self.run(script) == "status 0"
        replies = self.page.value("document.getElementById('report').textContent.match(/^R /gm).length")
        assert replies == len(re.findall("^(?:blob|destroy) ", script, re.M)), replies
        self.page.value("{ step.value = 60000; step.dispatchEvent(new Event('input')); }")
        line = self.page.value("document.querySelector('#replies .chosen').dataset.line")
        assert f"line {line}: " in self.text("explained"), self.text("explained")
        print(f"        ({time.monotonic() - began:.1f} s)")

    def test_large_frame(self):
        """a frame of 4096x4096"""
        began = time.monotonic()
        assert self.run(wide(self.is_stand_in)) == "status 0"
        assert self.page.value("(() => { const it = document.querySelector('canvas'); return [it.width, it.height]; })()") == [4096, 4096]
        pixel = """(() => {
            const it = new OffscreenCanvas(1, 1).getContext('2d');
            it.drawImage(document.querySelector('canvas'), -7, -4000);
            return [...it.getImageData(0, 0, 1, 1).data];
        })()"""
        wanted = [4000 & 255, 4000 >> 8, 200, 255] if self.is_stand_in else [7, 4000 & 255, (7 + 4000) & 255, 255]
        assert self.page.value(pixel) == wanted, (self.page.value(pixel), wanted)
        print(f"        ({time.monotonic() - began:.1f} s)")

    def test_stop(self):
        """a run that is stopped, and the next one"""
        self.begin(large(self.is_stand_in))
        self.page.wait("document.querySelector('#phases .now') !== null")
        self.page.key("Escape", "Escape", 27)
        self.page.wait("document.body.dataset.ended === 'stopped'")
        assert self.run((TOP / "examples/first_light.kms").read_text()) == "status 0" and "ba7816bf" in self.text("report")

    def test_heap(self):
        """the heap and the memory calls of the module, apart from it"""
        if not self.is_stand_in or toolchain() is None:
            return "only with the stand-in, and with the toolchain's clang"
        make_module(self.folder / "heap.wasm", [HERE / "heap.c", HERE / "mem.c", HERE / "test/wide.c"], HEAP_CALLS, HEAP_MEMORY)
        shutil.copy(HERE / "test/heap.js", self.folder)
        failures = self.page.value("import('./heap.js').then(it => it.failures('heap.wasm'))")
        assert failures == [], failures

    def test_calls(self):
        """the calls of a module, and a page with one that traps, takes all memory, or does not end"""
        if not self.is_stand_in or toolchain() is None:
            return "only with the stand-in, and with the toolchain's clang"
        folder = self.folder / "echo"
        make_echo(folder)
        echo = Tests(self.page, f"{self.address}echo/", folder, False)
        echo.open()
        self.judge(self.page.value("import('./tries.js').then(it => it.answers())"))
        echo.go_wrong()

    def judge(self, told):
        """Whether calls of the library of test/echo.c told what it wrote."""
        none = {"status": 0, "line": 0, "why": 0, "object": 0, "place": 0, "length": 0, "text": ""}
        assert told["words"] == [f"kms of {word}" for word in ("one", "replay", "verdicts", "suspend", "legacy")], told["words"]
        assert told["empty"] == none and told["exact"] == told["short"] == told["after"] == "kms" and told["long"], told
        assert told["fault"] == none | {"status": 4, "line": 2, "why": 3}, told["fault"]
        assert told["illegal"] == none | {"status": 7, "place": 1 << 33}, told["illegal"]
        assert told["closed"] == none | {"status": 10, "object": 203}, told["closed"]
        assert (told["options"], told["memory"], told["guess"]) == (3, 6, "kms"), told
        wanted = [none, none, none | {"status": 9, "line": 5}, none | {"status": 6}]
        assert [{"text": "", **it} for it in told["audits"]] == wanted, told["audits"]
        assert told["deep"] in ("RuntimeError", "RangeError") and told["trap"] == "RuntimeError", told

    def go_wrong(self):
        for script in ("d\n", "t\n"):
            assert self.run(script) == "trap", script
            assert "no answer" in self.text("status"), self.text("status")
        assert self.run("m\n") == "status 6" and "memory" in self.text("status"), self.text("status")
        assert self.run("i\n") == "status 7" and "Step 8589934592" in self.text("status"), self.text("status")
        assert self.run("c\n", "suspend") == "status 10" and "203" in self.text("status"), self.text("status")
        self.begin("s\n")
        self.page.wait("document.querySelector('#phases .now') !== null")
        self.page.key("Escape", "Escape", 27)
        self.page.wait("document.body.dataset.ended === 'stopped'")
        assert self.run("kms 1\n") == "status 0" and self.text("report") == "kms 1\n", self.text("report")

    def test_small(self):
        """a module whose stack or memory is too small gives no answer and says so, and never another answer"""
        if self.is_stand_in:
            return "only with the module"
        with urllib.request.urlopen(f"{self.address}kms.wasm") as answer:
            module = answer.read()
        folder = self.folder / "small"
        subprocess.run([HERE / "build.sh", "--page", folder], check=True, stdout=subprocess.DEVNULL)
        page = Tests(self.page, serve(folder), folder, False)
        stacks = [page.ends_with(small.with_stack(module, size)) for size in STACKS]
        assert stacks == [["trap"] * 2] * len(STACKS), stacks
        memories = [page.ends_with(small.with_memory(module, pages)) for pages in PAGES]
        assert memories == [["status 6"] * 2, ["status 0", "status 6"]], memories

    def ends_with(self, module):
        """How a short script and one with a large frame end by a module; where there is an answer, it is the right one."""
        (self.folder / "kms.wasm").write_bytes(module)
        self.open()
        short, ended = TOP / "examples/first_light.kms", []
        for script, right in ((short.read_text(), short.with_suffix(".report").read_text()), (wide(False), wide_digest())):
            how, shown = self.run(script), self.text("report")
            assert how in ("trap", "status 6", "status 0") and (right in shown or (how != "status 0" and shown == "")), (how, shown)
            assert how == "status 0" or "no answer" in self.text("status"), self.text("status")
            ended.append(how)
        return ended

    def all(self, only):
        """Runs the tests whose names have a word; how many failed."""
        bad = 0
        for name in [name for name in type(self).__dict__ if name.startswith("test_") and only in name]:
            test = getattr(self, name)
            try:
                skipped = test()
                print(f"skipped ({skipped})" if skipped else "ok     ", test.__doc__)
            except (AssertionError, TimeoutError, RuntimeError) as error:
                bad += 1
                line = error.__traceback__.tb_next.tb_lineno
                print("FAILED ", test.__doc__, "-", f"line {line}: {type(error).__name__}: {error}"[:500])
        for said in self.page.said:
            bad += 1
            print("FAILED  the browser complains:", said)
        return bad


def take_pictures(tests, folder):
    """Pictures of the page, wide and narrow, light and dark."""
    folder.mkdir(parents=True, exist_ok=True)
    tests.open()
    for scheme in ("light", "dark"):
        tests.page.scheme(scheme)
        for width, height in (WIDE, NARROW):
            tests.page.size(width, height)
            for name in ("two_screens", "meeting"):
                tests.run((TOP / f"examples/{name}.kms").read_text())
                step = "step.value = 62; step.dispatchEvent(new Event('input'))"
                tests.page.value(f"{{ example.value = '{name}.kms'; {step}; scrollTo(0, 0); }}")
                tests.page.value("new Promise(done => setTimeout(done, 300))")
                tests.page.picture(folder / f"{name}_{scheme}_{width}.png")


def main():
    words = argparse.ArgumentParser(usage=__doc__)
    words.add_argument("--pictures", type=pathlib.Path)
    words.add_argument("--only", help="the word that the names of the tests have")
    words.add_argument("page", nargs="?", type=pathlib.Path)
    asked = words.parse_args()
    program = browser.found()
    if program is None:
        print("web/test.py: skipped, there is no Chromium here")
        return 0
    with tempfile.TemporaryDirectory() as folder, browser.Browser(program) as page:
        if asked.page is None:
            make_stand_in(pathlib.Path(folder))
        elif not page.value(WIDE_MEMORY):
            print("web/test.py: skipped, this Chromium has no WebAssembly memory of 64-bit addresses")
            return 0
        tests = Tests(page, serve(asked.page or folder), pathlib.Path(folder), asked.page is None)
        page.size(*WIDE)
        tests.open()
        bad = tests.all(asked.only or "")
        if asked.pictures:
            take_pictures(tests, asked.pictures)
    print(f"{bad} failed" + (", with the stand-in: the module was not tried" if asked.page is None else ""))
    return 1 if bad else 0


if __name__ == "__main__":
    sys.exit(main())
