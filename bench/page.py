#!/usr/bin/env python3
"""Times ten frames of 1920x1080 by the module of the page in Chromium, in turn with the program on one processor and on all.

usage: bench/page.py PROGRAM PAGE [RUNS]      PAGE: a folder that web/build.sh made; RUNS: 7 if not told

All write the same report. The page's module has one thread, so it is compared with the program on one processor; the program on all
processors composes and digests by as many threads, and is told besides. Each run of the page has an instance of its own, as the page
itself has; to compile the module is left out. Printed are, for each run, the time by the clock and the processor time in milliseconds,
of the browser that of all its processes; and in the last line the ratios of the medians.
"""
import contextlib
import functools
import http.server
import os
import pathlib
import resource
import statistics
import subprocess
import sys
import threading
import time

TOP = pathlib.Path(__file__).resolve().parent.parent
sys.path.insert(0, str(TOP / "web/test"))
import browser  # noqa: E402

SCRIPT = TOP / "bench/frames/frames.kms"
OPEN = """(async () => {
    const { compile, open } = await import('./module.js'), script = new TextEncoder().encode(%r);
    window.compiled ??= compile();
    const device = await open(compiled);
    window.call = () => new TextDecoder().decode(device.call('one', script, 0, 65536).text);
})()"""
TICKS = os.sysconf("SC_CLK_TCK")


class Quiet(http.server.SimpleHTTPRequestHandler):
    def log_message(self, *_):
        pass


def spent(process):
    """The processor time of a process and of all below it, in milliseconds."""
    found = {}
    for file in pathlib.Path("/proc").glob("[0-9]*/stat"):
        with contextlib.suppress(OSError):
            words = file.read_text().rpartition(")")[2].split()
            found[int(file.parent.name)] = int(words[1]), int(words[11]) + int(words[12])
    below = [process]
    for one in below:
        below += [it for it, (above, _) in found.items() if above == one]
    return sum(found[it][1] for it in below if it in found) * 1000 / TICKS


def by_program(words):
    began, before = time.monotonic(), resource.getrusage(resource.RUSAGE_CHILDREN)
    with SCRIPT.open("rb") as script:
        said = subprocess.run([*words, "one"], stdin=script, capture_output=True, check=True).stdout.decode()
    after = resource.getrusage(resource.RUSAGE_CHILDREN)
    used = after.ru_utime + after.ru_stime - before.ru_utime - before.ru_stime
    return 1000 * (time.monotonic() - began), 1000 * used, said


def by_page(page):
    page.value(OPEN % SCRIPT.read_text())
    began, before = time.monotonic(), spent(page.process.pid)
    said = page.value("call()")
    return 1000 * (time.monotonic() - began), spent(page.process.pid) - before, said


def main():
    if len(sys.argv) not in (3, 4):
        sys.exit(__doc__.split("\n")[2])
    program, folder, runs = sys.argv[1], sys.argv[2], int((sys.argv[3:] or ["7"])[0])
    chromium = browser.found()
    if chromium is None:
        sys.exit("bench/page.py: there is no Chromium here")
    server = http.server.ThreadingHTTPServer(("127.0.0.1", 0), functools.partial(Quiet, directory=folder))
    threading.Thread(target=server.serve_forever, daemon=True).start()
    times = []
    with browser.Browser(chromium) as page:
        page.go(f"http://127.0.0.1:{server.server_port}/")
        page.wait("document.readyState === 'complete' && location.protocol === 'http:'")
        for _ in range(runs):
            *alone, wanted = by_program(["taskset", "-c", "0", program])
            *wide, same = by_program([program])
            *wasm, said = by_page(page)
            assert said == same == wanted
            times.append(alone + wide + wasm)
            print("on one processor {:.0f} ms ({:.0f}), on all {:.0f} ms ({:.0f}), the page {:.0f} ms ({:.0f})".format(*times[-1]))
    alone, used, wide, _, wasm, wasm_used = (statistics.median(it) for it in zip(*times))
    print(
        f"the page takes {wasm / alone:.2f} times the program's time by the clock and {wasm_used / used:.2f} times its processor time, "
        f"by medians of {runs} runs; {wasm / wide:.2f} times by the clock where the program has all {os.cpu_count()} processors"
    )


if __name__ == "__main__":
    main()
