#!/usr/bin/env python3
"""Times how long the program takes to audit reports, and how much memory it takes.

usage: bench/auditing.py PROGRAM [RUNS]

PROGRAM is the built program `kms`. First come the reports of generated scripts of 1000, 2000 and 4000 commits, one that `one`
writes and one of `run` by four threads. Printed are, for each, the shortest of RUNS runs (5 unless told) of `one` on the script and
of `audit` on the script with the report, how many times the first the second is, and how much memory both take. An audit may
take at most twice the time of `one`, and that of 4000 commits 4.4 times that of 1000.

Then come inputs of 8 MiB and of the most bytes that an input may have, behind the script of one commit: reports of as many
lines of one letter as fit, each with a last line of no form, and the same where all lines are of a form but none after the first can
be right; J lines that all differ; and one line that is far too long, with a number, with blanks, with a label, and with no line feed.
Printed are the time and the greatest memory that a run took, and that memory over the input's size. Lines that are alike may take at
most 3 seconds, those that differ 10, and nothing more than ten times the input's size in memory.
"""
import os
import subprocess
import sys
import tempfile
import time

SIZES = [8 * 1024 * 1024, 64 * 1024 * 1024]
COMMITS = [1000, 2000, 4000]

SCRIPT = """kms 1
crtcs 1
plane primary 0 XR24
conn 0
client
buffer b 1 1 XR24 solid 00616263
addfb f b
mode m 1 1 1 1 1 0 1 1 1 1 0 60 0 0 tiny
atomic 0x400 0 crtc0.ACTIVE=1 crtc0.MODE_ID=@m conn0.CRTC_ID=crtc0 plane0.FB_ID=@f plane0.CRTC_ID=crtc0 plane0.CRTC_W=1 plane0.CRTC_H=1 plane0.SRC_W=65536 plane0.SRC_H=65536
report
"""
DIGEST = "ba7816bf8f01cfea414140de5dae2223b00361a396177a9cb410ff61f20015ad"
REPORT = f"""J 1 1
J 1 2
J 1 3
J 1 4
R 1 1 0 made 1000
R 1 2 1 made 1001
R 1 3 2 made 1002
R 1 4 3 commit 0
L 0 0 1 {DIGEST}
D drained
"""

# What is wrong, by the first number that an audit gives it, and how each input is made: a front, lines that are said as often as
# they fit (or each by its number from 0), and an end.
LIT = REPORT.removesuffix("D drained\n")
ENDED = REPORT + "T stall\n"
INPUTS = {
    "J lines, the last of no form": ("", "J 1 1\n", "J 1 x\n", None),
    "J lines": ("", "J 1 1\n", "D open 0\n", 2),
    "J lines that differ, in their order": ("", lambda i: f"J {i % 10 + 1} {i + 1}\n", "D open 0\n", 2),
    "J lines that differ, in none": ("", lambda i: f"J {(i + 1) * 2654435761 % 4294967291} {i % 10 + 1}\n", "D open 0\n", 1),
    "R lines, the last of no form": ("", "R 1 1 0 made 1000\n", "R\n", None),
    "R lines": ("J 1 1\n", "R 1 1 0 made 1000\n", "D open 0\n", 3),
    "L lines, the last of no form": ("", f"L 0 0 1 {DIGEST}\n", "L\n", None),
    "L lines": (LIT, f"L 0 0 2 {DIGEST}\n", "D open 0\n", 10),
    "E lines, the last of no form": ("", "E 1 7 2 100\n", "E\n", None),
    "E lines": (LIT, "E 1 7 2 100\n", "D open 0\n", 10),
    "X lines, the last of no form": ("", "X f 1001\n", "X\n", None),
    "X lines": (LIT, "X f 1001\n", "D open 0\n", 10),
    "T lines, the last of no form": (ENDED, "T stall\n", "T\n", None),
    "T lines": (ENDED, "T stall\n", "", 0),
    "T lines of blankings": (ENDED, "T vblank crtc0\n", "", 0),
    "a number": ("J 1 1", "0", "\n", 1),
    "blanks": ("J 1", " ", "\n", 1),
    "a label": ("X f", "f", " 1001\n", 1),
    "a digest": ("L 0 0 1 ", "ba", "\n", 1),
    "no line feed": ("J", "J", "", 1),
}


def run_once(words, from_file, into_file):
    """The time of a run in seconds, its greatest memory in bytes, its status, and what it says on standard error."""
    with open(from_file, "rb") as stdin, open(into_file, "wb") as stdout, tempfile.TemporaryFile() as told:
        begin = time.perf_counter()
        child = subprocess.Popen(words, stdin=stdin, stdout=stdout, stderr=told)
        _, status, usage = os.wait4(child.pid, 0)
        taken = time.perf_counter() - begin
        child.returncode = os.waitstatus_to_exitcode(status)
        told.seek(0)
        return taken, usage.ru_maxrss * 1024, child.returncode, told.read().decode()


def shortest(words, from_file, into_file, runs, wanted):
    """The shortest of several runs, and the greatest memory of one; each ends as is wanted."""
    best, memory = None, 0
    for _ in range(runs):
        taken, used, status, says = run_once(words, from_file, into_file)
        if (status, says) != wanted:
            sys.exit(f"{' '.join(words)}: {status} {says!r}, wanted {wanted!r}")
        best = taken if best is None else min(best, taken)
        memory = max(memory, used)
    return best, memory


def lines_within(line, room):
    """So many bytes of lines at most."""
    if isinstance(line, str):
        return line.encode() * (room // len(line))
    lines, number = bytearray(), 0
    while len(lines) + len(line(number)) <= room:
        lines += line(number).encode()
        number += 1
    return bytes(lines)


def put(path, *parts):
    """Puts files one behind the other; a part that is bytes is itself."""
    with open(path, "wb") as into:
        for part in parts:
            into.write(part if isinstance(part, bytes) else open(part, "rb").read())


def generated(program, runs, folder):
    """Reports of generated scripts."""
    print(f"{'report':<28} {'bytes':>9} {'one, ms':>8} {'audit, ms':>9} {'times':>6} {'one, MiB':>9} {'audit, MiB':>10}")
    script, report, both, said = (os.path.join(folder, name) for name in ("script", "report", "both", "said"))
    first, last = {}, {}
    for commits in COMMITS:
        for word in ("one", "run"):
            shortest([program, "gen", "0", str(commits)], os.devnull, script, 1, (0, ""))
            words = [program, "one"] if word == "one" else [program, "run", "--threads", "4"]
            shortest(words, script, report, 1, (0, ""))
            put(both, script, b"report\n", report)
            one, one_memory = shortest([program, "one"], script, os.devnull, runs, (0, ""))
            audit, memory = shortest([program, "audit"], both, said, runs, (0, ""))
            assert open(said, "rb").read() == b"audit yes\n"
            print(
                f"{f'gen 0 {commits}, by {word}':<28} {os.path.getsize(report):>9} {one * 1e3:>8.1f} {audit * 1e3:>9.1f}"
                f" {audit / one:>6.2f} {one_memory / 2**20:>9.1f} {memory / 2**20:>10.1f}",
                flush=True,
            )
            first.setdefault(word, audit)
            last[word] = audit
    for word in first:
        print(f"4000 commits take {last[word] / first[word]:.2f} times as long as 1000, by {word}")


def long_reports(program, runs, folder):
    """Inputs of many lines, and of one that is far too long."""
    print(f"{'report':<38} {'bytes':>9} {'ms':>8} {'MiB':>7} {'memory':>7}")
    path, said = os.path.join(folder, "input"), os.path.join(folder, "said")
    for size in SIZES:
        for name, (front, line, end, wrong) in INPUTS.items():
            room = size - len(SCRIPT) - len(front) - len(end)
            if wrong is None:
                wrong = front.count("\n") + room // len(line) + 1
            # A process of its own makes it, since the memory of this one would count as that of the program.
            if os.fork() == 0:
                put(path, SCRIPT.encode(), front.encode(), lines_within(line, room), end.encode())
                os._exit(0)
            os.wait()
            wanted = (9, f"kms: audit: line {wrong}\n") if wrong else (0, "")
            taken, memory = shortest([program, "audit"], path, said, runs, wanted)
            size_there = os.path.getsize(path)
            print(
                f"{f'{size // 2**20} MiB, {name}':<38} {size_there:>9} {taken * 1e3:>8.1f} {memory / 2**20:>7.1f}"
                f" {memory / size_there:>7.2f}",
                flush=True,
            )


def main():
    if len(sys.argv) not in (2, 3):
        sys.exit(__doc__)
    runs = int(sys.argv[2]) if len(sys.argv) == 3 else 5
    with tempfile.TemporaryDirectory() as folder:
        generated(sys.argv[1], runs, folder)
        long_reports(sys.argv[1], min(runs, 3), folder)


if __name__ == "__main__":
    main()
