#!/usr/bin/env python3
"""Tells which part of the instructions of `one` commits take to find what was found when their requests were judged.

usage: bench/twice.py PROGRAM

PROGRAM is the built program `kms`, with its symbols; valgrind is needed, whose callgrind counts. Each script has one client, whose
first request lights four CRTCs with 16 planes and four of eight connectors, and whose others are all of one kind. A commit looks up
and resolves what its request asks for, and computes the states after it and what it touches, as was done to choose the step. Printed
are, for each kind, how many commits there were, the instructions of the run in millions, and the parts of these two and of both.
"""
import os
import re
import subprocess
import sys
import tempfile

CRTCS, PLANES, CONNS = range(4), range(16), range(8)
COMMITTER = "kms_core::machine::Core::apply"
RESOLVING = ("::looking::lookups", "::resolving::resolve")
TOUCHING = ("::reaching::changed", "::spanning::spans")


def shown(size):
    """What a request sets that lights all CRTCs with frames of so many places each way."""
    crtcs = [f"crtc{c}.ACTIVE=1 crtc{c}.MODE_ID=@m" for c in CRTCS]
    planes = [
        f"plane{p}.FB_ID=@f plane{p}.CRTC_ID=crtc{p % 4} plane{p}.CRTC_W={size} plane{p}.CRTC_H={size}"
        f" plane{p}.SRC_W={size << 16} plane{p}.SRC_H={size << 16}"
        for p in PLANES
    ]
    return crtcs + routed() + planes


def routed():
    """What a request sets that routes the first four connectors."""
    return [f"conn{c}.CRTC_ID={f'crtc{c}' if c in CRTCS else 0}" for c in CONNS]


def dimmed(planes, alpha):
    """What a request sets that dims so many planes."""
    return [f"plane{p}.alpha={alpha}" for p in range(planes)]


# Each kind: its name, the size of the frames, how many requests there are, and what one of them sets, by its number.
KINDS = [
    ("one plane", 1, 600, lambda n: dimmed(1, n)),
    ("one plane, frames of 64x64", 64, 30, lambda n: dimmed(1, n)),
    ("all objects", 1, 150, lambda n: [f"crtc{c}.ACTIVE=1" for c in CRTCS] + routed() + dimmed(16, n)),
    ("all objects, 128 assignments", 1, 60, lambda n: shown(1) + dimmed(16, n)),
    ("one plane, 256 assignments", 1, 60, lambda n: [f"plane0.alpha={n + k}" for k in range(256)]),
]


def script(size, requests, sets):
    """The script of a kind."""
    lines = ["kms 1", "crtcs 4"] + ["plane overlay 0,1,2,3 XR24" for _ in PLANES] + ["conn 0,1,2,3" for _ in CONNS]
    lines += ["client", f"buffer b {size} {size} XR24 solid 00616263", "addfb f b"]
    lines += [f"mode m 1 {size} {size} {size} {size} 0 {size} {size} {size} {size} 0 60 0 0 tiny"]
    each = [shown(size)] + [sets(number) for number in range(1, requests)]
    return "\n".join(lines + [" ".join(["atomic 0x400 0"] + words) for words in each]) + "\n"


def counted(program, text):
    """Whatever callgrind counts of a run: the instructions of all of it, and of what each function has others do."""
    with tempfile.TemporaryDirectory() as folder:
        out = os.path.join(folder, "counts")
        words = ["valgrind", "--tool=callgrind", f"--callgrind-out-file={out}", program, "one"]
        done = subprocess.run(words, input=text.encode(), stdout=subprocess.PIPE, stderr=subprocess.PIPE)
        if done.returncode != 0 or not done.stdout.endswith(b"D drained\n"):
            sys.exit(f"the program ended with {done.returncode} and did not drain")
        with open(out, encoding="utf-8") as counts:
            return done.stdout.count(b" commit "), *read(counts)


def read(counts):
    """The sum of a file of callgrind's, and its costs by caller and called function."""
    names, costs, total, caller, called, is_call = {}, {}, 0, "", "", False
    for line in counts:
        if named := re.match(r"(c?fn)=\((\d+)\)(?: (.*))?$", line):
            name = names.setdefault(named[2], named[3])
            caller, called = (name, called) if named[1] == "fn" else (caller, name)
        elif line.startswith("calls="):
            is_call = True
        elif line.startswith(("summary:", "totals:")):
            total = int(line.split()[1])
        elif is_call:
            costs[caller, called] = costs.get((caller, called), 0) + int(line.split()[1])
            is_call = False
    return total, costs


def committing(costs, words):
    """What functions whose names have one of these words cost where a commit calls them."""
    return sum(
        cost
        for (caller, called), cost in costs.items()
        if caller == COMMITTER and any(word in called for word in words)
    )


def main():
    if len(sys.argv) != 2:
        sys.exit(__doc__)
    print(f"{'requests':<30} {'commits':>8} {'millions':>9} {'touching':>9} {'resolving':>10} {'both':>7}")
    for name, size, requests, sets in KINDS:
        commits, total, costs = counted(sys.argv[1], script(size, requests, sets))
        if committing(costs, TOUCHING) == 0:
            sys.exit("no commit was found: the program has no symbols, or other ones")
        touching, resolving = (100 * committing(costs, words) / total for words in (TOUCHING, RESOLVING))
        print(f"{name:<30} {commits:>8} {total / 1e6:>9.0f} {touching:>8.1f}% {resolving:>9.1f}% {touching + resolving:>6.1f}%")


if __name__ == "__main__":
    main()
