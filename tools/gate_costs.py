#!/usr/bin/env python3
"""What the gate costs, by crate, in processor seconds.

usage: tools/gate_costs.py run FOLDER               runs `rt ci` in this repository: FOLDER/log has what it says, each line
                                                    with its second, and FOLDER/checks what each check took
       tools/gate_costs.py table FOLDER [EARLIER]   the table by crate, beside that of an earlier folder, and what is above its bound

A check is looked at once a second, so each figure is up to a second too low. What the compiler behind the proofs takes is one sum.
"""
import collections
import os
import pathlib
import re
import subprocess
import sys
import threading
import time

TICKS = os.sysconf("SC_CLK_TCK")
KINDS = ("library", "tests", "beginning", "edits")
# In processor seconds: a crate's library, one crate's where another bound holds, and an edit.
LIBRARY_MOST, LIBRARIES_MOST, EDIT_MOST = 240, {"kms_model": 360}, 40


def words_of(process):
    return pathlib.Path(f"/proc/{process}/cmdline").read_text(errors="replace").split("\0")[:-1]


def state_of(process):
    """The process above this one, and the seconds that this one and its ended children took."""
    fields = pathlib.Path(f"/proc/{process}/stat").read_text().rsplit(")", 1)[1].split()
    return int(fields[1]), sum(map(int, fields[11:15])) / TICKS


def is_below(process, root):
    """Whether a process was begun by another, or by one that it began."""
    while process > 1:
        if process == root:
            return True
        process = state_of(process)[0]
    return False


def kind_of(words, folder):
    """What a check is for: the kind, and of an edit its number among those of its crate."""
    if "--test" in words:
        return "tests", ""
    kept = words[words.index("--incremental") + 1] if "--incremental" in words else ""
    if kept.endswith("/seed"):
        return "beginning", ""
    if re.search(r"/rt-edit-[^/]*$", folder):
        return "edits", os.path.basename(kept)
    return "library", ""


def looked_at(seen, gate):
    """Notes what each check of a gate that runs now has taken so far."""
    for process in filter(str.isdigit, os.listdir("/proc")):
        try:
            words = words_of(process)
            name = os.path.basename(words[0]) if words else ""
            if name in ("clang", "ld.lld", "rattle-link", "rattle") and not is_below(int(process), gate):
                continue
            if name in ("clang", "ld.lld", "rattle-link"):
                seen[process] = "compiler", "", "", state_of(process)[1]
            elif name == "rattle" and "--crate-name" in words:
                above, seconds = state_of(process)
                # (a check makes copies of itself, whose seconds are its own once they have ended)
                if os.path.basename(words_of(above)[0]) != "rattle":
                    crate = words[words.index("--crate-name") + 1]
                    seen[process] = crate, *kind_of(words, os.readlink(f"/proc/{process}/cwd")), seconds
        except (OSError, IndexError, ValueError):
            # (it has ended meanwhile)
            pass


def run(folder):
    folder.mkdir(parents=True)
    begun, seen, done, ended = time.time(), {}, [], threading.Event()

    def look(gate):
        while not ended.wait(1):
            now = {}
            looked_at(now, gate)
            done.extend(it for process, it in seen.items() if process not in now)
            seen.clear()
            seen.update(now)

    with open(folder / "log", "w") as log, subprocess.Popen(["rt", "ci"], stdout=subprocess.PIPE, stderr=subprocess.STDOUT, text=True) as gate:
        watcher = threading.Thread(target=look, args=[gate.pid])
        watcher.start()
        for line in gate.stdout:
            print(f"{time.time() - begun:.0f} {line}", end="", file=log, flush=True)
    ended.set()
    watcher.join()
    with open(folder / "checks", "w") as checks:
        for crate, kind, number, seconds in sorted([*done, *seen.values()]):
            print(crate, kind or "-", number or "-", f"{seconds:.1f}", file=checks)
    return gate.returncode


def costs(folder):
    """The seconds by crate and kind, and those of each edit."""
    sums, edits = collections.defaultdict(lambda: collections.defaultdict(float)), collections.defaultdict(float)
    for line in (folder / "checks").read_text().splitlines():
        crate, kind, number, seconds = line.split()
        sums[crate][kind] += float(seconds)
        if kind == "edits":
            edits[crate, number] += float(seconds)
    return sums, edits


def edit_name(crate, number):
    edits = sorted(pathlib.Path(f"crates/{crate}/must-fail").glob("*.edit"))
    return f"{crate}/{edits[int(number)].stem}" if number.isdigit() and int(number) < len(edits) else f"{crate} (from nothing)"


def table(folder, earlier):
    sums, edits = costs(folder)
    before = costs(earlier)[0] if earlier else {}
    print("| crate |", " | ".join(KINDS), "| all |", "before |" if earlier else "")
    print("|---" * (len(KINDS) + 2 + bool(earlier)) + "|")
    for crate in sorted(set(sums) - {"compiler"}, key=lambda it: -sum(sums[it].values())):
        row = [f"{sums[crate][kind]:.0f}" for kind in KINDS] + [f"{sum(sums[crate].values()):.0f}"]
        row += [f"{sum(before[crate].values()):.0f}" if crate in before else "none"] * bool(earlier)
        print("|", " | ".join([f"`{crate}`", *row]), "|")
    whole = [sum(it[kind] for it in sums.values()) / 60 for kind in KINDS] + [sum(map(sum, (it.values() for it in sums.values()))) / 60]
    print("| all, in minutes |", " | ".join(f"{it:.0f}" for it in whole), "|")
    last = (folder / "log").read_text().splitlines()[-1].split(" ", 1)
    print(f"\nThe compiler took {sum(sums['compiler'].values()) / 60:.0f} of these minutes. The run took {int(last[0]) / 60:.0f} minutes; its last line: {last[1]}")
    above = [f"the library of {it}" for it in sorted(sums) if sums[it]["library"] > LIBRARIES_MOST.get(it, LIBRARY_MOST)]
    above += [edit_name(*it) for it in sorted(edits) if edits[it] > EDIT_MOST]
    print("Above its bound:", ", ".join(above) or "nothing")


def main():
    words = sys.argv[1:]
    words[1:] = map(os.path.abspath, words[1:])
    os.chdir(pathlib.Path(__file__).resolve().parent.parent)
    if len(words) == 2 and words[0] == "run":
        sys.exit(run(pathlib.Path(words[1])))
    if len(words) in (2, 3) and words[0] == "table":
        return table(pathlib.Path(words[1]), pathlib.Path(words[2]) if len(words) == 3 else None)
    sys.exit(__doc__)


main()
