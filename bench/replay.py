#!/usr/bin/env python3
"""Times scripts of clients that flip, and the replay of their steps.

usage: bench/replay.py PROGRAM [RUNS]

PROGRAM is the built program `kms`. Two clients flip the planes of a CRTC each, 64x64 pixels, and wait for the event of each
flip. Printed are, for 1000, 2000 and 4000 flips, the shortest of RUNS runs (5 unless told) of `one`; then that of `replay`
for schedules of about 25,000, 50,000 and 100,000 steps, made of the steps that `one --trace` told of 1900, 3800 and 4000
flips, the last with vblanks behind them. Both grow as the steps do, and 100,000 steps are replayed in less than a
second.
"""
import subprocess
import sys
import time

HEAD = "kms 1\ncrtcs 2\nplane primary 0 XR24\nplane primary 1 XR24\nconn 0\nconn 1\n"
MODE = "1000 64 64 64 64 0 64 64 64 64 0 60 0 0 bench"
PLACE = "CRTC_W=64 {p}.CRTC_H=64 {p}.SRC_W=4194304 {p}.SRC_H=4194304"


def client(crtc, flips):
    """The commands of the client that drives a CRTC, with so many flips."""
    plane = f"plane{crtc}"
    made = (
        f"client\nbuffer b{crtc} 64 64 XR24 ramp\naddfb f{crtc} b{crtc}\nmode m{crtc} {MODE}\n"
        f"atomic 0x400 0 crtc{crtc}.ACTIVE=1 crtc{crtc}.MODE_ID=@m{crtc} conn{crtc}.CRTC_ID=crtc{crtc} "
        f"{plane}.FB_ID=@f{crtc} {plane}.CRTC_ID=crtc{crtc} {plane}.{PLACE.format(p=plane)}\n"
    )
    return made + "".join(f"atomic 0x1 {flip} {plane}.CRTC_X={flip % 64}\nwait\n" for flip in range(flips))


def script(flips):
    """The script of so many flips, half of them of each client."""
    return HEAD + client(0, flips // 2) + client(1, flips // 2)


def run(program, words, text):
    """What the program writes to words and a text, and the milliseconds that it takes."""
    start = time.perf_counter()
    done = subprocess.run([program, *words], input=text.encode(), stdout=subprocess.PIPE)
    taken = (time.perf_counter() - start) * 1000
    if done.returncode != 0:
        sys.exit(f"the program ended with {done.returncode}")
    return done.stdout.decode(), taken


def least(program, word, text, runs):
    """The shortest of some runs."""
    return min(run(program, [word], text)[1] for _ in range(runs))


def schedule(program, flips, blankings):
    """The script of so many flips with its own steps as a schedule, and vblanks behind them; how many steps."""
    report, _ = run(program, ["one", "--trace"], script(flips))
    steps = [line for line in report.splitlines() if line.startswith("T ")] + ["T vblank crtc0"] * blankings
    return script(flips) + "schedule\n" + "\n".join(steps) + "\n", len(steps)


def main():
    if len(sys.argv) not in (2, 3):
        sys.exit(__doc__)
    program, runs = sys.argv[1], int(sys.argv[2]) if len(sys.argv) == 3 else 5
    for flips in (1000, 2000, 4000):
        print(f"one, {flips} flips: {least(program, 'one', script(flips), runs):.1f} ms")
    for flips, blankings in ((1900, 0), (3800, 0), (4000, 48000)):
        text, steps = schedule(program, flips, blankings)
        print(f"replay, {steps} steps: {least(program, 'replay', text, runs):.1f} ms")


if __name__ == "__main__":
    main()
