#!/usr/bin/env python3
"""Times what requests cost beside few and beside many things.

usage: bench/things.py PROGRAM [RUNS]

PROGRAM is the built program `kms`. The first client of each script makes so many framebuffers; a second client tests 4000
requests, and a third commits 4000. Printed are, for each number of framebuffers, the shortest of RUNS runs (7 unless told)
without the requests and with them, and their difference: it stays where a request costs no more beside many things.
"""
import subprocess
import sys
import time

HEAD = "kms 1\ncrtcs 1\nplane primary 0 XR24\nconn 0\nclient\nbuffer b 1 1 XR24 solid 00616263\n"
TEST = "atomic 0x100 0 plane0.alpha=1 crtc0.ACTIVE=0\n"
COMMIT = "atomic 0x0 0 plane0.alpha=65535\n"
THINGS = [40, 400, 4000]
REQUESTS = 4000


def script(things, requests):
    """A script of so many framebuffers and, of two clients, so many requests each."""
    made = "".join(f"addfb f{number} b\n" for number in range(things))
    return (HEAD + made + "client\n" + TEST * requests + "client\n" + COMMIT * requests).encode()


def least(program, text, runs):
    """The shortest of some runs of the program on a script, in milliseconds."""
    times = []
    for _ in range(runs):
        start = time.perf_counter()
        done = subprocess.run([program, "one"], input=text, stdout=subprocess.PIPE)
        times.append((time.perf_counter() - start) * 1000)
        if done.returncode != 0 or not done.stdout.endswith(b"D drained\n"):
            sys.exit(f"the program ended with {done.returncode} and did not drain")
    return min(times)


def main():
    if len(sys.argv) not in (2, 3):
        sys.exit(__doc__)
    program, runs = sys.argv[1], int(sys.argv[2]) if len(sys.argv) == 3 else 7
    print(f"{'things':>8} {'alone ms':>9} {'with ms':>9} {'requests ms':>12}")
    for things in THINGS:
        alone = least(program, script(things, 0), runs)
        both = least(program, script(things, REQUESTS), runs)
        print(f"{things:>8} {alone:>9.2f} {both:>9.2f} {both - alone:>12.2f}")


if __name__ == "__main__":
    main()
