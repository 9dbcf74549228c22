#!/usr/bin/env python3
"""Runs a built program at each limit that docs/DEVICE.md names, and one past it.

usage: checks/limits.py PROGRAM

The numbers are read from the page: what is accepted is the limit itself, and what is refused is one more.
"""
import pathlib
import re
import subprocess
import sys

PAGE = pathlib.Path(__file__).resolve().parent.parent / "docs" / "DEVICE.md"
HEAD = "kms 1\ncrtcs 1\nplane primary 0 XR24\nconn 0\n"
LIT = (
    "buffer b 1 1 XR24 ramp\naddfb f b\nmode m 1 1 1 1 1 0 1 1 1 1 0 60 0 0 tiny\n"
    "atomic 0x400 0 crtc0.ACTIVE=1 crtc0.MODE_ID=@m conn0.CRTC_ID=crtc0 plane0.FB_ID=@f plane0.CRTC_ID=crtc0 "
    "plane0.CRTC_W=1 plane0.CRTC_H=1 plane0.SRC_W=65536 plane0.SRC_H=65536\n"
)


def limits():
    """The number of each row of the table of limits, by the row's words."""
    rows = PAGE.read_text().split("## Limits")[1]
    return {what: int(number.replace(",", "")) for what, number in re.findall(r"^\| (.*?) \| (?:1 to )?([\d,]+)", rows, re.M)}


def run(program, text, word="one"):
    """Everything that the program writes."""
    done = subprocess.run([program, word], input=text.encode(), stdout=subprocess.PIPE, stderr=subprocess.STDOUT)
    return done.stdout.decode()


def request(count):
    """A request of so many assignments."""
    return HEAD + "client\natomic 0x0 0" + " plane0.zpos=1" * count + "\n"


def buffer(side):
    """A buffer that is so many pixels wide."""
    return HEAD + f"client\nbuffer b {side} 1 XR24 ramp\n"


def mode(side):
    """A test with a mode that is so many pixels wide."""
    numbers = f"1 {side} {side} {side} {side} 0 1 1 1 1 0 60 0 0 wide"
    return HEAD + f"client\nmode m {numbers}\natomic 0x500 0 crtc0.MODE_ID=@m conn0.CRTC_ID=crtc0\n"


def one_blob(size):
    """A blob of so many bytes."""
    return HEAD + f"client\nblob b {'00' * size}\n"


def steps(size):
    """An input of so many bytes, with a line that is no step."""
    return HEAD + "schedule\n" + "x" * (size - len(HEAD) - len("schedule\n") - 1) + "\n"


def labels(count):
    """So many labels that clients make, at most 4000 each."""
    return HEAD + "".join(("client\n" if i % 4000 == 0 else "") + f"fence a{i}\n" for i in range(count))


def script_of(size):
    """A script of so many bytes: blobs of 2000 bytes, and two of what is left."""
    lines = [HEAD + "client\n"]
    left = size - len(lines[0])
    while left > 6000:
        lines.append(f"blob b{len(lines):04} {'00' * 2000}\n")
        left -= len(lines[-1])
    last = "y" if left % 2 == 0 else "yy"
    digits = (left - len(f"blob x \nblob {last} \n")) // 2
    text = "".join(lines) + f"blob x {'00' * (digits // 2)}\nblob {last} {'00' * (digits - digits // 2)}\n"
    assert len(text) == size
    return text


def events(count):
    """A client that asks for so many events and reads none."""
    return HEAD + "client\n" + LIT + "atomic 0x1 0 plane0.CRTC_X=0\n" * count


def buffers(size):
    """Buffers of so many bytes together, with four bytes for a pixel."""
    full, rest = divmod(size // 4, 4096)
    lines = [f"buffer b{i} 4096 {min(4096, full - i)} XR24 ramp\n" for i in range(0, full, 4096)]
    return HEAD + "client\n" + "".join(lines) + (f"buffer rest {rest} 1 XR24 ramp\n" if rest else "")


def cases(limit):
    """For each row: an input at the limit, one past it, and what is said of the second."""
    commands, assigns = limit["commands of a client"], limit["assignments of a request"]
    side, blob = limit["a side of a buffer, or of a mode"], limit["a blob"]
    made, whole = limit["labels that a script makes"], limit["an input, with its schedule"]
    used = limit["a client's events, reserved or unread"] // 32
    bytes_of_script, all_buffers = limit["a script"], limit["all buffers together"]
    return {
        "commands": (HEAD + "client\n" + "wait\n" * commands, HEAD + "client\n" + "wait\n" * (commands + 1), "limit"),
        "assignments": (request(assigns), request(assigns + 1), "limit"),
        "labels": (labels(made), labels(made + 1), "limit"),
        "bytes of a script": (script_of(bytes_of_script), script_of(bytes_of_script + 1), "limit"),
        "bytes of an input": (steps(whole), steps(whole + 1), "line 0: limit"),
        "side of a buffer": (buffer(side), buffer(side + 1), "EINVAL 31"),
        "side of a mode": (mode(side), mode(side + 1), "EINVAL 7"),
        "all buffers": (buffers(all_buffers), buffers(all_buffers + 4), "ENOSPC 32"),
        "a blob": (one_blob(blob), one_blob(blob + 1), "form"),
        "events": (events(used), events(used + 1), "ENOMEM events 25"),
    }


def main():
    if len(sys.argv) != 2:
        sys.exit(__doc__)
    failed = False
    for name, (good, bad, said) in cases(limits()).items():
        word = "replay" if name == "bytes of an input" else "one"
        fits = said not in run(sys.argv[1], good, word)
        refused = said in run(sys.argv[1], bad, word)
        print(f"{name}: {'as docs/DEVICE.md' if fits and refused else 'not as docs/DEVICE.md'}")
        failed = failed or not (fits and refused)
    sys.exit(failed)


main()
