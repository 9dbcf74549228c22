#!/usr/bin/env python3
"""Times how long the program takes to read scripts and schedules, and how much memory it takes.

usage: bench/reading.py PROGRAM [RUNS]

PROGRAM is the built program `kms`. Each input has a fault, so that the program reads it, tells its first fault and executes
nothing. Printed are, for each input, its bytes, its lines, the labels that are made, the shortest of RUNS runs (5 unless
told), the time for each KiB, the greatest memory that a run took, and that memory over the input's size.

First come scripts of 64 KiB, 256 KiB and 1 MiB with up to 4096 labels and as many names as fit; the last line is of no form.
Linear growth shows as equal times for each KiB.

Then come scripts of 1 MiB whose names are the worst that an ordered map of them can meet: all of 32 bytes, of which the first
27 are equal, so that each comparison goes over nearly all of them; and the shortest ones, as many as there can be. They come
rising, falling, and from both ends to the middle.

Then come inputs with one line that is far too long, of 8 MiB and of the most bytes that an input may have: with labels that
are made, all different or the last one twice; with names that are said; with a last word that is no assignment; with blanks
alone; with a blob; and with no line feed.

All these are read by `one`. At last come, for `replay`, inputs of the same two sizes whose script has no command: with a
schedule of as many lines as fit, of the shortest step and of vblanks, the last of no form; and with one line of
a schedule that is far too long: with a number, with an object's index, with blanks alone, with a byte of no line at its end,
and with no line feed. And for `legacy` a script of 1 MiB with 4096 commands, half of them older calls, which is
read and translated; the same with a last line of no form; and the two long inputs with a blob and with no line feed.

Nothing may take more than 3 seconds, or more than three times the input's size beside what the program itself takes; the
translation, of which a good part is the text that is written, at most 0.3 seconds.
"""
import os
import subprocess
import sys
import tempfile
import time

HEAD = "kms 1\ncrtcs 1\nplane primary 0 XR24\nconn 0\nclient\n"
SIZES = [65536, 262144, 1048576]
LABELS = 4096
MOST = 64 * 1024 * 1024
LONG_SIZES = [8 * 1024 * 1024, MOST]
LETTERS = "abcdefghijklmnopqrstuvwxyz"
REST = "0123456789_" + LETTERS


def word(number):
    """A label for a number: a letter and letters."""
    letters = ""
    for _ in range(4):
        letters += LETTERS[number % 26]
        number //= 26
    return "l" + letters


def digits(number, count):
    """A number in so many of the bytes that a label may have behind its first, the highest first."""
    text = ""
    for _ in range(count):
        text = REST[number % len(REST)] + text
        number //= len(REST)
    return text


def script(size):
    """A script of at most `size` bytes, its lines, and how many labels it makes."""
    lines, length, made, named, clients = [HEAD], len(HEAD), 0, 0, 1
    commands = 0
    while True:
        line = ""
        if commands == 4096:
            line, commands = "client\n", -1
            clients += 1
        elif made < LABELS and commands % 2 == 0:
            line = f"blob {word(made)} 00ff\n"
            made += 1
        else:
            sets = " ".join(f"plane0.FB_ID=@{word((named + i * 577) % 26**4)}" for i in range(8))
            line = f"atomic 0x0 {named} {sets}\n"
            named += 8
        if length + len(line) > size - 6:
            break
        lines.append(line)
        length += len(line)
        commands += 1
    assert clients <= 16
    lines.append("wrong\n")
    text = "".join(lines)
    assert len(text) <= size
    return text.encode(), text.count("\n"), made


def ordered(names, order):
    """Names rising, falling, or from both ends to the middle."""
    if order == "rising":
        return names
    if order == "falling":
        return names[::-1]
    half = (len(names) + 1) // 2
    return [name for pair in zip(names[:half], names[::-1]) for name in pair]


def named(names):
    """A script of at most 1 MiB that says these names of properties, 256 in a request, as far as they fit."""
    lines, length = [HEAD], len(HEAD)
    for begin in range(0, len(names), 256):
        line = "atomic 0x0 0" + "".join(f" enc0.{name}=0" for name in names[begin:begin + 256]) + "\n"
        if length + len(line) > SIZES[-1] - 6:
            break
        lines.append(line)
        length += len(line)
    lines.append("wrong\n")
    text = "".join(lines)
    return text.encode(), text.count("\n"), 0


def overlong(size, front, words, last):
    """An input of at most `size` bytes whose last line has a front and as many of these words as fit, then a last one."""
    pieces, length = [HEAD, front], len(HEAD) + len(front) + len(last) + 1
    for piece in words:
        if length + len(piece) > size:
            break
        pieces.append(piece)
        length += len(piece)
    return ("".join(pieces) + last + "\n").encode()


def scheduled(size, step):
    """An input of at most `size` bytes, a script without commands and a schedule of one step's line as often as it fits; the last
    line is of no form."""
    front, last = HEAD + "schedule\n", "wrong\n"
    text = front + step * ((size - len(front) - len(last)) // len(step)) + last
    return text.encode(), text.count("\n"), 0


def older(last):
    """A script with older calls of 1 MiB and 4096 commands, the last of which is given."""
    front = HEAD.replace("conn 0", "plane cursor 0 XR24\nconn 0")
    pairs = ((SIZES[-1] - len(front)) // 2048, 2048)
    lines = [front]
    for i in range(pairs[1]):
        call = f"cursor 0 move {i} -{i + 1}\n" if i + 1 < pairs[1] else last
        blob = f"blob {word(i)} "
        lines.append(blob + "00" * ((pairs[0] - len(blob) - len(call) - 1) // 2) + "\n" + call)
    text = "".join(lines)
    return text.encode(), text.count("\n"), pairs[1]


def fault(line, why):
    """What the program says of a fault."""
    return f"kms: line {line}: {why}\n"


def prepared(path, make):
    """Writes an input into a file, and gives its bytes, lines, made labels and fault. A process of its own makes it, since
    the memory of this one would count as that of the programs that it starts."""
    read, write = os.pipe()
    child = os.fork()
    if child == 0:
        text, lines, made, why = make()
        with open(path, "wb") as source:
            source.write(text)
        os.write(write, f"{len(text)} {lines} {made} {why}".encode())
        os._exit(0)
    os.close(write)
    with os.fdopen(read, "rb") as told:
        size, lines, made, why = told.read().decode().split()
    if os.waitpid(child, 0)[1] != 0:
        sys.exit("the input could not be made")
    return int(size), int(lines), int(made), why


def measured(program, word, path, wanted, runs):
    """The shortest of several runs by a word, in seconds, and the greatest memory of one, in bytes. What is wanted on standard
    error is a fault, or nothing."""
    best, memory = None, 0
    for _ in range(runs):
        with open(path, "rb") as stdin, tempfile.TemporaryFile() as told:
            begin = time.perf_counter()
            child = subprocess.Popen([program, word], stdin=stdin, stdout=subprocess.DEVNULL, stderr=told)
            _, status, usage = os.wait4(child.pid, 0)
            taken = time.perf_counter() - begin
            child.returncode = os.waitstatus_to_exitcode(status)
            told.seek(0)
            answer = told.read().decode()
        if child.returncode != (4 if wanted else 0) or answer != wanted:
            sys.exit(f"unexpected answer: {child.returncode} {answer!r}, wanted {wanted!r}")
        best = taken if best is None else min(best, taken)
        memory = max(memory, usage.ru_maxrss * 1024)
    return best, memory


def show(name, program, runs, make, word="one"):
    """Measures one input and prints its row."""
    with tempfile.TemporaryDirectory() as folder:
        path = os.path.join(folder, "input")
        size, lines, made, why = prepared(path, make)
        taken, memory = measured(program, word, path, "" if why == "none" else fault(lines, why), runs)
    print(
        f"{name:<38} {size:>9} {lines:>7} {made:>8} {taken * 1e3:>9.2f} {taken * 1e6 / (size / 1024):>10.2f}"
        f" {memory / 2**20:>8.1f} {memory / size:>7.2f}",
        flush=True,
    )


def scripts(program, runs):
    """Scripts that grow, and the worst names for an ordered map."""
    for size in SIZES:
        show(f"script of {size // 1024} KiB", program, runs, lambda: (*script(size), "form"))
    sorts = {
        "long names": lambda: ["z" * 27 + digits(i, 5) for i in range(24_000)],
        "short names": lambda: ["z" + digits(i, 3) for i in range(50_000)],
    }
    for sort, names in sorts.items():
        for order in ("rising", "falling", "inward"):
            show(f"{sort}, {order}", program, runs, lambda: (*named(ordered(names(), order)), "form"))


def long_lines(program, runs):
    """One line that is far too long."""
    line = HEAD.count("\n") + 1

    def made(size):
        """Labels that are made: multiples of a number that no number of labels divides go over all of them in no order."""
        return (f" enc0.p=+a{digits(i * 40_000_003 % 37**5, 5)}" for i in range(size // 15))

    def said(size):
        return (f" enc0.p=@a{digits(i, 5)}" for i in range(size))

    def blanks(size):
        return (" " for _ in range(size))

    def blob(size):
        return ("00" for _ in range(size // 2))

    for size in LONG_SIZES:
        count = (size - len(HEAD) - len("atomic 0x0 0\n")) // 15
        cases = {
            "labels made": lambda: (overlong(size, "atomic 0x0 0", made(size), ""), line, count, "limit"),
            "labels made, one twice": lambda: (overlong(size, "atomic 0x0 0", made(size), " enc0.p=+a00000"), line, count, "label"),
            "names said": lambda: (overlong(size, "atomic 0x0 0", said(size), ""), line, 0, "limit"),
            "a last word of no form": lambda: (overlong(size, "atomic 0x0 0", made(size), " x"), line, 0, "form"),
            "blanks": lambda: (overlong(size, "atomic 0x0 0", blanks(size), ""), line, 0, "form"),
            "a blob": lambda: (overlong(size, "blob b ", blob(size), ""), line, 0, "form"),
            "no line feed": lambda: (b"a" * size, 1, 0, "cut"),
        }
        for name, make in cases.items():
            show(f"{size // 2**20} MiB, {name}", program, runs, make)


def schedules(program, runs):
    """Schedules of many lines, and one line of a schedule that is far too long."""
    line = HEAD.count("\n") + 2

    def many(step):
        return lambda size: (*scheduled(size, step), "form")

    def long(front, byte, last, why):
        return lambda size: (overlong(size, "schedule\n" + front, (byte for _ in range(size)), last), line, 0, why)

    for size in LONG_SIZES:
        cases = {
            "stalls": many("T stall\n"),
            "blankings": many("T vblank crtc0\n"),
            "a number": long("T make 1", "0", "", "form"),
            "an index": long("T lock 1 crtc1", "0", "", "form"),
            "blanks": long("T make", " ", "", "form"),
            "a byte of no line": long("T make 1", "0", "\x7f", "bytes"),
            "no line feed": lambda size: (f"{HEAD}schedule\n".encode().ljust(size, b"T"), line, 0, "cut"),
        }
        for name, make in cases.items():
            show(f"schedule of {size // 2**20} MiB, {name}", program, runs, lambda: make(size), "replay")


def older_calls(program, runs):
    """Scripts with older calls: one that is translated, and faults."""
    line = HEAD.count("\n") + 1
    show("older calls of 1 MiB, translated", program, runs, lambda: (*older("cursor 0 off\n"), "none"), "legacy")
    show("older calls of 1 MiB", program, runs, lambda: (*older("wrong\n"), "form"), "legacy")
    for size in LONG_SIZES:
        blob = ("00" for _ in range(size // 2))
        show(f"{size // 2**20} MiB, a blob, older calls", program, runs, lambda: (overlong(size, "blob b ", blob, ""), line, 0, "form"), "legacy")
        show(f"{size // 2**20} MiB, no line feed, older calls", program, runs, lambda: (b"a" * size, 1, 0, "cut"), "legacy")


def main():
    if len(sys.argv) not in (2, 3):
        sys.exit(__doc__)
    runs = int(sys.argv[2]) if len(sys.argv) == 3 else 5
    print(f"{'input':<38} {'bytes':>9} {'lines':>7} {'labels':>8} {'ms':>9} {'us per KiB':>10} {'MiB':>8} {'memory':>7}")
    scripts(sys.argv[1], runs)
    long_lines(sys.argv[1], min(runs, 3))
    schedules(sys.argv[1], min(runs, 3))
    older_calls(sys.argv[1], min(runs, 3))


if __name__ == "__main__":
    main()
