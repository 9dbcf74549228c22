#!/usr/bin/env python3
"""Writes cases of the program as text, as crates/kms_cases/stdin has them, or shows one again.

    tools/cases_from.py [--prefix TEXT] FILE.words..      writes a case of each
    tools/cases_from.py --show NAME < CASES               writes the input of a case, byte by byte
    tools/cases_from.py --wanted NAME < CASES             writes the output that is wanted of it

Beside a file NAME.words, which has one word a line, stand NAME.in, NAME.out, NAME.err and NAME.status: the input, what the
program writes to standard output and to standard error, and its exit status. One that is absent is empty, or 0.
"""
import pathlib
import re
import sys

ESCAPE = re.compile(rb"\\\\|\\x[0-9a-f]{2}")


def spelled(data):
    """A text that spells bytes, with no line feed behind them."""
    return "".join(
        "\\\\" if byte == 0x5C else chr(byte) if 0x20 <= byte < 0x7F else f"\\x{byte:02x}" for byte in data
    )


def marked(mark, text):
    return f"{mark} {text}\n" if text else f"{mark}\n"


def lines_of(mark, data):
    """Lines that spell bytes; a line that comes more than twice in a row is said as often as it comes."""
    lines = data.split(b"\n")
    rest = lines.pop()
    text, at = "", 0
    while at < len(lines):
        end = at
        while end < len(lines) and lines[end] == lines[at]:
            end += 1
        times = min(end - at, 65536)
        if times < 3:
            times = 1
        text += marked(mark if times == 1 else f"{mark}{times}", spelled(lines[at]))
        at += times
    return text + (marked(mark, spelled(rest) + "\\") if rest else "")


def case_of(name, words, given, wanted, number=0, says="", mark=">"):
    """A case; with the mark `~` only these lines are looked for in the output."""
    text = f"case {name}:" + "".join(" " + spelled(word).replace(" ", "\\x20") for word in words) + "\n"
    if number:
        text += f"status {number} {says}\n"
    return text + lines_of("<", given) + lines_of(mark, wanted)


def read(path):
    return path.read_bytes() if path.exists() else b""


def case_from(path, prefix):
    words = read(path).split(b"\n")[:-1]
    says = read(path.with_suffix(".err")).decode().removesuffix("\n")
    number = int(read(path.with_suffix(".status")) or b"0")
    name = prefix + path.stem
    return case_of(name, words, read(path.with_suffix(".in")), read(path.with_suffix(".out")), number, says)


def bytes_of(text):
    """The bytes that a text spells."""
    cut = re.sub(rb"(\\\\|\\x..)", b"", text).endswith(b"\\")
    body = text[:-1] if cut else text
    one = lambda found: b"\\" if found[0] == b"\\\\" else bytes([int(found[0][2:], 16)])
    return ESCAPE.sub(one, body) + (b"" if cut else b"\n")


def shown(name, mark, cases):
    """What the lines of a mark spell in a case."""
    found, data = False, b""
    for line in cases.split(b"\n"):
        front, _, text = line.partition(b" ")
        if front == b"case":
            found = text.startswith(name.encode() + b":")
        elif found and front == b"as" and mark == b"<":
            data += shown(text.decode(), mark, cases)
        elif found and front == b"script" and mark == b"<":
            data += re.split(rb"(?m)^schedule\n", shown(text.decode(), mark, cases))[0]
        elif found and re.fullmatch(rb"(to|from)[0-9]*", front) and mark == b"<":
            lines = shown(text.decode(), b">", cases).splitlines(keepends=True)
            number = int(re.sub(rb"[a-z]", b"", front) or b"1")
            data += b"".join(lines[:number] if front.startswith(b"to") else lines[number - 1:])
        elif found and front.rstrip(b"0123456789") == mark:
            data += bytes_of(text) * int(front[len(mark):] or b"1")
    return data


def main():
    words = sys.argv[1:]
    marks = {"--show": b"<", "--wanted": b">"}
    if len(words) == 2 and words[0] in marks:
        sys.stdout.buffer.write(shown(words[1], marks[words[0]], sys.stdin.buffer.read()))
        return
    prefix = ""
    if len(words) > 1 and words[0] == "--prefix":
        prefix, words = words[1], words[2:]
    if not words:
        sys.exit(__doc__)
    print("\n".join(case_from(pathlib.Path(word), prefix) for word in words), end="")


if __name__ == "__main__":
    main()
