"""A report of what a kernel answered, judged part by part, so that the first difference is found in the order of the journal.

`kms audit` tells the first line of a report that is not right, and the journal stands before the replies. A request that a kernel
refuses and the device of one thread accepts would so be told by a line of the journal far behind it. So a report that is not right is cut
at places of its journal, and the first part that is not right has the difference.
"""
import collections
import dataclasses
import re
import subprocess
import sys

AUDIT_NO = 9


@dataclasses.dataclass(frozen=True)
class Line:
    number: int  # in the whole report
    words: tuple

    def __str__(self):
        return " ".join(self.words)

    @property
    def letter(self):
        return self.words[0]

    @property
    def command(self):
        """The client and the number of the command that a line of the journal or a reply tells of."""
        return int(self.words[1]), int(self.words[2])

    @property
    def place(self):
        return int(self.words[3])

    @property
    def commit(self):
        """The commit that a reply or a latch tells of, or none."""
        return int(self.words[2]) if self.letter == "L" else int(self.words[5]) if self.words[4:5] == ("commit",) else None

    @property
    def is_accepted(self):
        return self.words[4] in ("made", "done", "commit", "tested")


def read_lines(text):
    return [Line(number, tuple(line.split())) for number, line in enumerate(text.splitlines(), 1)]


def part(lines, is_kept):
    """The report of some replies, of each client the first ones, and of all entries up to a place: with what else is told of them."""
    replies = [it for it in lines if it.letter == "R" and is_kept(it)]
    answered = {it.command for it in replies}
    commits = sum(it.commit is not None for it in replies)
    events = collections.Counter(it.words[1] for it in replies if it.words[4] == "event")

    def stays(line):
        if line.letter == "E":
            events[line.words[1]] -= 1
            return events[line.words[1]] >= 0
        return line.command in answered if line.letter in "JR" else line.letter == "L" and line.commit < commits

    kept = [it for it in lines if stays(it)]
    return [*kept, Line(len(lines) + 1, ("D", "open", "1"))]


def cut(lines, place):
    """The report of the first entries of the journal, and of what was answered behind them."""
    entries = {it.command for it in lines if it.letter == "J"}
    return part(lines, lambda it: it.place < place or (it.place == place and it.command not in entries))


def up_to(lines, command):
    """The report without a command, and without what its client did from there on."""
    return part(lines, lambda it: it.command[0] != command[0] or it.command < command)


class Auditor:
    """Judges reports on one script by the program."""

    def __init__(self, program, script):
        self.program, self.script = program, script

    def wrong(self, lines):
        """The index of the first line that is not right; that behind the last where one is missing; none where all are right."""
        text = "".join(f"{line}\n" for line in lines)
        done = subprocess.run([self.program, "audit"], input=f"{self.script}report\n{text}", capture_output=True, text=True)
        if done.returncode == 0:
            return None
        if done.returncode != AUDIT_NO:
            sys.exit(f"conform: {self.program} audit: {done.stderr.strip()}")
        return int(re.search(r"line (\d+)", done.stderr)[1]) - 1

    def first_wrong(self, lines):
        """The first part of a report that is not right, with the index of its wrong line; none where all is right."""
        at = self.wrong(lines)
        if at is None:
            return None
        low, high = -1, sum(it.letter == "J" for it in lines)
        found = cut(lines, high), self.wrong(cut(lines, high))
        if found[1] is None:
            return lines, at
        while high - low > 1:
            place = (low + high) // 2
            tried = cut(lines, place)
            at = self.wrong(tried)
            if at is None:
                low = place
            else:
                high, found = place, (tried, at)
        return found
