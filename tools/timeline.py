#!/usr/bin/env python3
"""Draws the history of a report with steps as a picture (SVG).

    kms one --trace < SCRIPT | tools/timeline.py > PICTURE.svg

Time goes by steps, from left to right, and on in the row below where a row is full. There is one lane for each client, one for
each CRTC, and as many for commits as there are commits at one time, each from its swap to its cleanup. All is read from the report
alone: a latch stands where its CRTC's next vblank follows the commit's flush, or at the flush itself where the CRTC goes
off; an event belongs to the latch with its CRTC and count.
"""
import dataclasses
import sys

import reports
from canvas import INK, PALE, ROW, STEP, Canvas

COLOURS = ["#4e79a7", "#f28e2b", "#59a14f", "#b07aa1", "#e15759", "#76b7b2", "#edc948", "#9c755f"]
RED, YELLOW = "#c00000", "#ffd54a"
OF_TAILS = ("claim", "write", "flush", "hwdone", "vblank", "cleanup", "stall")


@dataclasses.dataclass
class Commit:
    number: int
    client: int
    marks: dict  # the first step of each kind: swap, claim, hwdone, cleanup
    lane: int = 0


def find_commits(steps):
    """The commits in order of their swaps, with the places of their steps."""
    commits = []
    for place, (kind, *words) in enumerate(steps):
        if kind == "swap":
            commits.append(Commit(len(commits), int(words[0]), {"swap": place}))
        elif kind in ("claim", "hwdone", "cleanup"):
            commits[int(words[0])].marks[kind] = place
    return commits


def give_lanes(commits, last):
    """Gives each commit the first lane where none stands any more, with room for its number; how many lanes there are."""
    ends = []
    for commit in commits:
        begin = commit.marks["swap"] - 2 - len(str(commit.number)) // 2
        commit.lane = next((lane for lane, end in enumerate(ends) if end < begin), len(ends))
        ends[commit.lane:commit.lane + 1] = [commit.marks.get("cleanup", last)]
    return len(ends)


def places_of_latches(report):
    """The step of each latch, by CRTC and commit."""
    are_off = {(latch.crtc, latch.commit): latch.is_off for latch in report.latches}
    flushed, places = {}, {}
    for place, (kind, *words) in enumerate(report.steps):
        if kind == "flush":
            key = int(words[1].removeprefix("crtc")), int(words[0])
            if are_off.get(key):
                places[key] = place
            else:
                flushed[key[0]] = key
        elif kind == "vblank":
            places[flushed.pop(int(words[0].removeprefix("crtc")), None)] = place
    return {key: places[key] for key in are_off if key in places}


def colour_of(commit):
    return COLOURS[commit % len(COLOURS)]


def of_commit(number):
    return {"data-commit": number}


class ClientLane:
    """The contexts of a client, its commands, and the commits that it waits for."""

    def __init__(self, canvas, lane, client, report):
        self.canvas, self.lane, self.client, self.replies = canvas, lane, client, report.replies
        self.command = 1
        self.began = self.backed_off = None  # where a context that is open began, and where it backed off
        self.locked = self.returning = self.waited = 0

    def step(self, place, kind, title):
        """Draws a step of the client."""
        if kind in ("begin", "lock", "backoff", "relock", "return"):
            getattr(self, f"{kind}_")(place, title)
        else:
            self.answer(place, kind, title)

    def begin_(self, place, title):
        self.began = place

    def lock_(self, place, title):
        self.canvas.tick(self.lane, place, INK, title, 10)
        self.locked = place

    def backoff_(self, place, title):
        self.canvas.cross(self.lane, place, f"{title}: it met an older context")
        self.end(place)
        self.backed_off = place

    def relock_(self, place, title):
        self.end(place)
        self.began = place

    def return_(self, place, title):
        waits = f"waits for commit {self.waited}"
        self.canvas.bar(self.lane, self.returning, place, colour_of(self.waited), waits, 4, 0.7, of=of_commit(self.waited))

    def end(self, place):
        """Draws what was open until here: a context, or its time without locks."""
        if self.began is not None:
            self.canvas.bar(self.lane, self.began, place, PALE, "a context that takes locks")
        if self.backed_off is not None:
            self.canvas.bar(self.lane, self.backed_off, place, INK, "backed off, without locks", 12, dashes="3 2")
        self.began = self.backed_off = None

    def answer(self, place, kind, title):
        """The step that answers the client's command."""
        reply = self.replies.get((self.client, self.command))
        said = f"{title}: {' '.join(reply.words)}" if reply else title
        of = {"data-command": f"{self.client}.{self.command}"}
        self.end(place)
        if kind == "swap":
            self.returning, self.waited = place, reply.commit
            self.canvas.dot(self.lane, place, said, colour_of(reply.commit), 4.5, of | of_commit(reply.commit))
        elif kind == "read":
            self.canvas.diamond(self.lane, place, said, YELLOW if reply and reply.words[0] == "event" else "white", of)
        else:
            self.canvas.dot(self.lane, place, said, RED if reply and reply.is_refused else "white", of=of)
        self.command += 1


def draw_client(canvas, lane, client, report):
    drawn = ClientLane(canvas, lane, client, report)
    for place, (kind, *words) in enumerate(report.steps):
        if words and kind not in OF_TAILS and int(words[0]) == client:
            drawn.step(place, kind, f"{place + 1}: {' '.join([kind, *words])}")
    drawn.end(len(report.steps))


def draw_crtc(canvas, lane, crtc, report, places):
    """What a CRTC shows, from each latch to the next."""
    latches = [(places[crtc, it.commit], it) for it in report.latches if (crtc, it.commit) in places and it.crtc == crtc]
    for place, (kind, *words) in enumerate(report.steps):
        if kind == "vblank" and words[0] == f"crtc{crtc}":
            canvas.tick(lane, place, "#888888", f"{place + 1}: vblank crtc{crtc}", 20)
    read = {(event.crtc, event.count) for event in report.events}
    for (place, latch), (end, _) in zip(latches, [*latches[1:], (len(report.steps), None)]):
        shown = "off" if latch.is_off else f"commit {latch.commit}, frame {latch.count}"
        colour = "#999999" if latch.is_off else colour_of(latch.commit)
        canvas.bar(lane, place, end, colour, f"crtc{crtc} shows {shown}", of=of_commit(latch.commit))
        if (crtc, latch.count) in read:
            canvas.diamond(lane, place, f"an event with count {latch.count}", YELLOW, of_commit(latch.commit))
        name_bar(canvas, lane, place, end, "off" if latch.is_off else str(latch.commit), 9 if (crtc, latch.count) in read else 4)


def name_bar(canvas, lane, begin, end, name, room):
    """Writes a name into a bar, behind what stands at its beginning, and again in each row that the bar reaches."""
    for place in [begin, *(it for it in range(ROW, end, ROW) if it > begin)]:
        if (end - place) * STEP > room + 6 * len(name):
            canvas.text(canvas.x(place) + (room if place == begin else 4), lane, name, colour="white")


def draw_commit(canvas, lane, commit, report, places):
    """A commit from its swap to its cleanup: what it waits for, its writes and flushes, its latches."""
    last, colour, marks, of = len(report.steps), colour_of(commit.number), commit.marks, of_commit(commit.number)
    swap, claim, done, end = (marks.get(kind, last) for kind in ("swap", "claim", "hwdone", "cleanup"))
    canvas.text(canvas.x(swap) - 4, lane, str(commit.number), 9, "end", of=of)
    canvas.bar(lane, swap, claim, colour, f"commit {commit.number} waits to be claimed", 12, dashes="3 2", of=of)
    if claim < last:
        canvas.bar(lane, claim, done, colour, f"commit {commit.number} writes registers", 14, of=of)
        canvas.bar(lane, done, end, colour, f"commit {commit.number} waits for its latches", 8, 0.5, of=of)
    for (crtc, number), place in places.items():
        if number == commit.number:
            canvas.dot(lane, place, f"{place + 1}: crtc{crtc} latches commit {number}", "white", of=of)
    if end < last:
        canvas.tick(lane, end, INK, f"{end + 1}: cleanup {commit.number}", of=of)


SIGNS = [
    [
        ("answer", lambda it, x: it.dot(0, x, "", "white")),
        ("refused", lambda it, x: it.dot(0, x, "", RED)),
        ("commit", lambda it, x: it.dot(0, x, "", COLOURS[0], 4.5)),
        ("event read", lambda it, x: it.diamond(0, x, "", YELLOW)),
        ("none read", lambda it, x: it.diamond(0, x, "", "white")),
        ("takes a lock", lambda it, x: it.tick(0, x, INK, "", 10)),
        ("holds locks", lambda it, x: it.bar(0, x - 0.6, x + 0.6, PALE, "")),
        ("met an older context", lambda it, x: it.cross(0, x, "")),
        ("without locks until it is gone", lambda it, x: it.bar(0, x - 0.6, x + 0.6, INK, "", 12, dashes="3 2")),
    ],
    [
        ("waits to be claimed", lambda it, x: it.bar(0, x - 0.6, x + 0.6, COLOURS[0], "", 12, dashes="3 2")),
        ("writes", lambda it, x: it.bar(0, x - 0.6, x + 0.6, COLOURS[0], "")),
        ("waits for its latches", lambda it, x: it.bar(0, x - 0.6, x + 0.6, COLOURS[0], "", 8, 0.5)),
        ("latches", lambda it, x: it.dot(0, x, "", "white")),
        ("cleaned up", lambda it, x: it.tick(0, x, INK, "")),
        ("vertical blanking", lambda it, x: it.tick(0, x, "#888888", "", 20)),
        ("latch with an event", lambda it, x: it.diamond(0, x, "", YELLOW)),
    ],
]


def legend(name, signs):
    """A line that says what signs mean."""
    line, at = Canvas(ROW, [name]), 0.5
    for words, sign in signs:
        sign(line, at)
        line.text(line.x(at) + 12, 0, words)
        at += 3 + len(words) * 0.55
    line.steps = int(at)
    return line


def draw(report):
    """The picture of a report's history."""
    commits, places = find_commits(report.steps), places_of_latches(report)
    clients = range(1, max((client for client, _ in report.replies), default=0) + 1)
    crtcs = sorted({latch.crtc for latch in report.latches})
    lanes = give_lanes(commits, len(report.steps))
    names = [f"client {n}" for n in clients] + [f"CRTC {n}" for n in crtcs] + ["commits"] * bool(lanes) + [""] * (lanes - 1)
    canvas = Canvas(len(report.steps), names)
    for lane, client in enumerate(clients):
        draw_client(canvas, lane, client, report)
    for lane, crtc in enumerate(crtcs, len(clients)):
        draw_crtc(canvas, lane, crtc, report, places)
    for commit in commits:
        draw_commit(canvas, len(clients) + len(crtcs) + commit.lane, commit, report, places)
    signs = [legend(*it) for it in zip(["client:", "CRTC, commit:"], SIGNS)]
    return "\n".join(canvas.written(f"{len(report.steps)} steps; {report.end}", signs)) + "\n"


def main():
    if len(sys.argv) > 1:
        sys.exit(__doc__)
    report = reports.read_report(sys.stdin)
    if not report.steps:
        sys.exit("timeline.py: the report has no steps, that is no lines `T`; `kms one --trace` writes them")
    sys.stdout.write(draw(report))


if __name__ == "__main__":
    main()
