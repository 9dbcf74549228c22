"""Scripts, reports and the manual's tables, as the tools of this folder read them."""
import dataclasses
import pathlib
import re

PAGE = pathlib.Path(__file__).resolve().parent.parent / "docs" / "DEVICE.md"
FIRST_CRTC = 100


@dataclasses.dataclass(frozen=True)
class Command:
    """A command of a client; both are counted from 1, as are lines of a script."""
    client: int
    number: int
    line: int
    words: tuple


@dataclasses.dataclass(frozen=True)
class Plane:
    type: str
    crtcs: tuple
    formats: tuple


@dataclasses.dataclass
class Script:
    profile: int
    crtcs: int
    planes: list
    connectors: list  # the possible CRTCs of each
    commands: dict  # by client and number
    lines: list


@dataclasses.dataclass(frozen=True)
class Reply:
    place: int
    words: tuple

    @property
    def refusal(self):
        """The number of the rule that refused the command, 0 where it was not refused or a kernel told none."""
        return next((int(word) for word in self.words[1:] if word.isdigit()), 0) if self.is_refused else 0

    @property
    def is_refused(self):
        return bool(re.fullmatch("E[A-Z]+", self.words[0]))

    @property
    def commit(self):
        """The commit's number, or none."""
        return int(self.words[1]) if self.words[0] == "commit" else None


@dataclasses.dataclass
class Latch:
    crtc: int
    commit: int
    count: int
    digest: str
    frame: object = None

    @property
    def is_off(self):
        return self.digest == "off"


@dataclasses.dataclass(frozen=True)
class Event:
    client: int
    user_data: int
    count: int
    crtc: int


@dataclasses.dataclass(frozen=True)
class Frame:
    """A picture: rows of three bytes for each pixel."""
    width: int
    height: int
    rows: list


@dataclasses.dataclass
class Report:
    journal: list  # clients and numbers of commands
    replies: dict  # by client and number of the command
    latches: list
    events: list
    end: str
    steps: list  # words of each step, where there are any


@dataclasses.dataclass(frozen=True)
class Rule:
    number: int
    errno: str
    name: str
    text: str
    exactly: str
    function: str  # the kernel's, or `own`


def crtc_list(word):
    return tuple(int(index) for index in word.split(","))


def read_script(text):
    """A script's device and commands. It takes what the program accepts; a schedule behind it is left out."""
    script = Script(1, 0, [], [], {}, text.split("\nschedule\n")[0].splitlines())
    client = number = 0
    for line, words in enumerate(map(str.split, script.lines), 1):
        kind, *rest = words or [""]
        if kind == "client":
            client, number = client + 1, 0
        elif client:
            number += 1
            script.commands[client, number] = Command(client, number, line, tuple(words))
        elif kind == "kms":
            script.profile = int(rest[0])
        elif kind == "crtcs":
            script.crtcs = int(rest[0])
        elif kind == "plane":
            script.planes.append(Plane(rest[0], crtc_list(rest[1]), tuple(rest[2].split(","))))
        elif kind == "conn":
            script.connectors.append(crtc_list(rest[0]))
    return script


def read_frame(lines):
    """The picture whose lines come behind a line `P3`."""
    width, height = map(int, next(lines).split())
    next(lines)
    return Frame(width, height, [bytes(map(int, next(lines).split())) for _ in range(height)])


def read_report(lines):
    """The parts of a report; of one with pictures each latch has its own."""
    report = Report([], {}, [], [], "", [])
    lines = iter(lines)
    for line in lines:
        kind, *words = line.split() or [""]
        if kind == "J":
            report.journal.append((int(words[0]), int(words[1])))
        elif kind == "R":
            report.replies[int(words[0]), int(words[1])] = Reply(int(words[2]), tuple(words[3:]))
        elif kind == "L":
            report.latches.append(Latch(*map(int, words[:3]), words[3]))
        elif kind == "P3":
            report.latches[-1].frame = read_frame(lines)
        elif kind == "E":
            client, user_data, count, crtc = map(int, words)
            report.events.append(Event(client, user_data, count, crtc - FIRST_CRTC))
        elif kind == "D":
            report.end = " ".join(words)
        elif kind == "T":
            report.steps.append(words)
    return report


def table(name, page=PAGE):
    """The rows of a table of the manual, without the heads: what stands between its marks."""
    text = page.read_text().split(f"<!-- {name} -->\n")[1].split("<!-- end -->")[0]
    return [[cell.strip() for cell in row.strip("|").split(" | ")] for row in text.splitlines()[2:]]


def plain(text):
    """A text of the manual without its links."""
    text = re.sub(r" \((own, )?\[differs\]\([^)]*\)\)", "", text)
    return re.sub(r"\[([^]]*)\]\([^)]*\)", r"\1", text)


def read_rules(page=PAGE):
    """The rules of refusals by their numbers, with what the manual says of each to be exact."""
    more = page.read_text().partition("| number | to be exact |")[2].split("\n\n")[0]
    exactly = {}
    for numbers, text in re.findall(r"^\| ([\d, ]+) \| (.*) \|$", more, re.M):
        exactly.update({int(number): plain(text) for number in numbers.split(", ")})
    rows = table("refusals", page)
    return {int(row[0]): Rule(int(row[0]), *row[1:4], exactly.get(int(row[0]), ""), plain(row[4])) for row in rows}
