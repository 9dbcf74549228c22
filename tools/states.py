"""The states of a script's device, command by command, as far as tools need them to say why a request was refused.

Nothing here decides a request: what was accepted stands in a report.
"""
import copy
import dataclasses
import functools
import struct

import reports

FLAGS = {"PAGE_FLIP_EVENT": 0x1, "PAGE_FLIP_ASYNC": 0x2, "TEST_ONLY": 0x100, "NONBLOCK": 0x200, "ALLOW_MODESET": 0x400}
MOST = 4096  # pixels of a side


@dataclasses.dataclass
class Thing:
    """What a client made; of an assignment's value the label is kept with it."""
    label: str
    kind: str  # buffer, framebuffer, blob, fence, out-fence
    owner: int
    is_open: bool = True
    width: int = 0
    height: int = 0
    format: str = ""
    content: bytes = b""  # of a blob
    pattern: tuple = ()  # the words of what a buffer is filled with


@dataclasses.dataclass(frozen=True)
class Assignment:
    object: str
    property: str
    word: str

    @property
    def kind(self):
        return self.object.rstrip("0123456789")

    @property
    def index(self):
        return int(self.object[len(self.kind):])

    def __str__(self):
        return f"{self.object}.{self.property}={self.word}"


def assignment(text):
    object, _, rest = text.partition(".")
    return Assignment(object, *rest.split("=", 1))


@functools.cache
def properties():
    """The rows of the manual's table of properties: kind, name, values, unit, start."""
    return [tuple(row) for row in reports.table("properties")]


def values_of(kind, name):
    """What the manual says of a property's values."""
    return next(values for of, property, values, *_ in properties() if (of, property) == (kind, name))


def range_of(kind, name):
    """The least and the largest value of a property that takes numbers alone."""
    least, most = values_of(kind, name).split(" to ")
    return int(least), int(most)


def names_of(kind, profile):
    return [name for of, name, *_ in properties() if of == kind and (profile > 1 or name != "GAMMA_LUT")]


def start_of(text, index):
    """A property's value at the start, by the word in the table."""
    return index if text == "its index" else int(text) if text.lstrip("-").isdigit() else 0


def mode_bytes(words):
    """The bytes of `struct drm_mode_modeinfo` of a mode's 15 words."""
    return struct.pack("<I10HIII32s", *map(int, words[:14]), words[14].encode())


def is_legal_mode(content):
    """Whether a blob of 68 bytes is a mode that a CRTC takes."""
    clock, *numbers = struct.unpack_from("<I10H", content)
    across, down = numbers[:4], numbers[5:9]
    return clock > 0 and all(0 < it[0] <= MOST and it == sorted(it) for it in (across, down))


class Device:
    """The present values of all objects, and the things that clients have made."""

    def __init__(self, script):
        self.script = script
        self.things = {}
        self.counts = {"crtc": script.crtcs, "plane": len(script.planes), "conn": len(script.connectors), "enc": len(script.connectors)}
        self.values = {}
        for kind, count in self.counts.items():
            for index in range(count):
                self.values[f"{kind}{index}"] = {name: start_of(start, index) for of, name, _, _, start in properties() if of == kind}

    def objects(self, kind):
        return [f"{kind}{index}" for index in range(self.counts[kind])]

    def value(self, word):
        """What a word of an assignment stands for: a thing, a CRTC's name, or a number; of a label that nothing has, the word."""
        if word.startswith("@"):
            return self.things.get(word[1:], word)
        return int(word) if word.lstrip("-").isdigit() else word

    def do(self, command):
        """Takes an accepted command into the states."""
        name, *words = command.words
        if name == "atomic":
            request = Request(self, command)
            self.values = request.new
            for it in request.assignments:
                if it.word.startswith("+"):
                    self.add(Thing(it.word[1:], "out-fence", command.client))
        elif name == "buffer":
            self.add(Thing(words[0], "buffer", command.client, True, int(words[1]), int(words[2]), words[3], pattern=tuple(words[4:])))
        elif name == "addfb":
            buffer = self.things[words[1]]
            self.add(dataclasses.replace(buffer, label=words[0], kind="framebuffer", owner=command.client))
        elif name == "mode":
            self.add(Thing(words[0], "blob", command.client, content=mode_bytes(words[1:])))
        elif name == "blob":
            self.add(Thing(words[0], "blob", command.client, content=bytes.fromhex(words[1])))
        elif name == "fence":
            self.add(Thing(words[0], "fence", command.client))
        elif name in ("closefb", "destroy"):
            self.things[words[0]].is_open = False

    def add(self, thing):
        self.things[thing.label] = thing


class Request:
    """An atomic request, with the states before and after it."""

    def __init__(self, device, command):
        self.device, self.client = device, command.client
        self.flags = int(command.words[1], 16)
        self.assignments = [assignment(text) for text in command.words[3:]]
        self.old, self.new = device.values, copy.copy(device.values)
        for it in self.assignments:
            if it.property in self.old.get(it.object, {}) and it.property not in ("IN_FENCE_FD", "OUT_FENCE_PTR"):
                self.new[it.object] = {**self.new[it.object], it.property: device.value(it.word)}

    def has(self, flag):
        return bool(self.flags & FLAGS[flag])

    def named(self):
        """The CRTCs that it names, in order."""
        names = set()
        for it in self.assignments:
            names |= {it.object} if it.kind == "crtc" else {side.get(it.object, {}).get("CRTC_ID") for side in (self.old, self.new)}
        return [crtc for crtc in self.device.objects("crtc") if crtc in names]

    def connectors_on(self, crtc, side):
        return [conn for conn in self.device.objects("conn") if side[conn]["CRTC_ID"] == crtc]

    def mode(self, crtc, side):
        """What the mode of a CRTC contains, or none."""
        thing = side[crtc]["MODE_ID"]
        return thing.content if isinstance(thing, Thing) else None

    def modesets(self):
        """The CRTCs that need a modeset, each with what differs."""
        parts = {
            "ACTIVE": lambda crtc, side: side[crtc]["ACTIVE"],
            "MODE_ID": self.mode,
            "CRTC_ID": self.connectors_on,
        }
        changed = lambda crtc: [name for name, of in parts.items() if of(crtc, self.old) != of(crtc, self.new)]
        found = {crtc: changed(crtc) for crtc in self.device.objects("crtc")}
        return {crtc: names for crtc, names in found.items() if names}

    def setting(self, object, *names):
        """The last assignments of the request to these properties of an object."""
        last = {it.property: it for it in self.assignments if it.object == object and it.property in names}
        return list(last.values())


def replay(script, report):
    """The device before each command of the report, as pairs of a command and a device: those with a reply, by place."""
    device = Device(script)
    entered = iter(report.journal)
    done = 0
    for key, reply in sorted(report.replies.items(), key=lambda it: it[1].place):
        while done < reply.place:
            device.do(script.commands[next(entered)])
            done += 1
        yield script.commands[key], device
