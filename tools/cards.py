"""What a card has, by what `on_kernel CARD --describe` prints of it."""
import dataclasses

import reports

LARGEST = 1280  # the widest mode that is taken, where the card has a narrower one
SMALL = ((64, 48), (48, 64), (32, 32))  # modes that no card tells; drivers without hardware take them all the same


@dataclasses.dataclass
class Card:
    """What a card has, of what a script can say."""
    script: reports.Script
    head: list  # the script's lines of the device
    least: tuple
    cursor: int
    has_fences: bool
    has_async: bool
    has_closefb: bool
    modes: list
    properties: dict  # by object: names of mutable properties, each with its kind and values


def read_card(text):
    """A description of a card."""
    lines = [line.split() for line in text.splitlines()]
    of = lambda word: [line[1:] for line in lines if line[0] == word]
    head = ["kms 1"] + [" ".join(line) for line in lines if line[0] in ("crtcs", "plane", "conn")]
    found = {}
    for object, name, *rest in of("property"):
        if rest[0] != "immutable":
            found.setdefault(object, {})[name] = rest
    least = tuple(max(1, int(word)) for word in of("sizes")[0][:2])
    cursor = int(of("cursor")[0][0]) or 64
    modes = [" ".join(mode[1:]) for mode in of("mode")]
    says = lambda word: [word, "yes"] in lines
    has_closefb = ["closefb", "no"] not in lines
    return Card(reports.read_script("\n".join(head)), head, least, cursor, says("fences"), says("async"), has_closefb, modes, found)


def plain_mode(width, height):
    """The words of a mode of this size, for a card that tells none."""
    across, down = f"{width} {width + 2} {width + 6} {width + 16}", f"{height} {height + 2} {height + 4} {height + 8}"
    return f"{(width + 16) * (height + 8) * 60 // 1000 or 1} {across} 0 {down} 0 60 0 0 {width}x{height}"


def made_small(card):
    """The same card with small modes and cursors, whose frames are soon drawn and compared."""
    modes = [plain_mode(*map(max, card.least, size)) for size in SMALL]
    return dataclasses.replace(card, modes=modes, cursor=min(card.cursor, 64))


def size_of(mode):
    words = mode.split()
    return int(words[1]), int(words[6])


def some_modes(card, dice):
    """Up to three modes of different sizes, of the smaller ones that the card tells."""
    known = list({size_of(mode): mode for mode in card.modes}.values())
    small = [mode for mode in known if size_of(mode)[0] <= LARGEST] or sorted(known, key=size_of)[:1]
    return dice.sample(small, min(3, len(small))) or [plain_mode(max(64, card.least[0]), max(48, card.least[1]))]
