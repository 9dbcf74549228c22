"""What the stand-in for the device answers: the reports of examples/, with frames from docs/pictures, and of cases."""
import hashlib
import pathlib
import sys

TOP = pathlib.Path(__file__).resolve().parents[2]
sys.path.insert(0, str(TOP / "tools"))
import png  # noqa: E402

PICTURES = {"two_screens": ("", 3), "blend_modes": ("blend", 8), "scaling": ("scaling", 8)}  # of examples: a folder, and a scale
FIRST_LIGHT = [b"\x61\x62\x63"]


def frame_rows(name, crtc, commit):
    """The rows of a frame of an example, or none where no picture of it is kept."""
    if name in ("first_light", "sleep"):
        return FIRST_LIGHT
    if name not in PICTURES:
        return None
    folder, scale = PICTURES[name]
    large = png.unpacked((TOP / "docs/pictures" / folder / f"crtc{crtc}_commit{commit}.png").read_bytes())
    return [b"".join(row[at:at + 3] for at in range(0, len(row), 3 * scale)) for row in large[::scale]]


def pixmap(rows):
    head = f"P3\n{len(rows[0]) // 3} {len(rows)}\n255\n"
    return head + "".join(" ".join(map(str, row)) + "\n" for row in rows)


def with_frames(name, report):
    """A report with the frames that are kept."""
    parts = []
    for line in report.splitlines(keepends=True):
        parts.append(line)
        kind, *words = line.split()
        if kind == "L" and words[3] != "off":
            rows = frame_rows(name, words[0], words[1])
            if rows:
                assert hashlib.sha256(b"".join(rows)).hexdigest() == words[3], f"{name}: {line}"
                parts.append(pixmap(rows))
    return "".join(parts)


def answer(name, report):
    verdicts = "".join(line for line in report.splitlines(keepends=True) if line.startswith("R "))
    return {"verdicts": verdicts, "report": report, "frames": with_frames(name, report)}


def answers(cases):
    """By the scripts' texts. `cases` are files of scripts with reports that have steps beside them."""
    found = {}
    for script in sorted((TOP / "examples").glob("*.kms")):
        report = script.with_suffix(".report")
        if report.exists():
            found[script.read_text()] = answer(script.stem, report.read_text())
    replay = (TOP / "examples/meeting.replay").read_text()
    found[replay] = found[(TOP / "examples/meeting.kms").read_text()]
    older = (TOP / "examples/older_calls.kms").read_text()
    found.setdefault(older, {})["legacy"] = (TOP / "examples/older_calls.atomic.kms").read_text()
    found[found[older]["legacy"]] = {key: it for key, it in found[older].items() if key != "legacy"}
    for script in cases:
        found[script.read_text()] = answer(None, script.with_suffix(".out").read_text())
    return found
