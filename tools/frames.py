#!/usr/bin/env python3
"""Makes pictures (PNG) of the frames of a report.

    kms one --ppm < SCRIPT | tools/frames.py FOLDER SCALE
    tools/frames.py --same FOLDER OTHER

The first writes FOLDER/crtcC_commitK.png for each frame that CRTC C latched of commit K, each pixel SCALE times as wide and as
high; it makes the folder. The second ends with status 1 where two folders of such pictures differ in a name or in a pixel.
"""
import pathlib
import sys

import png
import reports


def write(folder, scale):
    """Writes the pictures of the report that is read."""
    latches = reports.read_report(sys.stdin).latches
    if not any(latch.frame for latch in latches):
        sys.exit("frames.py: the report has no frames; `kms one --ppm` writes them")
    folder.mkdir(parents=True, exist_ok=True)
    for latch in filter(lambda it: it.frame, latches):
        frame = latch.frame
        data = png.packed(frame.width * scale, frame.height * scale, png.enlarged(frame.rows, scale))
        (folder / f"crtc{latch.crtc}_commit{latch.commit}.png").write_bytes(data)


def are_same(folder, other):
    names = [sorted(file.name for file in it.glob("*.png")) for it in (folder, other)]
    rows = lambda file: png.unpacked(file.read_bytes())
    return names[0] == names[1] and all(rows(folder / it) == rows(other / it) for it in names[0])


def main():
    words = sys.argv[1:]
    if len(words) == 3 and words[0] == "--same":
        sys.exit(not are_same(*map(pathlib.Path, words[1:])))
    if len(words) != 2 or not words[1].isdigit() or words[1] == "0":
        sys.exit(__doc__)
    write(pathlib.Path(words[0]), int(words[1]))


if __name__ == "__main__":
    main()
