#!/usr/bin/env python3
"""What a plane's alpha costs: ten frames of 1920x1080, an opaque layer under twelve of the same size, in each blend mode.

usage: bench/alphas.py PROGRAM [RUNS]

Runs, on one processor and in turn, the same script with opaque planes and with alphas in both halves, and one with the lowest layer
alone. Prints the shortest time of each, and what the twelve layers take, beside those of opaque planes. In None and in XR24 an opaque
plane's layer is copied, so that the ratio there is that of a blended layer to a copied one.
"""
import subprocess
import sys
import tempfile
import time

OPAQUE, ALPHAS = 65535, (20000, 40000, 60000)
FRAMES, LAYERS = 10, 13
PLACE = "CRTC_X=0 CRTC_Y=0 CRTC_W=1920 CRTC_H=1080 SRC_W=125829120 SRC_H=70778880".split()


def script(layers, fourcc, mode, alpha):
    """Frames of as many layers, in each of which the lowest layer has another buffer."""
    lines = ["kms 1", "crtcs 1", "plane primary 0 XR24"] + [f"plane overlay 0 {fourcc}"] * (layers - 1) + ["conn 0", "client"]
    for frame in range(FRAMES):
        lines += [f"buffer back{frame} 1920 1080 XR24 solid 00{20 * frame:02x}{11 * frame:02x}40", f"addfb fb{frame} back{frame}"]
    if layers > 1:
        lines += [f"buffer over 1920 1080 {fourcc} checker 80402010 c0306090 16", "addfb overfb over"]
    lines.append("mode m 148500 1920 2008 2052 2200 0 1080 1084 1089 1125 0 60 5 64 1920x1080")
    for frame in range(FRAMES):
        sets = [f"plane0.FB_ID=@fb{frame}"]
        if frame == 0:
            sets += ["crtc0.ACTIVE=1", "crtc0.MODE_ID=@m", "conn0.CRTC_ID=crtc0"]
            for plane in range(layers):
                sets += [f"plane{plane}.CRTC_ID=crtc0"] + [f"plane{plane}.{word}" for word in PLACE]
                if plane > 0:
                    sets += [f"plane{plane}.FB_ID=@overfb", f"plane{plane}.alpha={alpha}", f"plane{plane}.pixel_blend_mode={mode}"]
        lines.append(f"atomic {'0x400' if frame == 0 else '0x0'} 0 {' '.join(sets)}")
    return "\n".join(lines) + "\n"


def seconds(program, path):
    """How long a run on one processor takes."""
    with open(path) as text:
        begin = time.perf_counter()
        subprocess.run(["taskset", "-c", "0", program, "one"], stdin=text, stdout=subprocess.DEVNULL, check=True)
        return time.perf_counter() - begin


def main(program, runs):
    kinds = [(f, m) for f in ("AR24", "XR24") for m in (0, 1, 2)]
    texts = {"one": script(1, "XR24", 0, OPAQUE)}
    texts |= {(f, m, a): script(LAYERS, f, m, a) for f, m in kinds for a in (OPAQUE, *ALPHAS)}
    with tempfile.TemporaryDirectory() as folder:
        paths = {}
        for number, (kind, text) in enumerate(texts.items()):
            paths[kind] = f"{folder}/{number}.kms"
            with open(paths[kind], "w") as out:
                out.write(text)
        least = {kind: seconds(program, path) for kind, path in paths.items()}
        for _ in range(runs - 1):
            for kind, path in paths.items():
                least[kind] = min(least[kind], seconds(program, path))
    print(f"the lowest layer alone: {1000 * least['one']:.0f} ms")
    for f, m in kinds:
        opaque = least[f, m, OPAQUE] - least["one"]
        parts = [f"{1000 * (least[f, m, a] - least['one']):.0f} at {a} ({(least[f, m, a] - least['one']) / opaque:.2f})" for a in ALPHAS]
        print(f"{f}, mode {m}: twelve layers take {1000 * opaque:.0f} ms of opaque planes, {', '.join(parts)}")


if __name__ == "__main__":
    if len(sys.argv) not in (2, 3):
        sys.exit(__doc__)
    main(sys.argv[1], int(sys.argv[2]) if len(sys.argv) == 3 else 7)
