#!/usr/bin/env python3
"""Draws the way of a commit, from its swap to its cleanup, as a picture (SVG).

    tools/commit_path.py > docs/pictures/commit.svg

Each box is a step of the machine, by its word in a schedule, with the kernel's functions for it. Arrows lead from a step to those
that wait for it. Above a box stands what else it waits for, below it what it does.
"""
import dataclasses
import html
import sys

INK, LINE, PALE, GREY = "#222222", "#4e79a7", "#eef3f8", "#666666"
WIDE, HIGH, GAP, LEFT, TOP, LOWER = 206, 64, 40, 20, 100, 208


@dataclasses.dataclass
class Step:
    word: str
    kernel: list
    column: int
    top: int
    waits: list
    does: list


MIDDLE = TOP + LOWER // 2
SWAP = Step(
    "swap", ["drm_atomic_helper_setup_commit", "drm_atomic_helper_swap_state"], 0, MIDDLE,
    ["the locks of what it touches;", "on each named CRTC: the commit", "before has hw_done, and the one", "before that is cleaned up"],
    ["the new states are the present ones;", "events are reserved and out-fences", "made; locks are dropped"],
)  # fmt: skip
CLAIM = Step(
    "claim", ["drm_atomic_helper_wait_for_fences", "drm_atomic_helper_wait_for_dependencies"], 1, MIDDLE,
    ["the in-fences are signalled; for each", "touched object the commit before", "has hw_done and has flipped"],
    ["a worker takes the commit"],
)  # fmt: skip
WRITE = Step(
    "write", ["drm_atomic_helper_commit_planes", "atomic_update of planes"], 2, MIDDLE,
    ["touched CRTCs and planes,", "in order of id"],
    ["shadow registers get the new state"],
)  # fmt: skip
FLUSH = Step(
    "flush", ["drm_atomic_helper_commit_planes", "atomic_flush of CRTCs"], 3, MIDDLE,
    ["all is written;", "named CRTCs in order of id"],
    ["a CRTC that is on gets GO;", "one that is off latches at once"],
)  # fmt: skip
HWDONE = Step(
    "hwdone", ["drm_atomic_helper_commit_hw_done"], 4, TOP,
    ["all is flushed"],
    ["the next commit may be swapped"],
)  # fmt: skip
VBLANK = Step(
    "vblank", ["drm_crtc_handle_vblank", "drm_crtc_send_vblank_event"], 4, TOP + LOWER,
    ["this CRTC has GO, also where", "another is not flushed yet"],
    ["the count rises and the CRTC latches:", "new picture, event, out-fence"],
)  # fmt: skip
CLEANUP = Step(
    "cleanup", ["drm_atomic_helper_commit_cleanup_done"], 5, MIDDLE,
    ["hw_done; latched on", "each named CRTC"],
    ["old states are given up, and closed", "framebuffers with them; a client", "that waits for the commit goes on"],
)  # fmt: skip
STEPS = [SWAP, CLAIM, WRITE, FLUSH, HWDONE, VBLANK, CLEANUP]
WAITS = [(SWAP, CLAIM), (CLAIM, WRITE), (WRITE, FLUSH), (FLUSH, HWDONE), (FLUSH, VBLANK), (HWDONE, CLEANUP), (VBLANK, CLEANUP)]


def left_of(step):
    return LEFT + step.column * (WIDE + GAP)


def text(x, y, words, anchor="middle", size=11, weight="normal", colour=INK):
    style = f'text-anchor="{anchor}" font-size="{size}" font-weight="{weight}" fill="{colour}"'
    return f'<text x="{x:g}" y="{y:g}" {style}>{html.escape(words)}</text>'


def box(step):
    """A step with what it waits for and what it does."""
    x, middle = left_of(step), left_of(step) + WIDE / 2
    yield f'<rect x="{x}" y="{step.top}" width="{WIDE}" height="{HIGH}" rx="6" fill="{PALE}" stroke="{LINE}"/>'
    yield text(middle, step.top + 24, step.word, size=15, weight="bold")
    yield from (text(middle, step.top + 42 + 12 * at, name, size=9, colour=GREY) for at, name in enumerate(step.kernel))
    for at, line in enumerate(reversed(step.waits)):
        yield text(middle, step.top - 10 - 15 * at, line)
    for at, line in enumerate(step.does):
        yield text(middle, step.top + HIGH + 20 + 15 * at, line)


def arrow(before, after):
    """A line from a box's right side to the next one's left side."""
    x, y = left_of(before) + WIDE, before.top + HIGH / 2
    end_x, end_y = left_of(after), after.top + HIGH / 2
    middle = (x + end_x) / 2
    way = f"M{x + 2:g} {y:g}C{middle:g} {y:g} {middle:g} {end_y:g} {end_x - 3:g} {end_y:g}"
    return f'<path d="{way}m-6 -4l6 4l-6 4" fill="none" stroke="{LINE}" stroke-width="1.5"/>'


def main():
    if len(sys.argv) > 1:
        sys.exit(__doc__)
    width, height = left_of(CLEANUP) + WIDE + LEFT, TOP + LOWER + HIGH + 60
    size = f'width="{width}" height="{height}"'
    lines = [f'<svg xmlns="http://www.w3.org/2000/svg" {size} viewBox="0 0 {width} {height}" font-family="sans-serif">']
    lines += [f'<rect {size} fill="white"/>']
    lines += [text(LEFT, 26, "A step waits for those before it and for what stands above it,", "start", 12, "bold")]
    lines += [text(LEFT, 44, "and does what stands below it.", "start", 12, "bold")]
    lines += [part for step in STEPS for part in box(step)] + [arrow(*it) for it in WAITS]
    print("\n".join([*lines, "</svg>"]))


if __name__ == "__main__":
    main()
