"""A picture (SVG) in lanes and steps, which go on in the row below where a row is full."""
import html

STEP, LANE, LEFT, TOP, GAP, ROW = 11, 30, 92, 34, 30, 112  # pixels, but ROW in steps
INK, PALE, GRID = "#222222", "#c9d3df", "#e4e4e4"
BARS, MARKS, WORDS = range(3)  # what comes later is painted over what comes earlier


class Canvas:
    """Shapes, by their layers, in each row that they reach into."""

    def __init__(self, steps, names):
        self.names = names
        self.rows = max(1, -(-steps // ROW))
        self.steps = min(steps, ROW)
        self.shapes = [[] for _ in range(self.rows)]

    @property
    def width(self):
        return LEFT + (self.steps + 1) * STEP + 20

    def x(self, place):
        return (place + 0.5) * STEP

    def y(self, lane):
        return (lane + 0.5) * LANE

    def add(self, layer, begin, end, tag, title="", of=None, words="", **attributes):
        """A shape between two ends; `of` are the command and the commit that it belongs to, for pages that link them."""
        written = {name.replace("_", "-"): value for name, value in {**attributes, **(of or {})}.items()}
        text = " ".join(f'{name}="{value:g}"' if isinstance(value, float) else f'{name}="{value}"' for name, value in written.items())
        inside = (f"<title>{html.escape(title)}</title>" if title else "") + html.escape(words)
        # (a row shows one step more than it has)
        first, last = (int(it // (ROW * STEP)) for it in (begin - STEP, end))
        for row in self.shapes[max(first, 0):last + 1]:
            row.append((layer, f"<{tag} {text}>{inside}</{tag}>"))

    def text(self, x, lane, words, size=10, anchor="start", colour=INK, of=None):
        reach = 7 * len(words)
        place = {"x": x, "y": self.y(lane) + 4, "font_size": size, "text_anchor": anchor}
        self.add(WORDS, x - reach, x + reach, "text", of=of, words=words, **place, fill=colour)

    def bar(self, lane, begin, end, colour, title, height=14, opacity=1.0, dashes="", of=None):
        x, y = self.x(begin), self.y(lane)
        width = max(self.x(end) - x, 3.0)
        more = {"stroke": colour, "stroke_dasharray": dashes, "fill": "none"} if dashes else {"fill": colour}
        more |= {"opacity": opacity} if opacity < 1 else {}
        self.add(BARS, x, x + width, "rect", title, of, x=x, y=y - height / 2, width=width, height=height, rx=2, **more)

    def mark(self, place, tag, title, of, **attributes):
        self.add(MARKS, self.x(place) - 7, self.x(place) + 7, tag, title, of, **attributes)

    def tick(self, lane, place, colour, title, height=14, of=None):
        self.mark(place, "rect", title, of, x=self.x(place) - 1, y=self.y(lane) - height / 2, width=2, height=height, fill=colour)

    def dot(self, lane, place, title, fill=INK, size=3.5, of=None):
        self.mark(place, "circle", title, of, cx=self.x(place), cy=self.y(lane), r=size, fill=fill, stroke=INK)

    def diamond(self, lane, place, title, fill, of=None):
        x, y = self.x(place), self.y(lane)
        self.mark(place, "path", title, of, d=f"M{x:g} {y - 7:g}l5 7l-5 7l-5 -7Z", fill=fill, stroke=INK)

    def cross(self, lane, place, title, of=None):
        x, y = self.x(place), self.y(lane)
        self.mark(place, "path", title, of, d=f"M{x - 4:g} {y - 4:g}l8 8m-8 0l8 -8", stroke="#c00000", stroke_width=2)

    def row(self, number, top, has_lines=True):
        """One row: the lanes with their names and lines, and its shapes, cut at its ends."""
        begin, width, height = number * ROW * STEP, (self.steps + 1) * STEP, len(self.names) * LANE
        for lane, name in enumerate(self.names):
            y = top + self.y(lane)
            yield f'<text x="{LEFT - 10}" y="{y + 4:g}" font-size="11" text-anchor="end" fill="{INK}">{html.escape(name)}</text>'
            if has_lines:
                yield f'<rect x="{LEFT}" y="{y - 0.5:g}" width="{width}" height="1" fill="{GRID}"/>'
        yield f'<svg x="{LEFT}" y="{top}" width="{width}" height="{height}" viewBox="{begin} 0 {width} {height}">'
        yield from (shape for _, shape in sorted(self.shapes[number], key=lambda it: it[0]))
        yield "</svg>"

    def written(self, title, legend):
        """The whole picture: a title, the rows, and lines of a legend, which are canvases of one lane."""
        high = len(self.names) * LANE + GAP
        width, height = max(it.width for it in [self, *legend]), TOP + self.rows * high + len(legend) * 22
        size = f'width="{width}" height="{height}"'
        yield f'<svg xmlns="http://www.w3.org/2000/svg" {size} viewBox="0 0 {width} {height}" font-family="sans-serif">'
        yield f'<rect {size} fill="white"/>'
        yield f'<text x="{LEFT}" y="18" font-size="12" fill="{INK}">{html.escape(title)}</text>'
        for number in range(self.rows):
            if self.rows > 1:
                yield f'<text x="{LEFT}" y="{TOP + number * high - 2}" font-size="9" fill="#777777">from step {number * ROW + 1}</text>'
            yield from self.row(number, TOP + number * high)
        for number, line in enumerate(legend):
            yield from line.row(0, TOP + self.rows * high - GAP / 2 + number * 22, has_lines=False)
        yield "</svg>"
