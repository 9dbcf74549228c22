// A picture (SVG) in lanes and steps, which go on in the row below where a row is full: tools/canvas.py once more, and
// web/test.mjs compares the two byte for byte.

export const STEP = 11, LANE = 30, LEFT = 92, TOP = 34, GAP = 30; // pixels
export const ROW = 112; // steps, where a picture does not say otherwise
export const INK = "#222222", PALE = "#c9d3df";
const GRID = "#e4e4e4", RED = "#c00000", FAINT = "#777777";
const BARS = 0, MARKS = 1, WORDS = 2; // what comes later is painted over what comes earlier

const ESCAPED = { "&": "&amp;", "<": "&lt;", ">": "&gt;", '"': "&quot;", "'": "&#x27;" };
export const escaped = (text) => text.replace(/[&<>"']/g, (letter) => ESCAPED[letter]);

// Sums of fractions keep three digits, as nobody sees more.
const written = (value) => (typeof value === "number" ? String(Math.round(value * 1000) / 1000) : value);

const attributesOf = (attributes) => Object.entries(attributes).map(([name, value]) => `${name}="${written(value)}"`).join(" ");

export class Canvas {
  constructor(steps, names, rowLength = ROW) {
    this.names = names;
    this.rowLength = rowLength;
    this.rows = Math.max(1, Math.ceil(steps / rowLength));
    this.steps = Math.min(steps, rowLength);
    this.shapes = Array.from({ length: this.rows }, () => []);
  }

  get width() {
    return LEFT + (this.steps + 1) * STEP + 20;
  }

  get laneHeight() {
    return this.names.length * LANE;
  }

  x(place) {
    return (place + 0.5) * STEP;
  }

  y(lane) {
    return (lane + 0.5) * LANE;
  }

  // A shape between two ends, in each row that it reaches into; `of` are the command and the commit that it belongs to.
  add(layer, begin, end, tag, attributes, { title = "", words = "", of = {} } = {}) {
    const inside = (title ? `<title>${escaped(title)}</title>` : "") + escaped(words);
    const shape = `<${tag} ${attributesOf({ ...attributes, ...of })}>${inside}</${tag}>`;
    const rowOf = (x) => Math.floor(x / (this.rowLength * STEP));
    // (a row shows one step more than it has)
    const first = Math.max(rowOf(begin - STEP), 0), last = Math.min(rowOf(end), this.rows - 1);
    for (let row = first; row <= last; row++) this.shapes[row].push({ layer, shape });
  }

  text(x, lane, words, { size = 10, anchor = "start", colour = INK, of } = {}) {
    const reach = 7 * words.length;
    const place = { x, y: this.y(lane) + 4, "font-size": size, "text-anchor": anchor, fill: colour };
    this.add(WORDS, x - reach, x + reach, "text", place, { words, of });
  }

  bar(lane, begin, end, colour, title, { height = 14, opacity = 1, dashes = "", of } = {}) {
    const x = this.x(begin), width = Math.max(this.x(end) - x, 3);
    const paint = dashes ? { stroke: colour, "stroke-dasharray": dashes, fill: "none" } : { fill: colour };
    const attributes = { x, y: this.y(lane) - height / 2, width, height, rx: 2, ...paint, ...(opacity < 1 ? { opacity } : {}) };
    this.add(BARS, x, x + width, "rect", attributes, { title, of });
  }

  mark(place, tag, title, of, attributes) {
    this.add(MARKS, this.x(place) - 7, this.x(place) + 7, tag, attributes, { title, of });
  }

  tick(lane, place, colour, title, { height = 14, of } = {}) {
    this.mark(place, "rect", title, of, { x: this.x(place) - 1, y: this.y(lane) - height / 2, width: 2, height, fill: colour });
  }

  dot(lane, place, title, { fill = INK, size = 3.5, of } = {}) {
    this.mark(place, "circle", title, of, { cx: this.x(place), cy: this.y(lane), r: size, fill, stroke: INK });
  }

  diamond(lane, place, title, fill, of) {
    const x = this.x(place), y = this.y(lane);
    this.mark(place, "path", title, of, { d: `M${written(x)} ${written(y - 7)}l5 7l-5 7l-5 -7Z`, fill, stroke: INK });
  }

  cross(lane, place, title, of) {
    const x = this.x(place), y = this.y(lane);
    const d = `M${written(x - 4)} ${written(y - 4)}l8 8m-8 0l8 -8`;
    this.mark(place, "path", title, of, { d, stroke: RED, "stroke-width": 2 });
  }

  // A lane's name, and its line where there is one.
  lane(name, lane, top, width, hasLine) {
    const y = top + this.y(lane);
    const place = `x="${LEFT - 10}" y="${written(y + 4)}" font-size="11" text-anchor="end" fill="${INK}"`;
    const parts = [`<text ${place}>${escaped(name)}</text>`];
    if (hasLine) parts.push(`<rect x="${LEFT}" y="${written(y - 0.5)}" width="${width}" height="1" fill="${GRID}"/>`);
    return parts;
  }

  // The parts of one row: the lanes with their names and lines, and its shapes, cut at its ends.
  row(number, top, hasLines = true) {
    const begin = number * this.rowLength * STEP, width = (this.steps + 1) * STEP, height = this.laneHeight;
    const shapes = [...this.shapes[number]].sort((one, other) => one.layer - other.layer).map((it) => it.shape);
    return [
      ...this.names.flatMap((name, lane) => this.lane(name, lane, top, width, hasLines)),
      `<svg x="${LEFT}" y="${top}" width="${width}" height="${height}" viewBox="${begin} 0 ${width} ${height}">`,
      ...shapes,
      "</svg>",
    ];
  }

  // One row as a picture of its own, for a page that draws rows only where they are seen.
  rowPicture(number, hasLines = true) {
    const { width, laneHeight: height } = this;
    const size = `width="${width}" height="${height}" viewBox="0 0 ${width} ${height}"`;
    return `<svg xmlns="http://www.w3.org/2000/svg" ${size}>${this.row(number, 0, hasLines).join("")}</svg>`;
  }

  // How many steps a row may have within a width.
  static stepsWithin(width) {
    return Math.floor((width - LEFT - 20) / STEP) - 1;
  }

  // The step at a place of a row's picture.
  stepAt(row, x) {
    return row * this.rowLength + Math.floor((x - LEFT) / STEP);
  }

  // The whole picture: a title, the rows, and lines of a legend, which are canvases of one lane.
  picture(title, legend) {
    const high = this.laneHeight + GAP;
    const width = Math.max(...[this, ...legend].map((it) => it.width));
    const height = TOP + this.rows * high + legend.length * 22;
    const size = `width="${width}" height="${height}"`;
    const parts = [
      `<svg xmlns="http://www.w3.org/2000/svg" ${size} viewBox="0 0 ${width} ${height}" font-family="sans-serif">`,
      `<rect ${size} fill="white"/>`,
      `<text x="${LEFT}" y="18" font-size="12" fill="${INK}">${escaped(title)}</text>`,
    ];
    for (let number = 0; number < this.rows; number++) {
      const top = TOP + number * high;
      if (this.rows > 1) {
        parts.push(`<text x="${LEFT}" y="${top - 2}" font-size="9" fill="${FAINT}">from step ${number * this.rowLength + 1}</text>`);
      }
      parts.push(...this.row(number, top));
    }
    legend.forEach((line, number) => parts.push(...line.row(0, TOP + this.rows * high - GAP / 2 + number * 22, false)));
    return [...parts, "</svg>"].join("\n");
  }
}
