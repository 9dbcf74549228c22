// The frames of a report with pixmaps. They are read from its bytes: as one text a report may be longer than a string can be.

// How much of a report's frames a page shows: four of the largest frames have so many pixels.
export const MOST_FRAMES = 512, MOST_PIXELS = 1 << 26;

const LINE_FEED = 10, BLANK = 32, ZERO = 48;
const FRAME_HEAD = "P3";

const decoder = new TextDecoder();

// Reads numbers and lines from bytes, from the front on.
class Reader {
  constructor(bytes) {
    this.bytes = bytes;
    this.at = 0;
  }

  get isAtEnd() {
    return this.at >= this.bytes.length;
  }

  line() {
    const found = this.bytes.indexOf(LINE_FEED, this.at);
    const end = found < 0 ? this.bytes.length : found;
    const line = this.bytes.subarray(this.at, end);
    this.at = end + 1;
    return line;
  }

  words() {
    return decoder.decode(this.line()).split(" ");
  }

  // A number and the one byte behind it.
  number() {
    let number = 0;
    for (let byte = this.bytes[this.at++]; byte > BLANK; byte = this.bytes[this.at++]) number = number * 10 + byte - ZERO;
    return number;
  }

  // The pixels behind the head of a pixmap, as red, green, blue and an opaque alpha.
  pixels(width, height) {
    const pixels = new Uint8ClampedArray(width * height * 4);
    for (let place = 0; place < pixels.length; place += 4) {
      pixels[place] = this.number();
      pixels[place + 1] = this.number();
      pixels[place + 2] = this.number();
      pixels[place + 3] = 255;
    }
    return pixels;
  }

  frame() {
    const [width, height] = this.words().map(Number);
    this.line(); // the largest value, which is 255
    return { width, height, pixels: this.pixels(width, height) };
  }
}

// Each frame of a report, in order, with the CRTC and the commit of its latch. No line but those of latches and heads begins with
// L or P, so the others are passed without being read.
export function* framesOf(bytes) {
  const reader = new Reader(bytes);
  let crtc = 0, commit = 0;
  while (!reader.isAtEnd) {
    const line = reader.line();
    const kind = decoder.decode(line.subarray(0, 2));
    if (kind === "L ") [crtc, commit] = decoder.decode(line).split(" ").slice(1, 3).map(Number);
    else if (kind === FRAME_HEAD) yield { crtc, commit, ...reader.frame() };
  }
}

// Room that is enough for a report with so many frames of at most so many pixels: a pixel has up to twelve bytes.
export function roomForFrames(reportLength, frames, pixels) {
  return reportLength + frames * (pixels * 12 + 32);
}
