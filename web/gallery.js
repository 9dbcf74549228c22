// The frames: for each CRTC what it latched, in order. The pictures come later than the report, one by one.
import { belongTo, element, found } from "./elements.js";
import { MOST_FRAMES } from "./frames.js";
import { isOff, keyOf } from "./report.js";

const SMALL = 240; // pixels: what is smaller is enlarged by a whole number
const LARGE = 384; // what is larger is shown smaller, until it is chosen

// How wide a frame is shown. It is never wider than its column.
function shownWidth(width) {
  return Math.min(LARGE, width * Math.max(1, Math.floor(SMALL / width)));
}

function figureOf(latch) {
  const off = isOff(latch);
  const caption = element("figcaption", { text: `commit ${latch.commit}, count ${latch.count}` });
  const place = element("div", { className: off ? "off" : "awaited", text: off ? "off" : "…" });
  const figure = element("figure", { tabIndex: 0, title: off ? "" : `SHA-256 ${latch.digest}` }, place, caption);
  return belongTo(figure, { commit: latch.commit });
}

export class Gallery {
  constructor() {
    this.section = found("shown");
    this.frames = found("frames");
    this.more = found("more-frames");
    this.figures = new Map();
  }

  clear() {
    this.section.hidden = true;
    this.more.hidden = true;
    this.frames.replaceChildren();
    this.figures.clear();
  }

  // Shows a place for each latch of a report, as far as there are frames to be shown.
  show(report) {
    const latches = report.latches.slice(0, MOST_FRAMES);
    if (latches.length < report.latches.length) this.tellMore(MOST_FRAMES);
    const crtcs = [...new Set(latches.map((latch) => latch.crtc))].sort((one, other) => one - other);
    for (const crtc of crtcs) {
      const row = element("div", { className: "row" });
      for (const latch of latches.filter((it) => it.crtc === crtc)) {
        const figure = figureOf(latch);
        this.figures.set(keyOf(crtc, latch.commit), figure);
        row.append(figure);
      }
      this.frames.append(element("h3", { text: `CRTC ${crtc}` }), row);
    }
    this.section.hidden = crtcs.length === 0;
  }

  // Puts a picture into its place; tells how many of all are there.
  put({ crtc, commit, width, height, picture }) {
    const canvas = element("canvas", { width, height, ariaLabel: `crtc${crtc}, commit ${commit}: ${width} by ${height} pixels` });
    canvas.classList.toggle("large", width > LARGE);
    canvas.style.width = `${shownWidth(width)}px`;
    canvas.setAttribute("role", "img");
    canvas.getContext("bitmaprenderer").transferFromImageBitmap(picture);
    this.figures.get(keyOf(crtc, commit))?.firstChild.replaceWith(canvas);
    const drawn = this.frames.querySelectorAll("canvas").length, awaited = this.frames.querySelectorAll(".awaited").length;
    return `${drawn} of ${drawn + awaited}`;
  }

  tellMore(shown) {
    this.more.textContent = `The first ${shown} frames are drawn; the others are too many or too large. The report has their digests.`;
    this.more.hidden = false;
  }
}
