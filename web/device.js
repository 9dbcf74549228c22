// The worker: it runs the device on a script in phases, and tells each one's text as soon as it is there. To stop it, the page
// ends the worker.
import { isWritten, PPM, TRACE } from "./calls.js";
import { Estimate, firstPart, isTried } from "./estimate.js";
import { framesOf, MOST_FRAMES, MOST_PIXELS, roomForFrames } from "./frames.js";
import { open } from "./module.js";
import { isOff, readReport } from "./report.js";
import { largestMode, readScript } from "./script.js";

const FIRST_ROOM = 1 << 16;
const MOST_ROOM = 2 ** 31; // of a guess; a report may need more, and then gets it

// The phases of each word of the program. Each gives what the call told, or null where there is nothing to do.
const PHASES = {
  one: { replies: (run) => run.text("verdicts", 0, "replies"), report: (run) => run.report("one"), frames: (run) => run.frames("one") },
  replay: { report: (run) => run.report("replay"), frames: (run) => run.frames("replay") },
  suspend: { report: (run) => run.text("suspend", 0, "report") },
  legacy: { script: (run) => run.text("legacy", 0, "script") },
  audit: { audit: (run) => run.device.audit(run.bytes) },
};

class Run {
  constructor(device, bytes) {
    this.device = device;
    this.bytes = bytes;
  }

  // Makes a call, and posts its text.
  text(word, options, kind) {
    const told = this.device.call(word, this.bytes, options, FIRST_ROOM);
    if (isWritten(told.status)) {
      this.written = new TextDecoder().decode(told.text);
      this.post({ kind, text: this.written });
    }
    return told;
  }

  post(message) {
    postMessage(message);
  }

  report(word) {
    return this.text(word, TRACE, "report");
  }

  // Makes the frames, and posts each as a picture.
  frames(word) {
    const count = readReport(this.written).latches.filter((latch) => !isOff(latch)).length;
    if (count === 0) return null;
    const room = roomForFrames(this.written.length, count, largestMode(readScript(new TextDecoder().decode(this.bytes))));
    const told = this.device.call(word, this.bytes, PPM, Math.min(room, MOST_ROOM));
    if (isWritten(told.status)) this.pictures = this.postFrames(told.text);
    return told;
  }

  async postFrames(bytes) {
    let shown = 0, pixels = 0;
    for (const { crtc, commit, width, height, pixels: data } of framesOf(bytes)) {
      pixels += width * height;
      if (shown === MOST_FRAMES || pixels > MOST_PIXELS) return postMessage({ kind: "moreFrames", shown });
      const picture = await createImageBitmap(new ImageData(data, width, height));
      postMessage({ kind: "frame", crtc, commit, width, height, picture }, [picture]);
      shown += 1;
    }
  }
}

// A run of a first part alone, of which nothing is shown.
class Trial extends Run {
  post() {}
  postFrames() {}
}

// What a call told, without the text, which stays in the module's memory.
const withoutText = ({ text, ...told }) => told;

// Tells that a phase begins, and when, since the page may be at other work.
function tellPhase(phase, expected) {
  postMessage({ kind: "phase", phase, expected, at: performance.timeOrigin + performance.now() });
}

// What a first part of a long script lets expect. It has an instance of its own, so the run goes on whatever becomes of that.
async function estimate({ bytes, word, module }) {
  if (!isTried(bytes, word)) return null;
  tellPhase("part");
  const part = firstPart(bytes), expected = new Estimate(bytes.length, part.length);
  try {
    const trial = new Trial(await open(module), part), phases = Object.entries(PHASES[word]);
    phases[0][1](trial); // (untimed: code is slow until it has run for a while)
    phases.every(([phase, begin]) => expected.tryPhase(phase, () => begin(trial)));
  } catch {
    // (A trap: then less is known.)
  }
  return expected;
}

async function execute(asked) {
  const { bytes, word, module } = asked, expected = await estimate(asked), run = new Run(await open(module), bytes);
  let last = null;
  for (const [phase, begin] of Object.entries(PHASES[word])) {
    tellPhase(phase, expected?.of(phase));
    const began = performance.now();
    last = begin(run) ?? last;
    await run.pictures;
    const time = performance.now() - began;
    expected?.learn(phase, time);
    postMessage({ kind: "took", time });
    if (!isWritten(last.status)) break;
  }
  postMessage({ kind: "end", told: withoutText(last) });
}

onmessage = ({ data }) => execute(data).catch((error) => postMessage({ kind: "trap", why: String(error.message ?? error) }));
