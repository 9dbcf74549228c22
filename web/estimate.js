// How long the phases of a run will take, estimated by how long a first part of the script took. A call tells nothing before it
// ends, so there is nothing better to go by. A script whose first part has a fault has no estimate.
import { isWritten } from "./calls.js";

const LONG = 1 << 15; // bytes: a shorter script is not worth the trial
const SHARE = 8; // the part is one of so many
const LINE_FEED = 10;

// Whether a run begins with a trial. The first part of a text with a schedule or a report behind it is none of its kind.
export const isTried = (bytes, word) => bytes.length >= LONG && word !== "replay" && word !== "audit";

// The first part of a script, which ends behind a line.
export function firstPart(bytes) {
  return bytes.subarray(0, bytes.lastIndexOf(LINE_FEED, Math.floor(bytes.length / SHARE)) + 1);
}

// Estimates phases in their order: the first by the part's length, each other one by the phase before it, which has ended by then.
export class Estimate {
  constructor(whole, part) {
    this.times = new Map(); // of the part's phases, in milliseconds
    this.before = { time: whole, inPart: part };
  }

  // Does a phase with the part, and keeps its time where it gave an answer. Tells whether the next phase can be tried.
  tryPhase(phase, begin) {
    const began = performance.now(), told = begin();
    if (told === null || !isWritten(told.status)) return told === null;
    this.times.set(phase, performance.now() - began);
    return true;
  }

  // The time that a phase will take, or null where that is not known.
  of(phase) {
    const expected = (this.before.time * this.times.get(phase)) / this.before.inPart;
    return Number.isFinite(expected) && expected > 0 ? expected : null;
  }

  // Takes the time that a phase has taken.
  learn(phase, time) {
    this.before = { time, inPart: this.times.get(phase) };
  }
}
