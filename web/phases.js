// The phases of a run, each with the time that it took, or has taken so far, and how far it is as nearly as that is known.
import { element } from "./elements.js";

const PHASES = {
  one: { replies: "replies", report: "report", frames: "frames" },
  replay: { report: "report", frames: "frames" },
  suspend: { report: "report" },
  legacy: { script: "script" },
  audit: { audit: "audit" },
};
const TRIAL = { part: "first part" };
const TICK = 100; // milliseconds

const seconds = (milliseconds) => `${(milliseconds / 1000).toFixed(milliseconds < 10000 ? 2 : 0)} s`;

export class Phases {
  constructor(list) {
    this.list = list;
  }

  start(word, isTried) {
    this.list.replaceChildren(...Object.entries({ ...(isTried && TRIAL), ...PHASES[word] }).map(([phase, name]) => {
      const item = element("li", {}, name, element("span", { className: "note" }), element("span", { className: "time" }));
      item.dataset.phase = phase;
      return item;
    }));
    this.current = null;
    clearInterval(this.ticking);
    this.ticking = setInterval(() => this.tick(), TICK);
  }

  // Begins a phase, which began at a time since the epoch and is expected to take so many milliseconds, where that is known.
  begin({ phase, at, expected }) {
    this.finish("done");
    this.took = null;
    this.current = this.list.querySelector(`[data-phase="${phase}"]`);
    this.current.className = "now";
    this.expected = expected;
    this.began = at - performance.timeOrigin;
  }

  // Takes the time that the present phase took, as the worker has it: the page may have been at other work.
  tell(time) {
    this.took = time;
  }

  // Tells how far the present phase is, which then is no guess any more.
  note(text) {
    this.expected = null;
    this.write(text);
  }

  write(text) {
    if (this.current) this.current.querySelector(".note").textContent = text;
  }

  tick() {
    if (!this.current) return;
    const taken = this.took ?? performance.now() - this.began;
    this.current.querySelector(".time").textContent = seconds(taken);
    if (this.expected) this.guess(taken / this.expected);
  }

  // (Never 100 %: that a phase has ended is known by its end alone.)
  guess(share) {
    this.write(share < 1 ? `about ${Math.floor(share * 100)} %` : "longer than estimated");
    this.current.style.setProperty("--far", Math.min(share, 1));
  }

  // Ends the present phase, and takes away what was guessed of it.
  finish(how) {
    if (this.expected) this.note("");
    this.tick();
    this.current?.style.removeProperty("--far");
    if (this.current) this.current.className = how;
    this.current = null;
  }

  end(how) {
    this.finish(how);
    clearInterval(this.ticking);
  }
}
