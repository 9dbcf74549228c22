// The timeline. Its rows are as long as the page is wide, and each is drawn when it comes into sight. The step that is chosen is
// told below its slider, with its line and what it changed.
import { Canvas, LEFT, STEP } from "./canvas.js";
import { element, found, markChosen, scrollWithin } from "./elements.js";
import { keyOf } from "./report.js";
import { explainSteps } from "./steps.js";
import { drawHistory, legend } from "./timeline.js";

const SHORTEST_ROW = 20; // steps
const BESIDES_ANSWERS = new Set(["begin", "lock", "backoff", "relock", "return"]);
const SVG = "http://www.w3.org/2000/svg";

export class History {
  // `choose` is called with the command and the commit of what is chosen.
  constructor(words, choose) {
    Object.assign(this, { words, choose, section: found("history"), rows: found("rows"), slider: found("step") });
    this.slider.oninput = () => this.go(Number(this.slider.value) - 1);
    this.rows.onclick = (event) => this.click(event);
    this.sight = new IntersectionObserver((seen) => seen.filter((it) => it.isIntersecting).forEach((it) => this.drawRow(it.target)));
    new ResizeObserver(() => this.layOut()).observe(this.rows);
    found("signs").innerHTML = legend().map((line) => line.rowPicture(0, false)).join("");
    this.clear();
  }

  clear() {
    this.report = this.canvas = this.told = null;
    this.chosen = {};
    this.section.hidden = true;
    this.rows.replaceChildren();
  }

  show(script, report) {
    this.clear();
    if (report.steps.length === 0) return;
    Object.assign(this, { script, report, told: explainSteps(script, report, this.words), step: 0 });
    this.slider.max = report.steps.length;
    this.section.hidden = false; // (before it is laid out, so that it has a width)
    this.layOut();
    this.go(0);
  }

  // Makes the rows for the present width, if that asks for other rows.
  layOut() {
    if (!this.report) return;
    const length = Math.max(SHORTEST_ROW, Canvas.stepsWithin(this.rows.clientWidth));
    if (this.canvas?.rowLength === length) return;
    this.canvas = drawHistory(this.report, length);
    this.sight.disconnect();
    this.rows.replaceChildren(...Array.from({ length: this.canvas.rows }, (_, number) => this.emptyRow(number)));
    this.point();
  }

  emptyRow(number) {
    const row = element("div", { className: "steps" });
    row.dataset.row = number;
    row.style.minHeight = `${this.canvas.laneHeight}px`;
    this.sight.observe(row);
    return row;
  }

  // (A row may come into sight when another report has just taken its place.)
  drawRow(row) {
    this.sight.unobserve(row);
    if (!this.canvas) return;
    row.innerHTML = this.canvas.rowPicture(Number(row.dataset.row));
    markChosen(row, this.chosen);
    this.point();
  }

  click(event) {
    const row = event.target.closest(".steps");
    if (!row?.firstChild) return;
    const x = event.clientX - row.firstChild.getBoundingClientRect().left;
    const step = this.canvas.stepAt(Number(row.dataset.row), x);
    if (x < LEFT || step >= this.report.steps.length) return;
    this.go(step, false);
    this.slider.focus({ preventScroll: true });
  }

  // Chooses a step, and brings its row into sight unless it was clicked there.
  go(step, isFollowed = true) {
    this.step = step;
    this.slider.value = step + 1;
    found("step-number").textContent = `${step + 1} of ${this.report.steps.length}`;
    this.slider.setAttribute("aria-valuetext", `step ${step + 1}: ${this.report.steps[step].join(" ")}`);
    const told = this.told[step];
    this.explain(this.report.steps[step], told);
    this.chosen = { command: told.command && keyOf(told.command.client, told.command.number), commit: told.commit ?? undefined };
    this.point();
    if (isFollowed) scrollWithin(this.rows, this.rowOf(step));
    this.choose(this.chosen);
  }

  rowOf(step) {
    return this.rows.children[Math.floor(step / this.canvas.rowLength)];
  }

  explain(words, { said, changes, command }) {
    const step = element("code", { className: "step", text: words.join(" ") });
    const left = element("div", {}, step, ...said.map((text) => element("p", { text })));
    if (command) {
      const line = element("code", { text: command.words.join(" ") });
      left.append(element("p", { className: "line" }, `line ${command.line}: `, line));
    }
    found("explained").replaceChildren(left, element("ul", {}, ...changes.map((text) => element("li", { text }))));
  }

  // Draws a line at the chosen step, where its row is drawn.
  point() {
    this.rows.querySelector(".pointer")?.remove();
    if (!this.canvas) return;
    const inner = this.rowOf(this.step)?.querySelector("svg > svg");
    if (!inner) return;
    const pointer = document.createElementNS(SVG, "rect");
    const place = { x: this.step * STEP, y: 0, width: STEP, height: this.canvas.laneHeight, class: "pointer" };
    for (const [name, value] of Object.entries(place)) pointer.setAttribute(name, value);
    inner.prepend(pointer);
  }

  // The step at which a command was answered, or a commit swapped in; -1 where there is none.
  find({ command, commit }) {
    const isAnswer = ([kind]) => !BESIDES_ANSWERS.has(kind);
    const isIt = (told) => (command ? told.command && keyOf(told.command.client, told.command.number) === command : told.commit === commit);
    return this.told?.findIndex((told, place) => isAnswer(this.report.steps[place]) && isIt(told)) ?? -1;
  }
}
