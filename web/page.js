// The page: it hands the script to the worker, and shows what comes back.
import { areSame, decoded, encoded, joined } from "./bytes.js";
import { DRAINED, FAULT, isWritten, meaningOf, WRONG } from "./calls.js";
import { element, found, markChosen, scrollWithin } from "./elements.js";
import { isTried } from "./estimate.js";
import { takeFilesBy } from "./files.js";
import { Gallery } from "./gallery.js";
import { History } from "./history.js";
import { linkFor, scriptIn } from "./link.js";
import { Listing } from "./listing.js";
import { compile } from "./module.js";
import { Phases } from "./phases.js";
import { readReport } from "./report.js";
import { sayingOf } from "./sayings.js";
import { linesBeforeReport, linesOf, readScript, scriptOf, wordFor } from "./script.js";

const AUDITED = new Set(["one", "replay"]); // the words whose report is one of their script

const here = (name) => new URL(name, import.meta.url);
const fileAt = async (name) => {
  const answer = await fetch(here(name));
  if (!answer.ok) throw new Error(`${name} is not beside the page`);
  return answer;
};

// A script as the page reads it, with all lines that are shown for a word; no commands where the page cannot read it, since the
// device tells what is wrong with it.
function readOrLines(text, word) {
  try {
    const script = readScript(text);
    return word === "audit" ? { ...script, lines: linesOf(text) } : script;
  } catch {
    return { commands: new Map(), lines: linesOf(text) };
  }
}

const TRANSLATED = "Translated: the editor has the same by requests. Run executes them.";
const NO_REPORT = "There is no report to be audited: behind the script, put a line “report” and a report.";
const ESTIMATED = "At work. How far it is, is estimated by the time that a first part of the script took.";

class Page {
  constructor(words) {
    this.rules = words.rules;
    this.editor = found("script");
    this.kept = { bytes: null, shown: "" };
    this.phases = new Phases(found("phases"));
    this.listing = new Listing(found("replies"), words.rules);
    this.history = new History(words, (chosen) => this.mark(chosen, this.clicked));
    this.gallery = new Gallery();
  }

  // Puts a script's bytes into the editor, which holds no carriage returns, no byte order mark, and no bytes that are no letters.
  // Where there are such bytes, all are kept beside it, and are run until its text is changed.
  load(bytes) {
    const text = decoded(bytes);
    this.editor.value = text;
    this.keep(areSame(encoded(this.editor.value), bytes) ? null : bytes);
    found("word").value = wordFor(text);
    this.editor.setSelectionRange(0, 0);
    this.editor.scrollTop = 0;
  }

  get isKept() {
    return this.kept.bytes !== null && this.kept.shown === this.editor.value;
  }

  // The bytes that stand in the editor.
  get bytes() {
    return this.isKept ? this.kept.bytes : encoded(this.editor.value);
  }

  // Those of the script alone, without what stands behind it.
  get script() {
    const text = decoded(this.bytes), script = scriptOf(text);
    return script === text ? this.bytes : encoded(script);
  }

  keep(bytes) {
    this.kept = { bytes, shown: this.editor.value };
    found("kept").hidden = bytes === null;
  }

  // Begins a run of what stands in the editor; a run that goes on is ended.
  run() {
    this.stop();
    if (!this.isKept) this.keep(null);
    const { bytes } = this, word = found("word").value;
    this.read = readOrLines(decoded(bytes), word);
    this.ran = this.script;
    this.isTranslated = false;
    this.clear(word);
    this.conclude = (told) => (word === "audit" ? this.judge(told) : this.tell(told, word));
    this.begin(bytes, word);
  }

  // Audits the report that is shown, which stays.
  audit() {
    if (found("audit").hidden) return;
    this.stop();
    const report = found("report").textContent;
    this.conclude = (told) => this.judgeOwn(told, linesOf(report));
    this.begin(joined(this.ran, encoded(report)), "audit");
  }

  // Has a worker do what a word asks for.
  begin(bytes, word) {
    this.phases.start(word, isTried(bytes, word));
    this.say("At work.");
    found("stop").disabled = false;
    delete document.body.dataset.ended;
    const worker = new Worker(here("device.js"), { type: "module" });
    worker.onmessage = ({ data }) => HEARD[data.kind](this, data);
    worker.onerror = () => HEARD.trap(this, { why: "the worker could not be started" });
    this.worker = worker;
    this.compile().then((module) => worker.postMessage({ bytes, word, module }), (error) => this.giveUp(worker, error.message));
  }

  // The module, which is compiled once for all runs.
  compile() {
    this.module ??= compile();
    return this.module;
  }

  // Ends a run that could not begin.
  giveUp(worker, why) {
    this.module = null;
    if (this.worker === worker) HEARD.trap(this, { why });
  }

  clear(word) {
    found("replies-title").textContent = word === "audit" ? "Script and report" : "Replies";
    this.listing.show(this.read);
    this.history.clear();
    this.gallery.clear();
    for (const id of ["written", "audit"]) found(id).hidden = true;
    found("report").textContent = "";
  }

  // Puts the script that `legacy` writes in the place of the one with older calls.
  takeTranslation(text) {
    this.isTranslated = true;
    this.load(encoded(text));
    this.read = readOrLines(text);
    this.listing.show(this.read);
  }

  stop() {
    if (this.worker) this.end("stopped", "Stopped.");
  }

  // Ends the worker, and with it the module: the next run has another one.
  end(how, words, isBad = false) {
    this.worker.terminate();
    this.worker = null;
    this.phases.end(isBad || how === "stopped" ? "failed" : "done");
    found("stop").disabled = true;
    this.say(words, isBad);
    document.body.dataset.ended = how;
  }

  // Ends a run with what its last call told.
  tell(told, word) {
    const words = this.isTranslated ? TRANSLATED : meaningOf(told, word);
    this.end(`status ${told.status}`, words, !isWritten(told.status));
    found("audit").hidden = !isWritten(told.status) || !AUDITED.has(word);
    if (told.status === FAULT) this.showFault(told.line, words);
  }

  // Ends an audit of the report that stands behind the script.
  judge(told) {
    const { lines } = this.read, before = linesBeforeReport(lines);
    const isMissing = told.status === FAULT && told.line > lines.length && !lines.includes("report");
    const words = isMissing ? NO_REPORT : meaningOf(told, "audit");
    this.end(`status ${told.status}`, words, told.status !== DRAINED);
    if (told.status === FAULT) this.showFault(told.line, words);
    if (told.status === WRONG) this.showFault(before + told.line, `${words} ${this.saying(lines[before + told.line - 1])}`);
  }

  // Ends an audit of the report that is shown.
  judgeOwn(told, lines) {
    const saying = told.status === WRONG ? ` ${this.saying(lines[told.line - 1])}` : "";
    this.end(`status ${told.status}`, meaningOf(told, "audit") + saying, told.status !== DRAINED);
  }

  saying(line) {
    return sayingOf(line, this.read, this.rules);
  }

  showFault(line, words) {
    this.listing.showFault(line, words);
    this.selectLine(line);
  }

  say(words, isBad = false) {
    found("status").textContent = words;
    found("status").classList.toggle("bad", isBad);
  }

  showReport(text) {
    found("report").textContent = text; // (before it is read: the text is the device's, and what is drawn of it the page's)
    found("written").hidden = false;
    const report = readReport(text);
    this.listing.answer(report.replies);
    this.gallery.show(report);
    this.history.show(this.read, report);
  }

  // Shows everywhere what belongs to a command or a commit; what was clicked stays where it is.
  mark(chosen, clicked) {
    const line = this.listing.mark(chosen);
    markChosen(found("rows"), chosen);
    markChosen(found("frames"), chosen);
    if (line && clicked !== this.listing.list) scrollWithin(this.listing.list, line);
  }

  // Chooses what a line or a frame belongs to, and the step at which it was answered.
  choose(item, list) {
    const { command, commit } = item.dataset;
    const chosen = { command, commit: commit === undefined ? undefined : Number(commit) };
    this.clicked = list;
    const step = this.history.find(chosen);
    if (step >= 0) this.history.go(step);
    else this.mark(chosen, list);
    this.clicked = null;
  }

  // Selects a line of the script in the editor, whose lines may be others where other bytes are run.
  selectLine(line) {
    if (this.isKept) return;
    const lines = this.editor.value.split("\n"), from = lines.slice(0, line - 1).join("\n").length + (line > 1 ? 1 : 0);
    this.editor.setSelectionRange(from, from + (lines[line - 1] ?? "").length);
    this.editor.scrollTop = (this.editor.scrollHeight * Math.max(0, line - 4)) / lines.length;
  }
}

// What is done with each kind of message of the worker.
const HEARD = {
  phase: (page, phase) => {
    page.phases.begin(phase);
    if (phase.expected) page.say(ESTIMATED);
  },
  took: (page, { time }) => page.phases.tell(time),
  replies: (page, { text }) => page.listing.answer(readReport(text).replies),
  report: (page, { text }) => page.showReport(text),
  script: (page, { text }) => page.takeTranslation(text),
  frame: (page, frame) => page.phases.note(page.gallery.put(frame)),
  moreFrames: (page, { shown }) => page.gallery.tellMore(shown),
  end: (page, { told }) => page.conclude(told),
  trap: (page, { why }) => {
    const words = `The device gave up, so there is no answer: ${why}. It may need more stack or memory than it has here.`;
    page.end("trap", words, true);
  },
};

function runBy(page) {
  found("run").onclick = () => page.run();
  found("stop").onclick = () => page.stop();
  found("audit").onclick = () => page.audit();
  document.addEventListener("keydown", (event) => {
    if (event.key === "Enter" && (event.ctrlKey || event.metaKey)) event.shiftKey ? page.audit() : page.run();
    else if (event.key === "Escape") page.stop();
    else return;
    event.preventDefault();
  });
}

const ARROWS = { ArrowDown: 1, ArrowUp: -1 };

// The arrows go from reply to reply.
function goBy(page) {
  found("replies").addEventListener("keydown", (event) => {
    const item = ARROWS[event.key] && page.listing.next(ARROWS[event.key]);
    if (!item) return;
    event.preventDefault();
    page.choose(item, null);
  });
}

// A click on a line or a frame, or Enter on a frame, chooses it.
function chooseBy(page) {
  for (const list of [found("replies"), found("frames")]) {
    const chosen = (event) => event.target.closest("[data-command], [data-commit]");
    list.addEventListener("click", (event) => {
      const item = chosen(event);
      if (!item) return;
      page.choose(item, list);
      if (item.dataset.line) page.selectLine(Number(item.dataset.line));
    });
    list.addEventListener("keydown", (event) => {
      if (event.key === "Enter" && !event.ctrlKey && !event.metaKey && chosen(event)) page.choose(chosen(event), list);
    });
  }
}

async function copyLink(page) {
  history.replaceState(null, "", await linkFor(page.bytes));
  const isCopied = await navigator.clipboard?.writeText(location.href).then(() => true, () => false);
  page.say(isCopied ? "The link is copied. It holds the script." : "The link stands in the address bar. It holds the script.");
}

// (Meanwhile another script may have come into the editor, which stays.)
async function showExample(page, name) {
  if (!name) return;
  const bytes = new Uint8Array(await (await fileAt(`examples/${name}`)).arrayBuffer());
  if (found("example").value !== name) return;
  page.load(bytes);
  page.run();
}

async function listExamples(page) {
  const names = await (await fileAt("examples.json")).json();
  const options = names.map((name) => element("option", { value: name, text: name.replace(/\.kms$/, "").replaceAll("_", " ") }));
  found("example").replaceChildren(element("option", { value: "", text: "your own" }), ...options);
  found("example").onchange = ({ target }) => {
    history.replaceState(null, "", location.pathname + location.search);
    showExample(page, target.value).catch((error) => page.say(error.message, true));
  };
  return names;
}

// Shows the script that the page's link holds, or else the first example.
async function begin(page, names) {
  const script = await scriptIn(location.hash).catch((error) => page.say(`The link holds no script: ${error.message}`, true));
  if (script === undefined) return;
  if (script !== null) {
    page.load(script);
    return page.run();
  }
  const first = names.includes("two_screens.kms") ? "two_screens.kms" : names[0];
  found("example").value = first;
  await showExample(page, first);
}

async function start() {
  const page = new Page(await (await fileAt("words.json")).json());
  runBy(page);
  chooseBy(page);
  goBy(page);
  takeFilesBy(page);
  found("link").onclick = () => copyLink(page);
  page.editor.addEventListener("input", () => {
    found("example").value = "";
    page.keep(null);
    if (wordFor(page.editor.value) === "audit") found("word").value = "audit";
  });
  const names = await listExamples(page);
  const show = () => begin(page, names).catch((error) => page.say(error.message, true));
  addEventListener("hashchange", show);
  await show();
}

start().catch((error) => {
  found("status").textContent = error.message;
  found("status").classList.add("bad");
});
