// The script's lines, each with its reply beside it, and below a refusal its rule in words. A script may have very many lines, so
// they are made block by block, where they come into sight.
import { belongTo, element, markChosen, scrollWithin } from "./elements.js";
import { commitOf, isRefused, keyOf } from "./report.js";
import { linesBeforeReport } from "./script.js";
import { ruleOf } from "./steps.js";

const BLOCK = 256; // lines
const LINE_HEIGHT = 18; // pixels, of a block that is not made yet

export class Listing {
  constructor(list, rules) {
    this.list = list;
    this.rules = rules;
    this.sight = new IntersectionObserver((seen) => seen.filter((it) => it.isIntersecting).forEach((it) => this.make(it.target)));
    this.chosen = {};
  }

  // Shows a script that has no replies yet.
  show(script) {
    Object.assign(this, { script, replies: new Map(), fault: null, chosen: {}, lineOf: new Map() });
    this.before = linesBeforeReport(script.lines);
    this.commandAt = new Map([...script.commands.values()].map((command) => [command.line, command]));
    this.sight.disconnect();
    const blocks = Math.ceil(script.lines.length / BLOCK);
    this.list.replaceChildren(...Array.from({ length: blocks }, (_, number) => this.emptyBlock(number)));
  }

  emptyBlock(number) {
    const first = number * BLOCK, lines = Math.min(BLOCK, this.script.lines.length - first);
    const block = element("ol", { start: first + 1 });
    block.style.minHeight = `${lines * LINE_HEIGHT}px`;
    block.dataset.first = first;
    this.sight.observe(block);
    return block;
  }

  // Makes the lines of a block.
  make(block) {
    const first = Number(block.dataset.first);
    this.sight.unobserve(block);
    block.replaceChildren(...this.script.lines.slice(first, first + BLOCK).map((text, place) => this.line(first + place + 1, text)));
    markChosen(block, this.chosen);
  }

  line(number, text) {
    const command = this.commandAt.get(number), reply = command && this.replies.get(keyOf(command.client, command.number));
    const line = lineFor(number, text, command, reply ?? this.silence, this.rules);
    if (number > this.before) line.firstChild.textContent = number - this.before; // (the lines of a report are counted by themselves)
    if (this.fault?.line === number) {
      line.className = "refused fault";
      line.append(element("p", { text: this.fault.words }));
    }
    return line;
  }

  // What stands beside a command that has no reply. An audit makes none.
  get silence() {
    if (this.before < this.script.lines.length) return { words: [""], isSilent: true };
    return { words: [this.replies.size === 0 ? "no answer yet" : "no answer"], isSilent: true };
  }

  // Puts replies beside their lines. Some have none: `suspend` adds two commands.
  answer(replies) {
    this.replies = replies;
    for (const [key, reply] of replies) {
      const command = this.script.commands.get(key);
      if (command && commitOf(reply) !== null) this.lineOf.set(commitOf(reply), command.line);
    }
    for (const block of this.list.children) if (block.hasChildNodes()) this.make(block);
    this.list.querySelector(".strays")?.remove();
    const strays = [...replies].filter(([key]) => !this.script.commands.has(key)).map(([, reply]) => strayLine(reply, this.rules));
    if (strays.length > 0) this.list.append(element("ol", { className: "strays" }, ...strays));
  }

  // Shows where the script has its first fault. It may be behind the last line.
  showFault(line, words) {
    this.fault = { line, words };
    const block = this.blockOf(line);
    if (block) this.make(block); // (again, if it was made: now with the fault)
    else this.list.append(element("ol", {}, element("li", { className: "refused" }, element("p", { text: words }))));
    scrollWithin(this.list, this.list.querySelector(`[data-line="${line}"]`) ?? this.list.lastChild);
  }

  blockOf(line) {
    return line > 0 && line <= this.script.lines.length ? this.list.children[Math.floor((line - 1) / BLOCK)] : undefined;
  }

  // The line of the next command behind the chosen one, or of the one before it; of the first, where none is chosen.
  next(direction) {
    const lines = this.script.lines.length, from = Number(this.list.querySelector(".chosen")?.dataset.line ?? 0);
    for (let line = from + direction; line > 0 && line <= lines; line += direction) {
      if (this.commandAt.has(line)) return this.lineAt(line);
    }
    return undefined;
  }

  // The item of a line, which is made if it is not yet.
  lineAt(line) {
    const block = this.blockOf(line);
    if (block && !block.hasChildNodes()) this.make(block);
    return this.list.querySelector(`[data-line="${line}"]`);
  }

  // Shows what belongs to a command or a commit.
  mark(chosen) {
    this.chosen = chosen;
    const line = this.script.commands.get(chosen.command)?.line ?? this.lineOf.get(chosen.commit);
    if (line !== undefined) this.lineAt(line);
    return markChosen(this.list, chosen);
  }
}

function lineFor(number, text, command, reply, rules) {
  const parts = [element("i", { text: number }), element("b", { text: command ? reply.words.join(" ") : "" }), element("code", { text })];
  const line = element("li", {}, ...parts);
  line.dataset.line = number;
  if (!command) return line;
  line.className = reply.isSilent ? "silent" : isRefused(reply) ? "refused" : "done";
  if (isRefused(reply)) line.append(element("p", { text: ruleOf(reply, rules) }));
  return belongTo(line, { command: keyOf(command.client, command.number), commit: commitOf(reply) });
}

// (A reply has a client and a number, as a command has.)
const strayLine = (reply, rules) => lineFor("", `client ${reply.client}, command ${reply.number}`, reply, reply, rules);
