// What each step of a history did, in words: whose it is, and what it changed. All is read from the script and the report.
import { commitOf, isOff, keyOf, refusalOf } from "./report.js";
import { assignmentsOf } from "./script.js";
import { isOfClient, placeLatches } from "./timeline.js";

const ASKS_FOR_EVENT = 0x1;
const OF_CONTEXTS = new Set(["begin", "lock", "backoff", "relock"]);
const NOT_KEPT = new Set(["IN_FENCE_FD", "OUT_FENCE_PTR"]);

const hasFlag = (command, flag) => command?.words[0] === "atomic" && (parseInt(command.words[1], 16) & flag) !== 0;

// The rule of a refusal, as docs/DEVICE.md has it.
export function ruleOf(reply, rules) {
  const rule = rules[refusalOf(reply)];
  return rule ? `${rule.number} ${rule.name}: ${rule.text}${rule.exactly ? ` (${rule.exactly})` : ""}` : "";
}

// The values of all properties while a history goes on.
class Values {
  constructor(start) {
    this.start = start;
    this.now = new Map();
  }

  of(object, property) {
    const atStart = this.start[`${object.replace(/\d+$/, "")}.${property}`] ?? "?";
    return this.now.get(`${object}.${property}`) ?? (atStart === "its index" ? object.match(/\d+$/)[0] : atStart);
  }

  // Takes a request's assignments, of which the last to a property counts; tells what each changed.
  take(assignments) {
    const last = new Map(assignments.map((it) => [`${it.object}.${it.property}`, it]));
    return [...last].map(([name, { object, property, value }]) => {
      if (NOT_KEPT.has(property)) return `${name} = ${value}, for this commit alone`;
      const before = this.of(object, property);
      this.now.set(name, value);
      return before === value ? `${name} stays ${value}` : `${name}: ${before} → ${value}`;
    });
  }
}

class Telling {
  constructor(script, report, words) {
    Object.assign(this, { script, report, rules: words.rules });
    this.values = new Values(words.start);
    this.next = new Map(); // the number of the next command, by client
    this.commands = []; // the command of each commit, by its number
    this.returning = new Map(); // the commit that a client waits for
    this.counts = new Map(); // of vblanks, by CRTC
    this.latchAt = new Map(placeLatches(report).map((it) => [it.place, it.latch]));
  }

  step([kind, ...words], place) {
    if (kind === "stall") return { said: ["Nothing can be done any more."], changes: [this.report.end] };
    if (kind === "vblank") return this.vblank(words[0], place);
    return isOfClient(kind) ? this.ofClient(kind, words) : this.ofCommit(kind, words, place);
  }

  ofClient(kind, [client, object]) {
    if (kind === "return") return this.goOn(client);
    const number = this.next.get(client) ?? 1, key = keyOf(client, number);
    const command = this.script.commands.get(key), reply = this.report.replies.get(key);
    if (OF_CONTEXTS.has(kind)) return { command, ...this.ofContext(kind, client, object) };
    this.next.set(client, number + 1);
    const answer = reply ? reply.words.join(" ") : "no answer";
    return { command, commit: commitOf(reply), ...this.answer(kind, client, command, reply, answer) };
  }

  ofContext(kind, client, object) {
    const said = {
      begin: `Client ${client} begins to take the locks that its request needs.`,
      lock: `Client ${client} takes the lock of ${object}.`,
      backoff: `Client ${client} met a lock of an older request. It gives all its locks back, and waits.`,
      relock: `The lock that client ${client} met is free. It takes its locks again.`,
    };
    return { said: [said[kind]], changes: [] };
  }

  answer(kind, client, command, reply, answer) {
    const said = [`The answer to client ${client}: ${answer}.`];
    if (kind === "refuse") return { said: [...said, ruleOf(reply, this.rules)].filter(Boolean), changes: ["nothing: it was refused"] };
    if (kind === "test") return { said, changes: ["nothing: it was a test"] };
    if (kind === "swap") return { said, changes: this.swap(client, command, commitOf(reply)) };
    return { said: [...said, reply ? ruleOf(reply, this.rules) : ""].filter(Boolean), changes: this.made(command, reply) };
  }

  swap(client, command, commit) {
    this.commands[commit] = command;
    this.returning.set(client, commit);
    const changes = command ? this.values.take(assignmentsOf(command.words)) : [];
    return hasFlag(command, ASKS_FOR_EVENT) ? [...changes, "an event is reserved on each CRTC that the request names"] : changes;
  }

  // What a command of another kind made, closed, signalled or read.
  made(command, reply) {
    const [word, label] = command?.words ?? [], [answered, ...rest] = reply?.words ?? [];
    if (answered === "made") return [`${word} ${label} has the id ${rest[0]}`];
    if (answered === "event") return [`the client has read the event with user data ${rest[0]} and count ${rest[1]}`];
    if (answered !== "done") return ["nothing"];
    const done = { closefb: ["framebuffer", "closed"], destroy: ["blob", "destroyed"], signal: ["fence", "signalled"] };
    const [thing, changed] = done[word] ?? ["", "done"];
    return [`${thing} ${label} is ${changed}`];
  }

  goOn(client) {
    const commit = this.returning.get(client), command = this.commands[commit];
    return { command, commit, said: [`Client ${client} goes on: commit ${commit}, for which it waited, is cleaned up.`], changes: [] };
  }

  ofCommit(kind, [commit, object], place) {
    const latch = this.latchAt.get(place);
    const said = {
      claim: `A worker takes up commit ${commit}: its fences are signalled, and the commits before it are out of its way.`,
      write: `Commit ${commit} writes the new state of ${object} into its shadow registers.`,
      flush: latch ? `Commit ${commit} turns ${object} off.` : `Commit ${commit} gives ${object} its GO: the next vblank latches.`,
      hwdone: `All registers of commit ${commit} are written and flushed.`,
      cleanup: `Commit ${commit} is cleaned up: its old states are given up.`,
    };
    return { command: this.commands[commit], commit: Number(commit), said: [said[kind]], changes: latch ? this.latched(latch) : [] };
  }

  vblank(object, place) {
    const count = (this.counts.get(object) ?? 0) + 1, latch = this.latchAt.get(place);
    this.counts.set(object, count);
    const changes = [`the count of ${object} is ${count}`, ...(latch ? this.latched(latch) : [])];
    return { command: latch && this.commands[latch.commit], commit: latch?.commit, said: [`The vertical blanking of ${object}.`], changes };
  }

  latched(latch) {
    const { crtc, commit, count } = latch, command = this.commands[commit];
    const shown = isOff(latch) ? `crtc${crtc} is off` : `crtc${crtc} shows commit ${commit}`;
    const event = hasFlag(command, ASKS_FOR_EVENT) ? [`client ${command.client} has an event with count ${count}`] : [];
    const fence = assignmentsOf(command?.words ?? []).findLast((it) => it.object === `crtc${crtc}` && it.property === "OUT_FENCE_PTR");
    const signalled = fence?.value.startsWith("+") ? [`fence ${fence.value.slice(1)} is signalled`] : [];
    return [shown, ...event, ...signalled];
  }
}

// Of each step: `said`, sentences; `changes`, what it changed; and its `command` and `commit` where it has some.
export function explainSteps(script, report, words) {
  const telling = new Telling(script, report, words);
  return report.steps.map((step, place) => telling.step(step, place));
}
