// A history, drawn from a report with steps: tools/timeline.py once more, and web/test.mjs compares the two byte for byte.
//
// There is one lane for each client, one for each CRTC, and as many for commits as there are commits at one time.
import { Canvas, INK, PALE, ROW, STEP } from "./canvas.js";
import { commitOf, isOff, isRefused, keyOf } from "./report.js";

const COLOURS = ["#4e79a7", "#f28e2b", "#59a14f", "#b07aa1", "#e15759", "#76b7b2", "#edc948", "#9c755f"];
const RED = "#c00000", YELLOW = "#ffd54a", WHITE = "white", GREY = "#999999", DARK_GREY = "#888888";
const WAITING = { height: 12, dashes: "3 2" };
const OF_TAILS = new Set(["claim", "write", "flush", "hwdone", "vblank", "cleanup", "stall"]);

const colourOf = (commit) => COLOURS[commit % COLOURS.length];
const ofCommit = (commit) => ({ "data-commit": String(commit) });
const placed = (place, text) => `${place + 1}: ${text}`;

export const isOfClient = (kind) => !OF_TAILS.has(kind);

// `crtc1` is the CRTC 1.
export const crtcOf = (word) => Number(word.slice("crtc".length));

// The commits in order of their swaps, each with the places of its steps.
export function findCommits(steps) {
  const commits = [];
  steps.forEach(([kind, ...words], place) => {
    if (kind === "swap") commits.push({ number: commits.length, client: Number(words[0]), marks: { swap: place }, lane: 0 });
    else if (["claim", "hwdone", "cleanup"].includes(kind)) commits[Number(words[0])].marks[kind] = place;
  });
  return commits;
}

// Gives each commit the first lane where none stands any more, with room for its number; how many lanes there are.
function giveLanes(commits, last) {
  const ends = [];
  for (const commit of commits) {
    const begin = commit.marks.swap - 2 - Math.floor(String(commit.number).length / 2);
    const free = ends.findIndex((end) => end < begin);
    commit.lane = free < 0 ? ends.length : free;
    ends[commit.lane] = commit.marks.cleanup ?? last;
  }
  return ends.length;
}

// The latches with the place of each one's step, in the report's order. A latch stands where its CRTC's next vblank follows the
// commit's flush, or at the flush itself where the CRTC goes off.
export function placeLatches(report) {
  const latchOf = new Map(report.latches.map((latch) => [keyOf(latch.crtc, latch.commit), latch]));
  const flushed = new Map(), places = new Map();
  report.steps.forEach(([kind, ...words], place) => {
    if (kind === "flush") {
      const crtc = crtcOf(words[1]), key = keyOf(crtc, words[0]);
      if (latchOf.has(key) && isOff(latchOf.get(key))) places.set(key, place);
      else flushed.set(crtc, key);
    } else if (kind === "vblank") {
      const crtc = crtcOf(words[0]);
      places.set(flushed.get(crtc), place);
      flushed.delete(crtc);
    }
  });
  return [...latchOf].filter(([key]) => places.has(key)).map(([key, latch]) => ({ place: places.get(key), latch }));
}

// The contexts of a client, its commands, and the commits that it waits for.
class ClientLane {
  constructor(canvas, lane, client, replies) {
    Object.assign(this, { canvas, lane, client, replies });
    this.command = 1;
    this.began = this.backedOff = null; // where a context that is open began, and where it backed off
    this.returning = this.waited = 0;
  }

  step(place, kind, title) {
    const drawn = { begin: this.begin, lock: this.lock, backoff: this.backOff, relock: this.relock, return: this.goOn }[kind];
    if (drawn) drawn.call(this, place, title);
    else this.answer(place, kind, title);
  }

  begin(place) {
    this.began = place;
  }

  lock(place, title) {
    this.canvas.tick(this.lane, place, INK, title, { height: 10 });
  }

  backOff(place, title) {
    this.canvas.cross(this.lane, place, `${title}: it met an older context`);
    this.end(place);
    this.backedOff = place;
  }

  relock(place) {
    this.end(place);
    this.began = place;
  }

  goOn(place) {
    const look = { height: 4, opacity: 0.7, of: ofCommit(this.waited) };
    this.canvas.bar(this.lane, this.returning, place, colourOf(this.waited), `waits for commit ${this.waited}`, look);
  }

  // Draws what was open until here: a context, or its time without locks.
  end(place) {
    if (this.began !== null) this.canvas.bar(this.lane, this.began, place, PALE, "a context that takes locks");
    if (this.backedOff !== null) this.canvas.bar(this.lane, this.backedOff, place, INK, "backed off, without locks", WAITING);
    this.began = this.backedOff = null;
  }

  // The step that answers the client's command.
  answer(place, kind, title) {
    const key = keyOf(this.client, this.command), reply = this.replies.get(key);
    const said = reply ? `${title}: ${reply.words.join(" ")}` : title;
    const of = { "data-command": key };
    this.end(place);
    if (kind === "swap") {
      this.returning = place;
      this.waited = commitOf(reply);
      const look = { fill: colourOf(this.waited), size: 4.5, of: { ...of, ...ofCommit(this.waited) } };
      this.canvas.dot(this.lane, place, said, look);
    } else if (kind === "read") {
      this.canvas.diamond(this.lane, place, said, reply?.words[0] === "event" ? YELLOW : WHITE, of);
    } else {
      this.canvas.dot(this.lane, place, said, { fill: reply && isRefused(reply) ? RED : WHITE, of });
    }
    this.command += 1;
  }
}

function drawClient(canvas, lane, client, report) {
  const drawn = new ClientLane(canvas, lane, client, report.replies);
  report.steps.forEach(([kind, ...words], place) => {
    if (isOfClient(kind) && Number(words[0]) === client) drawn.step(place, kind, placed(place, [kind, ...words].join(" ")));
  });
  drawn.end(report.steps.length);
}

// Writes a name into a bar, behind what stands at its beginning, and again in each row that the bar reaches.
function nameBar(canvas, lane, begin, end, name, room) {
  const write = (place, behind) => {
    if ((end - place) * STEP > room + 6 * name.length) canvas.text(canvas.x(place) + behind, lane, name, { colour: WHITE });
  };
  write(begin, room);
  const row = canvas.rowLength;
  for (let place = (Math.floor(begin / row) + 1) * row; place < end; place += row) write(place, 4);
}

// What a CRTC shows, from each latch to the next, and its vblanks.
function drawCrtc(canvas, lane, crtc, report, placedLatches) {
  report.steps.forEach(([kind, word], place) => {
    if (kind === "vblank" && crtcOf(word) === crtc) canvas.tick(lane, place, DARK_GREY, placed(place, `vblank ${word}`), { height: 20 });
  });
  const latches = placedLatches.filter((it) => it.latch.crtc === crtc);
  const read = new Set(report.events.filter((event) => event.crtc === crtc).map((event) => event.count));
  latches.forEach(({ place, latch }, number) => {
    const end = latches[number + 1]?.place ?? report.steps.length;
    const of = ofCommit(latch.commit), hasEvent = read.has(latch.count);
    const shown = isOff(latch) ? "off" : `commit ${latch.commit}, frame ${latch.count}`;
    canvas.bar(lane, place, end, isOff(latch) ? GREY : colourOf(latch.commit), `crtc${crtc} shows ${shown}`, { of });
    if (hasEvent) canvas.diamond(lane, place, `an event with count ${latch.count}`, YELLOW, of);
    nameBar(canvas, lane, place, end, isOff(latch) ? "off" : String(latch.commit), hasEvent ? 9 : 4);
  });
}

// A commit from its swap to its cleanup: what it waits for, its writes and flushes, its latches.
function drawCommit(canvas, lane, commit, latches, last) {
  const { number, marks } = commit, colour = colourOf(number), of = ofCommit(number);
  const { swap, claim = last, hwdone = last, cleanup = last } = marks;
  canvas.text(canvas.x(swap) - 4, lane, String(number), { size: 9, anchor: "end", of });
  canvas.bar(lane, swap, claim, colour, `commit ${number} waits to be claimed`, { ...WAITING, of });
  if (claim < last) {
    canvas.bar(lane, claim, hwdone, colour, `commit ${number} writes registers`, { of });
    canvas.bar(lane, hwdone, cleanup, colour, `commit ${number} waits for its latches`, { height: 8, opacity: 0.5, of });
  }
  for (const { place, latch } of latches) {
    canvas.dot(lane, place, placed(place, `crtc${latch.crtc} latches commit ${number}`), { fill: WHITE, of });
  }
  if (cleanup < last) canvas.tick(lane, cleanup, INK, placed(cleanup, `cleanup ${number}`), { of });
}

const example = (look) => (canvas, place) => canvas.bar(0, place - 0.6, place + 0.6, look.colour ?? COLOURS[0], "", look);
const SIGNS = {
  "client:": [
    ["answer", (canvas, place) => canvas.dot(0, place, "", { fill: WHITE })],
    ["refused", (canvas, place) => canvas.dot(0, place, "", { fill: RED })],
    ["commit", (canvas, place) => canvas.dot(0, place, "", { fill: COLOURS[0], size: 4.5 })],
    ["event read", (canvas, place) => canvas.diamond(0, place, "", YELLOW)],
    ["none read", (canvas, place) => canvas.diamond(0, place, "", WHITE)],
    ["takes a lock", (canvas, place) => canvas.tick(0, place, INK, "", { height: 10 })],
    ["holds locks", example({ colour: PALE })],
    ["met an older context", (canvas, place) => canvas.cross(0, place, "")],
    ["without locks until it is gone", example({ colour: INK, ...WAITING })],
  ],
  "CRTC, commit:": [
    ["waits to be claimed", example(WAITING)],
    ["writes", example({})],
    ["waits for its latches", example({ height: 8, opacity: 0.5 })],
    ["latches", (canvas, place) => canvas.dot(0, place, "", { fill: WHITE })],
    ["cleaned up", (canvas, place) => canvas.tick(0, place, INK, "")],
    ["vertical blanking", (canvas, place) => canvas.tick(0, place, DARK_GREY, "", { height: 20 })],
    ["latch with an event", (canvas, place) => canvas.diamond(0, place, "", YELLOW)],
  ],
};

// Lines that say what signs mean.
export function legend() {
  return Object.entries(SIGNS).map(([name, signs]) => {
    const line = new Canvas(ROW, [name]);
    let at = 0.5;
    for (const [words, sign] of signs) {
      sign(line, at);
      line.text(line.x(at) + 12, 0, words);
      at += 3 + words.length * 0.55;
    }
    line.steps = Math.floor(at);
    return line;
  });
}

const upTo = (count) => Array.from({ length: count }, (_, place) => place);

function groupedBy(items, keyFor) {
  const groups = new Map();
  for (const item of items) groups.set(keyFor(item), [...(groups.get(keyFor(item)) ?? []), item]);
  return groups;
}

// The history on a canvas.
export function drawHistory(report, rowLength = ROW) {
  const last = report.steps.length, commits = findCommits(report.steps), latches = placeLatches(report);
  const lanesOfCommits = giveLanes(commits, last);
  const clients = upTo(Math.max(0, ...new Set([...report.replies.values()].map((reply) => reply.client))));
  const crtcs = [...new Set(report.latches.map((latch) => latch.crtc))].sort((one, other) => one - other);
  const names = [
    ...clients.map((place) => `client ${place + 1}`),
    ...crtcs.map((crtc) => `CRTC ${crtc}`),
    ...upTo(lanesOfCommits).map((lane) => (lane === 0 ? "commits" : "")),
  ];
  const canvas = new Canvas(last, names, rowLength);
  clients.forEach((place) => drawClient(canvas, place, place + 1, report));
  crtcs.forEach((crtc, place) => drawCrtc(canvas, clients.length + place, crtc, report, latches));
  const latchesOf = groupedBy(latches, (it) => it.latch.commit);
  for (const commit of commits) {
    drawCommit(canvas, clients.length + crtcs.length + commit.lane, commit, latchesOf.get(commit.number) ?? [], last);
  }
  return canvas;
}

// The whole picture, as tools/timeline.py writes it.
export function pictureOf(report) {
  return drawHistory(report).picture(`${report.steps.length} steps; ${report.end}`, legend()) + "\n";
}
