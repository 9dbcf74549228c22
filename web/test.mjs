#!/usr/bin/env node
// Compares what the page's modules read and draw with what tools/ do, over examples/ and over the cases beside the repository.
//
//     node web/test.mjs [CASES]      CASES: a folder of cases; without it, ../shared/cases where that is there
import assert from "node:assert/strict";
import { execFileSync } from "node:child_process";
import { createHash } from "node:crypto";
import { existsSync, readFileSync, readdirSync } from "node:fs";
import { dirname, join } from "node:path";
import test from "node:test";
import { fileURLToPath } from "node:url";

import { Estimate, firstPart, isTried } from "./estimate.js";
import { framesOf, roomForFrames } from "./frames.js";
import { linkFor, scriptIn } from "./link.js";
import { commitOf, readReport, refusalOf } from "./report.js";
import { sayingOf } from "./sayings.js";
import { assignmentsOf, isReport, largestMode, linesBeforeReport, linesOf, readScript, scriptOf, wordFor } from "./script.js";
import { explainSteps } from "./steps.js";
import { pictureOf } from "./timeline.js";

const HERE = dirname(fileURLToPath(import.meta.url));
const EXAMPLES = join(HERE, "../examples");
const CASES = process.argv[2] ?? join(HERE, "../../shared/cases");
const MEGABYTES = 1 << 30;

const filesOf = (folder, suffix) => readdirSync(folder).filter((name) => name.endsWith(suffix)).map((name) => join(folder, name));
const text = (file) => readFileSync(file, "utf8");
const expected = (files) => JSON.parse(execFileSync("python3", [join(HERE, "test/expected.py"), ...files], { maxBuffer: MEGABYTES }));
const words = JSON.parse(execFileSync("python3", [join(HERE, "words.py")]));

// Scripts that a report answers, and the reports.
function answeredCases() {
  if (!existsSync(CASES)) return { scripts: [], reports: [] };
  const outs = ["rich", "meet", "replay"].flatMap((kind) => filesOf(join(CASES, kind), ".out")).filter((file) => text(file) !== "");
  return { scripts: outs.map((file) => file.replace(/out$/, "in")), reports: outs };
}

const cases = answeredCases();
const scripts = [...filesOf(EXAMPLES, ".kms"), join(EXAMPLES, "meeting.replay"), ...cases.scripts];
const reports = [...filesOf(EXAMPLES, ".report"), ...cases.reports];

const entriesOf = (map, value) => Object.fromEntries([...map].map(([key, it]) => [key, value(it)]));

function plainScript({ profile, crtcs, planes, connectors, commands }) {
  return { profile, crtcs, planes, connectors, commands: entriesOf(commands, (it) => [it.line, it.words]) };
}

function plainReport(report) {
  const replies = entriesOf(report.replies, (it) => [it.place, it.words, refusalOf(it), commitOf(it)]);
  const latches = report.latches.map((it) => [it.crtc, it.commit, it.count, it.digest]);
  const events = report.events.map((it) => [it.client, it.userData, it.count, it.crtc]);
  return { journal: report.journal, replies, latches, events, end: report.end, steps: report.steps };
}

// The bytes red, green, blue of a frame, whose digest a latch tells.
function digestOf({ pixels }) {
  const bytes = Buffer.alloc((pixels.length / 4) * 3);
  for (let pixel = 0; pixel * 4 < pixels.length; pixel++) bytes.set(pixels.subarray(pixel * 4, pixel * 4 + 3), pixel * 3);
  return createHash("sha256").update(bytes).digest("hex");
}

test(`${scripts.length} scripts are read as by tools/reports.py`, () => {
  const files = scripts.filter((file) => !file.endsWith(".replay"));
  expected(files).forEach((wanted, place) => assert.deepEqual(plainScript(readScript(text(files[place]))), wanted, files[place]));
});

// The tool writes the places of the legend's lines as `259.0`.
const withoutPoints = (picture) => picture.replace(/ y="(\d+)\.0"/g, ' y="$1"');

let pictures = 0, frames = 0;
test(`${reports.length} reports are read and drawn as by tools/reports.py and tools/timeline.py`, () => {
  expected(reports).forEach((wanted, place) => {
    const file = reports[place], report = readReport(text(file));
    const { picture, ...parts } = wanted;
    const latches = parts.latches.map((latch) => latch.slice(0, 4));
    assert.deepEqual(plainReport(report), { ...parts, latches }, file);
    if (picture !== null) {
      assert.equal(pictureOf(report), withoutPoints(picture), file);
      pictures += 1;
    }
  });
  assert.ok(pictures > 0);
});

test("frames have the digests of their latches", () => {
  for (const file of reports) {
    const latches = readReport(text(file)).latches.map((it) => [it.crtc, it.commit, it.digest]);
    for (const frame of framesOf(readFileSync(file))) {
      const latch = latches.find(([crtc, commit]) => crtc === frame.crtc && commit === frame.commit);
      assert.equal(digestOf(frame), latch[2], file);
      frames += 1;
    }
  }
  if (cases.reports.length > 0) assert.ok(frames > 0);
});

test("the room for frames is enough", () => {
  for (const file of cases.reports) {
    const bytes = readFileSync(file), drawn = [...framesOf(bytes)];
    if (drawn.length === 0) continue;
    const alone = text(file).split("\n").filter((line) => /^[A-Z] /.test(line)).join("\n").length + 1;
    const most = Math.max(...drawn.map((frame) => frame.width * frame.height));
    assert.ok(roomForFrames(alone, drawn.length, most) >= bytes.length, file);
  }
});

test("a mode's size is found", () => {
  const script = readScript(text(join(EXAMPLES, "two_screens.kms")));
  assert.equal(largestMode(script), 96 * 64);
});

test("the word for a script is told by its lines", () => {
  const wordOf = (name) => wordFor(text(join(EXAMPLES, name)));
  assert.deepEqual(["meeting.kms", "meeting.replay", "older_calls.kms"].map(wordOf), ["one", "replay", "legacy"]);
});

test("a report behind a script is parted from it", () => {
  const script = text(join(EXAMPLES, "meeting.kms")), report = text(join(EXAMPLES, "meeting.report")), both = `${script}report\n${report}`;
  assert.deepEqual([wordFor(both), scriptOf(both), scriptOf(script)], ["audit", script, script]);
  assert.equal(linesOf(both)[linesBeforeReport(linesOf(both))], "J 1 1");
  assert.equal(linesBeforeReport(linesOf(script)), linesOf(script).length);
  assert.deepEqual([isReport(report), isReport(script), isReport(both)], [true, false, false]);
});

test("each line of a report is said in words", () => {
  const meeting = [join(EXAMPLES, "meeting.kms"), join(EXAMPLES, "meeting.report")];
  for (const [scriptFile, reportFile] of [meeting, ...cases.scripts.map((it, place) => [it, cases.reports[place]])]) {
    const script = readScript(text(scriptFile)), lines = linesOf(text(reportFile)).filter((line) => /^[A-Z] /.test(line));
    for (const line of lines) assert.match(sayingOf(line, script, words.rules), /^It says that (?!.*(undefined|null|NaN)).*\.$/s, line);
  }
  const empty = readScript("kms 1\n");
  assert.match(sayingOf("R 1 2 0 EINVAL 10", empty, words.rules), /command 2 \(which the script has not\).*10 FRAMEBUFFER_XOR_CRTC/);
  for (const line of ["", "R", "R 1", "J 1 2 3", "D over", "P3", "constructor it", "D constructor", "__proto__ 1", "R\t1 1 0 done"]) {
    assert.equal(sayingOf(line, empty, words.rules), "No report has such a line.", line);
  }
});

test("a first part ends behind a line, and tells how long phases will take", () => {
  const bytes = new TextEncoder().encode("one line\n".repeat(8000)), part = firstPart(bytes);
  assert.equal(part.length, 9000);
  assert.equal(firstPart(new TextEncoder().encode("x".repeat(90))).length, 0);
  assert.deepEqual(["one", "suspend", "legacy", "replay", "audit"].filter((word) => isTried(bytes, word)), ["one", "suspend", "legacy"]);
  assert.ok(!isTried(bytes.subarray(0, 30000), "one"));
  const expected = new Estimate(bytes.length, part.length);
  expected.times = new Map([["replies", 10], ["report", 30]]);
  assert.equal(expected.of("replies"), 80);
  expected.learn("replies", 50);
  assert.equal(expected.of("report"), 150);
  expected.learn("report", 100);
  assert.equal(expected.of("frames"), null);
});

test("a phase of a first part is tried where the one before gave an answer", () => {
  const expected = new Estimate(8, 1);
  assert.ok(expected.tryPhase("replies", () => ({ status: 5 })) && expected.times.has("replies"));
  assert.ok(expected.tryPhase("frames", () => null) && !expected.times.has("frames"));
  assert.ok(!expected.tryPhase("report", () => ({ status: 4 })) && !expected.times.has("report"));
  assert.equal(expected.of("report"), null);
});

test("assignments are parted", () => {
  const wanted = [{ object: "plane0", property: "FB_ID", value: "@f" }, { object: "crtc1", property: "ACTIVE", value: "0" }];
  assert.deepEqual(assignmentsOf("atomic 0x0 0 plane0.FB_ID=@f crtc1.ACTIVE=0".split(" ")), wanted);
  assert.deepEqual(assignmentsOf(["wait"]), []);
});

test("a link holds its script", async () => {
  const bytes = (text) => new TextEncoder().encode(text), odd = Uint8Array.of(0xef, 0xbb, 0xbf, 0xff, 13, 10, 0);
  for (const script of [odd, ...["", "kms 1\n", ...filesOf(EXAMPLES, ".kms").map(text), "x".repeat(1 << 20)].map(bytes)]) {
    const link = await linkFor(script);
    assert.match(link, /^#script=[\w-]*$/);
    assert.deepEqual(await scriptIn(link), script);
  }
  assert.equal(await scriptIn(""), null);
  await assert.rejects(scriptIn("#script=AAAA"));
  await assert.rejects(scriptIn("#script=%"));
  await assert.rejects(scriptIn(await linkFor(new Uint8Array((1 << 20) + 1))));
});

test("each step of a history is told, with its command", () => {
  const meeting = [join(EXAMPLES, "meeting.kms"), join(EXAMPLES, "meeting.report")];
  const pairs = [meeting, ...cases.scripts.map((it, place) => [it, cases.reports[place]])];
  for (const [scriptFile, reportFile] of pairs) {
    const script = readScript(text(scriptFile)), report = readReport(text(reportFile));
    const told = explainSteps(script, report, words);
    assert.equal(told.length, report.steps.length);
    const isSaid = (line) => line.length > 0 && !/undefined|null|NaN/.test(line);
    for (const step of told) {
      const words = `${reportFile}: ${JSON.stringify(step)}`;
      assert.ok(step.said.length > 0 && [...step.said, ...step.changes].every(isSaid), words);
    }
  }
});

console.log(`${scripts.length} scripts, ${reports.length} reports`);
process.on("exit", () => console.log(`${pictures} pictures, ${frames} frames`));
