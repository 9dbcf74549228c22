// In place of module.js, for trying the page without the module: it answers the scripts of examples/ by their reports, which
// web/test.py puts into answers.json. A script that is none of them is answered by what its first line asks for.
import { DRAINED, FAULT, PPM, WRONG } from "./calls.js";

const SIDE = 4096; // pixels of the largest frame
const MILLISECONDS_PER_CHARACTER = 1 / 1024; // a second for 1 MiB

const encoder = new TextEncoder();
const textOf = (lines) => encoder.encode(lines.join("\n") + "\n");
const linesFor = (count, line) => Array.from({ length: count }, (_, place) => line(place + 1));

// As many replies and steps as a script has lines behind its first client.
function longReport(script) {
  const count = script.split("\n").length - 1 - script.split("\n").indexOf("client") - 1;
  const replies = linesFor(count, (number) => `R 1 ${number} 0 none`);
  return { replies, steps: linesFor(count, () => "T read 1") };
}

// A long script takes its time, in proportion to its length, on whatever machine.
function large(word, script, options) {
  const until = performance.now() + script.length * MILLISECONDS_PER_CHARACTER, { replies, steps } = longReport(script);
  while (performance.now() < until);
  if (word === "verdicts") return textOf(replies);
  return textOf([...replies, "D drained", ...(options === PPM ? [] : steps)]);
}

// One latch with a frame of the largest size, in which no two rows are alike.
function wide(word, script, options) {
  const latch = "R 1 1 0 commit 0\nL 0 0 1 none\n", end = "D drained\n";
  if (word === "verdicts") return textOf(["R 1 1 0 commit 0"]);
  if (options !== PPM) return encoder.encode(latch + end);
  const parts = [encoder.encode(`${latch}P3\n${SIDE} ${SIDE}\n255\n`)];
  for (let row = 0; row < SIDE; row++) parts.push(encoder.encode(Array(SIDE).fill(`${row & 255} ${row >> 8} 200`).join(" ") + "\n"));
  return joined([...parts, encoder.encode(end)]);
}

function joined(parts) {
  const all = new Uint8Array(parts.reduce((size, part) => size + part.length, 0));
  let at = 0;
  for (const part of parts) {
    all.set(part, at);
    at += part.length;
  }
  return all;
}

const MADE = { large, wide };

// Compares a report with the one that is kept.
function audited(answers, input) {
  const [script, report] = input.split(/^report\n/m), answer = answers[script];
  if (!answer) return { status: FAULT, line: 2, why: 3 };
  if (report === undefined) return { status: FAULT, line: input.split("\n").length, why: 3 };
  const lines = report.split("\n"), wanted = answer.report.split("\n"), wrong = wanted.findIndex((line, place) => line !== lines[place]);
  return wrong < 0 ? { status: DRAINED } : { status: WRONG, line: wrong + 1 };
}

export const compile = async () => null;

export async function open() {
  const answers = await (await fetch("answers.json")).json();
  const written = (text) => ({ status: DRAINED, length: text.length, text });
  return {
    audit: (input) => audited(answers, new TextDecoder().decode(input)),
    call(word, script, options) {
      const text = new TextDecoder("utf-8", { ignoreBOM: true }).decode(script), answer = answers[text];
      const made = MADE[text.split("\n")[0]]?.(word, text, options);
      if (made) return written(made);
      if (!answer) return { status: FAULT, line: 2, why: 3 };
      const wanted = word === "verdicts" ? answer.verdicts : options === PPM ? answer.frames : answer[word] ?? answer.report;
      return written(encoder.encode(wanted));
    },
  };
}
