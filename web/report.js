// Reports of `kms`, read as tools/reports.py reads them.
import { linesOf } from "./script.js";

const FIRST_CRTC = 100;

export const keyOf = (client, number) => `${client}.${number}`;
export const isRefused = (reply) => /^E[A-Z]+$/.test(reply.words[0]);
export const isOff = (latch) => latch.digest === "off";

// The number of the rule that refused the command, or 0.
export function refusalOf(reply) {
  return isRefused(reply) ? Number(reply.words.slice(1).find((word) => /^\d+$/.test(word)) ?? 0) : 0;
}

// The number of the commit that an accepted request became, or null.
export function commitOf(reply) {
  return reply?.words[0] === "commit" ? Number(reply.words[1]) : null;
}

// What each kind of line adds to a report. User data has 64 bits, so it stays a word.
const READERS = {
  J: (report, [client, number]) => report.journal.push([Number(client), Number(number)]),
  R: (report, [client, number, place, ...words]) =>
    report.replies.set(keyOf(client, number), { client: Number(client), number: Number(number), place: Number(place), words }),
  L: (report, [crtc, commit, count, digest]) =>
    report.latches.push({ crtc: Number(crtc), commit: Number(commit), count: Number(count), digest }),
  E: (report, [client, userData, count, crtc]) =>
    report.events.push({ client: Number(client), userData, count: Number(count), crtc: Number(crtc) - FIRST_CRTC }),
  X: (report, [label, id]) => report.freed.push({ label, id: Number(id) }),
  D: (report, words) => { report.end = words.join(" "); },
  T: (report, words) => report.steps.push(words),
};

// The parts of a report. Pictures are left out: frames.js reads them from the bytes.
export function readReport(text) {
  const report = { journal: [], replies: new Map(), latches: [], events: [], freed: [], end: "", steps: [] };
  const lines = linesOf(text);
  for (let place = 0; place < lines.length; place++) {
    const [kind, ...words] = lines[place].split(" ");
    if (kind === "P3") {
      const height = Number(lines[place + 1].split(" ")[1]);
      place += 2 + height;
    } else {
      READERS[kind]?.(report, words);
    }
  }
  return report;
}
