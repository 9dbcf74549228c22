// Scripts, read as tools/reports.py reads them.

const OLDER_CALLS = new Set(["setcrtc", "setplane", "pageflip", "cursor"]);

export function linesOf(text) {
  const lines = text.split("\n");
  return lines.at(-1) === "" ? lines.slice(0, -1) : lines;
}

const crtcList = (word) => word.split(",").map(Number);

// What each kind of line in front of the clients tells of the device.
const READERS = {
  kms: (script, [profile]) => { script.profile = Number(profile); },
  crtcs: (script, [count]) => { script.crtcs = Number(count); },
  plane: (script, [type, crtcs, formats]) => script.planes.push({ type, crtcs: crtcList(crtcs), formats: formats.split(",") }),
  conn: (script, [crtcs]) => script.connectors.push(crtcList(crtcs)),
};

// What may stand behind a script.
const BEHIND = { schedule: "replay", report: "audit" };
const BEGINS_BEHIND = /^(schedule|report)$/m;
const REPORT_LINE = /^[JRLEXDT] /;

// A text without the schedule or the report that stands behind its script.
export function scriptOf(text) {
  const end = text.search(BEGINS_BEHIND);
  return end < 0 ? text : text.slice(0, end);
}

// How many lines stand in front of a text's report, the line `report` among them; all, where there is none.
export function linesBeforeReport(lines) {
  const place = lines.indexOf("report");
  return place < 0 ? lines.length : place + 1;
}

// Whether a text is a report: no script begins like one.
export const isReport = (text) => REPORT_LINE.test(text);

// A script's device and commands; what stands behind it is left out. It takes what the device accepts. Clients, their commands and
// the lines are counted from 1.
export function readScript(text) {
  const lines = linesOf(scriptOf(text));
  const script = { profile: 1, crtcs: 0, planes: [], connectors: [], commands: new Map(), lines };
  let client = 0, number = 0;
  lines.forEach((line, place) => {
    const words = line.split(" ");
    if (words[0] === "client") {
      client += 1;
      number = 0;
    } else if (client > 0) {
      number += 1;
      script.commands.set(`${client}.${number}`, { client, number, line: place + 1, words });
    } else {
      READERS[words[0]]?.(script, words.slice(1));
    }
  });
  return script;
}

// The assignments of an atomic request, with the objects' and properties' names.
export function assignmentsOf(words) {
  if (words[0] !== "atomic") return [];
  return words.slice(3).map((word) => {
    const [target, value] = word.split("=");
    const [object, property] = target.split(".");
    return { object, property, value };
  });
}

// The word of the program that executes a text: its lines tell which.
export function wordFor(text) {
  const behind = text.match(BEGINS_BEHIND);
  if (behind) return BEHIND[behind[0]];
  return linesOf(text).some((line) => OLDER_CALLS.has(line.split(" ")[0])) ? "legacy" : "one";
}

// The pixels of the largest mode that a `mode` line makes. Blobs may hold larger ones, so this is a guess of a frame's size.
export function largestMode(script) {
  let most = 0;
  for (const { words } of script.commands.values()) {
    if (words[0] === "mode") most = Math.max(most, Math.min(Number(words[3]), 4096) * Math.min(Number(words[8]), 4096));
  }
  return most;
}
