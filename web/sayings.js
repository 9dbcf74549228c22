// What a line of a report says, in words. The line may be anybody's, so it may have any form.
import { refusalOf } from "./report.js";
import { ruleOf } from "./steps.js";

// What stands behind the letter of a line.
const FORMS = {
  J: /^\d+ \d+$/,
  R: /^\d+ \d+ \d+ \S/,
  L: /^\d+ \d+ \d+ \S+$/,
  E: /^\d+ \d+ \d+ \d+$/,
  X: /^\S+ \d+$/,
  D: /^(?:drained|stalled \S+|open \d+)$/,
  T: /^\S/,
};

const ENDINGS = {
  drained: () => "nothing is left to do",
  stalled: ([label]) => `a commit waits for the fence ${label}, which nobody will signal`,
  open: ([steps]) => `a schedule of ${steps} steps ended before the history did`,
};

class Sayings {
  constructor(script, rules) {
    Object.assign(this, { script, rules });
  }

  command(client, number) {
    const command = this.script.commands.get(`${client}.${number}`);
    const words = command ? `${command.words.slice(0, 2).join(" ")}, line ${command.line} of the script` : "which the script has not";
    return `client ${client}'s command ${number} (${words})`;
  }

  J([client, number]) {
    return `the next entry of the journal is ${this.command(client, number)}`;
  }

  R([client, number, place, ...words]) {
    const rule = refusalOf({ words }) > 0 ? `, by the rule ${ruleOf({ words }, this.rules)}` : "";
    return `${this.command(client, number)} was answered “${words.join(" ")}” behind ${place} entries of the journal${rule}`;
  }

  L([crtc, commit, count, digest]) {
    const shown = digest === "off" ? "and is off" : `whose frame has the SHA-256 ${digest}`;
    return `at its count ${count} CRTC ${crtc} latched commit ${commit}, ${shown}`;
  }

  E([client, userData, count, crtc]) {
    return `client ${client} read an event with user data ${userData} and count ${count}, of the CRTC with the id ${crtc}`;
  }

  X([label, id]) {
    return `the framebuffer ${label} with the id ${id} was freed`;
  }

  D([how, ...words]) {
    return ENDINGS[how](words);
  }

  T(words) {
    return `a step of the machine was “${words.join(" ")}”`;
  }
}

// A sentence on a line of a report, or on its end where there is no line.
export function sayingOf(line, script, rules) {
  if (line === undefined) return "The report ends too early: here a line is missing.";
  const kind = line[0], rest = line.slice(2);
  if (line[1] !== " " || !Object.hasOwn(FORMS, kind) || !FORMS[kind].test(rest)) return "No report has such a line.";
  return `It says that ${new Sayings(script, rules)[kind](rest.split(" "))}.`;
}
