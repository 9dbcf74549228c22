// Tries module.js by the library of echo.c. Gives what the calls told, for web/test.py to judge.
import { open } from "./module.js";

const bytes = (text) => new TextEncoder().encode(text);

function call(device, word, text, options, room) {
  const { text: answer, ...told } = device.call(word, bytes(text), options, room);
  return { ...told, text: answer && new TextDecoder().decode(answer) };
}

async function trapOf(text) {
  const device = await open();
  try {
    return call(device, "one", text, 0, 16);
  } catch (error) {
    return error.constructor.name;
  }
}

export async function answers() {
  const device = await open(), long = "x".repeat(3 << 20);
  return {
    words: ["one", "replay", "verdicts", "suspend", "legacy"].map((word) => call(device, word, `kms of ${word}`, 1, 64).text),
    empty: call(device, "one", "", 0, 0),
    exact: call(device, "one", "kms", 0, 3).text,
    short: call(device, "one", "kms", 0, 2).text,
    long: call(device, "verdicts", long, 0, 16).text === long,
    options: call(device, "one", "kms", 4, 16).status,
    fault: call(device, "one", "f", 0, 16),
    illegal: call(device, "one", "i", 0, 16),
    closed: call(device, "one", "c", 0, 16),
    guess: call(device, "one", "kms", 0, 2 ** 41).text,
    memory: call(device, "one", "m", 0, 16).status,
    audits: ["kms", "", "w", "m"].map((text) => device.audit(bytes(text))),
    deep: await trapOf("d"),
    trap: await trapOf("t"),
    after: (await trapOf("kms")).text,
  };
}
