// The numbers of c/kms.h, and what they mean.

export const TRACE = 1, PPM = 2; // options
export const DRAINED = 0, ROOM = 2, OPTIONS = 3, FAULT = 4, STALLED = 5, MEMORY = 6, ILLEGAL = 7, OPEN = 8, WRONG = 9, CLOSED = 10;

const WHY = {
  1: "a byte that no line may have",
  2: "no line feed behind the last line",
  3: "not the form of a line that may stand there",
  4: "a label that names nothing, or is made twice",
  5: "more than there may be",
};

const MEANING = {
  [DRAINED]: () => "Drained: all that the script asked for is done.",
  [ROOM]: () => "The text is longer than the room for it.",
  [OPTIONS]: () => "There are no such options.",
  [FAULT]: ({ line, why }) => `${line === 0 ? "The input" : `Line ${line}`}: ${WHY[why] ?? "a fault"}.`,
  [STALLED]: () => "Stalled: a commit waits for a fence that nobody signals.",
  [MEMORY]: () => "There was not enough memory, so there is no answer.",
  [ILLEGAL]: ({ place }) => `Step ${place} of the schedule is not legal.`,
  [OPEN]: () => "The schedule ends before the history does.",
  [WRONG]: ({ line }) => `Line ${line} of the report is the first that is not right.`,
  [CLOSED]: ({ object }) => `What the object ${object} shows has no name any more, so it cannot be brought back.`,
};

// Whether a call with this status has written a text.
export const isWritten = (status) => status === DRAINED || status === STALLED || status === OPEN;

// What a call for a word of the program told, in a sentence.
export function meaningOf(told, word) {
  if (word === "audit" && told.status === DRAINED) return "Audit: yes. Each line of the report is right.";
  return MEANING[told.status]?.(told) ?? `The device ended with the status ${told.status}, which is unknown.`;
}
