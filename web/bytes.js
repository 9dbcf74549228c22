// Texts and their bytes.

const LINE_FEED = 10;

export const encoded = (text) => new TextEncoder().encode(text);
export const decoded = (bytes) => new TextDecoder().decode(bytes);
export const areSame = (one, other) => one.length === other.length && one.every((byte, place) => byte === other[place]);

// A script with a report behind it, as an audit reads them.
export function joined(script, report) {
  const between = encoded(script.length === 0 || script.at(-1) === LINE_FEED ? "report\n" : "\nreport\n");
  const all = new Uint8Array(script.length + between.length + report.length);
  all.set(script);
  all.set(between, script.length);
  all.set(report, script.length + between.length);
  return all;
}
