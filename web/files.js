// Files that are opened, or dropped on the page.
import { decoded, joined } from "./bytes.js";
import { found } from "./elements.js";
import { isReport } from "./script.js";

const MOST_BYTES = 1 << 26; // of an input, as the device's limits have it

// Takes a script, or a report for the script that is there, or both.
async function takeFiles(page, files) {
  const large = files.find((file) => file.size > MOST_BYTES);
  if (large) return page.say(`${large.name} has more bytes than an input may have.`, true);
  const texts = await Promise.all(files.map(async (file) => new Uint8Array(await file.arrayBuffer())));
  const report = texts.find((bytes) => isReport(decoded(bytes.subarray(0, 2)))), script = texts.find((bytes) => bytes !== report);
  if (!script && !report) return;
  page.load(report ? joined(script ?? page.script, report) : script);
  found("example").value = "";
  page.run();
}

export function takeFilesBy(page) {
  found("file").onchange = ({ target }) => {
    takeFiles(page, [...target.files]);
    target.value = ""; // (so that the same file may be opened again)
  };
  document.addEventListener("dragover", (event) => {
    event.preventDefault();
    document.body.classList.add("dropping");
  });
  document.addEventListener("dragleave", (event) => {
    if (!event.relatedTarget) document.body.classList.remove("dropping");
  });
  document.addEventListener("drop", (event) => {
    event.preventDefault();
    document.body.classList.remove("dropping");
    takeFiles(page, [...event.dataTransfer.files]);
  });
}
