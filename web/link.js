// A link that holds a script: the fragment has the script's bytes, deflated, in the letters of base64url.

const NAME = "script=";
const MOST = 1 << 20; // bytes of a script; a short link may unpack to very much
const LETTERS_AT_ONCE = 1 << 15; // more would be too many arguments of a call

const streamOf = (bytes) => new Blob([bytes]).stream();

function toLetters(bytes) {
  let text = "";
  for (let at = 0; at < bytes.length; at += LETTERS_AT_ONCE) text += String.fromCharCode(...bytes.subarray(at, at + LETTERS_AT_ONCE));
  return btoa(text).replaceAll("+", "-").replaceAll("/", "_").replace(/=+$/, "");
}

function fromLetters(letters) {
  const text = atob(letters.replaceAll("-", "+").replaceAll("_", "/"));
  return Uint8Array.from(text, (letter) => letter.charCodeAt(0));
}

// The bytes of a stream, of which there may be at most so many.
async function readBytes(stream, most) {
  const parts = [];
  let size = 0;
  for (const reader = stream.getReader(); ;) {
    const { done, value } = await reader.read();
    if (done) return new Uint8Array(await new Blob(parts).arrayBuffer());
    size += value.length;
    if (size > most) {
      await reader.cancel();
      throw new Error(`the link's script has more than ${most} bytes`);
    }
    parts.push(value);
  }
}

// The fragment that holds a script's bytes.
export async function linkFor(bytes) {
  const packed = streamOf(bytes).pipeThrough(new CompressionStream("deflate-raw"));
  return `#${NAME}${toLetters(new Uint8Array(await new Response(packed).arrayBuffer()))}`;
}

// The bytes of the script that a fragment holds, or null where it holds none. Where the fragment is broken, the promise is.
export async function scriptIn(fragment) {
  if (!fragment.startsWith(`#${NAME}`)) return null;
  const packed = streamOf(fromLetters(fragment.slice(NAME.length + 1)));
  return readBytes(packed.pipeThrough(new DecompressionStream("deflate-raw")), MOST);
}
