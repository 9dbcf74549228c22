// The calls of c/kms.h in an instance of the module kms.wasm. An instance serves one run and is then given up, so that nothing of
// a run that trapped or ran out of memory can reach the next one.
import { isWritten, MEMORY, ROOM } from "./calls.js";

const FILE = new URL("kms.wasm", import.meta.url);
const TOLD = 32; // bytes of struct kms_told

// The smallest module with a memory of 64-bit addresses.
const WIDE_MEMORY = Uint8Array.of(0x00, 0x61, 0x73, 0x6d, 1, 0, 0, 0, 5, 3, 1, 4, 0);

// The module. Its code may be shared by instances; nothing else is.
export async function compile() {
  if (!WebAssembly.validate(WIDE_MEMORY)) throw new Error("this browser has no WebAssembly memory of 64-bit addresses");
  const answer = await fetch(FILE);
  if (!answer.ok) throw new Error("kms.wasm is not beside the page: web/build.sh makes it");
  return WebAssembly.compile(await answer.arrayBuffer());
}

export async function open(compiled = compile()) {
  return new Device(await WebAssembly.instantiate(await compiled));
}

class NoMemory extends Error {}

// What a call tells, or that memory ran out before it was made.
function orNoMemory(call) {
  try {
    return call();
  } catch (error) {
    if (error instanceof NoMemory) return { status: MEMORY };
    throw error;
  }
}

class Device {
  constructor(instance) {
    this.module = instance.exports;
  }

  // (A block of no bytes would have no place of its own.)
  tryTake(size) {
    return this.module.page_take(BigInt(Math.max(size, 1))) || null;
  }

  take(size) {
    const at = this.tryTake(size);
    if (at === null) throw new NoMemory();
    return at;
  }

  // The memory's bytes as they are now: after a call that took more memory, earlier views are empty.
  bytes(at, size) {
    return new Uint8Array(this.module.memory.buffer, Number(at), size);
  }

  put(bytes) {
    const at = this.take(bytes.length);
    this.bytes(at, bytes.length).set(bytes);
    return at;
  }

  // Whether the report behind a script is right. The call has no text.
  audit(input) {
    return orNoMemory(() => {
      const from = this.put(input), told = this.take(TOLD);
      this.module.kms_audit(from, BigInt(input.length), told);
      return this.told(told);
    });
  }

  // Calls `kms_WORD` on a script. `room` is a guess: where the text is longer, the call is made again with what it needs, and
  // where there is not so much memory, with none, so that it tells what it needs. The text is a view that the next call spoils.
  call(word, script, options, room) {
    return orNoMemory(() => this.callWithin(word, script, options, room));
  }

  callWithin(word, script, options, room) {
    const from = this.put(script), told = this.take(TOLD);
    const words = word === "one" || word === "replay" ? [options] : [];
    let out = this.tryTake(room), size = room;
    if (out === null) [out, size] = [this.take(1), 1];
    for (;;) {
      this.module[`kms_${word}`](from, BigInt(script.length), ...words, out, BigInt(size), told);
      const answer = this.told(told);
      if (answer.status !== ROOM) return { ...answer, text: this.bytes(out, isWritten(answer.status) ? answer.length : 0) };
      this.module.page_give(out);
      size = answer.length;
      out = this.take(size);
    }
  }

  // What a call told, by the layout of struct kms_told with 64-bit lengths.
  told(at) {
    const view = new DataView(this.module.memory.buffer, Number(at), TOLD);
    const [status, line, why, object] = [0, 4, 8, 12].map((place) => view.getUint32(place, true));
    return { status, line, why, object, place: Number(view.getBigUint64(16, true)), length: Number(view.getBigUint64(24, true)) };
  }
}
