// Tries heap.c and mem.c, in a module that web/test.py makes of them and of wide.c with at most 256 MiB of memory.

const MOST_MEMORY = 1 << 28;
const tests = [];
const test = (name, body) => tests.push({ name, body });

const shown = (value) => String(typeof value === "object" ? JSON.stringify(value) : value);
const assert = {
  ok: (is, words = "") => { if (!is) throw new Error(`not so: ${words}`); },
  equal: (one, other, words = "") => assert.ok(one === other, `${shown(one)} is not ${shown(other)} ${words}`),
  notEqual: (one, other) => assert.ok(one !== other, `${shown(one)} twice`),
  deepEqual: (one, other) => assert.equal(shown(one), shown(other)),
};

let compiled;

// The heap of a new instance.
function heap() {
  const calls = new WebAssembly.Instance(compiled).exports, told = calls.page_take(16n);
  const bytes = (at, size) => new Uint8Array(calls.memory.buffer, Number(at), size);
  const tried = () => {
    const [made, at] = new BigUint64Array(calls.memory.buffer, Number(told), 2);
    return made === 1n ? at : null;
  };
  return {
    calls, bytes, told,
    alloc: (size, alignment = 16) => (calls.rattle_alloc(told, BigInt(size), BigInt(alignment)), tried()),
    realloc: (at, kept, size) => (calls.rattle_realloc(told, at, BigInt(kept), BigInt(size), 16n), tried()),
    free: (at) => calls.rattle_dealloc(at),
  };
}

// Numbers of a linear congruential generator.
function* numbers(seed) {
  for (let it = seed; ; yield it >>> 8) it = (Math.imul(it, 1664525) + 1013904223) >>> 0;
}

test("blocks are aligned, apart from one another, and keep their bytes", () => {
  const it = heap(), random = numbers(7), blocks = [];
  const next = (below) => random.next().value % below;
  const isWhole = ({ at, size, mark }) => it.bytes(at, size).every((byte) => byte === mark);
  const fill = (block) => it.bytes(block.at, block.size).fill(block.mark);
  for (let turn = 0; turn < 20000; turn++) {
    const size = next(8) === 0 ? next(100000) : next(300), chosen = next(blocks.length + 1);
    if (chosen === blocks.length) {
      const block = { at: it.alloc(size), size, mark: turn & 255 };
      assert.equal(block.at % 16n, 0n);
      fill(block);
      blocks.push(block);
    } else {
      const block = blocks[chosen];
      assert.ok(isWhole(block), `turn ${turn}`);
      if (next(2) === 0) {
        it.free(block.at);
        blocks.splice(chosen, 1);
      } else {
        const kept = Math.min(block.size, size);
        block.at = it.realloc(block.at, kept, size);
        assert.ok(it.bytes(block.at, kept).every((byte) => byte === block.mark), `turn ${turn}`);
        block.size = size;
        fill(block);
      }
    }
  }
  assert.ok(blocks.every(isWhole));
});

test("every size gets a block that is large enough", () => {
  const it = heap();
  let before = 0n;
  for (let size = 1; size < 5000; size++) {
    const at = it.alloc(size);
    assert.ok(at >= before, `${size}`);
    it.bytes(at, size).fill(1);
    before = at + BigInt(size);
  }
});

test("what there is no memory for is told, and the rest goes on", () => {
  const it = heap();
  for (const size of [2n ** 63n, 2n ** 64n - 1n, 2n ** 41n, 2n ** 40n, BigInt(MOST_MEMORY)]) assert.equal(it.alloc(size), null);
  const kept = it.alloc(100);
  it.bytes(kept, 100).fill(9);
  assert.equal(it.realloc(kept, 100, MOST_MEMORY), null);
  assert.ok(it.bytes(kept, 100).every((byte) => byte === 9));
  let count = 0;
  while (it.alloc(1 << 20) !== null) count += 1;
  assert.ok(count > 150 && count < 256, `${count}`);
  assert.notEqual(it.alloc(10), null);
  assert.equal(it.alloc(16, 32), null);
});

test("a block without bytes takes no memory", () => {
  const it = heap(), at = it.alloc(0);
  assert.notEqual(at, null);
  it.free(at);
  assert.equal(it.alloc(0), at);
  assert.notEqual(it.realloc(at, 0, 40), at);
});

test("memory is compared, moved and filled", () => {
  const it = heap(), at = it.alloc(64), { memcmp, memmove, memset } = it.calls;
  it.bytes(at, 64).set(Array.from({ length: 64 }, (_, place) => place));
  memmove(at + 3n, at, 40n);
  assert.deepEqual([...it.bytes(at + 3n, 40)], Array.from({ length: 40 }, (_, place) => place));
  memmove(at, at + 3n, 40n);
  assert.deepEqual([...it.bytes(at, 40)], Array.from({ length: 40 }, (_, place) => place));
  assert.equal(memcmp(at, at, 64n), 0);
  assert.ok(memcmp(at, at + 1n, 8n) < 0 && memcmp(at + 1n, at, 8n) > 0);
  memset(at, 300, 5n);
  assert.deepEqual([...it.bytes(at, 6)], [44, 44, 44, 44, 44, 5]);
});

test("products and shifts of 128 bits are right", () => {
  const it = heap(), random = numbers(11), whole = (1n << 128n) - 1n, half = (1n << 64n) - 1n;
  const word = () => (BigInt(random.next().value) << 48n) ^ (BigInt(random.next().value) << 20n) ^ BigInt(random.next().value);
  const wide = () => [0n, 1n, whole, 1n << 127n, (word() << 64n) | (word() & half)][random.next().value % 5 | 0] & whole;
  const told = () => {
    const [low, high] = new BigUint64Array(it.calls.memory.buffer, Number(it.told), 2);
    return (high << 64n) | low;
  };
  for (let turn = 0; turn < 5000; turn++) {
    const a = wide(), b = wide(), n = random.next().value % 128;
    it.calls.product(it.told, a & half, a >> 64n, b & half, b >> 64n);
    assert.equal(told(), (a * b) & whole);
    const shifts = { left: (a << BigInt(n)) & whole, right: a >> BigInt(n), signed_right: (BigInt.asIntN(128, a) >> BigInt(n)) & whole };
    for (const [name, wanted] of Object.entries(shifts)) {
      it.calls[name](it.told, a & half, a >> 64n, n);
      assert.equal(told(), wanted, `${name} ${a} ${n}`);
    }
  }
});

// Runs the tests on a module; what failed.
export async function failures(url) {
  compiled = await WebAssembly.compile(await (await fetch(url)).arrayBuffer());
  return tests.flatMap(({ name, body }) => {
    try {
      body();
      return [];
    } catch (error) {
      return [`${name}: ${error.message}`];
    }
  });
}
