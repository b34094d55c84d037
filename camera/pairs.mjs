// node pairs.mjs MODULE.wasm PAIRS OUT: what pairs.c does, with the calls of a WebAssembly module. A length is a BigInt there.
import fs from "node:fs";

const [, , module, from, to] = process.argv;
const { instance } = await WebAssembly.instantiate(fs.readFileSync(module), {});
const { memory, jigwandor_contains: contains, jigwandor_hold: hold, __heap_base } = instance.exports;
const guard = 64, room = 8192, guardByte = 0xc3;
const start = (__heap_base.value + 7) & ~7, size = guard + 8 + room + guard;
if (memory.buffer.byteLength < start + size) memory.grow(Math.ceil((start + size - memory.buffer.byteLength) / 65536));
const space = new Uint8Array(memory.buffer, start, size);
const bytes = fs.readFileSync(from), view = new DataView(bytes.buffer, bytes.byteOffset, bytes.length);
const out = [];
let at = 4;
for (let i = 0; i < view.getUint32(0, true); i++) {
    const len = view.getUint32(at, true), offset = view.getUint32(at + 4, true);
    const fix = [0, 1, 2, 3, 4].map((k) => view.getFloat64(at + 8 + 8 * k, true));
    const original = bytes.subarray(at + 48, at + 48 + len);
    at += 48 + len;
    space.fill(guardByte);
    space.set(original, guard + offset);
    const first = guard + offset, file = space.subarray(first, first + len);
    const answer = contains(start + first, BigInt(len), ...fix) >>> 0;
    let trouble = Buffer.compare(original, file) ? 1 : 0;
    const held = hold(start + first, BigInt(len), ...fix) >>> 0;
    const after = contains(start + first, BigInt(len), ...fix) >>> 0;
    if (space.subarray(0, first).some((b) => b !== guardByte) || space.subarray(first + len).some((b) => b !== guardByte)) trouble |= 2;
    const head = Buffer.alloc(16);
    [answer, held, after, trouble].forEach((n, k) => head.writeUInt32LE(n, 4 * k));
    out.push(head, Buffer.from(file));
}
fs.writeFileSync(to, Buffer.concat(out));
