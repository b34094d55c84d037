// node replay.mjs REPLAY.wasm IN OUT: the program crates/replay as a WebAssembly module; its read and write take and give 64-bit numbers.
import fs from "node:fs";

const [, , module, from, to] = process.argv;
const input = fs.readFileSync(from), out = [];
let at = 0, memory;
const env = {
    read(fd, where, len) {
        if (fd !== 0) return -1n;
        const part = input.subarray(at, at + Number(len));
        new Uint8Array(memory.buffer).set(part, where >>> 0);
        at += part.length;
        return BigInt(part.length);
    },
    write(fd, where, len) {
        if (fd !== 1) return -1n;
        out.push(Buffer.from(new Uint8Array(memory.buffer, where >>> 0, Number(len))));
        return len;
    },
};
const { instance } = await WebAssembly.instantiate(fs.readFileSync(module), { env });
memory = instance.exports.memory;
const status = instance.exports.__original_main();
fs.writeFileSync(to, Buffer.concat(out));
process.exitCode = status;
