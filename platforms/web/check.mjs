// The library and the examples in WebAssembly, tried where this runs, node or a browser. `given` has the header's numbers, the library's module and the programs with what they are to print, all in base64 but the
// numbers. Gives lines that begin with "ok" or "FAIL".
import { run } from "./wasi.mjs";

const bytes = text => Uint8Array.from(atob(text), letter => letter.charCodeAt(0));

// The library's own module: what it imports and exports, and a few calls, with memory behind what it takes itself. A length is a BigInt, since it has 64 bits.
function callLibrary(module, numbers) {
    const { exports } = new WebAssembly.Instance(module, {});
    let top = Number(exports.__heap_base.value);
    const lend = (kind, length) => {
        const at = (top + 15) & ~15;
        top = at + kind.BYTES_PER_ELEMENT * length;
        while (exports.memory.buffer.byteLength < top)
            exports.memory.grow(1);
        return { words: [at, BigInt(length)], get view() { return new kind(exports.memory.buffer, at, length); } };
    };
    const record = lend(BigUint64Array, numbers.RECORD_WORDS), answer = lend(BigUint64Array, numbers.TAKE_ANSWER), started = lend(BigUint64Array, numbers.START_ANSWER);
    const eight = lend(Uint8Array, numbers.FRAME_BYTES);
    const told = [exports.deorasaeng_power_on(...record.words, 0x20001C000AC00123n, 0x80), exports.deorasaeng_start(...record.words, ...started.words)];
    told.push(exports.deorasaeng_take(...record.words, 1, ...answer.words, ...eight.words), ...answer.view, ...eight.view);
    told.push(exports.deorasaeng_quiet(...record.words), exports.deorasaeng_quiet(...record.words), exports.deorasaeng_quiet(record.words[0], record.words[1] - 1n));
    return told.join(" ");
}

// A unit that claims: its claim 18EEFF80 leaves at port 1, then Quiet is done, refused with 18, and refused with 2 for a record that is too short.
const expected = [0, 0, 0, 1, 0x18EEFF80, 8, 0x23, 0x01, 0xC0, 0x0A, 0x00, 0x1C, 0x00, 0x20, 0, 18, 2].join(" ");

export function check(given) {
    const lines = [];
    const judge = (name, isRight, detail) => lines.push(isRight ? `ok ${name}` : `FAIL ${name}: ${detail}`);
    const library = new WebAssembly.Module(bytes(given.library));
    const imports = WebAssembly.Module.imports(library), exports = WebAssembly.Module.exports(library).map(one => one.name);
    judge("the library imports nothing", imports.length === 0, JSON.stringify(imports));
    judge("the library has every function", given.functions.length > 0 && given.functions.every(name => exports.includes(name)), exports.join(" "));
    const told = callLibrary(library, given.numbers);
    judge("calls of the library", told === expected, told);
    for (const program of given.programs) {
        let printed = "";
        const write = (_, piece) => { printed += String.fromCharCode(...piece); };
        const status = run(new WebAssembly.Module(bytes(program.module)), () => 0, write);
        judge(program.name, status === 0 && printed === atob(program.prints), `status ${status}, printed ${printed}`);
    }
    return lines;
}
