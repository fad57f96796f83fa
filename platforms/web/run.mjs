// Runs a C program in WebAssembly under node, with this process's streams. usage: platforms/web/run PROGRAM.wasm
import { readFileSync, readSync, writeSync } from "node:fs";
import { run } from "./wasi.mjs";

const write = (fd, piece) => {
    for (let at = 0; at < piece.length;)
        at += writeSync(fd, piece, at);
};
const module = new WebAssembly.Module(readFileSync(process.argv[2]));
process.exitCode = run(module, piece => readSync(0, piece), write);
