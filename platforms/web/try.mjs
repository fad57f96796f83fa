// Tries the library and the examples in WebAssembly under node, or prints a page that does so in a browser. usage: node platforms/web/try.mjs ROOT [--page], with the library and the examples made before
import { readFileSync } from "node:fs";
import { dirname, join } from "node:path";
import { fileURLToPath } from "node:url";
import { check } from "./check.mjs";

const here = dirname(fileURLToPath(import.meta.url)), root = process.argv[2];
const base64 = path => readFileSync(join(root, path)).toString("base64");
const header = readFileSync(join(root, "include/deorasaeng.h"), "utf8");
const given = {
    numbers: Object.fromEntries([...header.matchAll(/^#define DEORASAENG_(\w+) (\d+)$/gm)].map(([, name, number]) => [name, Number(number)])),
    functions: [...header.matchAll(/^uint(?:32|64)_t (deorasaeng_\w+)\(/gm)].map(([, name]) => name),
    library: base64("target/staticlib/wasm32/deorasaeng.wasm"),
    programs: ["morning", "combine"].map(name => ({ name: `${name}.c`, module: base64(`target/examples/wasm32/${name}`), prints: base64(`examples/${name}.out`) })),
};

if (process.argv[3] === "--page") {
    // One script: a page from a file may load no module.
    const parts = ["wasi.mjs", "check.mjs"].map(name => readFileSync(join(here, name), "utf8").replace(/^import .*$/gm, "").replace(/^export /gm, ""));
    const script = `${parts.join("\n")}\ntry { document.body.innerText = check(${JSON.stringify(given)}).join("\\n"); } catch (error) { document.body.innerText = "FAIL " + error; }`;
    console.log(`<!DOCTYPE html><meta charset="utf-8"><title>deorasaeng</title><body><script>${script.replaceAll("</", "<\\/")}</script></body>`);
} else {
    const lines = check(given);
    console.log(lines.join("\n"));
    process.exitCode = lines.every(line => line.startsWith("ok ")) ? 0 : 1;
}
