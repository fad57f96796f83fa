// Puts the page together: the style, the modules as one script, the bundled plan and the proved module into page.html.
// Gives the page on standard output.
// usage: node page/plan/build.mjs MODULE.wasm BUNDLED.plan
import { readFileSync } from "node:fs";
import { dirname, join } from "node:path";
import { fileURLToPath } from "node:url";

const here = dirname(fileURLToPath(import.meta.url));
const source = name => readFileSync(join(here, name), "utf8");
const [module, bundled] = process.argv.slice(2);

// Each after those that it imports from.
const MODULES = ["bytes", "planner", "paths", "telling", "reading", "lists", "table", "layout", "picture", "page"];

// A page from a file may load no module, so each is a function that gives what it exports.
function scoped(name) {
    const body = source(`${name}.mjs`)
        .replace(/^import (\{[^}]*\}) from "\.\/(\w+)\.mjs";$/gm, "const $1 = modules.$2;")
        .replace(/^export (\{[^}]*\});$/m, "return $1;");
    if (/^(import|export)\b/m.test(body))
        throw new Error(`${name}.mjs: an import or export of another form`);
    return `modules.${name} = (() => {\n${body}})();\n`;
}

const script = `"use strict";\nconst modules = {};\n${MODULES.map(scoped).join("\n")}`;
const parts = {
    STYLE: source("page.css").trimEnd(),
    BUNDLED: readFileSync(bundled, "utf8").trimEnd(),
    MODULE: readFileSync(module).toString("base64").replace(/.{100}/g, "$&\n"),
    SCRIPT: script.trimEnd(),
};
if (Object.entries(parts).some(([name, part]) => name !== "STYLE" && /<\/?script|<!--/i.test(part)))
    throw new Error("a part holds the end of a script");
process.stdout.write(source("page.html").replace(/\{\{(\w+)\}\}/g, (_, name) => parts[name]));
