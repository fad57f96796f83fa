// The picture, the table and a unit's lists file of a plan at the shell, by the page's own code and the proved planner
// inside page/plan.html. `./plan` calls it, with the plan on standard input.
// usage: node page/plan/shell.mjs svg [QUESTION] | table | lists UNIT
// Status: 0; 1 if a line is wrong, which is told on standard error; 2 for wrong arguments and if something could not be
// read or written.
import { readFileSync, writeSync } from "node:fs";
import { arrayOf, columns, fromBytes } from "./bytes.mjs";
import { listsFile } from "./lists.mjs";
import { picture } from "./picture.mjs";
import { Planner, bytesOfBase64 } from "./planner.mjs";
import { read } from "./reading.mjs";
import { table } from "./table.mjs";

class Refused extends Error {}

// A number among the plan's, or what there is.
function numberOf(word, count, what) {
    if (!/^[1-9][0-9]*$/.test(word) || Number(word) > count)
        throw new Refused(`no ${what} ${word}: the plan has ${count}`);
    return Number(word);
}

const made = {
    svg: (plan, planner, question) =>
        picture(plan, planner, question ? plan.asks[numberOf(question, plan.answered, "answered question") - 1] : null),
    table: (plan, planner) => {
        const lines = table(plan, planner, word => columns(fromBytes(word)));
        return arrayOf(lines.map(line => `${line}\n`).join(""));
    },
    // Of a wrong plan there is no lists file: it would let other PGNs through than the plan was to.
    lists: (plan, planner, unit) =>
        plan.wrong.length > 0 ? "" : arrayOf(listsFile(plan, numberOf(unit, plan.units.length, "unit"))),
};

function writeAll(content) {
    const bytes = typeof content === "string" ? new TextEncoder().encode(content) : content;
    for (let at = 0; at < bytes.length;)
        at += writeSync(1, bytes, at);
}

async function main() {
    const [what, word] = process.argv.slice(2), page = readFileSync(new URL("../plan.html", import.meta.url), "utf8");
    const planner = await Planner.of(bytesOfBase64(page.match(/id="module">([^<]*)</)[1]));
    const plan = read(readFileSync(0, "latin1"), planner);
    writeAll(made[what](plan, planner, word));
    for (const { line, why } of plan.wrong)
        console.error(`plan: line ${line}: ${fromBytes(why)}`);
    return plan.wrong.length > 0 ? 1 : 0;
}

// What went wrong, in words; an error that is none of the system's is one of this program, told whole.
function wordsOf(error) {
    if (error.syscall)
        return `${error.syscall === "write" ? "cannot write" : "cannot read the plan"}: ${error.message}`;
    return error instanceof Refused ? error.message : error.stack;
}

main().then(status => { process.exitCode = status; }, error => {
    console.error(`plan: ${wordsOf(error)}`);
    process.exitCode = 2;
});
