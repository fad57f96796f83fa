// The page's reader and the proved program `plan` on the same texts: those of `plan_examples`, then generated ones,
// right and wrong; each must give the same lines. Then the lists file of every unit, and back.
// usage: node page/tests/plan_lines.mjs PLAN EXAMPLES TEXTS, the program, the texts of plan_examples and the generated
// ones, each text ended by a form feed
import { spawnSync } from "node:child_process";
import { readFileSync } from "node:fs";
import { isLists, listsFile, putPairs, readLists } from "../plan/lists.mjs";
import { Planner, bytesOfBase64 } from "../plan/planner.mjs";
import { read } from "../plan/reading.mjs";
import { tell } from "../plan/telling.mjs";

const [program, examples, generated] = process.argv.slice(2);
const page = readFileSync(new URL("../plan.html", import.meta.url), "utf8");
const planner = await Planner.of(bytesOfBase64(page.match(/id="module">([^<]*)</)[1]));
const textsOf = file => readFileSync(file, "latin1").split("\f").slice(0, -1);

// The first line in which two outputs differ, and the text.
function fail(what, text, wanted, got) {
    const at = wanted.findIndex((line, i) => line !== got[i]);
    console.log(`FAIL ${what}: the program prints\n  ${wanted[at]}\nthe page\n  ${got[at]}\nfor\n${text}`);
    process.exit(1);
}

function compare(what, texts) {
    let right = 0;
    for (const text of texts) {
        const run = spawnSync(program, { input: Buffer.from(text, "latin1"), maxBuffer: 2 ** 28 });
        const wanted = run.stdout.toString("latin1").split("\n"), got = [...tell(read(text, planner), planner), ""];
        if (run.error || run.status !== 0 || wanted.join("\n") !== got.join("\n"))
            fail(what, text, wanted, got);
        right += wanted.at(-2).startsWith("segments ") ? 1 : 0;
    }
    if (right === 0 || right === texts.length)
        throw new Error(`${what}: all right or all wrong`);
    const wrong = texts.length - right;
    console.log(`ok ${what}: the same lines for ${texts.length} texts, ${right} right and ${wrong} with a wrong line`);
}

const told = plan => tell(plan, planner).join("\n");

// A unit's lists, taken out of the text and put in again from its lists file, make the same plan.
function thereAndBack(texts) {
    let units = 0;
    for (const text of texts) {
        const plan = read(text, planner);
        for (let unit = 1; plan.wrong.length === 0 && unit <= plan.units.length; unit++) {
            const file = listsFile(plan, unit), hasLists = file.split("\n").length > 2;
            const without = putPairs(text, unit, []), back = readLists(file, read(without, planner), unit);
            const again = read(putPairs(without, unit, back.pairs ?? []), planner);
            const isSame = listsFile(again, unit) === file && told(again) === told(plan);
            if (back.wrong || back.names !== 0 || hasLists && !isLists(file) || !isSame)
                fail(`lists of unit ${unit}`, text, file.split("\n"), listsFile(again, unit).split("\n"));
            units += hasLists ? 1 : 0;
        }
    }
    if (units === 0)
        throw new Error("no lists");
    console.log(`ok lists files: ${units} that are not empty, put in again, make the same plan`);
}

compare("texts of plan_examples", textsOf(examples));
compare("generated texts", textsOf(generated));
thereAndBack(textsOf(generated).slice(0, 1000));
