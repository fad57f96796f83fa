// A unit's lists in the form of the gateway's lists file (gateway/README.md), and back into a plan's text.
import { LONGEST_LIST, isPgn, listOf } from "./planner.mjs";
import { portsOf } from "./paths.mjs";
import { named } from "./telling.mjs";

const MODES = ["cleared", "block", "pass"];

// The pairs of a unit that have a list, in order.
function listedPairs(plan, unit) {
    const ports = portsOf(plan, unit).map(one => one.port);
    const pairs = ports.flatMap(from => ports.filter(to => to !== from).map(to => ({ from, to })));
    return pairs.map(pair => ({ ...pair, ...listOf(plan, unit, pair.from, pair.to) })).filter(pair => pair.mode !== 0);
}

// `1 2 pass 65097`; a PGN once, as the gateway wants it.
const pairWords = ({ from, to, mode, pgns }) => [from, to, MODES[mode], ...new Set(pgns)].join(" ");

// A unit's lists file. No byte of a name is there that the gateway would refuse in a comment.
function listsFile(plan, unit) {
    const name = named(plan.units, unit).replace(/[\x00-\x1F\x7F]/g, "?");
    const head = `# unit ${name}: FROM TO block|pass PGN ..; a pair without a line is cleared`;
    return [head, ...listedPairs(plan, unit).map(pairWords), ""].join("\n");
}

// A number as the gateway reads it: decimal without a 0 before it, or hex behind 0x. Not a number for what is none.
const numberOf = word => /^(0|[1-9][0-9]*|0[xX][0-9a-fA-F]+)$/.test(word) ? Number(word) : NaN;

function pairOf(words, ports, known) {
    const [from, to] = words.slice(0, 2).map(numberOf), [mode, ...pgns] = words.slice(2);
    if (!ports.includes(from) || !ports.includes(to))
        return { wrong: `"${words[0]} ${words[1] ?? ""}": not two ports of this unit` };
    if (from === to)
        return { wrong: "a pair has two different ports" };
    if (mode === "name")
        return { isName: true };
    if (mode !== "block" && mode !== "pass")
        return { wrong: `"${mode ?? ""}": not block or pass` };
    if (known.some(pair => pair.from === from && pair.to === to))
        return { wrong: `the pair ${from} to ${to} has a line already` };
    const none = pgns.find(word => !isPgn(numberOf(word)));
    if (none !== undefined)
        return { wrong: `"${none}" is no PGN` };
    if (pgns.length > LONGEST_LIST || new Set(pgns.map(numberOf)).size < pgns.length)
        return { wrong: "more than 32 PGNs, or one of them twice" };
    return { from, to, mode: MODES.indexOf(mode), pgns: pgns.map(numberOf) };
}

// Reads a lists file for a unit: its pairs, how many lines name senders, which a plan has not, and the first line that
// is wrong.
function readLists(text, plan, unit) {
    const ports = portsOf(plan, unit).map(one => one.port), pairs = [];
    let names = 0;
    for (const [i, line] of text.split("\n").entries()) {
        const words = line.split("#")[0].split(/[ \t\r]+/).filter(word => word !== "");
        if (words.length === 0)
            continue;
        const pair = pairOf(words, ports, pairs);
        if (pair.wrong)
            return { wrong: `line ${i + 1}: ${pair.wrong}` };
        if (pair.isName)
            names++;
        else
            pairs.push(pair);
    }
    return { pairs, names };
}

// Whether a text is a lists file and no plan: its first word is a number.
const isLists = text => /^[0-9]/.test(text.replace(/^([ \t\r]*(#[^\n]*)?\n)*[ \t\r]*/, ""));

// A plan's text with a unit's pairs put in place of those that stand there, behind its last port. A comment behind a
// pair goes with it.
function putPairs(text, unit, pairs) {
    const lines = text.split("\n"), first = line => line.trim().split(/[ \t\r]/)[0];
    const units = lines.flatMap((line, i) => first(line) === "unit" ? [i] : []);
    const start = units[unit - 1], ask = lines.findIndex((line, i) => i > start && first(line) === "ask");
    const end = units[unit] ?? (ask < 0 ? lines.length : ask);
    const kept = lines.slice(start, end).filter(line => first(line) !== "pair");
    const last = kept.findLastIndex(line => first(line) === "port" || first(line) === "unit");
    const made = pairs.map(pair => `  pair ${pairWords(pair)}`);
    const parts = [lines.slice(0, start), kept.slice(0, last + 1), made, kept.slice(last + 1), lines.slice(end)];
    return parts.flat().join("\n");
}

export { isLists, listedPairs, listsFile, putPairs, readLists };
