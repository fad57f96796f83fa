// The page: the text on the left, its picture, the table and the lines on the right, drawn anew as one types.
import { escaped, fromBytes, toBytes } from "./bytes.mjs";
import { nameOf } from "./layout.mjs";
import { isLists, listedPairs, listsFile, putPairs, readLists } from "./lists.mjs";
import { answer } from "./paths.mjs";
import { picture } from "./picture.mjs";
import { Planner, bytesOfBase64, isPgn } from "./planner.mjs";
import { read } from "./reading.mjs";
import { cell, rows } from "./table.mjs";
import { tell, words } from "./telling.mjs";

// The height of a line of text, as the style has it; how many wrong lines and PGNs are shown at most, and how much of a
// line.
const LINE = 20, SHOWN = 200, SHOWN_OF_LINE = 5000;

const of = id => document.getElementById(id);

// What is chosen and known: the question that is shown, the text's lines, the plan read of them, and the text as saved.
const state = { planner: null, plan: null, lines: [], pgn: null, segment: null, saved: "" };

const question = () =>
    state.pgn !== null && state.segment !== null ? { pgn: state.pgn, segment: state.segment } : null;

function say(words) {
    of("message").textContent = words;
}

const counted = (count, one, more) => `${count} ${count === 1 ? one : more}`;

// The PGNs that a plan speaks of: those asked first, then those listed.
function pgnsOf(plan) {
    const listed = plan.units.flatMap((_, i) => listedPairs(plan, i + 1)).flatMap(pair => pair.pgns);
    return [...new Set([...plan.asks.map(ask => ask.pgn), ...listed])];
}

function drawChips(place, choices, chosen, choose) {
    place.replaceChildren(...choices.map(({ value, label }) => {
        const chip = document.createElement("button");
        chip.textContent = label;
        chip.dataset.value = value;
        chip.setAttribute("aria-pressed", value === chosen);
        chip.onclick = () => choose(value === chosen ? null : value);
        return chip;
    }));
}

function drawChoice() {
    const { plan } = state, pgns = pgnsOf(plan).slice(0, SHOWN);
    if (state.pgn !== null && !pgns.includes(state.pgn))
        pgns.push(state.pgn);
    drawChips(of("pgns"), pgns.map(pgn => ({ value: pgn, label: `${pgn}` })), state.pgn, pgn => ask({ pgn }));
    const segments = plan.segments.map((_, i) => ({ value: i + 1, label: nameOf(plan.segments, i + 1) }));
    drawChips(of("segments"), segments, state.segment, segment => ask({ segment }));
    of("nothing").disabled = state.pgn === null && state.segment === null;
}

function drawPicture() {
    of("picture").innerHTML = picture(state.plan, state.planner, question());
    for (const bus of of("picture").querySelectorAll("[data-segment]")) {
        const choose = () => ask({ segment: Number(bus.dataset.segment) });
        bus.setAttribute("tabindex", 0);
        bus.onclick = choose;
        bus.onkeydown = event => { if (event.key === "Enter") choose(); };
    }
    of("answer").textContent = summary();
}

// The answer in words, with what was left out.
function summary() {
    const { plan } = state, chosen = question(), wrong = plan.wrong.length;
    if (!chosen)
        return plan.segments.length > 0 ? "Choose a PGN and click the bus where it is sent." : "";
    const answers = answer(plan, state.planner, chosen.pgn, chosen.segment);
    const heard = answers.filter(one => one.told === "heard").length;
    const silent = answers.flatMap((one, i) => one.told === "stopped" || one.told === "no path"
        ? [`${nameOf(plan.segments, i + 1)} ${fromBytes(words(plan, one))}`] : []);
    const parts = [`${heard} of ${counted(answers.length - 1, "other bus hears", "other buses hear")} it.`, ...silent];
    const out = wrong > 0 ? `Without the ${counted(wrong, "line that is", "lines that are")} wrong: ` : "";
    return out + parts.join(" \u2014 ");
}

// A row for each question; a click on it shows it.
function drawTable() {
    const { plan } = state, segments = plan.segments.map((_, i) => nameOf(plan.segments, i + 1));
    const head = ["PGN", "", "sent on", ...segments].map(name => `<th>${escaped(name)}</th>`);
    const body = rows(plan, state.planner, plan.asks).map(row => {
        const cells = row.answers.map(one => {
            const whole = escaped(fromBytes(words(plan, one)));
            return `<td class="${one.told}" title="${whole}">${escaped(cell(one))}</td>`;
        });
        const asked = [
            `<td><button>${row.pgn}</button></td>`, `<td class="comment">${escaped(fromBytes(row.comment))}</td>`,
            `<td>${escaped(segments[row.segment - 1])}</td>`,
        ];
        const kind = row.pgn === state.pgn && row.segment === state.segment ? "chosen" : "";
        const chosen = `data-pgn="${row.pgn}" data-on="${row.segment}"`;
        return `<tr class="${kind}" ${chosen}>${[...asked, ...cells].join("")}</tr>`;
    });
    const table = `<table><thead><tr>${head.join("")}</tr></thead><tbody>${body.join("")}</tbody></table>`;
    of("table").innerHTML = body.length > 0 ? table : "";
}

function drawWrong() {
    const { wrong } = state.plan;
    const items = wrong.slice(0, SHOWN).map(one => {
        const item = document.createElement("li"), link = document.createElement("button");
        link.textContent = `line ${one.line}: ${fromBytes(one.why)}`;
        link.onclick = () => goTo(one.line);
        item.append(link);
        return item;
    });
    of("wrong").replaceChildren(...items, ...wrong.length > SHOWN ? [`and ${wrong.length - SHOWN} more`] : []);
    drawMarks();
}

function goTo(line) {
    const text = of("text"), before = state.lines.slice(0, line - 1).reduce((sum, one) => sum + one.length + 1, 0);
    text.focus();
    text.setSelectionRange(before, before + state.lines[line - 1].length);
    text.scrollTop = Math.max(0, LINE * (line - 4));
    drawMarks();
}

// The numbers of the lines in sight, and what is wrong with them at its place.
function drawMarks() {
    const text = of("text"), { lines, plan } = state, numbers = [], marks = [];
    const first = Math.floor(text.scrollTop / LINE) + 1, last = first + Math.ceil(text.clientHeight / LINE);
    const inSight = plan.wrong.filter(one => one.line >= first && one.line <= last);
    const wrong = new Map(inSight.map(one => [one.line, one]));
    for (let line = first; line <= Math.min(last, lines.length); line++) {
        const top = LINE * (line - 1) - text.scrollTop, found = wrong.get(line);
        numbers.push(`<div class="${found ? "bad" : ""}" style="top:${top}px">${line}</div>`);
        if (found)
            marks.push(mark(lines[line - 1], found, top, -text.scrollLeft));
    }
    of("numbers").innerHTML = numbers.join("");
    of("marks").innerHTML = marks.join("");
}

function mark(line, { from, to, why }, top, left) {
    const bytes = toBytes(line.slice(0, SHOWN_OF_LINE)), part = (a, b) => escaped(fromBytes(bytes.slice(a, b)));
    const word = `<span class="word">${part(from, to)}</span>`;
    const told = `<span class="why">${escaped(fromBytes(why))}</span>`;
    return `<div style="top:${top}px;left:${left}px">${part(0, from)}${word}${part(to)}${told}</div>`;
}

function drawUnits() {
    const { units } = state.plan, select = of("unit"), chosen = Number(select.value);
    select.replaceChildren(...units.map((_, i) => new Option(nameOf(units, i + 1), i + 1)));
    if (units.length > 0)
        select.value = chosen >= 1 && chosen <= units.length ? chosen : 1;
    of("save-lists").disabled = units.length === 0 || state.plan.wrong.length > 0;
}

function draw() {
    drawChoice();
    drawPicture();
    drawTable();
}

// Reads the text anew and draws all of it.
function refresh() {
    const text = of("text").value;
    state.lines = text.split("\n");
    state.plan = read(toBytes(text), state.planner);
    if (state.segment > state.plan.segments.length)
        state.segment = null;
    of("lines").textContent = fromBytes(tell(state.plan, state.planner).join("\n"));
    drawWrong();
    drawUnits();
    draw();
}

function ask(change) {
    Object.assign(state, change);
    draw();
}

// A carriage return is a blank in a plan and would be a line's end in the box.
function setText(text) {
    of("text").value = text.replace(/\r\n/g, "\n").replace(/\r/g, " ");
    refresh();
    of("text").scrollTop = 0;
}

function save(name, kind, content) {
    const link = document.createElement("a");
    link.href = URL.createObjectURL(new Blob([content], { type: kind }));
    link.download = name;
    link.click();
    setTimeout(() => URL.revokeObjectURL(link.href), 1000);
}

// A file's text: UTF-8, or what old editors write.
async function textOf(file) {
    const bytes = await file.arrayBuffer();
    try {
        return new TextDecoder("utf-8", { fatal: true }).decode(bytes);
    } catch {
        say(`${file.name} is not UTF-8: it is read as Windows-1252. Save it to have it as UTF-8.`);
        return new TextDecoder("windows-1252").decode(bytes);
    }
}

// The lists file goes to the unit that is chosen.
function putLists(text) {
    const unit = Number(of("unit").value);
    const none = { wrong: "the plan has no unit" };
    const { wrong, pairs, names } = unit ? readLists(toBytes(text), state.plan, unit) : none;
    if (wrong) {
        say(`Lists file: ${fromBytes(wrong)}. Nothing is changed.`);
        return;
    }
    setText(putPairs(of("text").value, unit, pairs));
    const lists = `${nameOf(state.plan.units, unit)} has ${counted(pairs.length, "list", "lists")} of the file.`;
    const left = names > 0 ? ` ${counted(names, "line", "lines")} by NAME left out: a plan knows no senders.` : "";
    say(`Unit ${lists}${left}`);
}

async function take(file) {
    if (!file)
        return;
    say("");
    const text = await textOf(file);
    if (isLists(text))
        putLists(text);
    else
        setText(text);
}

// A PGN typed, decimal or hex.
function takePgn() {
    const word = of("pgn").value.trim(), pgn = /^([0-9]+|0[xX][0-9a-fA-F]+)$/.test(word) ? Number(word) : NaN;
    of("pgn").classList.toggle("bad", word !== "" && !isPgn(pgn));
    if (isPgn(pgn))
        ask({ pgn });
}

function listenToFiles() {
    const text = of("text"), left = of("left");
    for (const id of ["open", "open-lists"])
        of(id).onchange = event => {
            take(event.target.files[0]);
            event.target.value = "";
        };
    of("save-text").onclick = () => {
        save("machine.plan", "text/plain", text.value);
        state.saved = text.value;
    };
    of("save-picture").onclick = () =>
        save("machine.svg", "image/svg+xml", picture(state.plan, state.planner, question()));
    of("save-lists").onclick = () => {
        const unit = Number(of("unit").value);
        save(`lists-${unit}.txt`, "text/plain", fromBytes(listsFile(state.plan, unit)));
    };
    window.addEventListener("dragover", event => {
        event.preventDefault();
        left.classList.add("over");
    });
    window.addEventListener("dragleave", () => left.classList.remove("over"));
    window.addEventListener("drop", event => {
        event.preventDefault();
        left.classList.remove("over");
        take(event.dataTransfer.files[0]);
    });
    window.addEventListener("beforeunload", event => {
        if (text.value !== state.saved)
            event.preventDefault();
    });
}

function listen() {
    const text = of("text");
    text.addEventListener("input", () => {
        say("");
        refresh();
    });
    text.addEventListener("scroll", drawMarks);
    new ResizeObserver(drawMarks).observe(text);
    of("size").onclick = () => of("size").setAttribute("aria-pressed", of("picture").classList.toggle("large"));
    of("nothing").onclick = () => ask({ pgn: null, segment: null });
    of("pgn").onchange = takePgn;
    of("table").onclick = event => {
        const row = event.target.closest("tr[data-pgn]");
        if (row)
            ask({ pgn: Number(row.dataset.pgn), segment: Number(row.dataset.on) });
    };
    listenToFiles();
}

async function start() {
    state.planner = await Planner.of(bytesOfBase64(of("module").textContent));
    setText(`${of("bundled").textContent.trim()}\n`);
    state.saved = of("text").value;
    listen();
    const [first] = state.plan.asks;
    ask({ pgn: first.pgn, segment: first.segment });
    document.body.dataset.ready = "yes";
}

start();
