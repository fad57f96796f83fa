// A plan's text (docs/PLANS.md) read: the plan, its questions, and the lines that are wrong, each with its word.
// A text is a string with a letter for each byte, as the program `plan` reads bytes.
import { LONGEST_LIST, MOST, PORTS, has, isPgn, listOf, noWords, putList, putPort, segmentOn } from "./planner.mjs";
import { pathsFrom, portsOf } from "./paths.mjs";
import { named } from "./telling.mjs";

const LONGEST_LINE = 4096, LONGEST_NAME = 32, SHOWN = 32, MARK = "\xEF\xBB\xBF", MODES = { block: 1, pass: 2 };

// A word in quotation marks, or as it stands where it begins with one; a long one is cut.
function quoted(word) {
    const cut = word.length > SHOWN ? `${word.slice(0, SHOWN)}..` : word;
    return word[0] === '"' ? cut : `"${cut}"`;
}

// Why a line is wrong, and which word of it; none where one is missing. What the word stands for is told, if named.
class Wrong extends Error {
    constructor(why, word, field = "") {
        super(word ? `${field === "" ? "" : `${field} `}${quoted(word.text)}: ${why}` : why);
        this.word = word;
    }
}

// Words are parted by blanks. One that begins with a quotation mark goes up to the next, or to the line's end.
const WORD = /"[^"]*"?|[^ \t\r"][^ \t\r]*/g;

const isDecimal = text => /^[0-9]+$/.test(text) && Number(text) < 2 ** 32;
const isHex = text => /^0[xX][0-9a-fA-F]+$/.test(text) && Number(text) < 2 ** 32;

// Whether no quotation mark ends a word that begins with one; and a word without its marks.
const isOpen = text => text[0] === '"' && (text.length === 1 || !text.endsWith('"'));
const withoutMarks = text => text[0] === '"' && text.length > 1 ? text.slice(1, -1) : text;

function checkMarks(word) {
    if (isOpen(word.text))
        throw new Wrong("no quotation mark ends it", word);
    return word;
}

// The words of a line, one by one. A word that begins with # begins a comment.
class Words {
    constructor(line) {
        this.left = [];
        this.comment = "";
        for (const found of line.matchAll(WORD)) {
            if (found[0][0] === "#") {
                this.comment = line.slice(found.index + 1).trim();
                break;
            }
            this.left.push({ text: found[0], at: found.index });
        }
    }

    next(what) {
        if (this.left.length === 0)
            throw new Wrong(`${what} missing`);
        return this.left.shift();
    }

    number(what) {
        const word = this.next(what);
        if (!isDecimal(word.text))
            throw new Wrong("not a decimal number below 2^32", word, what);
        return { number: Number(word.text), word };
    }

    pgn() {
        const word = this.next("PGN");
        if (!isDecimal(word.text) && !isHex(word.text))
            throw new Wrong("not a number below 2^32, decimal or 0x hex", word, "PGN");
        return { number: Number(word.text), word };
    }

    // A name, if there is one.
    name() {
        const word = checkMarks(this.left.shift() ?? { text: "" }), name = withoutMarks(word.text);
        if (name.length > LONGEST_NAME)
            throw new Wrong("longer than 32 bytes", word, "name");
        return name;
    }

    // The word segment, and the word with its number or name.
    segment() {
        const word = this.next("the word segment");
        if (word.text !== "segment")
            throw new Wrong("the word segment missing", word);
        return checkMarks(this.next("segment"));
    }

    mode() {
        const word = this.next("mode");
        if (!Object.hasOwn(MODES, word.text))
            throw new Wrong("not pass or block", word, "mode");
        return MODES[word.text];
    }

    pgns() {
        if (this.left.length > LONGEST_LIST)
            throw new Wrong("more than 32 PGNs", this.left[LONGEST_LIST], "PGN");
        return [...this.left].map(() => this.pgn());
    }
}

// What a line says, by its form: numbers may be any below 2^32.
const FORMS = {
    segment: words => ({ number: words.number("segment"), name: words.name() }),
    unit: words => ({ number: words.number("unit"), name: words.name() }),
    port: words => ({ port: words.number("port"), on: words.segment() }),
    pair: words => ({ from: words.number("From"), to: words.number("To"), mode: words.mode(), pgns: words.pgns() }),
    ask: words => ({ pgn: words.pgn(), on: words.segment() }),
};

function lineOf(text) {
    const words = new Words(text), first = words.left.shift();
    if (text.length > LONGEST_LINE)
        throw new Wrong("longer than 4,096 bytes", first);
    if (!Object.hasOwn(FORMS, first.text))
        throw new Wrong("the first word is none of segment, unit, port, pair, ask", first);
    const said = FORMS[first.text](words);
    if (words.left.length > 0)
        throw new Wrong("more words than the line has", words.left[0]);
    return { kind: first.text, first, comment: words.comment, ...said };
}

// A plan as far as it is read.
class Draft {
    constructor(planner) {
        this.planner = planner;
        this.plan = { segments: [], units: [], ...noWords(), asks: [], answered: 0, wrong: [], rings: [] };
    }

    take(said) {
        if (this.plan.asks.length > 0 && said.kind !== "ask")
            throw new Wrong("after an ask come asks alone", said.first);
        this[said.kind](said);
    }

    // Segments and units are numbered as they come.
    add(list, what, { number, name }) {
        if (list.length === MOST)
            throw new Wrong(`there are ${MOST} ${what}s already`, number.word, what);
        if (number.number !== list.length + 1)
            throw new Wrong(`the next ${what} is ${list.length + 1}`, number.word, what);
        list.push({ name });
    }

    segment(said) {
        this.add(this.plan.segments, "segment", said);
    }

    unit(said) {
        this.add(this.plan.units, "unit", said);
    }

    // A segment or a unit whose line is wrong counts all the same, without a name, so that the lines below are judged
    // as they were meant.
    countWrong(text) {
        const { plan } = this, lists = new Map([["segment", plan.segments], ["unit", plan.units]]);
        const list = lists.get(new Words(text).left[0].text);
        if (list && list.length < MOST && plan.asks.length === 0 && text.length <= LONGEST_LINE)
            list.push({ name: "" });
    }

    // The unit that a line speaks of: the last one above.
    lastUnit(first) {
        if (this.plan.units.length === 0)
            throw new Wrong("no unit yet", first);
        return this.plan.units.length;
    }

    // The segment that a word means, by its number or its name.
    segmentOf(word) {
        const all = this.plan.segments.map((segment, i) => ({ ...segment, number: i + 1 }));
        const name = withoutMarks(word.text);
        const isMeant = isDecimal(word.text)
            ? segment => segment.number === Number(word.text)
            : segment => name !== "" && segment.name === name;
        const meant = all.filter(isMeant);
        if (meant.length === 0)
            throw new Wrong("not above", word, "segment");
        if (meant.length > 1)
            throw new Wrong("two have this name", word, "segment");
        return meant[0].number;
    }

    // The port is not put where the units above lead already, and a second path would.
    port({ first, port, on }) {
        const { plan } = this, unit = this.lastUnit(first);
        if (port.number < 1 || port.number > PORTS)
            throw new Wrong("not 1 to 8", port.word, "port");
        const used = segmentOn(plan, unit, port.number);
        if (used !== 0)
            throw new Wrong(`on segment ${named(plan.segments, used)} already`, port.word, "port");
        const segment = this.segmentOf(on);
        this.checkPath(unit, port.number, segment, on);
        putPort(plan, unit, port.number, segment);
    }

    checkPath(unit, port, segment, word) {
        const { plan } = this, reached = this.planner.reach(plan, unit - 1, segment);
        const other = portsOf(plan, unit).find(one => has(reached, one.segment));
        if (!other)
            return;
        const steps = pathsFrom(plan, unit - 1, other.segment).get(segment);
        plan.rings.push({ unit, port, segment, other: other.segment, steps });
        const unitName = named(plan.units, unit);
        if (other.segment === segment)
            throw new Wrong(`port ${other.port} of unit ${unitName} is on it already (29)`, word, "segment");
        const way = `by unit ${unitName}, and by ${this.wayOf(steps)}`;
        throw new Wrong(`two paths to segment ${named(plan.segments, other.segment)} (29): ${way}`, word, "segment");
    }

    // The units of a path, with the segments between them.
    wayOf(steps) {
        const { segments, units } = this.plan;
        const segment = step => `segment ${named(segments, step.segment)}`;
        return steps.flatMap(step => [`unit ${named(units, step.unit)}`, segment(step)]).slice(0, -1).join(", ");
    }

    pair({ first, from, to, mode, pgns }) {
        const { plan } = this, unit = this.lastUnit(first);
        for (const [field, { number, word }] of [["From", from], ["To", to]])
            if (segmentOn(plan, unit, number) === 0)
                throw new Wrong("no such port above", word, field);
        if (from.number === to.number)
            throw new Wrong("equals From", to.word, "To");
        if (listOf(plan, unit, from.number, to.number).mode !== 0)
            throw new Wrong(`pair ${from.number} ${to.number} is above already`, from.word, "From");
        this.checkPgns(pgns);
        putList(plan, unit, from.number, to.number, { mode, pgns: pgns.map(pgn => pgn.number) });
    }

    checkPgns(pgns) {
        const wrong = pgns.find(pgn => !isPgn(pgn.number));
        if (wrong)
            throw new Wrong("no PGN", wrong.word, "PGN");
    }

    // A question counts; it is answered unless a line above it is wrong.
    ask({ pgn, on, comment }) {
        this.checkPgns([pgn]);
        this.plan.asks.push({ pgn: pgn.number, segment: this.segmentOf(on), comment });
        if (this.plan.wrong.length === 0)
            this.plan.answered = this.plan.asks.length;
    }
}

const isBlank = letter => letter === " " || letter === "\t" || letter === "\r";

// The first place from one on that has no blank; and the place behind the last that has none.
function pastBlanks(text, from) {
    let at = from;
    while (at < text.length && isBlank(text[at]))
        at++;
    return at;
}

function endOf(text) {
    let end = text.length;
    while (end > 0 && isBlank(text[end - 1]))
        end--;
    return end;
}

// Where a line begins behind blanks and, if it is the first, marks.
function startOf(text, isFirst) {
    let start = pastBlanks(text, 0);
    while (isFirst && text.startsWith(MARK, start))
        start = pastBlanks(text, start + MARK.length);
    return start;
}

// The lines of a text without the blanks at their ends, each with its number and the place where it begins in its line;
// empty ones and comments are passed over.
function linesOf(text) {
    const lines = [];
    text.split("\n").forEach((raw, i) => {
        const start = startOf(raw, i === 0);
        if (start < raw.length && raw[start] !== "#")
            lines.push({ number: i + 1, start, text: raw.slice(start, endOf(raw)) });
    });
    return lines;
}

// Reads a text. A line that is wrong is left out.
function read(text, planner) {
    const draft = new Draft(planner);
    for (const line of linesOf(text))
        try {
            draft.take(lineOf(line.text));
        } catch (wrong) {
            if (!(wrong instanceof Wrong))
                throw wrong;
            draft.plan.wrong.push(place(line, wrong));
            draft.countWrong(line.text);
        }
    return draft.plan;
}

// What is wrong in a line, and from where to where: the word, or the line where none is.
function place(line, { message, word }) {
    const from = line.start + (word ? word.at : 0);
    return { line: line.number, why: message, from, to: from + (word ? word.text.length : line.text.length) };
}

export { read };
