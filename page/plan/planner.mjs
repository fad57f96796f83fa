// The proved planner in WebAssembly: which segments hear a PGN that is sent on one of them (`deorasaeng_plan`).
const MOST = 16, PORTS = 8, LONGEST_LIST = 32, CLAIM = 60928;
const PAIRS = PORTS * (PORTS - 1), BLOCK = 2 + LONGEST_LIST;
const PORT_WORDS = MOST * PORTS, LIST_WORDS = MOST * PAIRS * BLOCK;

// A plan without a port or a list, in words as the planner is lent them: the segment on each port, and a block for each
// pair, its mode, its count and its PGNs.
const noWords = () => ({ ports: new BigUint64Array(PORT_WORDS), lists: new BigUint64Array(LIST_WORDS) });

// The place of a unit's port, and where a pair's block begins; each is counted from 1.
const portAt = (unit, port) => PORTS * (unit - 1) + port - 1;
const pairAt = (unit, from, to) =>
    BLOCK * (PAIRS * (unit - 1) + (PORTS - 1) * (from - 1) + (to < from ? to - 1 : to - 2));

// The segment on a unit's port, 0 where it is unused or no port.
const segmentOn = (plan, unit, port) => port >= 1 && port <= PORTS ? Number(plan.ports[portAt(unit, port)]) : 0;

function putPort(plan, unit, port, segment) {
    plan.ports[portAt(unit, port)] = BigInt(segment);
}

// A pair's list: its mode, 0 where it is cleared, and its PGNs.
function listOf(plan, unit, from, to) {
    const at = pairAt(unit, from, to), pgns = plan.lists.subarray(at + 2, at + 2 + Number(plan.lists[at + 1]));
    return { mode: Number(plan.lists[at]), pgns: Array.from(pgns, Number) };
}

function putList(plan, unit, from, to, { mode, pgns }) {
    plan.lists.set([mode, pgns.length, ...pgns].map(BigInt), pairAt(unit, from, to));
}

const isPgn = number => number < 1 << 18 && ((number >> 8 & 0xFF) >= 240 || (number & 0xFF) === 0);

// Whether a mask has a segment.
const has = (mask, segment) => segment >= 1 && segment <= MOST && (mask >> segment - 1 & 1) === 1;

const bytesOfBase64 = text => Uint8Array.from(atob(text.replace(/\s/g, "")), letter => letter.charCodeAt(0));

class Planner {
    // From the module's bytes. A browser makes an instance of a module in its own time.
    static async of(bytes) {
        const { instance } = await WebAssembly.instantiate(bytes, {});
        return new Planner(instance.exports);
    }

    // The lent storage lies behind what the module takes itself.
    constructor(exports) {
        this.call = exports.deorasaeng_plan;
        this.ports = Number(exports.__heap_base.value) + 15 & ~15;
        this.lists = this.ports + 8 * PORT_WORDS;
        this.answer = this.lists + 8 * LIST_WORDS;
        const missing = this.answer + 8 - exports.memory.buffer.byteLength;
        if (missing > 0)
            exports.memory.grow(Math.ceil(missing / 65536));
        this.words = new BigUint64Array(exports.memory.buffer);
    }

    // The segments that hear a PGN, as a mask, in a plan's first units.
    hear(plan, units, first, pgn) {
        this.words.set(plan.ports, this.ports / 8);
        this.words.set(plan.lists, this.lists / 8);
        const number = this.call(this.ports, BigInt(PORT_WORDS), this.lists, BigInt(LIST_WORDS), plan.segments.length,
            units, first, pgn, this.answer, 1n);
        if (number !== 0)
            throw new Error(`the planner refuses with ${number} what was read as a plan`);
        return Number(this.words[this.answer / 8]);
    }

    // The segments that a path leads to, whatever the lists say: those that hear a claim, which crosses every pair.
    reach(plan, units, first) {
        return this.hear(plan, units, first, CLAIM);
    }
}

export { LONGEST_LIST, MOST, PORTS, Planner, bytesOfBase64, has, isPgn, listOf, noWords, putList, putPort, segmentOn };
