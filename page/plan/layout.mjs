// Where everything of a plan's picture stands. Buses are bars; a box hangs under the bus that comes first from above,
// and its further buses hang under it, each below the port that it is on.
import { columns, fromBytes } from "./bytes.mjs";
import { portsOf } from "./paths.mjs";
import { listOf } from "./planner.mjs";
import { named } from "./telling.mjs";

const BUS = 26, HEAD = 28, RADIUS = 9, LINE = 14, ROW = 24;
const STUB = 26, TOP = 10, FOOT = 48, MARGIN = 16, GAP = 28, PADDING = 12, SHELF = 1100;
const BUS_LEAST = 150, LANE_LEAST = 126, STATUS = 112, PGNS = 8;
const LETTER = 6.7, BOLD = 7.6;

const nameOf = (list, number) => fromBytes(named(list, number));

// A list in lines: its mode, then two PGNs a line, as many as are shown.
function labelLines({ mode, pgns }) {
    if (mode === 0)
        return ["all"];
    const rest = `+${pgns.length - PGNS + 1}`, shown = pgns.length > PGNS ? [...pgns.slice(0, PGNS - 1), rest] : pgns;
    const lines = [];
    for (let i = 0; i < shown.length; i += 2)
        lines.push(shown.slice(i, i + 2).join(" "));
    return [mode === 1 ? "block" : "pass", ...lines.length > 0 ? lines : ["nothing"]];
}

const widthOf = (words, letter) => Math.ceil(letter * columns(words));
const widest = lines => Math.max(...lines.map(line => widthOf(line, LETTER)));

// The trees of a plan: of each the first segment, under it the units that are on it, under these their further
// segments.
function treesOf(plan) {
    const seen = new Set(), trees = [];
    const isOn = (unit, segment) => portsOf(plan, unit).some(one => one.segment === segment);
    const unitsOn = segment => plan.units.map((_, i) => i + 1).filter(unit => isOn(unit, segment));
    const treeOf = (segment, above) => {
        seen.add(segment);
        return { segment, units: unitsOn(segment).filter(unit => unit !== above).map(unit => unitOf(unit, segment)) };
    };
    const unitOf = (unit, segment) => {
        const ports = portsOf(plan, unit), port = ports.find(one => one.segment === segment)?.port;
        const others = ports.filter(one => one.port !== port);
        return { unit, port, lanes: others.map(one => ({ ...one, bus: treeOf(one.segment, unit) })) };
    };
    plan.segments.forEach((_, i) => {
        if (!seen.has(i + 1))
            trees.push(treeOf(i + 1));
    });
    plan.units.forEach((_, i) => {
        if (portsOf(plan, i + 1).length === 0)
            trees.push({ units: [unitOf(i + 1)] });
    });
    return trees;
}

// How wide and high everything is, from below upwards.
function measureUnit(plan, box) {
    for (const lane of box.lanes) {
        measureBus(plan, lane.bus);
        lane.down = labelLines(listOf(plan, box.unit, box.port, lane.port));
        lane.up = labelLines(listOf(plan, box.unit, lane.port, box.port));
        lane.width = Math.max(LANE_LEAST, lane.bus.width, 2 * Math.max(widest(lane.down), widest(lane.up)) + 52);
    }
    const ports = box.lanes.map(lane => lane.port);
    const pairs = ports.flatMap(from => ports.filter(to => to !== from).map(to => ({ from, to })));
    const rows = pairs.map(pair => ({ ...pair, list: listOf(plan, box.unit, pair.from, pair.to) }));
    box.rows = rows.filter(row => row.list.mode !== 0);
    const lanes = box.lanes.reduce((sum, lane) => sum + lane.width + GAP, -GAP);
    box.width = Math.max(lanes, widthOf(nameOf(plan.units, box.unit), BOLD) + 2 * PADDING, LANE_LEAST);
    const lines = Math.max(0, ...box.lanes.map(lane => Math.max(lane.down.length, lane.up.length)));
    box.labels = LINE * lines + 6;
    box.height = HEAD + (box.lanes.length > 0 ? TOP + box.labels + ROW * box.rows.length + FOOT : PADDING);
}

function measureBus(plan, bus) {
    bus.units.forEach(box => measureUnit(plan, box));
    const boxes = bus.units.reduce((sum, box) => sum + box.width + GAP, -GAP);
    const label = bus.segment ? widthOf(nameOf(plan.segments, bus.segment), BOLD) + STATUS + 2 * PADDING : 0;
    bus.width = Math.max(BUS_LEAST, label, boxes);
}

// Where everything stands, from above downwards; gives the lowest place.
function placeUnit(box, x, y, into) {
    Object.assign(box, { x, y, middle: x + box.width / 2, bottom: y + box.height });
    into.boxes.push(box);
    const used = box.lanes.reduce((sum, lane) => sum + lane.width + GAP, -GAP);
    let left = x + (box.width - used) / 2, lowest = box.bottom;
    for (const lane of box.lanes) {
        lane.middle = left + lane.width / 2;
        const busLeft = left + (lane.width - lane.bus.width) / 2;
        lowest = Math.max(lowest, placeBus(lane.bus, busLeft, box.bottom + STUB, into));
        left += lane.width + GAP;
    }
    return lowest;
}

function placeBus(bus, x, y, into) {
    Object.assign(bus, { x, y });
    if (bus.segment)
        into.buses.push(bus);
    const used = bus.units.reduce((sum, box) => sum + box.width + GAP, -GAP);
    let left = x + (bus.width - used) / 2, lowest = y + BUS;
    for (const box of bus.units) {
        lowest = Math.max(lowest, placeUnit(box, left, bus.segment ? y + BUS + STUB : y, into));
        left += box.width + GAP;
    }
    return lowest;
}

// The trees side by side, on as many shelves as they need.
function layout(plan) {
    const into = { buses: [], boxes: [], width: 0, height: 0 };
    const trees = treesOf(plan);
    trees.forEach(tree => measureBus(plan, tree));
    const shelf = Math.max(SHELF, ...trees.map(tree => tree.width));
    let x = MARGIN, y = MARGIN, lowest = y;
    for (const tree of trees) {
        if (x > MARGIN && x + tree.width > MARGIN + shelf) {
            x = MARGIN;
            y = lowest + GAP;
        }
        lowest = Math.max(lowest, placeBus(tree, x, y, into));
        x += tree.width + GAP;
        into.width = Math.max(into.width, x - GAP + MARGIN);
    }
    return Object.assign(into, { height: lowest + MARGIN });
}

export { BUS, FOOT, HEAD, LINE, RADIUS, ROW, STUB, TOP, labelLines, layout, nameOf };
