// The picture of a plan as SVG: buses, boxes between them with their ports, lists at the arrows; with a question, who
// hears, and where it stops and why.
import { columns, escaped } from "./bytes.mjs";
import { BUS, FOOT, HEAD, LINE, RADIUS, ROW, STUB, TOP, labelLines, layout, nameOf } from "./layout.mjs";
import { answer } from "./paths.mjs";
import { listOf, segmentOn } from "./planner.mjs";

const STYLE = `
.plan-picture { font: 12px system-ui, "Segoe UI", Helvetica, Arial, sans-serif; }
.plan-picture .ground { fill: #fff; }
.plan-picture .middle { text-anchor: middle; }
.plan-picture .end { text-anchor: end; }
.plan-picture .bus rect { fill: #475569; }
.plan-picture .bus text { fill: #fff; font-weight: 600; font-size: 13px; }
.plan-picture .bus .status { font-weight: 400; font-size: 12px; }
.plan-picture .bus.sent rect { fill: #1d4ed8; }
.plan-picture .bus.heard rect { fill: #15803d; }
.plan-picture .bus.stopped rect { fill: #b91c1c; }
.plan-picture .bus.nopath rect { fill: #94a3b8; }
.plan-picture .box .body { fill: #f8fafc; stroke: #334155; stroke-width: 1.5; }
.plan-picture .box .head { fill: #dbe4ee; stroke: #334155; stroke-width: 1.5; }
.plan-picture .box .name { font-weight: 600; font-size: 13px; fill: #0f172a; }
.plan-picture .stub { stroke: #475569; stroke-width: 3; }
.plan-picture .stub.on { stroke: #15803d; stroke-width: 5; }
.plan-picture .port circle { fill: #fff; stroke: #334155; stroke-width: 1.5; }
.plan-picture .port text { font-size: 11px; font-weight: 600; fill: #0f172a; }
.plan-picture .pair path { stroke: #64748b; stroke-width: 1.5; fill: none; }
.plan-picture .pair polygon { fill: #64748b; }
.plan-picture .pair text { fill: #64748b; font-size: 11.5px; paint-order: stroke; stroke: #f8fafc; stroke-width: 3px; }
.plan-picture .pair.pass text, .plan-picture .pair.block text { fill: #1e293b; }
.plan-picture .pair .mode { font-weight: 700; }
.plan-picture .pair.pass .mode { fill: #0f766e; }
.plan-picture .pair.block .mode { fill: #b45309; }
.plan-picture.asked .pair { opacity: .3; }
.plan-picture.asked .pair.crossed, .plan-picture.asked .pair.stopping { opacity: 1; }
.plan-picture .pair.crossed path { stroke: #15803d; stroke-width: 3.5; }
.plan-picture .pair.crossed polygon { fill: #15803d; }
.plan-picture .pair.stopping path { stroke: #b91c1c; stroke-width: 3.5; stroke-dasharray: 5 4; }
.plan-picture .pair.stopping polygon { fill: #b91c1c; }
.plan-picture .verdict rect { fill: #fef2f2; stroke: #b91c1c; stroke-width: 1.5; }
.plan-picture .verdict text { fill: #991b1b; font-size: 11px; font-weight: 600; }
.plan-picture .ringed .body, .plan-picture .ringed .head { stroke: #dc2626; stroke-width: 4; }
.plan-picture .bus.ringed rect { stroke: #dc2626; stroke-width: 4; }
.plan-picture .closing { stroke: #dc2626; stroke-width: 4; stroke-dasharray: 9 6; fill: none; }
.plan-picture .closing-port circle { fill: #dc2626; stroke: #dc2626; }
.plan-picture .closing-port text { fill: #fff; }
.plan-picture .ring-title { fill: #b91c1c; font-weight: 600; font-size: 13px; }
.plan-picture .around { fill: none; stroke: #dc2626; stroke-width: 4; }
.plan-picture .caption { font-size: 14px; font-weight: 600; fill: #0f172a; }
`;

const STATUS = { sent: "sent here", heard: "hears it", stopped: "does not hear it", "no path": "no path" };
const CAPTION = 34, LEAST_WIDTH = 420;

const text = (x, y, words, kind = "") => `<text x="${x}" y="${y}" class="${kind}">${escaped(words)}</text>`;
const title = words => `<title>${escaped(words)}</title>`;
const rect = (x, y, width, height, kind = "") =>
    `<rect x="${x}" y="${y}" width="${width}" height="${height}" rx="5" class="${kind}"/>`;

// The line between a port and its bus, thicker where the bus hears the question.
const stub = (x, y, isOn) => `<path class="stub${isOn ? " on" : ""}" d="M${x} ${y}v${STUB}"/>`;

const port = (x, y, number, kind = "") =>
    `<g class="port ${kind}"><circle cx="${x}" cy="${y}" r="${RADIUS}"/>${text(x, y + 4, `${number}`, "middle")}</g>`;

// An arrow along a line, straight down, up or to a side, with its head at the end.
function arrow(x, y, toX, toY) {
    const dx = Math.sign(toX - x), dy = Math.sign(toY - y), backX = toX - 8 * dx, backY = toY - 8 * dy;
    const corners = [[toX, toY], [backX - 4.5 * dy, backY + 4.5 * dx], [backX + 4.5 * dy, backY - 4.5 * dx]];
    return `<path d="M${x} ${y}L${backX} ${backY}"/><polygon points="${corners.join(" ")}"/>`;
}

// What a question makes of each pair that it comes to: crossed, or stopped with the mode of its list.
function pairsOf(answers) {
    const pairs = new Map();
    for (const { told, steps, stop } of answers)
        for (const step of steps ?? []) {
            const isStop = told === "stopped" && step.unit === stop.unit && step.to === stop.to;
            const kind = isStop ? { kind: "stopping", mode: stop.mode } : { kind: "crossed" };
            pairs.set(`${step.unit} ${step.from} ${step.to}`, kind);
            if (isStop)
                break;
        }
    return pairs;
}

// Everything that the parts of the picture are drawn from: the plan, the answer, and the first ring.
function sceneOf(plan, planner, chosen) {
    const answers = chosen ? answer(plan, planner, chosen.pgn, chosen.segment) : null, [ring] = plan.rings;
    const ringedBuses = ring ? [ring.other, ...ring.steps.map(step => step.segment)] : [];
    const ringedUnits = ring ? [ring.unit, ...ring.steps.map(step => step.unit)] : [];
    return { plan, answers, pairs: pairsOf(answers ?? []), ring, ringedBuses, ringedUnits };
}

const isOn = ({ answers }, segment) => ["sent", "heard"].includes(answers?.[segment - 1]?.told);

function drawBus({ plan, answers, ringedBuses }, bus) {
    const told = answers?.[bus.segment - 1].told, name = nameOf(plan.segments, bus.segment), y = bus.y + 17.5;
    const kinds = ["bus", (told ?? "").replace(" ", ""), ringedBuses.includes(bus.segment) ? "ringed" : ""];
    const status = told ? text(bus.x + bus.width - 10, y, STATUS[told], "status end") : "";
    const parts = [title(`segment ${name}`), rect(bus.x, bus.y, bus.width, BUS), text(bus.x + 10, y, name), status];
    return `<g class="${kinds.join(" ")}" data-segment="${bus.segment}">${parts.join("")}</g>`;
}

// A pair's arrow and its label, with the whole list as its title.
function drawPair({ plan, pairs }, unit, from, to, parts) {
    const { mode, pgns } = listOf(plan, unit, from, to), kind = pairs.get(`${unit} ${from} ${to}`)?.kind ?? "";
    const list = mode === 0 ? "everything crosses" : [["block", "pass"][mode - 1], ...pgns].join(" ");
    const whole = title(`unit ${nameOf(plan.units, unit)}, port ${from} to port ${to}: ${list}`);
    return `<g class="pair ${["", "block", "pass"][mode]} ${kind}">${whole}${parts.join("")}</g>`;
}

// Where a PGN stops: the pair and the reason, in two lines.
function verdict({ pairs }, unit, from, to, x, y) {
    const found = pairs.get(`${unit} ${from} ${to}`);
    if (found?.kind !== "stopping")
        return "";
    const reason = found.mode === 1 ? "as listed" : "as not listed";
    const lines = [text(x, y + 13, `\u2715 ${from} to ${to} stopped`, "middle"), text(x, y + 26, reason, "middle")];
    return `<g class="verdict">${rect(x - 57, y, 114, 32)}${lines.join("")}</g>`;
}

// One of the two arrows between the port above and a port below, with its list beside it.
function lanePair(scene, box, lane, isDown) {
    const top = box.y + HEAD, end = box.bottom - RADIUS - 2, side = isDown ? -1 : 1, x = lane.middle + 7 * side;
    const [from, to] = isDown ? [box.port, lane.port] : [lane.port, box.port], lines = isDown ? lane.down : lane.up;
    const kind = i => `${isDown ? "end" : ""} ${i === 0 && lines.length > 1 ? "mode" : ""}`;
    const label = lines.map((words, i) => text(x + 9 * side, top + TOP + LINE * (i + 0.75), words, kind(i)));
    const drawn = isDown ? arrow(x, top, x, end) : arrow(x, end, x, top + 1);
    return drawPair(scene, box.unit, from, to, [drawn, ...label]);
}

// An arrow between two ports below, with its list above it.
function rowPair(scene, box, { from, to, list }, y) {
    const [start, end] = [from, to].map(number => box.lanes.find(lane => lane.port === number).middle);
    const way = Math.sign(end - start), middle = (start + end) / 2, words = list ? labelLines(list).join(" ") : "";
    const parts = [arrow(start + 12 * way, y, end - 12 * way, y), text(middle, y - 4, words, "middle")];
    return drawPair(scene, box.unit, from, to, parts) + verdict(scene, box.unit, from, to, middle, y - 20);
}

// The pairs between ports below that a question crosses and that have no list, so no row of their own.
function crossedRows({ pairs, plan }, box) {
    const ports = box.lanes.map(lane => lane.port);
    const all = ports.flatMap(from => ports.filter(to => to !== from).map(to => ({ from, to })));
    const isCrossed = ({ from, to }) => pairs.has(`${box.unit} ${from} ${to}`);
    return all.filter(pair => isCrossed(pair) && listOf(plan, box.unit, pair.from, pair.to).mode === 0);
}

// What is inside a box: the arrows, and over them where the question stops.
function insideOf(scene, box) {
    const { unit } = box, firstRow = box.y + HEAD + TOP + box.labels, foot = box.bottom - FOOT + 4;
    const arrows = box.lanes.flatMap(lane => [lanePair(scene, box, lane, true), lanePair(scene, box, lane, false)]);
    const rows = box.rows.map((row, i) => rowPair(scene, box, row, firstRow + ROW * (i + 0.7)));
    const crossed = crossedRows(scene, box).map(row => rowPair(scene, box, row, box.bottom - 24));
    const verdicts = box.lanes.flatMap(lane => [
        verdict(scene, unit, box.port, lane.port, lane.middle, foot),
        verdict(scene, unit, lane.port, box.port, lane.middle, foot),
    ]);
    return [...arrows, ...rows, ...crossed, ...verdicts];
}

function drawBox(scene, box) {
    const { plan, ringedUnits } = scene, kind = ringedUnits.includes(box.unit) ? "box ringed" : "box";
    const body = [
        rect(box.x, box.y, box.width, box.height, "body"), rect(box.x, box.y, box.width, HEAD, "head"),
        text(box.middle, box.y + 22, nameOf(plan.units, box.unit), "name middle"),
    ];
    const below = box.lanes.flatMap(lane => [
        stub(lane.middle, box.bottom, isOn(scene, lane.segment)), port(lane.middle, box.bottom, lane.port),
    ]);
    const isOnAbove = isOn(scene, segmentOn(plan, box.unit, box.port));
    const above = box.port ? [stub(box.middle, box.y - STUB, isOnAbove), port(box.middle, box.y, box.port)] : [];
    const parts = [...body, ...insideOf(scene, box), ...above, ...below];
    return `<g class="${kind}" data-unit="${box.unit}">${parts.join("")}</g>`;
}

// The link that would close a ring: from the side of its box to the end of its bus.
function drawClosing({ ring }, { boxes, buses }) {
    const box = boxes.find(one => one.unit === ring.unit), bus = buses.find(one => one.segment === ring.segment);
    const x = box.x + box.width, y = box.y + box.height / 2, toX = bus.x + bus.width, toY = bus.y + BUS / 2;
    const out = Math.max(x, toX) + 60;
    const link = `<path class="closing" d="M${x} ${y}C${out} ${y} ${out} ${toY} ${toX} ${toY}"/>`;
    return link + port(x, y, ring.port, "closing-port");
}

// The ring as a ring: its buses and boxes around it, in order.
function drawRing({ plan, ring }, x, y) {
    const between = ring.steps.flatMap(step => [{ unit: step.unit }, { bus: step.segment }]);
    const around = [{ bus: ring.other }, ...between, { unit: ring.unit }];
    const radius = Math.max(80, 26 * around.length), cx = x + radius + 90, cy = y + radius + 50;
    const parts = around.map(({ bus, unit }, i) => {
        const angle = 2 * Math.PI * i / around.length - Math.PI / 2;
        const px = Math.round(cx + radius * Math.cos(angle)), py = Math.round(cy + radius * Math.sin(angle));
        const name = bus ? nameOf(plan.segments, bus) : nameOf(plan.units, unit);
        const width = Math.max(70, Math.ceil(7.8 * columns(name)) + 22), left = px - width / 2;
        const shape = rect(left, py - BUS / 2, width, BUS, bus ? "" : "head");
        const kind = bus ? "bus" : "box";
        return `<g class="${kind} ringed">${shape}${text(px, py + 4.5, name, bus ? "middle" : "name middle")}</g>`;
    });
    const isRound = ring.steps.length > 0;
    const words = isRound ? "a ring: frames would go round for ever" : "two ports of one unit on one bus: a ring";
    const circle = `<circle class="around" cx="${cx}" cy="${cy}" r="${radius}"/>`;
    const drawn = text(cx, y + 14, words, "ring-title middle") + circle + parts.join("");
    return { drawn, width: 2 * radius + 180, height: 2 * radius + 80 };
}

// The picture whole, to stand in a page or in a file of its own. With a question { pgn, segment } it is answered in it.
function picture(plan, planner, chosen = null) {
    const placed = layout(plan), scene = sceneOf(plan, planner, chosen);
    const drawn = [...placed.boxes.map(box => drawBox(scene, box)), ...placed.buses.map(bus => drawBus(scene, bus))];
    let { width, height } = placed;
    if (scene.ring) {
        const ring = drawRing(scene, width + 40, 16);
        drawn.push(drawClosing(scene, placed), ring.drawn);
        width += 40 + ring.width;
        height = Math.max(height, ring.height);
    }
    width = Math.max(width, LEAST_WIDTH);
    height += CAPTION;
    const question = chosen ? `PGN ${chosen.pgn} sent on segment ${nameOf(plan.segments, chosen.segment)}` : "";
    const size = `width="${width}" height="${height}" viewBox="0 0 ${width} ${height}"`;
    const kind = chosen ? "plan-picture asked" : "plan-picture";
    return `<svg xmlns="http://www.w3.org/2000/svg" class="${kind}" ${size}><style>${STYLE}</style>
<rect class="ground" width="${width}" height="${height}"/>${chosen ? text(16, 24, question, "caption") : ""}
<g transform="translate(0 ${CAPTION - 12})">
${drawn.join("\n")}
</g></svg>
`;
}

export { picture };
