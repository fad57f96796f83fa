// A table of all questions by segments, as text.
import { answer } from "./paths.mjs";
import { named } from "./telling.mjs";

// What a segment is told, in a few letters: a stop as unit, ports, and how its pair is set.
function cell({ told, stop }) {
    if (told !== "stopped")
        return { sent: "sent", heard: "hears", "no path": "no path" }[told];
    return `unit ${stop.unit}: ${stop.from}>${stop.to} ${stop.mode === 1 ? "listed" : "not listed"}`;
}

// A row for each of some questions: the question, and what each segment is told.
function rows(plan, planner, asks) {
    return asks.map(({ pgn, segment, comment }) => ({
        pgn, segment, comment, answers: answer(plan, planner, pgn, segment),
    }));
}

// The questions that are answered, in columns as wide as the longest of them. The letters of a name are its bytes, so
// they are counted as they are shown.
function table(plan, planner, widthOf) {
    const head = ["PGN", "sent on", ...plan.segments.map((_, i) => named(plan.segments, i + 1))];
    const body = rows(plan, planner, plan.asks.slice(0, plan.answered))
        .map(row => [`${row.pgn}`, named(plan.segments, row.segment), ...row.answers.map(cell)]);
    const widths = head.map((_, i) => Math.max(...[head, ...body].map(line => widthOf(line[i]))));
    const lined = line => line.map((word, i) => word + " ".repeat(widths[i] - widthOf(word))).join("  ").trimEnd();
    return [head, ...body].map(lined);
}

export { cell, rows, table };
