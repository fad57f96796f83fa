// What the program `plan` prints for a plan that was read, line by line.
import { answer, reasonWords } from "./paths.mjs";

// A number and, after a blank, its name, if it has one.
const named = (list, number) => list[number - 1].name === "" ? `${number}` : `${number} ${list[number - 1].name}`;

// What a segment is told, in words.
function words(plan, { told, stop }) {
    if (told === "sent")
        return "sent here";
    if (told === "heard")
        return "hears it";
    if (told === "no path")
        return "does not hear it: no path leads there";
    const unit = named(plan.units, stop.unit);
    return `does not hear it: unit ${unit}, port ${stop.from} to port ${stop.to}: ${reasonWords(stop.mode)}`;
}

// The lines of the questions that are answered, and of the lines that are wrong, which come behind them; then how much
// there was.
function tell(plan, planner) {
    const answers = plan.asks.slice(0, plan.answered).flatMap(({ pgn, segment }) => [
        `PGN ${pgn} sent on segment ${named(plan.segments, segment)}`,
        ...answer(plan, planner, pgn, segment).map((one, i) => `  ${named(plan.segments, i + 1)}: ${words(plan, one)}`),
    ]);
    const wrong = plan.wrong.map(({ line, why }) => `? line ${line}: ${why}`);
    const end = plan.wrong.length > 0
        ? `wrong lines ${plan.wrong.length}`
        : `segments ${plan.segments.length}, units ${plan.units.length}, answers ${plan.asks.length}`;
    return [...answers, ...wrong, end];
}

export { named, tell, words };
