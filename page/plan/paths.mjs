// The paths of a plan that was read, in which there is never more than one between two segments.
import { PORTS, has, listOf, segmentOn } from "./planner.mjs";

// A unit's ports in use, with their segments.
function portsOf(plan, unit) {
    const ports = Array.from({ length: PORTS }, (_, i) => ({ port: i + 1, segment: segmentOn(plan, unit, i + 1) }));
    return ports.filter(one => one.segment !== 0);
}

// The steps from a segment to each that a path leads to, in a plan's first units. A step goes through a unit from one
// of its ports to another.
function pathsFrom(plan, units, first) {
    const paths = new Map([[first, []]]);
    for (const [segment, steps] of paths)
        for (let unit = 1; unit <= units; unit++) {
            const ports = portsOf(plan, unit), from = ports.find(one => one.segment === segment);
            for (const to of from ? ports : [])
                if (!paths.has(to.segment))
                    paths.set(to.segment, [...steps, { unit, from: from.port, to: to.port, segment: to.segment }]);
        }
    return paths;
}

// A question answered: for each segment what it is told. Who hears is the planner's word; a PGN stops on the way to the
// first segment of a path that does not.
function answer(plan, planner, pgn, first) {
    const units = plan.units.length, heard = planner.hear(plan, units, first, pgn);
    const paths = pathsFrom(plan, units, first);
    return plan.segments.map((_, i) => {
        const segment = i + 1, steps = paths.get(segment);
        if (segment === first)
            return { told: "sent", steps };
        if (has(heard, segment))
            return { told: "heard", steps };
        if (!steps)
            return { told: "no path" };
        const stop = steps.find(step => !has(heard, step.segment));
        return { told: "stopped", steps, stop: { ...stop, mode: listOf(plan, stop.unit, stop.from, stop.to).mode } };
    });
}

// The reason that a pair stops a PGN, by its mode.
const reasonWords = mode => mode === 1 ? "stopped as listed" : "stopped as not listed";

export { answer, pathsFrom, portsOf, reasonWords };
