//! "Plans": a plan of a machine, and which segments hear a PGN. Nothing is walked with marks: all paths
//! are made, each as the list of its steps.

use crate::frame::is_pgn;
use crate::pair::{Pair, Reason, LONGEST_LIST};
use crate::unit::Number;

pub const MOST_SEGMENTS: u32 = 16;
pub const MOST_UNITS: u32 = 16;
/// Every unit of a plan has eight ports.
pub const PORTS: u32 = 8;

/// Lengths in words: the segment on each port; a pair's block, which is mode, count and 32 PGNs; the lists, in order of
/// unit, From and To; the answer.
pub use crate::layout::{
    Link, PLAN_ANSWER as ANSWER_WORDS, PLAN_LISTS as LIST_WORDS, PLAN_PAIRS as PAIRS, PLAN_PAIR_WORDS as PAIR_WORDS,
    PLAN_PORTS as PORT_WORDS,
};

const WRONG_STORAGE: Number = 2;
/// A number outside the plan or its range, or one asked or listed that is no PGN.
pub const OUTSIDE: Number = 28;
/// Two paths between some segments, or two ports of a unit on one.
pub const TWO_PATHS: Number = 29;

/// The numbers of a call beside what is lent: how many segments and units there are, the segment where the PGN is sent.
#[derive(Clone, Copy, Debug, PartialEq, Eq)]
pub struct Question {
    pub segments: u32,
    pub units: u32,
    pub first: u32,
    pub pgn: u32,
}

/// As `deorasaeng_plan`: the number, and in the answer, unless it is refused, bit s - 1 for each segment s that hears.
pub fn plan(ports: &[u64], lists: &[u64], question: Question, answer: &mut [u64]) -> Number {
    if ports.len() != PORT_WORDS || lists.len() != LIST_WORDS || answer.len() != ANSWER_WORDS {
        return WRONG_STORAGE;
    }
    tell(Plan::read(ports, lists, question), question, answer)
}

/// As `deorasaeng_plan_links`. How many links there are is no length that is published.
pub fn plan_links(links: &[Link], lists: &[u64], question: Question, answer: &mut [u64]) -> Number {
    if lists.len() != LIST_WORDS || answer.len() != ANSWER_WORDS {
        return WRONG_STORAGE;
    }
    let plan = ports_of(links, question).and_then(|ports| Plan::read(&ports, lists, question));
    tell(plan, question, answer)
}

fn tell(plan: Result<Plan, Number>, question: Question, answer: &mut [u64]) -> Number {
    match plan.and_then(|plan| plan.heard(question.first, question.pgn)) {
        Ok(heard) => {
            answer[0] = heard.iter().map(|segment| 1 << (segment - 1)).sum();
            0
        }
        Err(number) => number,
    }
}

/// The word of a port, both numbers from 1.
pub fn port_at(unit: u32, port: u32) -> usize {
    (PORTS * (unit - 1) + port - 1) as usize
}

/// Where a pair's block begins in the lists, all numbers from 1.
pub fn pair_at(unit: u32, from: u32, to: u32) -> usize {
    PAIR_WORDS * (PAIRS * (unit as usize - 1) + pair_number(from, to))
}

/// A pair's place among those of its unit, in order of From, then To.
fn pair_number(from: u32, to: u32) -> usize {
    ((PORTS - 1) * (from - 1) + if to < from { to - 1 } else { to - 2 }) as usize
}

/// The words of the ports that links stand for; 28 where a number is out of range or a port is named twice.
fn ports_of(links: &[Link], question: Question) -> Result<Vec<u64>, Number> {
    let mut ports = vec![0; PORT_WORDS];
    for link in links {
        let in_range = (1..=question.units.min(MOST_UNITS)).contains(&link.unit)
            && (1..=PORTS).contains(&link.port)
            && (1..=question.segments).contains(&link.segment);
        if !in_range || ports[port_at(link.unit, link.port)] != 0 {
            return Err(OUTSIDE);
        }
        ports[port_at(link.unit, link.port)] = u64::from(link.segment);
    }
    Ok(ports)
}

/// A plan whose numbers are in range.
pub struct Plan {
    pub segments: u32,
    pub units: Vec<Unit>,
}

/// A unit: the segment on each of its ports, 0 if unused, and its pairs.
pub struct Unit {
    pub ports: Vec<u32>,
    pub pairs: Vec<Pair>,
}

impl Unit {
    /// What a unit's words say; none where a number is outside its range.
    fn read(ports: &[u64], lists: &[u64], segments: u32) -> Option<Unit> {
        let segment = |&word: &u64| u32::try_from(word).ok().filter(|&segment| segment <= segments);
        Some(Unit {
            ports: ports.iter().map(segment).collect::<Option<_>>()?,
            pairs: lists.chunks(PAIR_WORDS).map(read_pair).collect::<Option<_>>()?,
        })
    }

    /// The ports on a segment.
    fn ports_on(&self, segment: u32) -> Vec<u32> {
        (1..=PORTS).filter(|&port| self.segment(port) == segment).collect()
    }

    /// The segment on a port, 0 if unused.
    pub fn segment(&self, port: u32) -> u32 {
        self.ports[port as usize - 1]
    }

    pub fn pair(&self, from: u32, to: u32) -> &Pair {
        &self.pairs[pair_number(from, to)]
    }
}

/// A cleared pair lists nothing, whatever its count says; what lies past a count is not listed.
fn read_pair(block: &[u64]) -> Option<Pair> {
    match block[0] {
        0 => Some(Pair::Cleared),
        1 => Some(Pair::Block(read_entries(block)?)),
        2 => Some(Pair::Pass(read_entries(block)?)),
        _ => None,
    }
}

fn read_entries(block: &[u64]) -> Option<Vec<u32>> {
    let count = usize::try_from(block[1]).ok().filter(|&count| count <= LONGEST_LIST)?;
    let listed = |&word: &u64| u32::try_from(word).ok().filter(|&number| is_pgn(number));
    block[2..2 + count].iter().map(listed).collect()
}

/// A unit that a path goes through: entered at one port and left by another. All numbers from 1.
#[derive(Clone, Copy, Debug, PartialEq, Eq)]
pub struct Step {
    pub unit: u32,
    pub from: u32,
    pub to: u32,
}

/// A path, no unit twice, and the segment where it ends. The path of no steps ends where it begins.
#[derive(Clone, Debug, PartialEq, Eq)]
pub struct Path {
    pub steps: Vec<Step>,
    pub end: u32,
}

impl Plan {
    /// 28: a number outside the plan or its range, or one asked or listed that is no PGN. Of the units in use every
    /// list is judged, those of unused ports too.
    pub fn read(ports: &[u64], lists: &[u64], question: Question) -> Result<Plan, Number> {
        let Question { segments, units, first, pgn } = question;
        let in_range = segments <= MOST_SEGMENTS && units <= MOST_UNITS && (1..=segments).contains(&first);
        if !in_range || !is_pgn(pgn) {
            return Err(OUTSIDE);
        }
        let blocks = ports.chunks(PORTS as usize).zip(lists.chunks(PAIRS * PAIR_WORDS)).take(units as usize);
        let units = blocks.map(|(ports, lists)| Unit::read(ports, lists, segments));
        Ok(Plan { segments, units: units.collect::<Option<_>>().ok_or(OUTSIDE)? })
    }

    /// The segments that hear a PGN sent on the first one, rising: those where a path ends, each unit of which permits.
    pub fn heard(&self, first: u32, pgn: u32) -> Result<Vec<u32>, Number> {
        self.judge()?;
        let permitted = |path: &Path| path.steps.iter().all(|step| self.ask(step, pgn).crosses());
        let mut heard: Vec<u32> =
            self.paths(first)?.iter().filter(|path| permitted(path)).map(|path| path.end).collect();
        heard.sort();
        Ok(heard)
    }

    /// 29: two paths between some segments, whatever the lists say, or two ports of a unit on one.
    pub fn judge(&self) -> Result<(), Number> {
        let mut segments = 1..=self.segments;
        if segments.clone().any(|segment| self.units.iter().any(|unit| unit.ports_on(segment).len() > 1)) {
            return Err(TWO_PATHS);
        }
        segments.try_for_each(|segment| self.paths(segment).map(|_| ()))
    }

    /// Every path from a segment, the shorter ones first, that of no steps among them; 29 if two end at one segment.
    pub fn paths(&self, first: u32) -> Result<Vec<Path>, Number> {
        let mut paths = Vec::new();
        let mut longest = vec![Path { steps: Vec::new(), end: first }];
        while !longest.is_empty() {
            paths.extend(longest.clone());
            let ends = |segment| paths.iter().filter(|path| path.end == segment).count();
            if (1..=self.segments).any(|segment| ends(segment) > 1) {
                return Err(TWO_PATHS);
            }
            longest = longest.iter().flat_map(|path| self.longer(path)).collect();
        }
        Ok(paths)
    }

    /// The paths with one step more, through a unit that this one does not have.
    fn longer(&self, path: &Path) -> Vec<Path> {
        let mut longer = Vec::new();
        for (unit, number) in self.units.iter().zip(1..) {
            if path.steps.iter().any(|step| step.unit == number) {
                continue;
            }
            for from in unit.ports_on(path.end) {
                for to in (1..=PORTS).filter(|&to| to != from && unit.segment(to) != 0) {
                    let mut steps = path.steps.clone();
                    steps.push(Step { unit: number, from, to });
                    longer.push(Path { steps, end: unit.segment(to) });
                }
            }
        }
        longer
    }

    /// What the pair says that a step asks.
    pub fn ask(&self, step: &Step, pgn: u32) -> Reason {
        self.units[step.unit as usize - 1].pair(step.from, step.to).ask_list(pgn)
    }

    /// What comes of a PGN at each segment, from 1 on. For a plan that is not refused.
    pub fn hearing(&self, first: u32, pgn: u32) -> Result<Vec<Hearing>, Number> {
        self.judge()?;
        let paths = self.paths(first)?;
        Ok((1..=self.segments).map(|segment| self.hearing_at(segment, &paths, pgn)).collect())
    }

    fn hearing_at(&self, segment: u32, paths: &[Path], pgn: u32) -> Hearing {
        let Some(path) = paths.iter().find(|path| path.end == segment) else {
            return Hearing::NoPath;
        };
        match path.steps.iter().find(|step| !self.ask(step, pgn).crosses()) {
            Some(step) => Hearing::Stopped(*step, self.ask(step, pgn)),
            None if path.steps.is_empty() => Hearing::Sent,
            None => Hearing::Hears,
        }
    }
}

/// What comes of a PGN at a segment: sent there; heard; stopped on the one path there, at the first unit that does not
/// permit it; or no path leads there.
#[derive(Clone, Debug, PartialEq, Eq)]
pub enum Hearing {
    Sent,
    Hears,
    Stopped(Step, Reason),
    NoPath,
}
