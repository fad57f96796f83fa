//! What the plans tried: counts of refusals by their place, of answers, of shapes and of what the lists said.

use std::collections::BTreeMap;

use crate::frame::{is_pgn, PERMANENT};
use crate::pair::{Pair, Reason, LONGEST_LIST};
use crate::plan::*;
use crate::plan_generate::Case;

/// The rows that generated plans reach, each of them.
pub const ROWS: [&str; 51] = [
    "answered",
    "28 number of segments",
    "28 number of units",
    "28 first segment 0",
    "28 first segment past the last",
    "28 PGN asked",
    "28 segment on a port",
    "28 mode",
    "28 count",
    "28 first of a list",
    "28 last of a list of 32",
    "28 in a list of an unused port",
    "28 before 29",
    "29 two ports of a unit on one segment",
    "29 ring of two units",
    "29 ring of more units",
    "29 away from the first segment",
    "no unit",
    "16 units",
    "one segment",
    "16 segments",
    "unit on eight segments",
    "segment with 16 units",
    "wrong words past the units in use",
    "wrong words past a count",
    "wrong count of a cleared pair",
    "the first segment alone hears",
    "every one of 16 segments hears",
    "segment that no path leads to",
    "path of 15 units, heard",
    "stopped at the first unit of a path",
    "stopped at a later unit",
    "stopped at the 15th unit",
    "segment behind a stop",
    "entered at port 8, left by port 1",
    "entered at port 1, left by port 8",
    "stopped, the way back open",
    "asked: permanent",
    "asked: cleared",
    "asked: listed in pass",
    "asked: not listed in block",
    "asked: stopped as listed",
    "asked: stopped as not listed",
    "asked: listed last of 32",
    "asked: pass with no entries",
    "asked: block with no entries",
    "asked: the PGN past the count",
    "permanent where pass does not list it",
    "permanent where block lists it",
    "permanent with a page bit stopped",
    "PGN 0 or 3FFFF",
];

#[derive(Default)]
pub struct Coverage {
    counts: BTreeMap<&'static str, u64>,
}

impl Coverage {
    pub fn add(&mut self, row: &'static str) {
        *self.counts.entry(row).or_insert(0) += 1;
    }

    fn add_if(&mut self, condition: bool, row: &'static str) {
        if condition {
            self.add(row);
        }
    }

    pub fn reached(&self, row: &str) -> u64 {
        self.counts.get(row).copied().unwrap_or(0)
    }

    /// The rows of a list that were never reached.
    pub fn untried<'a>(&self, rows: &[&'a str]) -> Vec<&'a str> {
        rows.iter().copied().filter(|row| self.reached(row) == 0).collect()
    }

    /// A line for each row.
    pub fn table(&self) -> Vec<String> {
        self.counts.iter().map(|(row, count)| format!("{row}: {count}")).collect()
    }

    /// Counts a plan whose storage has its published lengths, by the number that it was given.
    pub fn count(&mut self, case: &Case, number: u32) {
        match number {
            OUTSIDE => self.count_28(case),
            TWO_PATHS => self.count_29(case),
            _ => self.count_answered(case),
        }
    }

    fn count_28(&mut self, case: &Case) {
        let Question { segments, units, first, pgn } = case.question;
        self.add_if(segments > MOST_SEGMENTS, "28 number of segments");
        self.add_if(units > MOST_UNITS, "28 number of units");
        if segments > MOST_SEGMENTS || units > MOST_UNITS {
            return;
        }
        self.add_if(first == 0, "28 first segment 0");
        self.add_if(first > segments, "28 first segment past the last");
        self.add_if(!is_pgn(pgn), "28 PGN asked");
        let used = &case.ports[..(units * PORTS) as usize];
        self.add_if(used.iter().any(|&word| word > u64::from(segments)), "28 segment on a port");
        for unit in 1..=units {
            self.count_bad_lists(case, unit);
        }
        let mut mended = case.clone();
        mended.lists.fill(0);
        mended.question = Question { first: 1, pgn: 0, ..case.question };
        self.add_if(heard_of(&mended) == Err(TWO_PATHS), "28 before 29");
    }

    fn count_bad_lists(&mut self, case: &Case, unit: u32) {
        let is_listable = |word: u64| u32::try_from(word).is_ok_and(is_pgn);
        for (from, to) in pairs() {
            let block = &case.lists[pair_at(unit, from, to)..][..PAIR_WORDS];
            let (mode, count) = (block[0], block[1]);
            self.add_if(mode > 2, "28 mode");
            let has_list = mode == 1 || mode == 2;
            self.add_if(has_list && count > LONGEST_LIST as u64, "28 count");
            if !has_list || count > LONGEST_LIST as u64 {
                continue;
            }
            let bad: Vec<usize> = (0..count as usize).filter(|&place| !is_listable(block[2 + place])).collect();
            self.add_if(bad.contains(&0), "28 first of a list");
            self.add_if(bad.contains(&31), "28 last of a list of 32");
            let unused = [from, to].iter().any(|&port| case.ports[port_at(unit, port)] == 0);
            self.add_if(unused && !bad.is_empty(), "28 in a list of an unused port");
        }
    }

    fn count_29(&mut self, case: &Case) {
        let plan = read(case).expect("29 comes after 28");
        let doubled = |unit: &Unit| (1..PORTS).any(|port| (port + 1..=PORTS).any(|other| on_one(unit, port, other)));
        self.add_if(plan.units.iter().any(doubled), "29 two ports of a unit on one segment");
        self.add_if(plan.paths(case.question.first).is_ok(), "29 away from the first segment");
        if !plan.units.iter().any(doubled) {
            let used = |unit: &Unit| unit.ports.iter().copied().filter(|&segment| segment != 0).collect::<Vec<u32>>();
            let common = |a: &Unit, b: &Unit| used(a).iter().filter(|segment| used(b).contains(segment)).count();
            let two =
                plan.units.iter().enumerate().any(|(at, a)| plan.units[at + 1..].iter().any(|b| common(a, b) > 1));
            self.add(if two { "29 ring of two units" } else { "29 ring of more units" });
        }
    }

    fn count_answered(&mut self, case: &Case) {
        let plan = read(case).expect("an answer");
        let Question { segments, units, first, pgn } = case.question;
        self.add("answered");
        self.add_if(units == 0, "no unit");
        self.add_if(units == 16, "16 units");
        self.add_if(segments == 1, "one segment");
        self.add_if(segments == 16, "16 segments");
        self.add_if(plan.units.iter().any(|unit| unit.ports.iter().all(|&port| port != 0)), "unit on eight segments");
        let crowded = |segment| plan.units.iter().all(|unit| unit.ports.contains(&segment));
        self.add_if(units == 16 && (1..=segments).any(crowded), "segment with 16 units");
        self.add_if(pgn == 0 || pgn == 0x3FFFF, "PGN 0 or 3FFFF");
        self.count_unread(case);
        let hearing = plan.hearing(first, pgn).expect("an answer");
        let heard = hearing.iter().filter(|told| matches!(told, Hearing::Sent | Hearing::Hears)).count();
        self.add_if(heard == 1, "the first segment alone hears");
        self.add_if(heard == 16, "every one of 16 segments hears");
        self.add_if(hearing.contains(&Hearing::NoPath), "segment that no path leads to");
        for path in plan.paths(first).expect("an answer") {
            self.count_path(case, &plan, &path);
        }
    }

    /// What is wrong where nothing is read.
    fn count_unread(&mut self, case: &Case) {
        let Question { segments, units, .. } = case.question;
        let past = &case.ports[(units * PORTS) as usize..];
        self.add_if(past.iter().any(|&word| word > u64::from(segments)), "wrong words past the units in use");
        for block in case.lists.chunks(PAIR_WORDS).take(units as usize * PAIRS) {
            let full = LONGEST_LIST as u64;
            self.add_if(block[0] == 0 && block[1] > full, "wrong count of a cleared pair");
            let past = block[0] != 0 && block[1] < full && block[2 + block[1] as usize] >= 1 << 18;
            self.add_if(past, "wrong words past a count");
        }
    }

    /// The units of a path up to the one that stops the PGN.
    fn count_path(&mut self, case: &Case, plan: &Plan, path: &Path) {
        let pgn = case.question.pgn;
        let stop = path.steps.iter().position(|step| !plan.ask(step, pgn).crosses());
        self.add_if(stop.is_none() && path.steps.len() == 15, "path of 15 units, heard");
        let Some(last) = path.steps.last() else { return };
        match stop {
            Some(place) if place + 1 < path.steps.len() => return self.add("segment behind a stop"),
            Some(0) => self.add("stopped at the first unit of a path"),
            Some(place) => self.add(if place == 14 { "stopped at the 15th unit" } else { "stopped at a later unit" }),
            None => {}
        }
        self.add_if((last.from, last.to) == (8, 1), "entered at port 8, left by port 1");
        self.add_if((last.from, last.to) == (1, 8), "entered at port 1, left by port 8");
        let back = Step { from: last.to, to: last.from, ..*last };
        self.add_if(stop.is_some() && plan.ask(&back, pgn).crosses(), "stopped, the way back open");
        self.count_asked(case, plan, last);
    }

    /// The pair that a step asks.
    fn count_asked(&mut self, case: &Case, plan: &Plan, step: &Step) {
        let pgn = case.question.pgn;
        let pair = plan.units[step.unit as usize - 1].pair(step.from, step.to);
        let reason = pair.ask_list(pgn);
        self.add(match reason {
            Reason::Permanent => "asked: permanent",
            Reason::Cleared => "asked: cleared",
            Reason::ListedInPass => "asked: listed in pass",
            Reason::NotListedInBlock => "asked: not listed in block",
            Reason::StoppedAsListed => "asked: stopped as listed",
            Reason::StoppedAsNotListed => "asked: stopped as not listed",
        });
        let entries = pair.entries();
        let listed = entries.contains(&pgn);
        let permanent = PERMANENT.contains(&pgn);
        let page_bit = !permanent && PERMANENT.contains(&(pgn & 0xFFFF));
        self.add_if(permanent && matches!(pair, Pair::Pass(_)) && !listed, "permanent where pass does not list it");
        self.add_if(permanent && matches!(pair, Pair::Block(_)) && listed, "permanent where block lists it");
        self.add_if(page_bit && !reason.crosses(), "permanent with a page bit stopped");
        let last = entries.len() == LONGEST_LIST && entries[..31].iter().all(|&other| other != pgn) && listed;
        self.add_if(!permanent && last, "asked: listed last of 32");
        self.add_if(!permanent && *pair == Pair::Pass(vec![]), "asked: pass with no entries");
        self.add_if(!permanent && *pair == Pair::Block(vec![]), "asked: block with no entries");
        let block = &case.lists[pair_at(step.unit, step.from, step.to)..][..PAIR_WORDS];
        let past = !pair.is_cleared() && block[2 + entries.len()..].contains(&u64::from(pgn));
        self.add_if(!permanent && past && !listed, "asked: the PGN past the count");
    }
}

/// Every From with every other To.
fn pairs() -> impl Iterator<Item = (u32, u32)> {
    (1..=PORTS).flat_map(|from| (1..=PORTS).filter(move |&to| to != from).map(move |to| (from, to)))
}

fn on_one(unit: &Unit, port: u32, other: u32) -> bool {
    unit.segment(port) != 0 && unit.segment(port) == unit.segment(other)
}

fn read(case: &Case) -> Result<Plan, u32> {
    Plan::read(&case.ports, &case.lists, case.question)
}

fn heard_of(case: &Case) -> Result<Vec<u32>, u32> {
    read(case)?.heard(case.question.first, case.question.pgn)
}
