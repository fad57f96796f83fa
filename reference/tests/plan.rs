//! "Plans": plans made by hand, each refusal at its boundary, and generated plans against two other
//! readings of the same words.

use reference::generate::Random;
use reference::plan::*;
use reference::plan_coverage::{Coverage, ROWS};
use reference::plan_generate::{generate, wrong_links, Case};

/// A PGN that most plans ask for, and two others.
const ASKED: u32 = 65267;
const OTHERS: [u32; 2] = [65256, 61184];
/// Numbers that are no PGN: 2^18, PF 239 with a low byte, and the same with page bits.
const NOT_PGNS: [u64; 6] = [1 << 18, 0xEF01, 0xEFFF, 0x3EF01, 1, (1 << 32) + 65267];
const CLEARED: u64 = 0;
const BLOCK: u64 = 1;
const PASS: u64 = 2;
/// What an answer holds before a call.
const UNTOUCHED: u64 = 0xA5A5_5A5A;

#[derive(Clone)]
struct Made {
    ports: Vec<u64>,
    lists: Vec<u64>,
    question: Question,
}

/// A plan with cleared pairs; of each unit the segments on its ports from port 1 on. ASKED is sent on segment 1.
fn made(segments: u32, units: &[&[u64]]) -> Made {
    let mut ports = vec![0; PORT_WORDS];
    for (unit, on_ports) in units.iter().enumerate() {
        ports[8 * unit..8 * unit + on_ports.len()].copy_from_slice(on_ports);
    }
    let question = Question { segments, units: units.len() as u32, first: 1, pgn: ASKED };
    Made { ports, lists: vec![0; LIST_WORDS], question }
}

impl Made {
    fn list(mut self, unit: u32, from: u32, to: u32, mode: u64, pgns: &[u32]) -> Made {
        let at = pair_at(unit, from, to);
        self.lists[at] = mode;
        self.lists[at + 1] = pgns.len() as u64;
        for (place, pgn) in pgns.iter().enumerate() {
            self.lists[at + 2 + place] = u64::from(*pgn);
        }
        self
    }

    /// One word of a pair's block: 0 the mode, 1 the count, from 2 on the list.
    fn word(mut self, unit: u32, from: u32, to: u32, place: usize, word: u64) -> Made {
        self.lists[pair_at(unit, from, to) + place] = word;
        self
    }

    fn port(mut self, unit: u32, port: u32, word: u64) -> Made {
        self.ports[port_at(unit, port)] = word;
        self
    }

    fn from(mut self, first: u32) -> Made {
        self.question.first = first;
        self
    }

    fn pgn(mut self, pgn: u32) -> Made {
        self.question.pgn = pgn;
        self
    }

    /// The number and the segments that hear. The links of the same ports say the same.
    fn told(&self) -> (u32, Vec<u32>) {
        let mut answer = [UNTOUCHED];
        let number = plan(&self.ports, &self.lists, self.question, &mut answer);
        let links = self.links();
        let mut of_links = [UNTOUCHED];
        assert_eq!(plan_links(&links, &self.lists, self.question, &mut of_links), number);
        let backwards: Vec<Link> = links.into_iter().rev().collect();
        assert_eq!(plan_links(&backwards, &self.lists, self.question, &mut of_links), number);
        assert_eq!(answer, of_links);
        if number != 0 {
            assert_eq!(answer, [UNTOUCHED], "a refusal changed the answer");
            return (number, vec![]);
        }
        (0, (1..=64).filter(|segment| answer[0] >> (segment - 1) & 1 == 1).collect())
    }

    /// The ports in use as links; a word that no link can say is cut to one that is out of range too.
    fn links(&self) -> Vec<Link> {
        let used = (1..=self.question.units.min(16)).flat_map(|unit| (1..=8).map(move |port| (unit, port)));
        let links = used.map(|(unit, port)| Link {
            unit,
            port,
            segment: u32::try_from(self.ports[port_at(unit, port)]).unwrap_or(u32::MAX),
        });
        links.filter(|link| link.segment != 0).collect()
    }

    fn number(&self) -> u32 {
        self.told().0
    }

    fn heard(&self) -> Vec<u32> {
        let (number, heard) = self.told();
        assert_eq!(number, 0);
        heard
    }
}

/// Segments 1 - 2 - 3 - 4, a unit between each two, its port 1 towards segment 1.
fn chain() -> Made {
    made(4, &[&[1, 2], &[2, 3], &[3, 4]])
}

#[test]
fn cleared_pairs_let_everything_through() {
    for first in 1..=4 {
        assert_eq!(chain().from(first).heard(), [1, 2, 3, 4]);
    }
}

#[test]
fn no_units_and_one_segment() {
    assert_eq!(made(1, &[]).heard(), [1]);
    assert_eq!(made(16, &[]).from(16).heard(), [16]);
    assert_eq!(made(3, &[&[], &[2]]).heard(), [1]);
}

/// A pair is asked in the direction of the path, and by its own place in the lists.
#[test]
fn a_pair_stops_one_direction() {
    let plan = chain().list(2, 1, 2, PASS, &OTHERS);
    assert_eq!(plan.heard(), [1, 2]);
    assert_eq!(plan.clone().from(2).heard(), [1, 2]);
    assert_eq!(plan.clone().from(3).heard(), [1, 2, 3, 4]);
    assert_eq!(plan.from(4).heard(), [1, 2, 3, 4]);
}

/// Every pair of a unit with eight ports stops its own direction and no other.
#[test]
fn each_of_56_pairs() {
    for from in 1..=8 {
        for to in (1..=8).filter(|&to| to != from) {
            let plan = made(8, &[&[1, 2, 3, 4, 5, 6, 7, 8]]).list(1, from, to, BLOCK, &[ASKED]);
            for first in 1..=8 {
                let stopped = |segment: u32| first == from && segment == to;
                let expected: Vec<u32> = (1..=8).filter(|&segment| !stopped(segment)).collect();
                assert_eq!(plan.clone().from(first).heard(), expected, "{from} to {to}, first {first}");
            }
        }
    }
}

/// Each mode, the PGN asked listed first, last of 32, or not.
#[test]
fn modes_and_lists() {
    let many: Vec<u32> = (61440..61472).collect();
    let mut last = many.clone();
    last[31] = ASKED;
    let cases: [(u64, &[u32], bool); 10] = [
        (CLEARED, &[], true),
        (CLEARED, &[ASKED], true),
        (BLOCK, &[], true),
        (BLOCK, &[ASKED], false),
        (BLOCK, &many, true),
        (BLOCK, &last, false),
        (PASS, &[], false),
        (PASS, &[ASKED], true),
        (PASS, &many, false),
        (PASS, &last, true),
    ];
    for (mode, listed, crosses) in cases {
        let heard = chain().list(1, 1, 2, mode, listed).heard();
        assert_eq!(heard.len(), if crosses { 4 } else { 1 }, "mode {mode}, {listed:?}");
    }
}

/// Permanent: 59904 and 60928 cross whatever the pair; with a page bit they are other PGNs.
#[test]
fn permanent_pgns() {
    for pgn in [59904, 60928] {
        for (mode, listed) in [(PASS, vec![]), (PASS, vec![ASKED]), (BLOCK, vec![pgn]), (BLOCK, vec![ASKED, pgn])] {
            let plan = chain().list(1, 1, 2, mode, &listed).list(3, 1, 2, mode, &listed);
            assert_eq!(plan.pgn(pgn).heard(), [1, 2, 3, 4]);
        }
        for page in 1..4 {
            assert_eq!(chain().list(1, 1, 2, PASS, &[pgn]).pgn(pgn + (page << 16)).heard(), [1]);
        }
    }
    assert_eq!(chain().list(1, 1, 2, PASS, &[]).pgn(59392).heard(), [1]);
}

/// What lies past a count is not listed, be it the PGN asked or no PGN at all.
#[test]
fn words_past_the_count() {
    let stopped = chain().list(1, 1, 2, PASS, &OTHERS).word(1, 1, 2, 4, u64::from(ASKED));
    assert_eq!(stopped.heard(), [1]);
    let crosses = chain().list(1, 1, 2, BLOCK, &OTHERS).word(1, 1, 2, 4, u64::from(ASKED));
    assert_eq!(crosses.heard(), [1, 2, 3, 4]);
    for bad in NOT_PGNS {
        assert_eq!(chain().list(1, 1, 2, PASS, &OTHERS).word(1, 1, 2, 4, bad).number(), 0);
        assert_eq!(chain().list(1, 1, 2, PASS, &OTHERS).word(1, 1, 2, 3, bad).number(), 28);
        assert_eq!(chain().list(1, 1, 2, BLOCK, &OTHERS).word(1, 1, 2, 2, bad).number(), 28);
        let full: Vec<u32> = (61440..61472).collect();
        assert_eq!(chain().list(3, 8, 7, BLOCK, &full).word(3, 8, 7, 33, bad).number(), 28);
    }
}

/// A cleared pair lists nothing, whatever its count and its words say.
#[test]
fn what_a_cleared_pair_holds() {
    let plan = chain().word(1, 1, 2, 1, 33).word(1, 1, 2, 2, 1 << 18).word(2, 2, 1, 1, u64::MAX);
    assert_eq!(plan.heard(), [1, 2, 3, 4]);
}

#[test]
fn number_28_counts_first_and_pgn() {
    let ends: [(fn(&mut Question, u32), u32, u32); 3] = [
        (|question, value| question.segments = value, 4, 16),
        (|question, value| question.units = value, 0, 16),
        (|question, value| question.first = value, 1, 4),
    ];
    for (set, least, most) in ends {
        for (value, number) in [(least, 0), (most, 0), (most + 1, 28), (256 + most, 28), (u32::MAX, 28)] {
            let mut plan = chain();
            set(&mut plan.question, value);
            assert_eq!(plan.number(), number, "{value}");
        }
    }
    assert_eq!(chain().from(0).number(), 28);
    let mut none = made(0, &[]);
    assert_eq!(none.number(), 28);
    none.question.first = 0;
    assert_eq!(none.number(), 28);
    for (pgn, number) in [(0, 0), (0x3FFFF, 0), (0x40000, 28), (0x3EF00, 0), (0x3EF01, 28), (0xEFFF, 28), (0xF000, 0)] {
        assert_eq!(chain().pgn(pgn).number(), number, "{pgn}");
    }
    assert_eq!(chain().pgn(u32::MAX).number(), 28);
}

/// A segment is 0 to the number of segments, at every port of a unit in use.
#[test]
fn number_28_ports() {
    for unit in [1, 2, 16] {
        for port in [3, 8] {
            for (word, number) in [(0, 0), (16, 0), (17, 28), (1 << 32, 28), ((1 << 32) + 16, 28), (u64::MAX, 28)] {
                let mut plan = made(16, &[&[1, 2], &[2, 3]]).port(unit, port, word);
                plan.question.units = 16;
                assert_eq!(plan.number(), number, "unit {unit}, port {port}, {word}");
            }
        }
    }
    assert_eq!(chain().port(3, 3, 4 + 1).number(), 28);
}

/// Modes 0 to 2, counts 0 to 32, in every list of a unit in use, those of unused ports too.
#[test]
fn number_28_lists() {
    for (from, to) in [(1, 2), (2, 1), (7, 8), (8, 7)] {
        for (mode, number) in [(0, 0), (1, 0), (2, 0), (3, 28), (1 << 32, 28), (u64::MAX, 28)] {
            assert_eq!(chain().word(3, from, to, 0, mode).number(), number);
        }
        for (count, number) in [(0, 0), (32, 0), (33, 28), (1 << 32, 28), ((1 << 32) + 1, 28), (u64::MAX, 28)] {
            for mode in [BLOCK, PASS] {
                assert_eq!(chain().word(3, from, to, 0, mode).word(3, from, to, 1, count).number(), number);
            }
        }
    }
}

/// What lies past the units in use is not read.
#[test]
fn past_the_units_in_use() {
    let mut plan = chain();
    plan.ports[24..].fill(17);
    plan.lists[pair_at(4, 1, 2)..].fill(u64::MAX);
    assert_eq!(plan.heard(), [1, 2, 3, 4]);
    plan.question.units = 4;
    assert_eq!(plan.number(), 28);
    // units that would close a ring, were they in use
    let mut ring = made(4, &[&[1, 2], &[2, 3], &[3, 4], &[4, 1], &[2, 2]]);
    ring.question.units = 3;
    assert_eq!(ring.number(), 0);
    ring.question.units = 4;
    assert_eq!(ring.number(), 29);
}

#[test]
fn number_29_two_ports_on_one() {
    assert_eq!(made(2, &[&[1, 1]]).number(), 29);
    assert_eq!(made(2, &[&[1, 2, 0, 0, 0, 0, 0, 2]]).number(), 29);
    assert_eq!(made(2, &[&[1, 2], &[0, 0, 2, 2]]).number(), 29);
    assert_eq!(made(4, &[&[1, 2], &[3, 3]]).number(), 29);
}

#[test]
fn number_29_rings() {
    // a ring of two units: both join the same two segments
    assert_eq!(made(2, &[&[1, 2], &[2, 1]]).number(), 29);
    assert_eq!(made(3, &[&[1, 2], &[0, 0, 0, 0, 2, 3], &[3, 1]]).number(), 29);
    // one that the first segment is not on, and one that no path leads to
    assert_eq!(made(4, &[&[1, 2], &[2, 3], &[3, 4], &[4, 2]]).number(), 29);
    assert_eq!(made(3, &[&[2, 3], &[2, 3]]).number(), 29);
    // all sixteen units
    let segments: Vec<[u64; 2]> = (1..=16).map(|unit| [unit, unit % 16 + 1]).collect();
    let units: Vec<&[u64]> = segments.iter().map(|ports| &ports[..]).collect();
    assert_eq!(made(16, &units).number(), 29);
    assert_eq!(made(16, &units[..15]).heard().len(), 16);
}

/// Lists that would let nothing round do not make a ring good.
#[test]
fn number_29_whatever_the_lists_say() {
    let shut = made(2, &[&[1, 2], &[1, 2]]).list(1, 1, 2, PASS, &[]).list(1, 2, 1, PASS, &[]).list(2, 1, 2, PASS, &[]);
    assert_eq!(shut.number(), 29);
}

#[test]
fn number_28_comes_before_29() {
    let ring = made(2, &[&[1, 2], &[1, 2]]);
    assert_eq!(ring.number(), 29);
    assert_eq!(ring.clone().from(3).number(), 28);
    assert_eq!(ring.clone().pgn(1).number(), 28);
    assert_eq!(ring.clone().word(2, 8, 7, 0, 3).number(), 28);
    assert_eq!(ring.port(2, 8, 3).number(), 28);
}

/// A unit that joins three segments: shut towards one port, open towards the other. Entered elsewhere, the same.
#[test]
fn a_unit_that_is_half_shut() {
    let plan = made(3, &[&[1, 2, 3]]).list(1, 1, 2, PASS, &[]).list(1, 3, 1, BLOCK, &[ASKED]);
    assert_eq!(plan.heard(), [1, 3]);
    assert_eq!(plan.clone().from(2).heard(), [1, 2, 3]);
    assert_eq!(plan.from(3).heard(), [2, 3]);
}

/// A segment is not heard back through the unit that it was reached by: port 1 to 3 is shut, 1 to 2 and 2 to 3 are open.
#[test]
fn no_unit_twice() {
    let plan = made(3, &[&[1, 2, 3]]).list(1, 1, 3, BLOCK, &[ASKED]);
    assert_eq!(plan.heard(), [1, 2]);
    assert_eq!(plan.from(2).heard(), [1, 2, 3]);
}

/// A shut unit hides what lies behind it, whatever the units there permit.
#[test]
fn behind_a_shut_unit() {
    let plan = made(6, &[&[1, 2], &[2, 3, 4], &[4, 5]]).list(2, 1, 3, PASS, &OTHERS);
    assert_eq!(plan.heard(), [1, 2, 3]);
    assert_eq!(plan.clone().from(4).heard(), [1, 2, 3, 4, 5]);
    assert_eq!(plan.from(6).heard(), [6]);
}

#[test]
fn number_2_lengths() {
    let plan_of = |ports: usize, lists: usize, answer: usize| {
        let mut words = vec![UNTOUCHED; answer];
        let question = Question { segments: 1, units: 0, first: 1, pgn: ASKED };
        let number = plan(&vec![0; ports], &vec![0; lists], question, &mut words);
        assert!(number == 0 || words.iter().all(|&word| word == UNTOUCHED));
        number
    };
    assert_eq!((PORT_WORDS, LIST_WORDS, ANSWER_WORDS), (128, 16 * 56 * 34, 1));
    assert_eq!(plan_of(128, 30464, 1), 0);
    for (ports, lists, answer) in [(127, 30464, 1), (129, 30464, 1), (0, 30464, 1), (128, 30463, 1), (128, 30465, 1)] {
        assert_eq!(plan_of(ports, lists, answer), 2);
    }
    assert_eq!((plan_of(128, 30464, 0), plan_of(128, 30464, 2)), (2, 2));
    // before 28 and 29, with links too, whose number is free
    let bad = Question { segments: 17, units: 17, first: 0, pgn: 1 };
    assert_eq!(plan(&[], &[], bad, &mut [0]), 2);
    assert_eq!(plan_links(&[], &vec![0; 30463], bad, &mut [0]), 2);
    assert_eq!(plan_links(&[], &vec![0; 30464], bad, &mut []), 2);
    assert_eq!(plan_links(&[], &vec![0; 30464], bad, &mut [0]), 28);
}

/// The header and the rules have the two numbers in the same words.
#[test]
fn words_of_the_numbers() {
    let header = include_str!("../../include/deorasaeng.h");
    let rules = include_str!("../../docs/RULES.md");
    for (number, words) in [
        (28, "a number outside the plan or its range, or one asked or listed that is no PGN"),
        (29, "two paths between some segments, or two ports of a unit on one"),
    ] {
        let line = header.lines().find(|line| line.ends_with(&format!("/* {words} */"))).expect(words);
        assert_eq!(line.split([' ', ',']).nth(6), Some(&number.to_string()[..]), "header: {line}");
        assert!(rules.contains(&format!("| {number} | {words} |")), "rules: {number}");
    }
}

/// A link names a unit, a port and a segment, each from 1; a port once.
#[test]
fn links() {
    let lists = vec![0; LIST_WORDS];
    let question = Question { segments: 3, units: 2, first: 1, pgn: ASKED };
    let told = |links: &[(u32, u32, u32)]| {
        let links: Vec<Link> = links.iter().map(|&(unit, port, segment)| Link { unit, port, segment }).collect();
        let mut answer = [UNTOUCHED];
        let number = plan_links(&links, &lists, question, &mut answer);
        if number == 0 {
            Ok(answer[0])
        } else {
            assert_eq!(answer, [UNTOUCHED]);
            Err(number)
        }
    };
    assert_eq!(told(&[]), Ok(1));
    assert_eq!(told(&[(1, 8, 1), (1, 1, 2)]), Ok(3));
    assert_eq!(told(&[(2, 1, 3), (1, 8, 1), (2, 8, 2), (1, 1, 2)]), Ok(7));
    for bad in [(0, 1, 1), (3, 1, 1), (17, 1, 1), (u32::MAX, 1, 1), (1, 0, 1), (1, 9, 1), (1, 1, 0), (1, 1, 4)] {
        assert_eq!(told(&[bad]), Err(28), "{bad:?}");
        assert_eq!(told(&[(1, 2, 1), (2, 2, 1), bad]), Err(28), "{bad:?}");
    }
    // a port named twice, on one segment or two, before a ring
    assert_eq!(told(&[(1, 1, 1), (1, 1, 1)]), Err(28));
    assert_eq!(told(&[(1, 1, 1), (1, 2, 2), (2, 1, 1), (2, 2, 2), (1, 1, 3)]), Err(28));
    assert_eq!(told(&[(1, 1, 1), (1, 2, 2), (2, 1, 1), (2, 2, 2)]), Err(29));
    assert_eq!(told(&[(1, 1, 1), (1, 2, 1)]), Err(29));
    assert_eq!(told(&[(1, 1, 1); 129]), Err(28));
}

/// The segments on a unit's ports, of a plan whose numbers are in range.
fn on_unit(case: &Case, unit: u32) -> Vec<u32> {
    let segments = (1..=8).map(|port| case.ports[port_at(unit, port)] as u32);
    segments.filter(|&segment| segment != 0).collect()
}

/// 29 by counting: segments and units are nodes, ports in use are edges. Without a ring there are as many edges as nodes,
/// less one for each part that hangs together.
fn has_ring(case: &Case) -> bool {
    let Question { segments, units, .. } = case.question;
    let mut part: Vec<u32> = (0..segments + units).collect();
    let mut edges = 0;
    for unit in 1..=units {
        for segment in on_unit(case, unit) {
            edges += 1;
            let (old, new) = (part[segment as usize - 1], part[(segments + unit) as usize - 1]);
            part.iter_mut().filter(|label| **label == old).for_each(|label| *label = new);
        }
    }
    part.sort();
    part.dedup();
    edges != segments + units - part.len() as u32
}

/// The segments that hear as a closure, by the words of the lists themselves. Without a ring no path can come back.
fn closure(case: &Case) -> Vec<u32> {
    let Question { segments, units, first, pgn } = case.question;
    let permits = |unit, from, to| {
        let block = &case.lists[pair_at(unit, from, to)..][..34];
        let listed = block[2..2 + block[1].min(32) as usize].contains(&u64::from(pgn));
        pgn == 59904 || pgn == 60928 || block[0] == 0 || listed == (block[0] == 2)
    };
    // a segment and the unit by which it was heard, 0 for the first
    let mut heard = vec![(first, 0)];
    for _ in 0..segments {
        for (segment, by) in heard.clone() {
            for unit in (1..=units).filter(|&unit| unit != by) {
                for (from, to) in (1..=8).flat_map(|from| (1..=8).map(move |to| (from, to))) {
                    let next = case.ports[port_at(unit, to)] as u32;
                    let crosses = from != to && next != 0 && case.ports[port_at(unit, from)] == u64::from(segment);
                    if crosses && permits(unit, from, to) && heard.iter().all(|(other, _)| *other != next) {
                        heard.push((next, unit));
                    }
                }
            }
        }
    }
    let mut segments: Vec<u32> = heard.into_iter().map(|(segment, _)| segment).collect();
    segments.sort();
    segments
}

/// Generated plans meet every row, and the two other readings agree.
#[test]
fn generated_plans() {
    let mut random = Random::new(13);
    let mut coverage = Coverage::default();
    for _ in 0..8_000 {
        let case = generate(&mut random);
        let made = Made { ports: case.ports.clone(), lists: case.lists.clone(), question: case.question };
        let (number, heard) = made.told();
        coverage.count(&case, number);
        if number != 28 {
            assert_eq!(number == 29, has_ring(&case));
        }
        if number == 0 {
            assert_eq!(heard, closure(&case));
            let plan = Plan::read(&case.ports, &case.lists, case.question).unwrap();
            let hearing = plan.hearing(case.question.first, case.question.pgn).unwrap();
            let hears = |segment: &u32| matches!(hearing[*segment as usize - 1], Hearing::Sent | Hearing::Hears);
            assert_eq!(heard, (1..=case.question.segments).filter(hears).collect::<Vec<u32>>());
        }
    }
    assert_eq!(coverage.untried(&ROWS), [""; 0]);
    assert!(coverage.reached("answered") > 4_000);
}

/// A wrong link among good ones is 28, whatever the plan.
#[test]
fn generated_wrong_links() {
    let mut random = Random::new(14);
    let mut tried = std::collections::BTreeSet::new();
    for _ in 0..2_000 {
        let case = generate(&mut random);
        let (links, what) = wrong_links(&mut random, &case);
        assert_eq!(plan_links(&links, &case.lists, case.question, &mut [0]), 28, "{what}");
        tried.insert(what);
    }
    assert_eq!(tried.len(), 9);
}
