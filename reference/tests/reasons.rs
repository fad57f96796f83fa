//! "Forwarding", the reason: asking a pair gives a reason, and the frame's answer carries it for each port.

mod common;

use common::*;
use reference::frame::pgn;
use reference::generate::generate;
use reference::names::NameEntry;
use reference::pair::{Pair, Reason};
use reference::script::{apply, Answer, Call};
use reference::unit::{FrameAnswer, Unit};
use Reason::*;

const REASONS: [Reason; 6] = [Permanent, Cleared, ListedInPass, NotListedInBlock, StoppedAsListed, StoppedAsNotListed];

/// The numbers of an answer's reasons, port by port.
fn numbers(answer: &FrameAnswer) -> Vec<u32> {
    (1..=answer.reasons.len() as u32).map(|port| answer.reason_number(port)).collect()
}

/// Rule 2 without reasons: what the list has, or a NAME entry that is equal to the sender's NAME under its mask.
fn permitted(unit: &Unit, pair: (u32, u32), id: u32) -> bool {
    let (filter, pgn) = (&unit.pairs[&pair], pgn(id));
    let sender = unit.table.get(&(id & 0xFF)).map(|holder| holder.name);
    let matches = |entry: &NameEntry| sender.is_some_and(|name| (name ^ entry.name) & entry.mask == 0);
    let by_name = unit.names[&pair].iter().any(|entry| entry.pgn == pgn && matches(entry));
    let listed = filter.entries().contains(&pgn) || by_name;
    pgn == 60928 || pgn == 59904 || filter.is_cleared() || listed == (filter.mode() == 1)
}

#[test]
fn numbers_and_what_crosses() {
    assert_eq!(REASONS.map(Reason::number), [1, 2, 3, 4, 5, 6]);
    assert_eq!(REASONS.map(Reason::crosses), [true, true, true, true, false, false]);
}

/// Each kind of pair, for an ordinary PGN and for the permanent ones, which come before all else.
#[test]
fn a_pairs_reason() {
    let cases = [
        (Pair::Cleared, Cleared),
        (Pair::Pass(vec![]), StoppedAsNotListed),
        (Pair::Pass(vec![61444]), StoppedAsNotListed),
        (Pair::Pass(vec![61444, 65265]), ListedInPass),
        (Pair::Block(vec![]), NotListedInBlock),
        (Pair::Block(vec![61444]), NotListedInBlock),
        (Pair::Block(vec![65265, 61444]), StoppedAsListed),
    ];
    for (pair, reason) in cases {
        assert_eq!(pair.ask_list(65265), reason, "{pair:?}");
        for permanent in [60928, 59904] {
            assert_eq!(pair.ask_list(permanent), Permanent, "{pair:?}");
            let mut named = pair.entries().to_vec();
            named.push(permanent);
            assert_eq!(pair.with_entries(named).ask_list(permanent), Permanent, "{pair:?}");
        }
        // With a page bit it is another PGN.
        assert_ne!(pair.ask_list(0x1EE00), Permanent);
    }
}

/// What crosses stays the same, for every pair that generated calls make and every PGN that they send.
#[test]
fn what_crosses_stays_the_same() {
    let mut unit = None;
    let mut met = [0; 7];
    for call in [111, 112].into_iter().flat_map(|seed| generate(seed, 8000)) {
        let before = unit.clone();
        let answer = apply(&mut unit, &call).expect("a unit");
        let (Call::Frame { port, id, .. }, Answer::Frame(Ok(given)), Some(before)) = (&call, &answer, before) else {
            continue;
        };
        assert_eq!(given.reasons.len(), before.ports as usize);
        for to in before.all_ports() {
            let named = given.accepted.contains(&to) || given.lost.contains(&to);
            let asked = !given.consumed && to != *port;
            let number = given.reason_number(to);
            met[number as usize] += 1;
            assert_eq!(number != 0, asked);
            assert_eq!((1..=4).contains(&number), named);
            assert_eq!(named, asked && permitted(&before, (*port, to), *id));
        }
        assert!((before.ports + 1..=16).all(|port| given.reason_number(port) == 0));
    }
    assert!(met.iter().all(|&count| count > 100), "{met:?}");
}

/// All but permanent in one answer, and the same pairs for a claim; the arrival port is not asked.
#[test]
fn every_reason_in_an_answer() {
    let mut unit = claimed_with(6);
    set(&mut unit, 2, 3, Pair::Pass(vec![65265]));
    set(&mut unit, 2, 4, Pair::Block(vec![61444]));
    set(&mut unit, 2, 5, Pair::Block(vec![65265]));
    set(&mut unit, 2, 6, Pair::Pass(vec![61444]));
    let answer = frame(&mut unit, 2, 0x18FEF105, &[]);
    assert_eq!(numbers(&answer), [2, 0, 3, 4, 5, 6]);
    assert_eq!((answer.accepted.clone(), answer.reason_word()), (vec![1, 3, 4], 0x65_4302));
    let answer = frame(&mut unit, 2, 0x18EEFF05, &[]);
    assert_eq!((numbers(&answer), answer.reason_word()), (vec![1, 0, 1, 1, 1, 1], 0x11_1101));
    assert_eq!(answer.accepted, [1, 3, 4, 5, 6]);
}

/// The pair of the way back says nothing.
#[test]
fn direction() {
    let mut unit = claimed();
    for other in [1, 3, 4] {
        set(&mut unit, other, 2, Pair::Pass(vec![]));
    }
    assert_eq!(numbers(&frame(&mut unit, 2, 0x18FEF105, &[])), [2, 0, 2, 2]);
    assert_eq!(numbers(&frame(&mut unit, 3, 0x18FEF105, &[])), [2, 6, 0, 2]);
}

/// A consumed frame asks no pair, whatever the lists are; not so once the unit has lost the address.
#[test]
fn consumed_frames_ask_no_pair() {
    for (unit, consumed) in [(unstarted(), false), (claiming(), true), (claimed(), true), (lost(), false)] {
        for (id, reason) in [(0x18EFC805, 6), (0x18EAC805, 1), (0x18EEC805, 1)] {
            let mut unit = unit.clone();
            unit.pairs.values_mut().for_each(|pair| *pair = Pair::Pass(vec![]));
            let answer = frame(&mut unit, 3, id, &[]);
            assert_eq!(answer.consumed, consumed);
            assert_eq!(numbers(&answer), if consumed { [0; 4] } else { [reason, reason, 0, reason] });
        }
    }
}

/// A frame that is lost at a full port was let through there, and its reason says so.
#[test]
fn lost_is_no_reason() {
    let mut unit = claimed();
    for port in [2, 3, 4] {
        fill(&mut unit, port, 32);
    }
    set(&mut unit, 1, 2, Pair::Pass(vec![65265]));
    set(&mut unit, 1, 3, Pair::Block(vec![65265]));
    let answer = frame(&mut unit, 1, 0x18FEF105, &[]);
    assert_eq!((numbers(&answer), answer.accepted, answer.lost), (vec![0, 3, 5, 2], vec![], vec![2, 4]));
    let answer = frame(&mut unit, 1, 0x18EAFF05, &[]);
    assert_eq!((numbers(&answer), answer.accepted, answer.lost), (vec![0, 1, 1, 1], vec![], vec![2, 3, 4]));
}

/// Port p's four bits stand at 4(p - 1); a port that the unit has not is 0.
#[test]
fn the_word_of_every_number_of_ports() {
    for ports in 2..=8 {
        for port in 1..=ports {
            let mut unit = claimed_with(ports);
            unit.pairs.values_mut().for_each(|pair| *pair = Pair::Block(vec![65265]));
            let answer = frame(&mut unit, port, 0x18FEF105, &[]);
            let expected: u64 = (1..=ports).filter(|&to| to != port).map(|to| 5 << (4 * (to - 1))).sum();
            assert_eq!((answer.reason_word(), answer.reasons.len() as u32), (expected, ports));
            assert!((1..=8).all(|to| u64::from(answer.reason_number(to)) == expected >> (4 * (to - 1)) & 15));
        }
    }
}
