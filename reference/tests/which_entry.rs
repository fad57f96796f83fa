//! "Network messages", which entry was wrong: what 22 and 17 tell beside the number.

mod common;

use common::*;
use reference::frame::is_pgn;
use reference::pair::Pair;
use reference::unit::Unit;

/// Numbers that are no PGN. FF FF FF, which is filling as the second of two, is not the second here.
const NONE: [u32; 5] = [0x40000, 0xEF01, 0xFFFFFF, 1, 0xFEF100];

/// A unit whose pairs from a port list these PGNs.
fn listing(ports: u32, from: u32, pgns: &[u32]) -> Unit {
    let mut unit = claimed_with(ports);
    for to in unit.other_ports(from) {
        set(&mut unit, from, to, Pair::Pass(pgns.to_vec()));
    }
    unit
}

/// The fitter's forty PGNs, one of them none: its number from 1, whatever stands behind it and whatever pairs are named.
#[test]
fn each_place_of_a_command() {
    let mut unit = claimed();
    set(&mut unit, 1, 3, Pair::Block(vec![]));
    for (function, pair) in [2, 3, 6].into_iter().flat_map(|function| [0x12, 0x13, 0x1F].map(|pair| (function, pair))) {
        for (count, number) in [1, 2, 3, 32, 33, 40, 594].into_iter().zip(NONE.into_iter().cycle()) {
            for place in (0..count).filter(|place| *place < 50 || *place > 590) {
                let mut entries = pgns(count);
                entries[place as usize] = number;
                assert!(!is_pgn(number));
                assert_eq!(wrong(&mut unit, &command(function, pair, 0, &entries)), no_pgn(place as usize + 1));
                entries[place as usize..].fill(number);
                assert_eq!(wrong(&mut unit, &command(function, pair, 0, &entries)), no_pgn(place as usize + 1));
            }
        }
    }
}

/// An entry that is named twice counts at each of its places.
#[test]
fn entries_are_counted_as_they_stand() {
    let mut unit = listing(4, 1, &pgns(3));
    let entries = [61440, 61440, 61441, 61440, 0xFFFFFF];
    assert_eq!(wrong(&mut unit, &command(2, 0x12, 0, &entries)), no_pgn(5));
    assert_eq!(wrong(&mut unit, &command(3, 0x12, 0, &entries)), no_pgn(5));
    let entries = [61440, 61440, 61441, 65535, 61440, 65535];
    assert_eq!(wrong(&mut unit, &command(3, 0x12, 0, &entries)), absent(4, 2, 65535));
}

/// Function, length or filling wrong, or another's pair: no entry is told. Before 13, 14, 15 and 16 it is.
#[test]
fn the_place_of_22() {
    let mut unit = claimed();
    set(&mut unit, 1, 3, Pair::Block(pgns(32)));
    let mut bad = pgns(40);
    bad[6] = 0xFFFFFF;
    assert_eq!(wrong(&mut unit, &command(5, 0x12, 0, &bad)), (9, None));
    assert_eq!(wrong(&mut unit, &command(2, 0x11, 0, &bad)), (10, None));
    let of_a_neighbour = told(&mut unit, 2, TOOL, &command(2, 0x13, 0, &bad), 1785).0;
    assert_eq!((of_a_neighbour.number, of_a_neighbour.wrong), (11, None));
    for function in [2, 3, 6] {
        for more in [1, 2] {
            let mut payload = command(function, 0x12, 0, &bad);
            payload.extend(vec![0; more]);
            assert_eq!(wrong(&mut unit, &payload), (12, None));
        }
        assert_eq!(wrong(&mut unit, &command(function, 0x12, 7, &bad)), no_pgn(7));
        assert_eq!(wrong(&mut unit, &command(function, 0x13, 7, &bad)), no_pgn(7));
    }
    bad[6] = 61440;
    assert_eq!(wrong(&mut unit, &command(6, 0x12, 7, &bad)), (13, None));
    assert_eq!(wrong(&mut unit, &command(6, 0x13, 1, &bad)), (14, None));
    assert_eq!(wrong(&mut unit, &command(2, 0x12, 0, &bad)), (15, None));
    assert_eq!(wrong(&mut unit, &command(2, 0x13, 0, &bad)), (16, None));
}

/// 17 for every absent place at every pair of To 15, on units of every number of ports and from every port.
#[test]
fn each_place_of_each_pair() {
    for ports in 2..=8 {
        for from in 1..=ports {
            let (named, all) = (pgns(8), (from * 16 + 15) as u8);
            let unit = listing(ports, from, &named);
            for (place, to) in (0..8).flat_map(|place| unit.other_ports(from).into_iter().map(move |to| (place, to))) {
                let mut unit = unit.clone();
                let mut left = named.clone();
                let pgn = left.remove(place);
                set(&mut unit, from, to, Pair::Block(left));
                assert_eq!(wrong(&mut unit, &command(3, all, 0, &named)), absent(place + 1, to, pgn));
                let one = (from * 16 + to) as u8;
                assert_eq!(wrong(&mut unit, &command(3, one, 0, &named)), absent(place + 1, to, pgn));
                let turned: Vec<u32> = named.iter().rev().copied().collect();
                assert_eq!(wrong(&mut unit, &command(3, all, 0, &turned)), absent(8 - place, to, pgn));
            }
        }
    }
}

/// The pair first, then the entry: a later pair that lacks an earlier entry is not told.
#[test]
fn pairs_before_entries() {
    let mut unit = listing(4, 2, &pgns(4));
    set(&mut unit, 2, 3, Pair::Pass(vec![61440, 61441, 61443]));
    set(&mut unit, 2, 4, Pair::Pass(vec![61441, 61442, 61443]));
    assert_eq!(wrong(&mut unit, &command(3, 0x2F, 0, &pgns(4))), absent(3, 3, 61442));
    assert_eq!(wrong(&mut unit, &command(3, 0x24, 0, &pgns(4))), absent(1, 4, 61440));
    set(&mut unit, 2, 1, Pair::Pass(vec![]));
    assert_eq!(wrong(&mut unit, &command(3, 0x2F, 0, &[61443, 61442])), absent(1, 1, 61443));
    set(&mut unit, 2, 1, Pair::Cleared);
    assert_eq!(wrong(&mut unit, &command(3, 0x2F, 0, &pgns(4))), (15, None));
}

/// PGN 0 may be the one that is absent.
#[test]
fn pgn_0_is_absent() {
    let mut unit = listing(4, 1, &[61440]);
    assert_eq!(wrong(&mut unit, &command(3, 0x1F, 0, &[61440, 0])), absent(2, 2, 0));
}

/// As words: entry, To, PGN, 0 for what is not told; what is done tells none.
#[test]
fn as_words() {
    let mut unit = listing(4, 1, &[61440]);
    let mut words = |payload: &[u8]| told(&mut unit, 1, TOOL, payload, 1785).0.wrong_words();
    assert_eq!(words(&command(3, 0x1F, 0, &[61440, 65535])), [2, 2, 65535]);
    assert_eq!(words(&command(2, 0x1F, 0, &[61440, 1])), [2, 0, 0]);
    assert_eq!(words(&command(2, 0x1F, 0, &[61440])), [0, 0, 0]);
    assert_eq!(words(&command(2, 0x11, 0, &[1])), [0, 0, 0]);
}

/// The acknowledgment of 22 has the bytes of 12's.
#[test]
fn acknowledged_like_12() {
    let mut unit = listing(4, 1, &[61440]);
    let of_12 = message(&mut unit, 1, TOOL, &hex("02 12 FF FF FF FF FF FF FF"));
    let of_22 = message(&mut unit, 1, TOOL, &hex("02 12 FF FF FF FF FF FF"));
    assert_eq!((of_12.0, of_22.0), (12, 22));
    assert_eq!((of_22.1, &of_22.2), (of_12.1, &of_12.2));
    assert_eq!(of_22.2, hex("01 02 FF FF 21 00 ED 00"));
}
