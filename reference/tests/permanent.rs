//! Permanent (docs/RULES.md, "Forwarding", rule 2): PGNs 60928 and 59904 cross every pair whatever its mode and list, given room.

mod common;

use common::*;
use reference::address::Event;
use reference::pair::Pair;
use reference::unit::Unit;

/// Claims and requests, as bits 23 to 8 of an identifier with destination 0.
const CLAIM: u32 = 0x00EE_0000;
const REQUEST: u32 = 0x00EA_0000;
const BOTH: [(u32, u32); 2] = [(CLAIM, 60928), (REQUEST, 59904)];

/// Every kind of pair, for a PGN: cleared, and in each mode without entries, and with the PGN absent, alone, first of 32 and last.
fn pairs_for(pgn: u32) -> Vec<Pair> {
    let first: Vec<u32> = [pgn].into_iter().chain(pgns(31)).collect();
    let last: Vec<u32> = pgns(31).into_iter().chain([pgn]).collect();
    let lists = [vec![], pgns(32), vec![pgn], first, last];
    let modes = lists.into_iter().flat_map(|list| [Pair::Block(list.clone()), Pair::Pass(list)]);
    [Pair::Cleared].into_iter().chain(modes).collect()
}

/// A unit all of whose pairs are this one.
fn with_pairs(ports: u32, pair: &Pair) -> Unit {
    let mut unit = claimed_with(ports);
    unit.pairs.values_mut().for_each(|each| *each = pair.clone());
    unit
}

/// Of any length, to any destination but the unit's address.
#[test]
fn every_length_and_destination() {
    for (id, pgn) in BOTH {
        for pair in pairs_for(pgn) {
            let unit = with_pairs(4, &pair);
            for length in 0..=8 {
                for destination in (0..=255).filter(|&destination| destination != ADDRESS) {
                    let mut unit = unit.clone();
                    let answer = frame(&mut unit, 3, 0x1800_0005 + id + (destination << 8), &vec![0; length]);
                    assert_eq!((answer.consumed, answer.accepted), (false, vec![1, 2, 4]), "{pair:?}");
                    assert_eq!((answer.lost, answer.compared), (vec![], 0), "{pair:?}");
                }
            }
        }
    }
}

/// Of any priority, from every port, with every number of ports; a request from address 254 too.
#[test]
fn every_priority_and_port() {
    for (id, pgn) in BOTH {
        for pair in pairs_for(pgn) {
            for ports in 2..=8 {
                for port in 1..=ports {
                    let priority = (ports + port) % 8;
                    let mut unit = with_pairs(ports, &pair);
                    let others = unit.other_ports(port);
                    let answer = frame(&mut unit, port, (priority << 26) + id + 0xFFFE, &[1, 2, 3]);
                    assert_eq!((answer.accepted, answer.lost, answer.compared), (others, vec![], 0), "{pair:?}");
                }
            }
        }
    }
}

/// A frame with a page bit has another PGN: the list decides, and is compared.
#[test]
fn page_bits_make_another_pgn() {
    for (id, pgn) in BOTH {
        for page in 1..=3 {
            let (id, paged) = (0x1800_FF05 + id + (page << 24), pgn + (page << 16));
            for (pair, permitted, compared) in [
                (Pair::Pass(vec![]), false, 0),
                (Pair::Pass(vec![pgn]), false, 1),
                (Pair::Pass(vec![pgn, paged]), true, 2),
                (Pair::Block(vec![paged, pgn]), false, 2),
                (Pair::Block(vec![pgn, 0]), true, 2),
            ] {
                let answer = frame(&mut with_pairs(4, &pair), 1, id, &[0x00, 0xEE, 0x00]);
                assert_eq!(answer.accepted, if permitted { vec![2, 3, 4] } else { vec![] }, "{pair:?}");
                assert_eq!((answer.lost, answer.compared), (vec![], 3 * compared), "{pair:?}");
            }
        }
    }
}

/// Neighbours of the two are ordinary.
#[test]
fn no_other_pgn_is_permanent() {
    let pass_none = with_pairs(4, &Pair::Pass(vec![]));
    for pf in 0..=255 {
        let crosses = pf == 0xEA || pf == 0xEE;
        let answer = frame(&mut pass_none.clone(), 2, 0x1800_FF05 + (pf << 16), &[]);
        assert_eq!(answer.accepted, if crosses { vec![1, 3, 4] } else { vec![] }, "PF {pf}");
    }
}

/// The consumed rule is unchanged: what is for the unit goes to no port, and is compared with nothing.
#[test]
fn consumed_frames_are_not_forwarded() {
    for (id, pgn) in BOTH {
        for pair in pairs_for(pgn) {
            for (unit, consumed) in [(unstarted(), false), (claiming(), true), (claimed(), true), (lost(), false)] {
                let mut unit = unit.clone();
                unit.pairs.values_mut().for_each(|each| *each = pair.clone());
                let answer = frame(&mut unit, 2, 0x1800_C805 + id, &[1, 2, 3]);
                assert_eq!((answer.consumed, answer.compared), (consumed, 0));
                assert_eq!(answer.accepted, if consumed { vec![] } else { vec![1, 3, 4] });
                assert_eq!(PORTS.map(|port| waiting(&unit, port)).iter().sum::<usize>(), if consumed { 0 } else { 3 });
            }
        }
    }
    // A request that is consumed is answered at every port.
    let mut unit = with_pairs(4, &Pair::Pass(vec![]));
    let answer = frame(&mut unit, 2, 0x18EA_C805, &[0x00, 0xEE, 0x00]);
    assert_eq!((answer.consumed, answer.accepted), (true, vec![]));
    assert_eq!(PORTS.map(|port| front(&unit, port).id), [0x18EE_FFC8; 4]);
}

/// Given room: where 32 wait the frame is lost, and a claim is acted on all the same.
#[test]
fn given_room() {
    let mut unit = with_pairs(4, &Pair::Pass(vec![]));
    fill(&mut unit, 3, 32);
    let answer = claim(&mut unit, 1, 10, 500);
    assert_eq!((answer.accepted, answer.lost), (vec![2, 4], vec![3]));
    assert_eq!((answer.event, answer.compared), (Event::Recorded, 0));
    assert_eq!((waiting(&unit, 3), holder(&unit, 10)), (32, Some((500, 1))));
    unit.take(3).unwrap();
    assert_eq!(claim(&mut unit, 1, 10, 500).accepted, [2, 3, 4]);
}

/// Refused frames of these PGNs stay refused.
#[test]
fn refusals_stay() {
    let unit = with_pairs(4, &Pair::Pass(vec![60928, 59904]));
    for (port, id, length, number) in [
        (5, 0x18EE_FF05, 8, 1),
        (1, 0x38EE_FF05, 8, 3),
        (1, 0x18EE_FF05, 9, 4),
        (1, 0x18EE_FFFF, 8, 5),
        (1, 0x18EE_05FE, 8, 5),
        (1, 0x18EA_FFFF, 3, 5),
    ] {
        assert_eq!(frame_number(&mut unit.clone(), port, id, &vec![0; length]), number);
    }
}

/// They may be listed: Create, Add and Delete take them, replies show them, 16 and 17 count them; no frame is the wiser.
#[test]
fn listed_without_effect() {
    for mode in [0, 1] {
        let mut unit = claimed();
        let crosses = |unit: &Unit| {
            BOTH.iter().all(|&(id, _)| {
                let answer = frame(&mut unit.clone(), 1, 0x1800_FF05 + id, &[]);
                (answer.accepted, answer.compared) == (vec![2, 3, 4], 0)
            })
        };
        assert_eq!(number(&mut unit, &command(6, 0x12, mode, &[60928])), 0);
        assert!(crosses(&unit));
        assert_eq!(number(&mut unit, &command(3, 0x12, 0, &[59904])), 17);
        assert_eq!(number(&mut unit, &command(2, 0x12, 0, &[59904, 61444])), 0);
        assert!(crosses(&unit));
        let (_, _, reply) = message(&mut unit, 2, TOOL, &command(0, 0x12, 0, &[]));
        assert_eq!(reply, [1, 0x12, mode, 0x00, 0xEE, 0x00, 0x00, 0xEA, 0x00, 0x04, 0xF0, 0x00]);
        // 30 others, one of them listed already, bring it to 32 with the two; the next is refused with 16.
        assert_eq!(number(&mut unit, &command(2, 0x12, 0, &pgns(30))), 0);
        assert_eq!(list(&unit, 1, 2).len(), 32);
        assert_eq!(number(&mut unit, &command(2, 0x12, 0, &[65265])), 16);
        assert_eq!(number(&mut unit, &command(2, 0x12, 0, &[60928])), 0);
        assert_eq!(number(&mut unit, &command(3, 0x12, 0, &[60928])), 0);
        assert_eq!(number(&mut unit, &command(2, 0x12, 0, &[65265])), 0);
        assert!(crosses(&unit));
        assert_eq!(number(&mut unit, &command(2, 0x12, 0, &[60928])), 16);
    }
}

/// A listed one has its place in rising order, where other PGNs are compared with it.
#[test]
fn listed_ones_are_compared_with_other_pgns() {
    let mut unit = claimed();
    set(&mut unit, 1, 2, Pair::Pass(vec![60928, 59904, 65265]));
    assert_eq!(frame(&mut unit, 1, 0x18FE_F100, &[]).compared, 2);
    assert_eq!(frame(&mut unit, 1, 0x18FE_F200, &[]).compared, 2);
    assert_eq!(frame(&mut unit, 1, 0x18EE_FF00, &[]).compared, 0);
}
