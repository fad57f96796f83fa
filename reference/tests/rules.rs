//! The rules one by one: forwarding, addresses, network messages.

mod common;

use common::*;
use reference::address::{ClaimState, Event, UnitAnswer};
use reference::pair::Pair;
use reference::unit::Unit;

#[test]
fn power_on_is_fresh() {
    for (name, preferred) in [(0, 0), (u64::MAX, u32::MAX), (NAME, ADDRESS)] {
        let unit = Unit::power_on(name, preferred);
        assert_eq!((unit.name, unit.preferred, unit.state), (name, preferred, ClaimState::Unstarted));
        assert_eq!(unit.pairs.len(), 12);
        assert!(unit.pairs.values().all(|pair| *pair == Pair::Cleared));
        assert_eq!(unit.queues.len(), 4);
        assert!(unit.queues.values().all(|queue| queue.is_empty()));
        assert!(unit.table.is_empty());
    }
}

#[test]
fn forwarding_1_consumed_while_claiming_or_claimed() {
    for (unit, consumed) in [(unstarted(), false), (claiming(), true), (claimed(), true), (lost(), false)] {
        let answer = frame(&mut unit.clone(), 2, 0x18EFC801, &[7]);
        assert_eq!(answer.consumed, consumed);
        assert_eq!(answer.accepted, if consumed { vec![] } else { vec![1, 3, 4] });
        // Another destination, the global one, and PF 240 are not consumed.
        for id in [0x18EFC901, 0x18EFC701, 0x18EFFF01, 0x18F0C801] {
            assert!(!frame(&mut unit.clone(), 2, id, &[7]).consumed);
        }
    }
    // Every page and priority; the service port too.
    for id in [0x00EFC801, 0x1FEFC801, 0x0100C801] {
        assert!(frame(&mut claimed(), 1, id, &[]).consumed);
    }
}

#[test]
fn forwarding_2_modes() {
    let cases = [
        (Pair::Cleared, true, 0),
        (Pair::Block(vec![]), true, 0),
        (Pair::Block(vec![65265]), false, 1),
        (Pair::Block(vec![61444, 65265, 0]), false, 2),
        (Pair::Block(vec![61444, 0]), true, 2),
        (Pair::Pass(vec![]), false, 0),
        (Pair::Pass(vec![65265]), true, 1),
        (Pair::Pass(vec![61444, 0, 65265]), true, 2),
        (Pair::Pass(vec![61444, 0]), false, 2),
    ];
    for (pair, permitted, compared) in cases {
        let mut unit = claimed();
        set(&mut unit, 3, 2, pair);
        let answer = frame(&mut unit, 3, 0x18FEF100, &[]);
        assert_eq!(answer.accepted, if permitted { vec![1, 2, 4] } else { vec![1, 4] });
        assert_eq!((answer.lost, answer.compared), (vec![], compared));
    }
}

/// The pair of the other direction is not asked.
#[test]
fn forwarding_2_direction() {
    let mut unit = claimed();
    set(&mut unit, 1, 2, Pair::Pass(vec![]));
    assert_eq!(frame(&mut unit, 2, 0x18FEF100, &[]).accepted, [1, 3, 4]);
    assert_eq!(frame(&mut unit, 1, 0x18FEF100, &[]).accepted, [3, 4]);
}

/// One entry stands for every destination; the page bits make another PGN.
#[test]
fn forwarding_2_destination_is_no_part_of_the_pgn() {
    let mut unit = claimed();
    set(&mut unit, 1, 2, Pair::Block(vec![61184]));
    for id in [0x18EF0000, 0x18EF2A00, 0x0CEFFF05] {
        assert_eq!(frame(&mut unit, 1, id, &[]).accepted, [3, 4]);
    }
    for id in [0x19EF2A00, 0x1AEF2A00, 0x18EE2A00] {
        assert_eq!(frame(&mut unit, 1, id, &[]).accepted, [2, 3, 4]);
    }
}

/// One full port stops no other.
#[test]
fn forwarding_3_full_port() {
    let mut unit = claimed();
    fill(&mut unit, 3, 31);
    assert_eq!(frame(&mut unit, 1, 0x18FEF100, &[1]).accepted, [2, 3, 4]);
    let answer = frame(&mut unit, 1, 0x00FEF100, &[2]);
    assert_eq!((answer.accepted, answer.lost), (vec![2, 4], vec![3]));
    set(&mut unit, 1, 3, Pair::Pass(vec![]));
    let answer = frame(&mut unit, 1, 0x18FEF100, &[3]);
    assert_eq!((answer.accepted, answer.lost), (vec![2, 4], vec![]));
    assert_eq!(waiting(&unit, 3), 32);
}

#[test]
fn forwarding_4_rank_then_order() {
    let mut unit = claimed();
    for (index, priority) in [7, 3, 6, 3, 0, 7, 6, 0].into_iter().enumerate() {
        frame(&mut unit, 1, (priority << 26) | 0x00FEF100, &[index as u8]);
    }
    let others = (unit.queues[&3].clone(), unit.queues[&4].clone());
    let given: Vec<u8> = (0..8).map(|_| unit.take(2).unwrap().unwrap().bytes[0]).collect();
    assert_eq!(given, [4, 7, 1, 3, 2, 6, 0, 5]);
    assert_eq!(unit.take(2), Ok(None));
    assert_eq!((unit.queues[&3].clone(), unit.queues[&4].clone()), others);
}

#[test]
fn forwarding_5_compared_adds_three_pairs() {
    let mut unit = claimed();
    set(&mut unit, 1, 2, Pair::Block(pgns(32)));
    set(&mut unit, 1, 3, Pair::Pass(pgns(10)));
    set(&mut unit, 1, 4, Pair::Block(vec![65265, 61444]));
    assert_eq!(frame(&mut unit, 1, 0x18F00400, &[]).compared, 5 + 1 + 1);
    assert_eq!(frame(&mut unit, 1, 0x18F01F00, &[]).compared, 6 + 4 + 2);
    assert_eq!(frame(&mut unit, 2, 0x18F00400, &[]).compared, 0);
    assert_eq!(frame(&mut unit, 1, 0x18EFC800, &[]).compared, 0);
}

#[test]
fn claims_recorded_refreshed_took_over_beaten_withdrew() {
    let mut unit = claimed();
    assert_eq!(claim(&mut unit, 2, 10, 500).event, Event::Recorded);
    assert_eq!(holder(&unit, 10), Some((500, 2)));
    assert_eq!(claim(&mut unit, 3, 10, 500).event, Event::Refreshed);
    assert_eq!(holder(&unit, 10), Some((500, 3)));
    assert_eq!(claim(&mut unit, 4, 10, 501).event, Event::Beaten);
    assert_eq!(holder(&unit, 10), Some((500, 3)));
    assert_eq!(claim(&mut unit, 4, 10, 499).event, Event::TookOver(500));
    assert_eq!(holder(&unit, 10), Some((499, 4)));
    assert_eq!(claim(&mut unit, 1, 254, 500).event, Event::None);
    assert_eq!(claim(&mut unit, 1, 254, 499).event, Event::Withdrew);
    assert!(unit.table.is_empty());
    for address in [0, 253] {
        assert_eq!(claim(&mut unit, 1, address, 7 + u64::from(address)).event, Event::Recorded);
    }
}

#[test]
fn claim_for_the_units_address() {
    for unit in [claiming(), claimed()] {
        let mut defending = unit.clone();
        let answer = claim(&mut defending, 3, ADDRESS, NAME + 1);
        assert_eq!((answer.event, answer.accepted, answer.own_lost), (Event::Defended, vec![1, 2, 4], vec![]));
        assert_eq!((holder(&defending, ADDRESS), defending.state), (None, unit.state));
        assert_eq!(PORTS.map(|port| waiting(&defending, port)), [2, 2, 1, 2]);
        assert_eq!((front(&defending, 3).id, front(&defending, 3).bytes), (0x18EEFFC8, NAME.to_le_bytes().to_vec()));

        let mut displaced = unit.clone();
        let answer = claim(&mut displaced, 3, ADDRESS, NAME - 1);
        assert_eq!((answer.event, answer.accepted, answer.own_lost), (Event::Displaced, vec![1, 2, 4], vec![]));
        assert_eq!((holder(&displaced, ADDRESS), displaced.state), (Some((NAME - 1, 3)), ClaimState::Lost));
        assert_eq!(PORTS.map(|port| waiting(&displaced, port)), [2, 2, 1, 2]);
        assert_eq!(front(&displaced, 3).id, 0x18EEFFFE);
        assert_eq!(displaced.address(), None);
    }
}

/// A claim that is lost at every port is acted on all the same.
#[test]
fn lost_claims_are_acted_on() {
    let mut unit = claimed();
    for to in [2, 3, 4] {
        fill(&mut unit, to, 32);
    }
    let answer = claim(&mut unit, 1, 10, 500);
    assert_eq!((answer.accepted, answer.lost, answer.event), (vec![], vec![2, 3, 4], Event::Recorded));
}

#[test]
fn start_judges_the_holder() {
    for (name, state, first) in [(NAME - 1, ClaimState::Lost, 0x18EEFFFE), (NAME + 1, ClaimState::Claiming, 0x18EEFFC8)]
    {
        let mut unit = unstarted();
        claim(&mut unit, 2, ADDRESS, name);
        claim(&mut unit, 2, ADDRESS + 1, 1);
        drain(&mut unit);
        assert_eq!(unit.start(), started(state, &[]));
        assert_eq!(unit.state, state);
        let stays = state == ClaimState::Lost;
        assert_eq!(holder(&unit, ADDRESS), if stays { Some((name, 2)) } else { None });
        assert_eq!(holder(&unit, ADDRESS + 1), Some((1, 2)));
        for port in PORTS {
            assert_eq!((waiting(&unit, port), front(&unit, port).id), (1, first));
        }
    }
}

/// A loss at Start is named and changes nothing else.
#[test]
fn start_with_full_queues() {
    let mut unit = unstarted();
    fill(&mut unit, 2, 32);
    fill(&mut unit, 3, 31);
    fill(&mut unit, 4, 32);
    assert_eq!(unit.start(), started(ClaimState::Claiming, &[2, 4]));
    assert_eq!(unit.state, ClaimState::Claiming);
    assert_eq!(PORTS.map(|port| waiting(&unit, port)), [1, 32, 32, 32]);
}

/// What the unit tells in each claim state; it has an address in Claiming and Claimed alone.
#[test]
fn the_unit_tells_what_it_is() {
    let cases = [
        (unstarted(), ClaimState::Unstarted, None),
        (claiming(), ClaimState::Claiming, Some(ADDRESS)),
        (claimed(), ClaimState::Claimed, Some(ADDRESS)),
        (lost(), ClaimState::Lost, None),
    ];
    for (number, (unit, state, address)) in cases.into_iter().enumerate() {
        assert_eq!(unit.tell(), UnitAnswer { state, address, preferred: ADDRESS, name: NAME, ports: 4 });
        assert_eq!(state.number() as usize, number);
    }
    let bad = Unit::power_on(u64::MAX, u32::MAX).tell();
    assert_eq!((bad.state, bad.address), (ClaimState::Unstarted, None));
    assert_eq!((bad.preferred, bad.name), (u32::MAX, u64::MAX));
}

#[test]
fn requests_for_address_claimed() {
    let request = [0x00, 0xEE, 0x00];
    let cases = [
        (unstarted(), None, false),
        (claiming(), Some(0x18EEFFC8), true),
        (claimed(), Some(0x18EEFFC8), true),
        (lost(), Some(0x18EEFFFE), false),
    ];
    for (unit, answer_id, consumes) in cases {
        for sa in [0x05, 0xFE] {
            let mut asked = unit.clone();
            let answer = frame(&mut asked, 2, 0x18EAFF00 + sa, &request);
            assert_eq!((answer.consumed, answer.accepted, answer.event), (false, vec![1, 3, 4], Event::None));
            assert_eq!(asked.queues[&2].front().map(|own| own.id), answer_id);
            assert_eq!(asked.queues[&2].len(), answer_id.iter().count());

            let mut asked = unit.clone();
            let answer = frame(&mut asked, 2, 0x18EAC800 + sa, &request);
            assert_eq!(answer.consumed, consumes);
            assert_eq!(answer.accepted, if consumes { vec![] } else { vec![1, 3, 4] });
            assert_eq!(asked.queues[&2].len(), usize::from(consumes));
            assert_eq!(asked.queues[&1].len(), 1);
        }
    }
}

/// Another destination, other bytes, lengths and pages are no request for address claimed.
#[test]
fn other_requests_are_not_answered() {
    let near: [(u32, &[u8]); 8] = [
        (0x18EAC905, &[0x00, 0xEE, 0x00]),
        (0x18EAFE05, &[0x00, 0xEE, 0x00]),
        (0x19EAFF05, &[0x00, 0xEE, 0x00]),
        (0x1AEAFF05, &[0x00, 0xEE, 0x00]),
        (0x18EAFF05, &[0x00, 0xEE]),
        (0x18EAFF05, &[0x00, 0xEE, 0x00, 0x00]),
        (0x18EAFF05, &[0x00, 0xEE, 0x00, 0xFF, 0xFF, 0xFF, 0xFF, 0xFF]),
        (0x18EAFF05, &[0x00, 0xED, 0x00]),
    ];
    for (id, bytes) in near {
        let mut unit = claimed();
        assert_eq!(frame(&mut unit, 2, id, bytes).accepted, [1, 3, 4]);
        assert_eq!(waiting(&unit, 2), 0);
    }
    let mut unit = claimed();
    assert!(frame(&mut unit, 2, 0x18EAC805, &[0x00, 0xEE]).consumed);
    assert_eq!(PORTS.map(|port| waiting(&unit, port)), [0; 4]);
}

#[test]
fn reply_1() {
    let mut unit = claimed();
    let request = hex("00 43 00 00 00 00 00 00");
    assert_eq!(message(&mut unit, 4, 7, &request), (0, 60672, hex("01 43 00 FF FF FF FF FF")));
    assert_eq!(number(&mut unit, &command(6, 0x43, 1, &[0x3FFFF, 0x100, 61444])), 0);
    let reply = message(&mut unit, 3, 7, &request);
    assert_eq!(reply, (0, 60672, hex("01 43 01 FF FF 03 00 01 00 04 F0 00")));
    set(&mut unit, 4, 3, Pair::Pass(vec![]));
    assert_eq!(message(&mut unit, 1, 7, &request), (0, 60672, hex("01 43 01 FF FF FF FF FF")));
    set(&mut unit, 4, 3, Pair::Block(pgns(32)));
    assert_eq!(message(&mut unit, 1, 7, &request).2.len(), 99);
}

#[test]
fn reply_65() {
    let mut unit = claimed();
    let request = hex("40 73 00 00 00 00 00 00");
    assert_eq!(message(&mut unit, 3, 7, &request), (0, 60672, hex("41 03 FF FF FF FF FF FF")));
    for (address, port) in [(9, 3), (253, 3), (0, 3), (8, 2), (7, 3), (5, 3), (6, 3)] {
        claim(&mut unit, port, address, 1000 + u64::from(address));
    }
    assert_eq!(message(&mut unit, 3, 7, &request), (0, 60672, hex("41 03 00 05 06 07 09 FD")));
    claim(&mut unit, 3, 10, 2000);
    assert_eq!(message(&mut unit, 1, 7, &request), (0, 60672, hex("41 03 00 05 06 07 09 0A FD")));
    for address in 0..=253 {
        if address != ADDRESS {
            claim(&mut unit, 3, address, u64::from(address));
        }
    }
    let (_, _, longest) = message(&mut unit, 1, 7, &request);
    assert_eq!(longest.len(), 255);
    assert!(!longest[2..].contains(&(ADDRESS as u8)));
}

/// To 15 is done on three pairs or on none, the others stay.
#[test]
fn all_pairs_or_none() {
    let mut unit = claimed();
    set(&mut unit, 1, 2, Pair::Block(vec![0]));
    let others = unit.clone();
    assert_eq!(number(&mut unit, &command(6, 0x3F, 1, &[61444, 65265])), 0);
    for to in [1, 2, 4] {
        assert_eq!(unit.pairs[&(3, to)], Pair::Pass(vec![61444, 65265]));
    }
    assert_eq!(number(&mut unit, &command(2, 0x31, 0, &[0])), 0);
    assert_eq!(number(&mut unit, &command(2, 0x3F, 0, &[0, 256])), 0);
    assert_eq!(list(&unit, 3, 1), [61444, 65265, 0, 256]);
    assert_eq!(list(&unit, 3, 4), [61444, 65265, 0, 256]);
    assert_eq!(number(&mut unit, &command(3, 0x34, 0, &[0])), 0);
    assert_eq!(number(&mut unit, &command(3, 0x3F, 0, &[61444, 0])), 17);
    assert_eq!(number(&mut unit, &command(3, 0x3F, 0, &[61444])), 0);
    assert_eq!(list(&unit, 3, 2), [65265, 0, 256]);
    assert_eq!(number(&mut unit, &command(4, 0x3F, 0, &[])), 0);
    assert_eq!(unit, others);
}

#[test]
fn acknowledgments() {
    let mut unit = claimed();
    for (function, payload) in [
        (6, "06 12 00 00 F0 00 FF FF"),
        (2, "02 12 01 F0 00 02 F0 00"),
        (3, "03 12 00 F0 00 FF FF FF"),
        (4, "04 12 00 00 00 00 00 00"),
    ] {
        let answer = message(&mut unit, 2, 253, &hex(payload));
        assert_eq!(answer, (0, 59392, vec![0, function, 0xFF, 0xFF, 253, 0x00, 0xED, 0x00]));
    }
    assert_eq!(unit, claimed());
}

/// The longest commands: 594 entries, 32 of them different.
#[test]
fn longest_commands() {
    let entries: Vec<u32> = (0..594).map(|index| 61440 + index % 32).collect();
    let create = command(6, 0x12, 1, &entries);
    let delete = command(3, 0x12, 0, &entries);
    assert_eq!((create.len(), delete.len()), (1785, 1784));
    let mut unit = claimed();
    assert_eq!(number(&mut unit, &create), 0);
    assert_eq!(list(&unit, 1, 2), pgns(32));
    assert_eq!(number(&mut unit, &delete), 0);
    assert_eq!(unit.pairs[&(1, 2)], Pair::Pass(vec![]));
    let one_too_many: Vec<u32> = (0..594).map(|index| 61440 + index % 33).collect();
    assert_eq!(number(&mut unit, &command(2, 0x12, 0, &one_too_many)), 16);
}
