//! The settled readings, by their number in the list of open points.

mod common;

use common::*;
use reference::address::{ClaimState, Event};
use reference::pair::Pair;
use reference::unit::Unit;

/// Transport frames are filtered by the PGN of their own identifier.
#[test]
fn point_1_transport_is_plain() {
    let mut unit = claimed();
    set(&mut unit, 1, 2, Pair::Pass(vec![65265]));
    assert_eq!(frame(&mut unit, 1, 0x1CECFF00, &hex("20 09 00 02 FF F1 FE 00")).accepted, [3, 4]);
    set(&mut unit, 1, 2, Pair::Pass(vec![60416]));
    assert_eq!(frame(&mut unit, 1, 0x1CECFF00, &hex("20 09 00 02 FF F1 FE 00")).accepted, [2, 3, 4]);
}

#[test]
fn point_3_and_26_ports_0_and_15() {
    for payload in [
        "00 02 FF FF FF FF FF FF",
        "00 1F FF FF FF FF FF FF",
        "04 F1 FF FF FF FF FF FF",
        "04 FF FF FF FF FF FF FF",
        "04 10 FF FF FF FF FF FF",
        "40 00 FF FF FF FF FF FF",
        "40 0F FF FF FF FF FF FF",
        "40 1F FF FF FF FF FF FF",
    ] {
        assert_eq!(number_at(&mut claimed(), 1, payload), 10, "{payload}");
    }
    assert_eq!(number_at(&mut claimed(), 1, "04 1F FF FF FF FF FF FF"), 0);
}

#[test]
fn point_5_reply_65_has_the_plain_port() {
    let answer = message(&mut claimed(), 1, TOOL, &hex("40 F4 FF FF FF FF FF FF"));
    assert_eq!(answer.2, hex("41 04 FF FF FF FF FF FF"));
}

#[test]
fn point_17_a_full_queue_loses_the_newcomer() {
    let mut unit = claimed();
    fill(&mut unit, 2, 32);
    let before = unit.queues[&2].clone();
    assert_eq!(frame(&mut unit, 1, 0x00FEF100, &[]).lost, [2]);
    assert_eq!(unit.queues[&2], before);
}

/// A cleared pair and an emptied block pair reply alike and differ for 14 and 15.
#[test]
fn point_23_cleared_is_not_emptied() {
    let mut unit = claimed();
    set(&mut unit, 1, 2, Pair::Block(vec![]));
    let of_emptied = message(&mut unit, 1, TOOL, &hex("00 12 FF FF FF FF FF FF"));
    let of_cleared = message(&mut claimed(), 1, TOOL, &hex("00 12 FF FF FF FF FF FF"));
    assert_eq!(of_emptied, of_cleared);
    assert_eq!(number(&mut unit, &command(6, 0x12, 0, &[0])), 14);
    assert_eq!(number(&mut unit, &command(2, 0x12, 0, &[0])), 0);
    assert_eq!(number(&mut claimed(), &command(2, 0x12, 0, &[0])), 15);
}

#[test]
fn point_33_and_34_sa_254() {
    assert_eq!(frame_number(&mut claimed(), 1, 0x18EA05FE, &hex("D9 FE 00")), 0);
    assert_eq!(frame_number(&mut claimed(), 1, 0x18EE05FE, &[0; 8]), 5);
}

/// Claims of other lengths or destinations are ordinary frames.
#[test]
fn point_35_near_claims() {
    for length in [0, 1, 7] {
        let mut unit = claimed();
        let answer = frame(&mut unit, 1, 0x18EEFFC8, &vec![0; length]);
        assert_eq!((answer.event, unit.state, unit.table.len()), (Event::None, ClaimState::Claimed, 0));
    }
    for id in [0x18EEFE0A, 0x19EEFF0A, 0x1AEEFF0A, 0x1BEEFF0A] {
        let mut unit = claimed();
        assert_eq!(frame(&mut unit, 1, id, &[0; 8]).event, Event::None);
        assert!(unit.table.is_empty());
    }
    // To the unit's address: consumed, no event.
    let answer = frame(&mut claimed(), 1, 0x18EEC80A, &[0; 8]);
    assert_eq!((answer.consumed, answer.event), (true, Event::None));
    // Any priority makes a claim.
    assert_eq!(frame(&mut claimed(), 1, 0x00EEFF0A, &[0; 8]).event, Event::Recorded);
}

/// The other address is dropped before all comparisons, for Beaten and Defended too.
#[test]
fn point_36_and_105_a_name_that_moves() {
    let mut unit = claimed();
    claim(&mut unit, 2, 10, NAME + 5);
    claim(&mut unit, 2, 11, 7);
    assert_eq!(claim(&mut unit, 3, 12, NAME + 5).event, Event::Recorded);
    assert_eq!((holder(&unit, 10), holder(&unit, 12)), (None, Some((NAME + 5, 3))));
    assert_eq!(claim(&mut unit, 3, 11, NAME + 5).event, Event::Beaten);
    assert_eq!((holder(&unit, 12), holder(&unit, 11)), (None, Some((7, 2))));
    assert_eq!(claim(&mut unit, 3, 254, NAME + 5).event, Event::None);
    claim(&mut unit, 2, 10, NAME + 5);
    assert_eq!(claim(&mut unit, 2, ADDRESS, NAME + 5).event, Event::Defended);
    assert_eq!((holder(&unit, 10), holder(&unit, ADDRESS)), (None, None));
    claim(&mut unit, 2, 10, NAME - 5);
    assert_eq!(claim(&mut unit, 2, ADDRESS, NAME - 5).event, Event::Displaced);
    assert_eq!((holder(&unit, 10), holder(&unit, ADDRESS)), (None, Some((NAME - 5, 2))));
}

#[test]
fn point_38_a_lost_unit_and_its_old_address() {
    let mut unit = lost();
    let answer = frame(&mut unit, 2, 0x18EAC805, &[0x00, 0xEE, 0x00]);
    assert_eq!((answer.consumed, answer.accepted), (false, vec![1, 3, 4]));
    assert_eq!(waiting(&unit, 2), 0);
}

/// Filling that is wrong is 12 in Create and an entry in Add and Delete; 12 stands before 22.
#[test]
fn point_63_which_bytes_are_an_entry() {
    let mut unit = claimed();
    assert_eq!(wrong(&mut unit, &hex("06 12 00 00 F0 00 FF FE")), (12, None));
    assert_eq!(wrong(&mut unit, &hex("06 12 00 FF FF FF FF FE")), (12, None));
    assert_eq!(wrong(&mut unit, &hex("06 12 00 FF FF FF FF FF")), no_pgn(1));
    set(&mut unit, 1, 2, Pair::Block(vec![61440]));
    for function in ["02", "03"] {
        let told = |unit: &mut Unit, body: &str| wrong(unit, &hex(&format!("{function} 12 {body}")));
        assert_eq!(told(&mut unit, "00 F0 00 FF FF FE"), no_pgn(2));
        assert_eq!(told(&mut unit, "00 F0 00 FE FF FF"), no_pgn(2));
        assert_eq!(told(&mut unit, "FF FF FF 00 F0 00"), no_pgn(1));
        assert_eq!(told(&mut unit, "FF FF FF FF FF FF"), no_pgn(1));
        assert_eq!(told(&mut unit, "FF FF FF 00 F0 00 00 F0"), (12, None));
    }
}

/// 17 tells the first pair in rising To order and the first PGN in the command's order, not the smallest.
#[test]
fn point_64_first_in_the_commands_order() {
    let mut unit = claimed();
    for to in [2, 3, 4] {
        set(&mut unit, 1, to, Pair::Block(vec![61440]));
    }
    assert_eq!(wrong(&mut unit, &command(3, 0x1F, 0, &[61440, 65535, 61441])), absent(2, 2, 65535));
}

#[test]
fn point_104_named_twice_counts_once() {
    let mut unit = claimed();
    assert_eq!(number(&mut unit, &command(6, 0x12, 0, &[61442, 61440, 61442, 61441, 61440])), 0);
    assert_eq!(list(&unit, 1, 2), [61442, 61440, 61441]);
    assert_eq!(number(&mut unit, &command(2, 0x12, 0, &[61445, 61440, 61444, 61445])), 0);
    assert_eq!(list(&unit, 1, 2), [61442, 61440, 61441, 61445, 61444]);
    assert_eq!(number(&mut unit, &command(3, 0x12, 0, &[61440, 61440])), 0);
    assert_eq!(list(&unit, 1, 2), [61442, 61441, 61445, 61444]);
    assert_eq!(number(&mut unit, &command(2, 0x12, 0, &[61440])), 0);
    assert_eq!(list(&unit, 1, 2), [61442, 61441, 61445, 61444, 61440]);
}

/// Unstarted or Lost, the preferred address is like any other.
#[test]
fn point_106_preferred_address_in_the_table() {
    let mut unit = unstarted();
    assert_eq!(claim(&mut unit, 1, ADDRESS, NAME + 9).event, Event::Recorded);
    assert_eq!(claim(&mut unit, 1, ADDRESS, NAME + 10).event, Event::Beaten);
    assert_eq!(claim(&mut unit, 2, ADDRESS, NAME + 9).event, Event::Refreshed);
    assert_eq!(claim(&mut unit, 1, ADDRESS, NAME + 1).event, Event::TookOver(NAME + 9));
    assert_eq!(waiting(&unit, 1), 1);
    unit.start().unwrap();
    assert_eq!((unit.state, holder(&unit, ADDRESS)), (ClaimState::Claiming, None));
    let mut unit = lost();
    assert_eq!(claim(&mut unit, 1, ADDRESS, NAME + 1).event, Event::Beaten);
    assert_eq!(claim(&mut unit, 1, ADDRESS, 5).event, Event::TookOver(NAME - 1));
    assert_eq!((unit.state, waiting(&unit, 1)), (ClaimState::Lost, 0));
}

#[test]
fn point_107_and_117_compared_counts_every_pair_asked() {
    let mut unit = claimed();
    set(&mut unit, 1, 2, Pair::Block(pgns(5)));
    set(&mut unit, 1, 3, Pair::Pass(vec![]));
    set(&mut unit, 1, 4, Pair::Pass(pgns(7)));
    fill(&mut unit, 2, 32);
    fill(&mut unit, 4, 32);
    let answer = frame(&mut unit, 1, 0x18F00600, &[]);
    assert_eq!((answer.accepted, answer.lost, answer.compared), (vec![], vec![2, 4], 3 + 3));
    let answer = frame(&mut unit, 1, 0x18F00400, &[]);
    assert_eq!((answer.accepted, answer.lost, answer.compared), (vec![], vec![4], 3 + 3));
}

#[test]
fn point_108_buffer_length() {
    let request = hex("00 12 FF FF FF FF FF FF");
    assert_eq!(message_with(&mut claimed(), 1, TOOL, &request, 1784).0, 2);
    assert_eq!(message_with(&mut claimed(), 1, TOOL, &request, 3000).0, 0);
}

#[test]
fn point_109_long_request_clear_and_64() {
    for function in ["00", "04", "40"] {
        assert_eq!(
            number_at(&mut claimed(), 3, &format!("{function} 11 FF FF FF FF FF FF FF")),
            if function == "40" { 11 } else { 10 }
        );
        assert_eq!(number_at(&mut claimed(), 3, &format!("{function} 12 FF FF FF FF FF FF FF")), 11);
        assert_eq!(number_at(&mut claimed(), 1, &format!("{function} 12 FF FF FF FF FF FF FF")), 12);
        assert_eq!(number_at(&mut claimed(), 1, &format!("{function} 12 00 01 02 03 04 05")), 0);
    }
}

// Point 110 is about a later ticket's packets.

/// The forwarded frame joins first: at 31 waiting the unit's own frame is the one lost.
#[test]
fn point_111_forwarded_first() {
    let mut unit = claimed();
    fill(&mut unit, 3, 31);
    let answer = frame(&mut unit, 1, 0x18EAFF05, &[0x00, 0xEE, 0x00]);
    assert_eq!((answer.accepted, answer.lost, answer.own_lost), (vec![2, 3, 4], vec![], vec![3]));
    let order: Vec<u32> = unit.queues[&2].iter().map(|waiting| waiting.id).collect();
    assert_eq!(order, [0x18EAFF05, 0x18EEFFC8]);
    let answer = frame(&mut unit, 1, 0x18EAFF05, &[0x00, 0xEE, 0x00]);
    assert_eq!((answer.accepted, answer.lost, answer.own_lost), (vec![2, 4], vec![3], vec![3]));
}

#[test]
fn point_112_own_frame_at_the_arrival_port() {
    let mut unit = claimed();
    frame(&mut unit, 1, 0x18EAFF05, &[0x00, 0xEE, 0x00]);
    assert_eq!(PORTS.map(|port| waiting(&unit, port)), [1, 2, 2, 2]);
    assert_eq!(front(&unit, 1).id, 0x18EEFFC8);
}

/// A frame is given back with the bytes of its length alone.
#[test]
fn point_113_bytes_of_the_length() {
    for length in 0..=8 {
        let mut unit = claimed();
        let bytes: Vec<u8> = (1..=length).collect();
        frame(&mut unit, 1, 0x18FEF100, &bytes);
        assert_eq!(unit.take(2).unwrap().unwrap().bytes, bytes);
    }
}

#[test]
fn point_114_own_frames_ask_no_pair() {
    let mut unit = claimed();
    for (from, to) in unit.pairs.clone().into_keys() {
        set(&mut unit, from, to, Pair::Pass(vec![59904]));
    }
    fill(&mut unit, 1, 32);
    let answer = frame(&mut unit, 1, 0x18EAC805, &[0x00, 0xEE, 0x00]);
    assert_eq!((answer.consumed, answer.own_lost, answer.compared), (true, vec![1], 0));
    assert_eq!(PORTS.map(|port| waiting(&unit, port)), [32, 1, 1, 1]);
    let answer = frame(&mut unit, 2, 0x18EAFF05, &[0x00, 0xEE, 0x00]);
    assert_eq!((answer.accepted, answer.lost), (vec![3, 4], vec![1]));
    assert_eq!((answer.own_lost, answer.compared), (vec![1], 0));
}

#[test]
fn point_115_and_37_the_units_own_name() {
    for unit in [unstarted(), claiming(), claimed(), lost()] {
        for address in [0, ADDRESS, 253, 254] {
            let mut after = unit.clone();
            let answer = claim(&mut after, 2, address, NAME);
            assert_eq!((answer.event, answer.accepted, answer.own_lost), (Event::None, vec![1, 3, 4], vec![]));
            assert_eq!((after.state, &after.table), (unit.state, &unit.table));
            assert_eq!(PORTS.map(|port| waiting(&after, port)), [1, 0, 1, 1]);
        }
    }
}

/// NAMEs compare as unsigned numbers, byte 8 the most significant.
#[test]
fn point_116_names() {
    let mut unit = claimed();
    frame(&mut unit, 1, 0x18EEFF0A, &hex("00 00 00 00 00 00 00 01"));
    assert_eq!(holder(&unit, 10), Some((1 << 56, 1)));
    assert_eq!(frame(&mut unit, 1, 0x18EEFF0A, &hex("00 00 00 00 00 00 00 80")).event, Event::Beaten);
    assert_eq!(frame(&mut unit, 1, 0x18EEFF0A, &hex("FF FF FF FF FF FF FF 00")).event, Event::TookOver(1 << 56));
    assert_eq!(frame(&mut unit, 1, 0x18EEFF0A, &hex("FF 00 00 00 00 00 00 00")).event, Event::TookOver((1 << 56) - 1));
    for (own, other, event) in [(1 << 63, u64::MAX >> 1, Event::Displaced), (u64::MAX >> 1, 1 << 63, Event::Defended)] {
        let mut unit = Unit::power_on(own, 9);
        unit.start().unwrap();
        assert_eq!(claim(&mut unit, 1, 9, other).event, event);
    }
}

#[test]
fn point_118_order_of_refusals() {
    let mut unit = claimed();
    assert_eq!(number_at(&mut unit, 3, "04 15 FF FF FF FF FF FF"), 10);
    assert_eq!(number_at(&mut unit, 3, "04 1F FF FF FF FF FF FF"), 11);
    assert_eq!(number_at(&mut unit, 3, "06 1F 09 FF FF FF FF FF"), 11);
    assert_eq!(number_at(&mut unit, 3, "06 3F 09 FF FF FF FF FE"), 12);
    assert_eq!(number_at(&mut unit, 3, "06 3F 09 FF FF FF FF FF"), 22);
    assert_eq!(number_at(&mut unit, 3, "06 3F 09 00 F0 00 FF FF"), 13);
    set(&mut unit, 3, 4, Pair::Block(vec![]));
    assert_eq!(number_at(&mut unit, 3, "06 3F 01 00 F0 00 FF FF"), 14);
    assert_eq!(number_at(&mut unit, 3, "03 3F 00 F0 00 FF FF FF"), 15);
}

/// FF FF 00 is PGN 65535; FF FF FF is filling as the last three of an 8-byte Add or Delete alone.
#[test]
fn point_119_entries_of_ff() {
    let mut unit = claimed();
    assert_eq!(number_at(&mut unit, 1, "06 12 00 FF FF 00 FF FF"), 0);
    assert_eq!(list(&unit, 1, 2), [65535]);
    assert_eq!(number_at(&mut unit, 1, "02 12 00 F0 00 FF FF 00"), 0);
    assert_eq!(list(&unit, 1, 2), [65535, 61440]);
    assert_eq!(number_at(&mut unit, 1, "03 12 FF FF 00 FF FF FF"), 0);
    assert_eq!(list(&unit, 1, 2), [61440]);
    assert_eq!(wrong(&mut unit, &hex("02 12 01 F0 00 02 F0 00 FF FF FF")), no_pgn(3));
    assert_eq!(wrong(&mut unit, &hex("02 12 01 F0 00 FF FF FF 02 F0 00")), no_pgn(2));
}

#[test]
fn point_120_different_pgns_count() {
    let entries: Vec<u32> = (0..594).map(|index| 61440 + index % 32).collect();
    assert_eq!(number(&mut claimed(), &command(6, 0x1F, 0, &entries)), 0);
    let mut unit = claimed();
    set(&mut unit, 1, 2, Pair::Block(pgns(31)));
    let all_listed_and_one: Vec<u32> = (0..594).map(|index| 61440 + index % 32).collect();
    assert_eq!(number(&mut unit, &command(2, 0x12, 0, &all_listed_and_one)), 0);
    assert_eq!(list(&unit, 1, 2), pgns(32));
    assert_eq!(number(&mut unit, &command(3, 0x12, 0, &[61440, 61441, 61440])), 0);
}

/// A refused frame has no answer but its number.
#[test]
fn point_121_refused_frame() {
    let mut unit = claimed();
    let before = unit.clone();
    assert_eq!(unit.frame(1, 0x18EEFFFF, &[0; 8]), Err(5));
    assert_eq!(unit, before);
}

#[test]
fn point_122_withdrawal_and_lost() {
    let mut unit = claimed();
    claim(&mut unit, 2, 10, 500);
    assert_eq!(claim(&mut unit, 4, 254, 500).event, Event::Withdrew);
    let mut unit = lost();
    assert_eq!(claim(&mut unit, 1, 254, NAME - 1).event, Event::Withdrew);
    assert_eq!((unit.start(), unit.quiet(), unit.state), (Err(18), Err(18), ClaimState::Lost));
}

#[test]
fn point_123_start_with_a_bad_preferred_address() {
    let mut unit = Unit::power_on(NAME, 254);
    assert_eq!((unit.start(), unit.state), (Err(8), ClaimState::Unstarted));
    assert_eq!((unit.start(), unit.quiet()), (Err(8), Err(18)));
    unit.state = ClaimState::Claimed;
    assert_eq!(unit.start(), Err(18));
}

/// A payload's length is the matter of 7, a frame's of 4.
#[test]
fn point_124_lengths() {
    assert_eq!(number(&mut claimed(), &[]), 7);
    assert_eq!(frame_number(&mut claimed(), 1, 0x18FEF100, &[0; 9]), 4);
}

#[test]
fn point_125_network_message_frame() {
    let mut unit = claimed();
    let before = unit.clone();
    assert!(frame(&mut unit, 1, 0x18EDC821, &hex("06 12 01 F1 FE 00 FF FF")).consumed);
    assert_eq!(unit, before);
}
