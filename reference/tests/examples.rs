//! The examples P1 to P11 and 12, and the outside vectors of the standards.

mod common;

use common::*;
use reference::address::Event;
use reference::frame::{pf, pgn, priority, ps, sa};

/// Before P5, then P5 itself.
fn after_p5() -> reference::unit::Unit {
    let mut unit = claimed();
    let answer = message(&mut unit, 1, TOOL, &hex("06 12 01 F1 FE 00 FF FF"));
    assert_eq!(answer, (0, 59392, hex("00 06 FF FF 21 00 ED 00")));
    unit
}

#[test]
fn p1_broadcast_identifier() {
    assert_eq!(priority(0x0CF00400), 3);
    assert_eq!(pgn(0x0CF00400), 61444);
    assert_eq!((pf(0x0CF00400), ps(0x0CF00400), sa(0x0CF00400)), (0xF0, 0x04, 0x00));
}

#[test]
fn p2_destination_identifier() {
    assert_eq!(pgn(0x0CEF2A80), 61184);
    assert_eq!((ps(0x0CEF2A80), sa(0x0CEF2A80)), (0x2A, 0x80));
}

#[test]
fn p3_identifier_too_large() {
    assert_eq!(frame_number(&mut claimed(), 1, 0x20000000, &[]), 3);
}

#[test]
fn p4_source_address_255() {
    assert_eq!(frame_number(&mut claimed(), 1, 0x1FFFFFFF, &[]), 5);
}

#[test]
fn p5_create() {
    let unit = after_p5();
    assert_eq!(list(&unit, 1, 2), [65265]);
    assert_eq!(unit.pairs[&(1, 2)].mode(), 1);
}

#[test]
fn p6_request() {
    let answer = message(&mut after_p5(), 1, TOOL, &hex("00 12 FF FF FF FF FF FF"));
    assert_eq!(answer, (0, 60672, hex("01 12 01 F1 FE 00 FF FF")));
}

#[test]
fn p7_request_of_a_neighbour() {
    let answer = message(&mut after_p5(), 3, TOOL, &hex("00 12 FF FF FF FF FF FF"));
    assert_eq!(answer, (11, 59392, hex("02 00 FF FF 21 00 ED 00")));
}

#[test]
fn p8_from_equals_to() {
    assert_eq!(number_at(&mut after_p5(), 1, "02 11 F1 FE 00 FF FF FF"), 10);
}

#[test]
fn p9_filling_in_first_place() {
    assert_eq!(wrong(&mut after_p5(), &hex("02 12 FF FF FF FF FF FF")), no_pgn(1));
}

#[test]
fn p10_forwarding_after_p5() {
    let mut unit = after_p5();
    let answer = frame(&mut unit, 1, 0x0CF00400, &[1, 2, 3]);
    assert_eq!(answer.accepted, [3, 4]);
    assert_eq!((answer.lost, answer.compared, answer.consumed), (vec![], 1, false));
    assert_eq!(unit.take(2), Ok(None));
    for port in [3, 4] {
        let given = unit.take(port).unwrap().unwrap();
        assert_eq!((given.id, given.bytes), (0x0CF00400, vec![1, 2, 3]));
    }
}

#[test]
fn p11_three_takes() {
    let mut unit = claimed();
    frame(&mut unit, 1, 0x18FEF100, &[1]);
    frame(&mut unit, 1, 0x18FEF100, &[2]);
    frame(&mut unit, 1, 0x0CFEF100, &[3]);
    let given: Vec<Vec<u8>> = (0..3).map(|_| unit.take(2).unwrap().unwrap().bytes).collect();
    assert_eq!(given, [[3], [1], [2]]);
    assert_eq!(unit.take(2), Ok(None));
}

#[test]
fn p12_full_queue() {
    let mut unit = claimed();
    for count in 0..32 {
        assert_eq!(frame(&mut unit, 1, 0x18FEF100, &[count]).accepted, [2, 3, 4]);
    }
    let one_more = frame(&mut unit, 1, 0x18FEF100, &[32]);
    assert_eq!((one_more.accepted, one_more.lost), (vec![], vec![2, 3, 4]));
    assert_eq!(unit.take(2).unwrap().unwrap().bytes, [0]);
    let one_more = frame(&mut unit, 1, 0x18FEF100, &[33]);
    assert_eq!((one_more.accepted, one_more.lost), (vec![2], vec![3, 4]));
}

/// J1939-31 Figure 8 (tool 248, bridge 32) and ISO 11783-4 Table 5 (tool 249, bridge 240).
#[test]
fn outside_list_request() {
    for (tool, bridge, request_id) in [(248, 32, 0x18ED20F8), (249, 240, 0x18EDF0F9)] {
        let mut unit = reference::unit::Unit::power_on(NAME, bridge);
        unit.start().unwrap();
        unit.quiet().unwrap();
        assert_eq!(message(&mut unit, 1, tool, &hex("06 12 00 E3 FE 00 FF FF")).0, 0);
        assert!(frame(&mut unit, 1, request_id, &hex("00 12 FF FF FF FF FF FF")).consumed);
        let answer = message(&mut unit, 1, tool, &hex("00 12 FF FF FF FF FF FF"));
        assert_eq!(answer, (0, 60672, hex("01 12 00 E3 FE 00 FF FF")));
    }
}

/// ISO 11783-5 Tables 2 and 3: claim 18EEFF with the address, cannot-claim 18EEFFFE.
#[test]
fn outside_claim_identifiers() {
    let mut unit = unstarted();
    unit.start().unwrap();
    assert_eq!(front(&unit, 1).id, 0x18EEFFC8);
    assert_eq!(front(&unit, 1).bytes, hex("23 01 C0 0A 00 1C 00 20"));
    drain(&mut unit);
    assert_eq!(claim(&mut unit, 2, ADDRESS, 1).event, Event::Displaced);
    assert_eq!(front(&unit, 2).id, 0x18EEFFFE);
    assert_eq!(front(&unit, 2).bytes, hex("23 01 C0 0A 00 1C 00 20"));
}
