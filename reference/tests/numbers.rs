//! Every refusal number at its boundary, given and one step away not given, and their order.

mod common;

use common::*;
use reference::pair::Pair;
use reference::unit::Unit;

#[test]
fn number_1_port() {
    for (port, given) in [(0, 1), (1, 0), (2, 0), (3, 0), (4, 0), (5, 1), (15, 1), (257, 1), (u32::MAX, 1)] {
        let mut unit = claimed();
        assert_eq!(frame_number(&mut unit, port, 0x18FEF100, &[]), given);
        let before = unit.clone();
        let taken = unit.take(port);
        assert_eq!(taken.as_ref().err().copied().unwrap_or(0), given);
        assert!(taken.is_ok() || unit == before);
        assert_eq!(message(&mut unit, port, TOOL, &command(64, port as u8, 0, &[])).0, given);
    }
}

#[test]
fn number_2_reply_buffer() {
    let request = hex("00 12 FF FF FF FF FF FF");
    for (length, given) in [(0, 2), (8, 2), (1784, 2), (1785, 0), (1786, 0), (4000, 0)] {
        assert_eq!(message_with(&mut claimed(), 1, TOOL, &request, length).0, given);
    }
}

#[test]
fn number_3_identifier() {
    for (id, given) in [(0, 0), (0x1FFFFF00, 0), (0x1FFFFFFF, 5), (0x20000000, 3), (0x38FEF100, 3), (u32::MAX, 3)] {
        assert_eq!(frame_number(&mut unstarted(), 1, id, &[]), given);
    }
}

#[test]
fn number_4_length() {
    for length in 0..=20 {
        let given = if length > 8 { 4 } else { 0 };
        assert_eq!(frame_number(&mut unstarted(), 1, 0x18FEF100, &vec![0; length]), given);
    }
}

#[test]
fn number_5_source_address() {
    let cases = [
        (0x18FEF1FD, 0),
        (0x18FEF1FE, 5),
        (0x18FEF1FF, 5),
        // SA 254 in PGN 59904, any destination.
        (0x18EAFFFE, 0),
        (0x18EA00FE, 0),
        (0x00EAC8FE, 0),
        (0x18EAFFFF, 5),
        // SA 254 in PGN 60928 with PS 255 alone.
        (0x18EEFFFE, 0),
        (0x18EEFEFE, 5),
        (0x18EE00FE, 5),
        (0x18EEFFFF, 5),
        // The page bits make other PGNs, the PFs beside too.
        (0x19EAFFFE, 5),
        (0x1AEAFFFE, 5),
        (0x19EEFFFE, 5),
        (0x1AEEFFFE, 5),
        (0x18E9FFFE, 5),
        (0x18EBFFFE, 5),
        (0x18EDFFFE, 5),
        (0x18EFFFFE, 5),
    ];
    for (id, given) in cases {
        assert_eq!(frame_number(&mut claimed(), 1, id, &[0; 8]), given, "{id:08X}");
        assert_eq!(frame_number(&mut claimed(), 1, id, &[]), given, "{id:08X}");
    }
}

#[test]
fn number_6_not_claimed() {
    let request = hex("00 12 FF FF FF FF FF FF");
    for (mut unit, given) in [(unstarted(), 6), (claiming(), 6), (claimed(), 0), (lost(), 6)] {
        assert_eq!(number(&mut unit, &request), given);
    }
}

#[test]
fn number_7_payload_length() {
    for (length, given) in [(0, 7), (1, 7), (7, 7), (8, 0), (9, 12), (1784, 12), (1785, 12), (1786, 7), (4000, 7)] {
        let mut payload = vec![0; length];
        if length > 1 {
            payload[1] = 0x12;
        }
        assert_eq!(number(&mut claimed(), &payload), given, "{length}");
    }
}

#[test]
fn number_8_requester() {
    let request = hex("00 12 FF FF FF FF FF FF");
    for (requester, given) in [(0, 0), (253, 0), (254, 8), (255, 8), (256, 8), (256 + 33, 8), (u32::MAX, 8)] {
        assert_eq!(message(&mut claimed(), 1, requester, &request).0, given);
    }
}

#[test]
fn number_8_at_start() {
    for (preferred, given) in
        [(0, None), (253, None), (254, Some(8)), (255, Some(8)), (256, Some(8)), (u32::MAX, Some(8))]
    {
        let mut unit = Unit::power_on(NAME, preferred);
        let before = unit.clone();
        assert_eq!(unit.start().err(), given);
        assert!(given.is_none() || unit == before);
    }
}

#[test]
fn number_9_function() {
    let listed = [0, 2, 3, 4, 6, 7, 64, 128, 130, 131, 133];
    for function in 0..=255 {
        let mut unit = claimed();
        set(&mut unit, 1, 2, Pair::Block(vec![61440]));
        let payload = [function, 0x12, 0x00, 0xF0, 0x00, 0xFF, 0xFF, 0xFF];
        let given = number(&mut unit, &payload);
        assert_eq!(given == 9, !listed.contains(&function), "{function}");
    }
}

/// 10 for every pair byte: From 1 to 4, To 1 to 4 or 15 as allowed, From not To.
#[test]
fn number_10_ports_named() {
    let twelve = [0x12, 0x13, 0x14, 0x21, 0x23, 0x24, 0x31, 0x32, 0x34, 0x41, 0x42, 0x43];
    let all = [0x1F, 0x2F, 0x3F, 0x4F];
    for byte in 0..=255 {
        for function in [0, 2, 3, 4, 6] {
            let good = twelve.contains(&byte) || (function != 0 && all.contains(&byte));
            let given = number(&mut claimed(), &command(function, byte, 0, &[61440]));
            assert_eq!(given == 10, !good, "{function} {byte:02X}");
        }
        for function in [131, 133] {
            let given = number(&mut claimed(), &[function, byte, 9, 0, 0, 0, 0, 0]);
            assert_eq!(given, if twelve.contains(&byte) { 0 } else { 10 }, "{function} {byte:02X}");
        }
        for function in [128, 130] {
            assert_eq!(number(&mut claimed(), &[function, byte, 9, 0, 0, 0, 0, 0]), 0, "{function} {byte:02X}");
        }
        let good = [1, 2, 3, 4].contains(&(byte & 0x0F));
        assert_eq!(number(&mut claimed(), &command(64, byte, 0, &[])), if good { 0 } else { 10 });
    }
}

/// 11 for every good pair byte from every port.
#[test]
fn number_11_right_of_the_tool() {
    let own: [(u32, &[u8], u8); 3] = [
        (2, &[0x12, 0x21, 0x23, 0x24, 0x32, 0x42], 0x2F),
        (3, &[0x13, 0x23, 0x31, 0x32, 0x34, 0x43], 0x3F),
        (4, &[0x14, 0x24, 0x34, 0x41, 0x42, 0x43], 0x4F),
    ];
    let twelve = [0x12, 0x13, 0x14, 0x21, 0x23, 0x24, 0x31, 0x32, 0x34, 0x41, 0x42, 0x43];
    let all = [0x1F, 0x2F, 0x3F, 0x4F];
    for (port, pairs, own_all) in own {
        for function in [0, 2, 3, 4, 6] {
            for byte in twelve {
                let given = message(&mut claimed(), port, TOOL, &command(function, byte, 0, &[61440])).0;
                assert_eq!(given == 11, !pairs.contains(&byte), "{port} {function} {byte:02X}");
            }
        }
        for (function, byte) in [2, 3, 4, 6].into_iter().flat_map(|function| all.map(|byte| (function, byte))) {
            let given = message(&mut claimed(), port, TOOL, &command(function, byte, 0, &[61440])).0;
            assert_eq!(given == 11, byte != own_all, "{port} {function} {byte:02X}");
        }
        for (function, byte) in [131, 133].into_iter().flat_map(|function| twelve.map(|byte| (function, byte))) {
            let given = message(&mut claimed(), port, TOOL, &[function, byte, 9, 0, 0, 0, 0, 0]).0;
            assert_eq!(given, if pairs.contains(&byte) { 0 } else { 11 }, "{port} {function} {byte:02X}");
        }
        for function in [128, 130] {
            assert_eq!(message(&mut claimed(), port, TOOL, &[function, 0xFF, 9, 0, 0, 0, 0, 0]).0, 11);
        }
        for named in 1..=4 {
            let given = message(&mut claimed(), port, TOOL, &command(64, named, 0, &[])).0;
            assert_eq!(given, if u32::from(named) == port { 0 } else { 11 });
        }
    }
    for byte in twelve.into_iter().chain(all) {
        assert_eq!(number(&mut claimed(), &command(6, byte, 0, &[61440])), 0);
    }
}

/// 12 by length: 8 alone; 8, 11, 14 ...; 8, 9, 12 ...
#[test]
fn number_12_body_length() {
    for length in 8..=1785 {
        let mut add = claimed();
        set(&mut add, 1, 2, Pair::Block(vec![0]));
        for function in [0, 4, 64] {
            let mut payload = vec![0; length];
            (payload[0], payload[1]) = (function, 0x12);
            let given = number(&mut claimed(), &payload);
            assert_eq!(given, if length == 8 { 0 } else { 12 });
        }
        for function in [128, 130, 131, 133] {
            let mut payload = vec![0; length];
            (payload[0], payload[1], payload[2]) = (function, 0x12, 9);
            assert_eq!(number(&mut claimed(), &payload), if length == 8 { 0 } else { 12 }, "{function} {length}");
        }
        for function in [2, 3] {
            let mut payload = vec![0; length];
            (payload[0], payload[1]) = (function, 0x12);
            let good = length == 8 || length % 3 == 2;
            assert_eq!(number(&mut add.clone(), &payload), if good { 0 } else { 12 }, "{function} {length}");
        }
        let mut payload = vec![0; length];
        (payload[0], payload[1]) = (6, 0x12);
        if length == 8 {
            (payload[6], payload[7]) = (0xFF, 0xFF);
        }
        let good = length == 8 || length % 3 == 0;
        assert_eq!(number(&mut claimed(), &payload), if good { 0 } else { 12 }, "Create {length}");
    }
}

/// 12 by filling: two bytes FF after Create's entry. After Add's and Delete's three bytes FF, else they are an entry.
#[test]
fn number_12_filling() {
    let cases = [
        ("06 12 00 00 F0 00 FF FF", 0),
        ("06 12 00 00 F0 00 FF FE", 12),
        ("06 12 00 00 F0 00 FE FF", 12),
        ("06 12 00 00 F0 00 00 00", 12),
        ("02 13 01 F0 00 FF FF FF", 0),
        ("02 13 01 F0 00 FF FF 00", 0),
        ("02 13 01 F0 00 FF FF FE", 22),
        ("02 13 01 F0 00 FE FF FF", 22),
        ("02 13 01 F0 00 00 00 00", 0),
        ("03 13 00 F0 00 FF FF FF", 0),
        ("03 13 00 F0 00 FF FF FE", 22),
        ("03 13 00 F0 00 00 F0 00", 0),
        ("03 13 FF FF FF FF FF FF", 22),
        ("03 13 FF FF FF 00 F0 00", 22),
        // Longer ones hold entries to the last byte.
        ("06 12 00 00 F0 00 FF FF FF", 22),
        ("02 13 01 F0 00 02 F0 00 FF FF FF", 22),
        ("02 13 01 F0 00 02 F0 00 FF FF 00", 0),
        // The six last bytes of Request, Clear and 64 are not looked at.
        ("00 12 01 02 03 04 05 06", 0),
        ("04 12 01 02 03 04 05 06", 0),
        ("40 02 01 02 03 04 05 06", 0),
    ];
    for (payload, given) in cases {
        let mut unit = claimed();
        set(&mut unit, 1, 3, Pair::Block(vec![61440]));
        assert_eq!(number_at(&mut unit, 1, payload), given, "{payload}");
    }
}

#[test]
fn number_13_mode() {
    for mode in 0..=255 {
        let given = number(&mut claimed(), &command(6, 0x12, mode, &[61440]));
        assert_eq!(given, if mode < 2 { 0 } else { 13 });
    }
}

#[test]
fn number_14_not_cleared() {
    let not_cleared = [Pair::Block(vec![]), Pair::Pass(vec![]), Pair::Block(vec![61440]), Pair::Pass(vec![61440])];
    let one = command(6, 0x12, 0, &[61440]);
    let all = command(6, 0x1F, 0, &[61440]);
    assert_eq!(number(&mut claimed(), &one), 0);
    assert_eq!(number(&mut claimed(), &all), 0);
    for (to, pair) in [2, 3, 4].into_iter().flat_map(|to| not_cleared.clone().map(|pair| (to, pair))) {
        let mut unit = claimed();
        set(&mut unit, 1, to, pair);
        assert_eq!(number(&mut unit.clone(), &one), if to == 2 { 14 } else { 0 });
        assert_eq!(number(&mut unit, &all), 14);
    }
}

#[test]
fn number_15_cleared() {
    for function in [2, 3] {
        let one = command(function, 0x12, 0, &[61440]);
        let all = command(function, 0x1F, 0, &[61440]);
        for cleared in [2, 3, 4] {
            let mut unit = claimed();
            for to in [2, 3, 4] {
                set(&mut unit, 1, to, Pair::Pass(vec![61440]));
            }
            assert_eq!(number(&mut unit.clone(), &all), 0);
            set(&mut unit, 1, cleared, Pair::Cleared);
            assert_eq!(number(&mut unit.clone(), &one), if cleared == 2 { 15 } else { 0 });
            assert_eq!(number(&mut unit, &all), 15);
        }
    }
    let mut emptied = claimed();
    set(&mut emptied, 1, 2, Pair::Block(vec![]));
    assert_eq!(number(&mut emptied.clone(), &command(2, 0x12, 0, &[61440])), 0);
    assert_eq!(number(&mut emptied, &command(3, 0x12, 0, &[61440])), 17);
}

#[test]
fn number_16_more_than_32() {
    assert_eq!(number(&mut claimed(), &command(6, 0x12, 0, &pgns(32))), 0);
    assert_eq!(number(&mut claimed(), &command(6, 0x12, 0, &pgns(33))), 16);
    assert_eq!(number(&mut claimed(), &command(6, 0x1F, 0, &pgns(33))), 16);
    for listed in [0, 1, 31, 32] {
        let mut unit = claimed();
        set(&mut unit, 1, 2, Pair::Pass(pgns(listed)));
        assert_eq!(number(&mut unit.clone(), &command(2, 0x12, 0, &pgns(32))), 0);
        assert_eq!(number(&mut unit.clone(), &command(2, 0x12, 0, &pgns(33))), 16);
    }
    for full in [2, 3, 4] {
        let mut unit = claimed();
        for to in [2, 3, 4] {
            set(&mut unit, 1, to, Pair::Block(pgns(31)));
        }
        let one_more = command(2, 0x1F, 0, &[65535]);
        assert_eq!(number(&mut unit.clone(), &one_more), 0);
        set(&mut unit, 1, full, Pair::Block(pgns(32)));
        assert_eq!(number(&mut unit, &one_more), 16);
    }
}

#[test]
fn number_17_absent() {
    let mut unit = claimed();
    for to in [2, 3, 4] {
        set(&mut unit, 1, to, Pair::Pass(pgns(3)));
    }
    assert_eq!(number(&mut unit.clone(), &command(3, 0x1F, 0, &pgns(3))), 0);
    assert_eq!(number(&mut unit.clone(), &command(3, 0x12, 0, &pgns(4))), 17);
    for short in [2, 3, 4] {
        let mut unit = unit.clone();
        set(&mut unit, 1, short, Pair::Pass(pgns(2)));
        assert_eq!(number(&mut unit.clone(), &command(3, 0x1F, 0, &pgns(2))), 0);
        assert_eq!(number(&mut unit, &command(3, 0x1F, 0, &pgns(3))), 17);
    }
}

#[test]
fn number_18_start_and_quiet() {
    let states = [(unstarted(), 0, 18), (claiming(), 18, 0), (claimed(), 18, 18), (lost(), 18, 18)];
    for (unit, at_start, at_quiet) in states {
        let mut started = unit.clone();
        assert_eq!(started.start().err().unwrap_or(0), at_start);
        assert!(at_start == 0 || started == unit);
        let mut quieted = unit.clone();
        assert_eq!(quieted.quiet().err().unwrap_or(0), at_quiet);
        assert!(at_quiet == 0 || quieted == unit);
    }
}

/// 22: every number that is a PGN, and those beside it.
#[test]
fn number_22_entry() {
    let cases = [
        (0x000000, 0),
        (0x000001, 22),
        (0x0000FF, 22),
        (0x000100, 0),
        (0x00EE00, 0),
        (0x00EEFF, 22),
        (0x00EF00, 0),
        (0x00EF01, 22),
        (0x00EFFF, 22),
        (0x00F000, 0),
        (0x00F001, 0),
        (0x00FFFF, 0),
        (0x03EF00, 0),
        (0x03EF01, 22),
        (0x03FFFF, 0),
        (0x040000, 22),
        (0x04F000, 22),
        (0xFFFFFF, 22),
    ];
    for (entry, given) in cases {
        let mut unit = claimed();
        assert_eq!(number(&mut unit, &command(6, 0x12, 0, &[entry])), given, "{entry:06X}");
        assert_eq!(number(&mut unit.clone(), &command(6, 0x13, 0, &[61440, entry])), given, "{entry:06X}");
        assert_eq!(number(&mut unit.clone(), &command(6, 0x13, 0, &[61440, 61441, entry])), given);
        set(&mut unit, 1, 4, Pair::Block(vec![61440]));
        assert_eq!(number(&mut unit.clone(), &command(2, 0x14, 0, &[entry])), given, "{entry:06X}");
        assert_eq!(number(&mut unit.clone(), &command(2, 0x14, 0, &[61440, 61441, entry])), given);
    }
}

/// 23 for every parameter: 1, 2, 3 and 9 are held, 9 alone is reset.
#[test]
fn number_23_parameter() {
    for parameter in 0..=255 {
        for (function, byte) in [(128, 0x00), (131, 0x34)] {
            let given = number(&mut claimed(), &[function, byte, parameter, 9, 9, 9, 9, 9]);
            assert_eq!(given, if [1, 2, 3, 9].contains(&parameter) { 0 } else { 23 }, "{function} of {parameter}");
        }
        for (function, byte) in [(130, 0x00), (133, 0x34)] {
            let given = number(&mut claimed(), &[function, byte, parameter, 9, 9, 9, 9, 9]);
            assert_eq!(given, if parameter == 9 { 0 } else { 23 }, "{function} of {parameter}");
        }
    }
}

/// 9, 10, 11, 23, 12: all faults at once, mended one after the other. The general functions have no 10.
#[test]
fn order_at_a_parameter() {
    let mut unit = claimed();
    let cases = [
        (3, "84 11 04 FF FF FF FF FF FF", 9),
        (3, "83 11 04 FF FF FF FF FF FF", 10),
        (3, "83 1F 04 FF FF FF FF FF FF", 10),
        (3, "83 12 04 FF FF FF FF FF FF", 11),
        (2, "83 12 04 FF FF FF FF FF FF", 23),
        (2, "83 12 09 FF FF FF FF FF FF", 12),
        (2, "83 12 09 FF FF FF FF FF", 0),
        (3, "85 51 01 FF FF FF FF FF FF", 10),
        (3, "85 21 01 FF FF FF FF FF FF", 11),
        (2, "85 21 01 FF FF FF FF FF FF", 23),
        (2, "85 21 09 FF FF FF FF FF FF", 12),
        (2, "85 21 09 FF FF FF FF FF", 0),
        (3, "81 11 04 FF FF FF FF FF FF", 9),
        (3, "80 11 04 FF FF FF FF FF FF", 11),
        (1, "80 11 04 FF FF FF FF FF FF", 23),
        (1, "80 11 09 FF FF FF FF FF FF", 12),
        (1, "80 11 09 FF FF FF FF FF", 0),
        (3, "82 11 03 FF FF FF FF FF FF", 11),
        (1, "82 11 03 FF FF FF FF FF FF", 23),
        (1, "82 11 09 FF FF FF FF FF FF", 12),
        (1, "82 11 09 FF FF FF FF FF", 0),
    ];
    for (port, payload, given) in cases {
        assert_eq!(number_at(&mut unit, port, payload), given, "{payload} from {port}");
    }
    let mut unstarted = claiming();
    assert_eq!(number_at(&mut unstarted, 1, "80 FF 09 FF FF FF FF FF"), 6);
    assert_eq!(number_at(&mut unit, 1, "80 FF 09 FF FF FF FF"), 7);
    assert_eq!(message(&mut unit, 1, 254, &hex("80 FF 09 FF FF FF FF FF")).0, 8);
}

#[test]
fn order_at_start() {
    let mut unit = claiming();
    unit.preferred = 254;
    assert_eq!(unit.start(), Err(18));
    unit.state = reference::address::ClaimState::Unstarted;
    assert_eq!(unit.start(), Err(8));
}

#[test]
fn order_at_a_frame() {
    let mut unit = unstarted();
    assert_eq!(frame_number(&mut unit, 5, 0x38FEF1FF, &[0; 9]), 1);
    assert_eq!(frame_number(&mut unit, 1, 0x38FEF1FF, &[0; 9]), 3);
    assert_eq!(frame_number(&mut unit, 1, 0x18FEF1FF, &[0; 9]), 4);
    assert_eq!(frame_number(&mut unit, 1, 0x18FEF1FF, &[0; 8]), 5);
    assert_eq!(frame_number(&mut unit, 1, 0x18FEF1FD, &[0; 8]), 0);
}

/// All faults at once, mended one after the other.
#[test]
fn order_at_a_message() {
    let mut unit = claiming();
    let bad = hex("05 11 07 FF FF FF 00");
    assert_eq!(message_with(&mut unit, 5, 254, &bad, 1784).0, 1);
    assert_eq!(message_with(&mut unit, 3, 254, &bad, 1784).0, 2);
    assert_eq!(message_with(&mut unit, 3, 254, &bad, 1785).0, 6);
    unit.quiet().unwrap();
    set(&mut unit, 1, 2, Pair::Block(vec![]));
    assert_eq!(message(&mut unit, 3, 254, &bad).0, 7);
    assert_eq!(message(&mut unit, 3, 254, &hex("05 11 07 FF FF FF 00 00")).0, 8);
    assert_eq!(number_at(&mut unit, 3, "05 11 07 FF FF FF 00 00"), 9);
    assert_eq!(number_at(&mut unit, 3, "06 11 07 FF FF FF 00 00"), 10);
    assert_eq!(number_at(&mut unit, 3, "06 12 07 FF FF FF 00 00"), 11);
    assert_eq!(number_at(&mut unit, 2, "06 12 07 FF FF FF 00 00"), 12);
    assert_eq!(number_at(&mut unit, 2, "06 12 07 FF FF FF FF FF"), 22);
    assert_eq!(number(&mut unit, &command(6, 0x12, 7, &pgns(33))), 13);
    assert_eq!(number(&mut unit, &command(6, 0x12, 1, &pgns(33))), 14);
    assert_eq!(number_at(&mut unit, 1, "04 12 FF FF FF FF FF FF"), 0);
    assert_eq!(number(&mut unit, &command(6, 0x12, 1, &pgns(33))), 16);
    assert_eq!(number(&mut unit, &command(6, 0x12, 1, &pgns(32))), 0);
}

/// 12 before 22, 22 before 15, 15 before 16 and 17, over all named pairs.
#[test]
fn order_over_pairs() {
    let mut unit = claimed();
    set(&mut unit, 1, 2, Pair::Block(pgns(32)));
    let mut too_long = command(2, 0x1F, 0, &[65535, 65534, 0xFFFFFE]);
    assert_eq!(number(&mut unit, &too_long), 22);
    too_long.push(0xFF);
    assert_eq!(number(&mut unit, &too_long), 12);
    assert_eq!(number(&mut unit, &command(2, 0x1F, 0, &[65535])), 15);
    assert_eq!(number(&mut unit, &command(3, 0x1F, 0, &[65535])), 15);
    set(&mut unit, 1, 3, Pair::Block(vec![]));
    set(&mut unit, 1, 4, Pair::Pass(vec![]));
    assert_eq!(number(&mut unit, &command(2, 0x1F, 0, &[65535])), 16);
    assert_eq!(number(&mut unit, &command(3, 0x1F, 0, &[65535])), 17);
}

/// A tool learns 11, never 14 or 17, about a neighbour's pair, and 12 and 22 only of its own.
#[test]
fn right_before_list() {
    let mut unit = claimed();
    set(&mut unit, 1, 2, Pair::Block(pgns(32)));
    for payload in [
        "06 12 00 00 F0 00 FF FF",
        "06 12 09 FF FF FF 00 00",
        "06 12 09 FF FF FF FF FF",
        "03 12 FF FF 00 FF FF FF",
        "02 12 FF FF 00 FF FF FF",
    ] {
        assert_eq!(number_at(&mut unit, 3, payload), 11);
    }
    assert_eq!(number_at(&mut unit, 3, "00 12 FF FF FF FF FF FF FF"), 11);
    assert_eq!(number_at(&mut unit, 3, "40 02 FF FF FF FF FF FF FF"), 11);
    assert_eq!(number_at(&mut unit, 3, "40 03 FF FF FF FF FF FF FF"), 12);
}
