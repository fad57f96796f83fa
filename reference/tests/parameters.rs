//! "Parameters", sentence by sentence.

mod common;

use std::collections::BTreeMap;

use common::*;
use reference::address::{ClaimState, Event};
use reference::coverage::{Coverage, AT_THE_MOST};
use reference::generate::{generate, storms};
use reference::pair::Pair;
use reference::parameters::{Counter, Losses, Whose};
use reference::script::{apply, write_call, Answer, Call};
use reference::unit::{FrameAnswer, Unit};

/// A PGN that no list names.
const DATA: u32 = 0x18FEF105;

/// The reply to a message in hex, from some port.
fn reply_at(unit: &mut Unit, port: u32, payload: &str) -> Vec<u8> {
    let (number, pgn, written) = message(unit, port, TOOL, &hex(payload));
    assert_eq!((number, pgn), (0, 60672), "{payload}");
    written
}

/// A message from port 1 is replied to with these bytes.
fn replies(unit: &mut Unit, payload: &str, reply: &str) {
    assert_eq!(reply_at(unit, 1, payload), hex(reply), "{payload}");
}

/// The acknowledgment of a message from port 1.
fn acknowledges(unit: &mut Unit, payload: &str, bytes: &str) {
    assert_eq!(message(unit, 1, TOOL, &hex(payload)).1, 59392, "{payload}");
    assert_eq!(message(unit, 1, TOOL, &hex(payload)).2, hex(bytes), "{payload}");
}

/// The losses that are told in general, and of a pair.
fn general(unit: &mut Unit) -> u32 {
    let reply = reply_at(unit, 1, "80 FF 09 FF FF FF FF FF");
    u32::from(reply[3]) + 256 * u32::from(reply[4])
}

fn of_pair(unit: &mut Unit, pair: u8) -> u32 {
    let (number, _, reply) = message(unit, 1, TOOL, &[131, pair, 9, 0xFF, 0xFF, 0xFF, 0xFF, 0xFF]);
    assert_eq!((number, reply[1]), (0, pair));
    u32::from(reply[3]) + 256 * u32::from(reply[4])
}

/// A unit that is Claimed with 32 frames at port 2.
fn full() -> Unit {
    let mut unit = claimed();
    fill(&mut unit, 2, 32);
    unit
}

/// Puts a pair's counter and the general one at a value.
fn counted(unit: &mut Unit, pair: (u32, u32), value: u64, general: u64) {
    unit.losses.pairs.insert(pair, Counter(value));
    unit.losses.general = Counter(general);
}

/// "Functions 128, 129 and 130 are the general request, reply and reset, 131 to 133 a pair's."
#[test]
fn functions() {
    let mut unit = full();
    frame(&mut unit, 1, DATA, &[]);
    replies(&mut unit, "80 FF 09 FF FF FF FF FF", "81 FF 09 01 00 FF FF FF");
    replies(&mut unit, "83 12 09 FF FF FF FF FF", "84 12 09 01 00 FF FF FF");
    acknowledges(&mut unit, "82 FF 09 FF FF FF FF FF", "00 82 FF FF 21 00 ED 00");
    replies(&mut unit, "80 FF 09 FF FF FF FF FF", "81 FF 09 00 00 FF FF FF");
    replies(&mut unit, "83 12 09 FF FF FF FF FF", "84 12 09 01 00 FF FF FF");
    acknowledges(&mut unit, "85 12 09 FF FF FF FF FF", "00 85 FF FF 21 00 ED 00");
    replies(&mut unit, "83 12 09 FF FF FF FF FF", "84 12 09 00 00 FF FF FF");
}

/// "A reply sent to us gets 9."
#[test]
fn replies_sent_to_the_unit() {
    for port in PORTS {
        for payload in
            ["81 FF 09 00 00 FF FF FF", "84 12 09 00 00 FF FF FF", "81 11 00 00 00 00 00 00 00", "84 00 07 FF"]
        {
            let mut payload = hex(payload);
            payload.resize(payload.len().max(8), 0xFF);
            assert_eq!(message(&mut claimed(), port, TOOL, &payload).0, 9);
        }
    }
    acknowledges(&mut claimed(), "81 FF 09 00 00 FF FF FF", "01 81 FF FF 21 00 ED 00");
    acknowledges(&mut claimed(), "84 12 09 00 00 FF FF FF", "01 84 FF FF 21 00 ED 00");
}

/// "Each has 8 bytes: function, pair byte (general: ignored, FF in the reply), parameter"; what is behind it is not looked at.
#[test]
fn eight_bytes() {
    let mut unit = full();
    for byte in 0..=255 {
        assert_eq!(message(&mut unit, 1, TOOL, &[128, byte, 1, 1, 2, 3, 4, 5]).2, hex("81 FF 01 80 06 FF FF FF"));
        assert_eq!(message(&mut unit, 1, TOOL, &[130, byte, 9, 1, 2, 3, 4, 5]).2, hex("00 82 FF FF 21 00 ED 00"));
    }
    for (payload, reply) in
        [("83 34 01 02 03 09 00 00", "84 34 01 A0 01 FF FF FF"), ("83 43 02 FF FF 01 01 01", "84 43 02 60 00 FF FF FF")]
    {
        replies(&mut unit, payload, reply);
    }
    for length in [9, 10, 16, 1785] {
        for (function, byte) in [(128, 0xFF), (130, 0xFF), (131, 0x12), (133, 0x12)] {
            let mut payload = vec![function, byte, 9];
            payload.resize(length, 0xFF);
            assert_eq!(number(&mut unit, &payload), 12, "{function} of {length} bytes");
        }
    }
}

/// "in a reply the value in two bytes, least significant first."
#[test]
fn least_significant_byte_first() {
    let mut unit = claimed();
    counted(&mut unit, (2, 1), 0x0102, 0xFAFE);
    replies(&mut unit, "83 21 09 00 00 00 00 00", "84 21 09 02 01 FF FF FF");
    replies(&mut unit, "80 21 09 00 00 00 00 00", "81 FF 09 FE FA FF FF FF");
}

/// "Sizes count 13 bytes for a queue place and 3 for a list place: 416 and 96 for a pair (the queue is the To port's), 1,664 and 1,152 in general."
#[test]
fn sizes() {
    let mut unit = full();
    set(&mut unit, 1, 2, Pair::Pass(pgns(5)));
    for pair in ["12", "13", "14", "21", "23", "24", "31", "32", "34", "41", "42", "43"] {
        replies(&mut unit, &format!("83 {pair} 01 FF FF FF FF FF"), &format!("84 {pair} 01 A0 01 FF FF FF"));
        replies(&mut unit, &format!("83 {pair} 02 FF FF FF FF FF"), &format!("84 {pair} 02 60 00 FF FF FF"));
    }
    replies(&mut unit, "80 FF 01 FF FF FF FF FF", "81 FF 01 80 06 FF FF FF");
    replies(&mut unit, "80 FF 02 FF FF FF FF FF", "81 FF 02 80 04 FF FF FF");
    assert_eq!((0x01A0, 0x0060, 0x0680, 0x0480), (416, 96, 1664, 1152));
}

/// Ticket 10: "Ticket 8's general sizes read with that number of ports".
#[test]
fn sizes_with_the_number_of_ports() {
    let expected = [(832, 192), (1248, 576), (1664, 1152), (2080, 1920), (2496, 2880), (2912, 4032), (3328, 5376)];
    for (ports, (queues, lists)) in (2..=8).zip(expected) {
        let mut unit = claimed_with(ports);
        assert_eq!((unit.value(Whose::General, 1), unit.value(Whose::General, 2)), (queues, lists));
        let reply = reply_at(&mut unit, 1, "80 FF 02 FF FF FF FF FF");
        assert_eq!(reply, [0x81, 0xFF, 2, lists as u8, (lists >> 8) as u8, 0xFF, 0xFF, 0xFF]);
        let last = format!("83 {ports}1 01 FF FF FF FF FF");
        replies(&mut unit, &last, &format!("84 {ports}1 01 A0 01 FF FF FF"));
    }
}

/// "Entries are those of the plain lists": a cleared pair has none, permanent PGNs that are listed count.
#[test]
fn entries() {
    let mut unit = claimed();
    replies(&mut unit, "80 FF 03 FF FF FF FF FF", "81 FF 03 00 00 FF FF FF");
    replies(&mut unit, "83 12 03 FF FF FF FF FF", "84 12 03 00 00 FF FF FF");
    assert_eq!(number_at(&mut unit, 1, "06 12 01 F1 FE 00 FF FF"), 0);
    assert_eq!(number_at(&mut unit, 1, "02 12 00 EE 00 00 EA 00"), 0);
    assert_eq!(number(&mut unit, &command(6, 0x3F, 0, &pgns(32))), 0);
    replies(&mut unit, "83 12 03 FF FF FF FF FF", "84 12 03 03 00 FF FF FF");
    replies(&mut unit, "83 21 03 FF FF FF FF FF", "84 21 03 00 00 FF FF FF");
    replies(&mut unit, "83 34 03 FF FF FF FF FF", "84 34 03 20 00 FF FF FF");
    replies(&mut unit, "80 FF 03 FF FF FF FF FF", "81 FF 03 63 00 FF FF FF");
    assert_eq!(number_at(&mut unit, 1, "03 12 F1 FE 00 00 EE 00"), 0);
    replies(&mut unit, "83 12 03 FF FF FF FF FF", "84 12 03 01 00 FF FF FF");
    assert_eq!(number_at(&mut unit, 1, "04 3F FF FF FF FF FF FF"), 0);
    replies(&mut unit, "83 34 03 FF FF FF FF FF", "84 34 03 00 00 FF FF FF");
    replies(&mut unit, "80 FF 03 FF FF FF FF FF", "81 FF 03 01 00 FF FF FF");
    let mut eight = claimed_with(8);
    for from in 1..=8 {
        assert_eq!(number(&mut eight, &command(6, (from * 16 + 15) as u8, 1, &pgns(32))), 0);
    }
    replies(&mut eight, "80 FF 03 FF FF FF FF FF", "81 FF 03 00 07 FF FF FF");
}

/// "Losses count from power-on or last reset, one for each frame and lost port"; the pair is from the arrival port to the port where it was lost.
#[test]
fn losses() {
    let mut unit = full();
    fill(&mut unit, 3, 32);
    assert_eq!(unit.losses, unstarted().losses);
    assert_eq!(frame(&mut unit, 1, DATA, &[]).lost, [2, 3]);
    assert_eq!([0x12, 0x13, 0x14, 0x21, 0x31].map(|pair| of_pair(&mut unit, pair)), [1, 1, 0, 0, 0]);
    assert_eq!(general(&mut unit), 2);
    assert_eq!(frame(&mut unit, 4, DATA, &[]).lost, [2, 3]);
    assert_eq!([0x12, 0x42, 0x43, 0x41, 0x24].map(|pair| of_pair(&mut unit, pair)), [1, 1, 1, 0, 0]);
    assert_eq!(general(&mut unit), 4);
    assert_eq!(number_at(&mut unit, 1, "85 42 09 FF FF FF FF FF"), 0);
    assert_eq!(frame(&mut unit, 4, DATA, &[]).lost, [2, 3]);
    assert_eq!([0x12, 0x42, 0x43].map(|pair| of_pair(&mut unit, pair)), [1, 1, 2]);
    assert_eq!(general(&mut unit), 6);
    assert!(unit.losses != Unit::power_on(NAME, ADDRESS).losses);
}

/// Power-on puts every counter to 0, with every number of ports: n(n-1) and the general one.
#[test]
fn power_on() {
    for ports in 2..=8 {
        let (unit, _) = Unit::power_on_ports(NAME, ADDRESS, ports);
        assert_eq!(unit.losses.pairs.len() as u32, ports * (ports - 1));
        assert!(unit.losses.pairs.keys().eq(unit.pairs.keys()));
        assert!(unit.losses.pairs.values().chain([&unit.losses.general]).all(|counter| *counter == Counter(0)));
    }
}

/// What is no loss: a frame that is accepted, stopped, consumed or refused; a take; Quiet; a message.
#[test]
fn no_losses() {
    let mut unit = full();
    fill(&mut unit, 3, 31);
    set(&mut unit, 1, 2, Pair::Pass(vec![]));
    set(&mut unit, 4, 2, Pair::Block(vec![65265]));
    assert_eq!(frame(&mut unit, 1, DATA, &[]).accepted, [3, 4]);
    fill(&mut unit, 1, 32);
    fill(&mut unit, 4, 31);
    set(&mut unit, 4, 1, Pair::Pass(vec![]));
    set(&mut unit, 4, 3, Pair::Pass(vec![]));
    assert_eq!(frame(&mut unit, 4, DATA, &[]).lost, [0; 0]);
    assert!(frame(&mut unit, 4, 0x18EFC805, &[]).consumed);
    assert_eq!(frame_number(&mut unit, 1, 0x18FEF1FF, &[]), 5);
    assert_eq!(frame_number(&mut unit, 5, DATA, &[]), 1);
    assert_eq!((unit.take(2).map(|given| given.is_some()), unit.quiet()), (Ok(true), Err(18)));
    assert_eq!(number(&mut unit, &command(4, 0x1F, 0, &[])), 0);
    assert_eq!(unit.losses, unstarted().losses);
}

/// "and stay at 64,255", each by itself.
#[test]
fn counters_stay() {
    let mut unit = full();
    counted(&mut unit, (1, 2), 64_253, 64_254);
    let told = [(64_254, 64_255), (64_255, 64_255), (64_255, 64_255), (64_255, 64_255)];
    for (of_12, in_general) in told {
        frame(&mut unit, 1, DATA, &[]);
        assert_eq!((of_pair(&mut unit, 0x12), general(&mut unit)), (of_12, in_general));
    }
    replies(&mut unit, "83 12 09 FF FF FF FF FF", "84 12 09 FF FA FF FF FF");
    frame(&mut unit, 3, DATA, &[]);
    assert_eq!((of_pair(&mut unit, 0x32), general(&mut unit)), (1, 64_255));
    assert_eq!(number_at(&mut unit, 1, "82 FF 09 FF FF FF FF FF"), 0);
    frame(&mut unit, 1, DATA, &[]);
    assert_eq!((of_pair(&mut unit, 0x12), general(&mut unit)), (64_255, 1));
}

/// A word that no list of calls leads to is told as the most, and a loss makes it the most.
#[test]
fn words_above_the_most() {
    for word in [64_255, 64_256, 65_535, 65_536, 1 << 32, u64::MAX] {
        let mut unit = full();
        counted(&mut unit, (1, 2), word, word);
        assert_eq!((of_pair(&mut unit, 0x12), general(&mut unit)), (64_255, 64_255));
        frame(&mut unit, 1, DATA, &[]);
        assert_eq!((unit.losses.pairs[&(1, 2)], unit.losses.general), (Counter(64_255), Counter(64_255)));
    }
}

/// "the unit's own lost frames count in general only": at Start, where it defends or loses its address, where it is asked.
#[test]
fn own_frames() {
    let mut unit = unstarted();
    fill(&mut unit, 2, 32);
    fill(&mut unit, 3, 32);
    assert_eq!(unit.start(), started(ClaimState::Claiming, &[2, 3]));
    let alone = |unit: &Unit, general: u64| {
        assert_eq!(unit.losses, Losses { general: Counter(general), ..unstarted().losses });
    };
    alone(&unit, 2);
    unit.quiet().expect("Claiming");
    assert_eq!(general(&mut unit), 2);
    // A request to the unit is consumed; the answer is lost at two ports.
    assert_eq!(frame(&mut unit, 4, 0x0CEAC805, &[0, 0xEE, 0]).own_lost, [2, 3]);
    alone(&unit, 4);
    // The forwarded claim is lost at port 3, the unit's own at both.
    let answer = claim(&mut unit, 2, ADDRESS, NAME + 1);
    assert_eq!((answer.event, answer.lost, answer.own_lost), (Event::Defended, vec![3], vec![2, 3]));
    assert_eq!((of_pair(&mut unit, 0x23), general(&mut unit)), (1, 7));
    let answer = claim(&mut unit, 4, ADDRESS, NAME - 1);
    assert_eq!((answer.event, answer.lost, answer.own_lost), (Event::Displaced, vec![2, 3], vec![2, 3]));
    assert_eq!(unit.losses.general, Counter(11));
    // Lost, it answers a request to all with cannot-claim.
    let answer = frame(&mut unit, 1, 0x18EAFF05, &[0, 0xEE, 0]);
    assert_eq!((answer.lost, answer.own_lost), (vec![2, 3], vec![2, 3]));
    assert_eq!(unit.losses.general, Counter(15));
    let of_pairs: u64 = unit.losses.pairs.values().map(|counter| counter.0).sum();
    assert_eq!(of_pairs, 5);
}

/// One place left: the forwarded frame takes it, and the unit's own is lost.
#[test]
fn own_frame_behind_the_last_place() {
    let mut unit = claimed();
    fill(&mut unit, 2, 31);
    let answer = frame(&mut unit, 1, 0x18EAFF05, &[0, 0xEE, 0]);
    assert_eq!((answer.accepted, answer.own_lost), (vec![2, 3, 4], vec![2]));
    assert_eq!((of_pair(&mut unit, 0x12), general(&mut unit)), (0, 1));
}

/// "A reset touches the named counter only."
#[test]
fn resets() {
    let mut unit = claimed();
    let pairs: Vec<(u32, u32)> = unit.losses.pairs.keys().copied().collect();
    for (value, pair) in pairs.iter().enumerate() {
        unit.losses.pairs.insert(*pair, Counter(value as u64 + 1));
    }
    unit.losses.general = Counter(5);
    for &(from, to) in &pairs {
        let mut after = unit.clone();
        assert_eq!(number(&mut after, &[133, (16 * from + to) as u8, 9, 0, 0, 0, 0, 0]), 0);
        let mut expected = unit.clone();
        expected.losses.pairs.insert((from, to), Counter(0));
        assert_eq!(after, expected);
    }
    let mut after = unit.clone();
    assert_eq!(number(&mut after, &hex("82 12 09 FF FF FF FF FF")), 0);
    let mut expected = unit.clone();
    expected.losses.general = Counter(0);
    assert_eq!(after, expected);
}

/// "Demand 2's privacy rule lets a tool's answers depend on its own pairs' counters too", and on no others.
#[test]
fn privacy() {
    let other_counters = |unit: &Unit, port: u32| {
        let mut other = unit.clone();
        for (pair, counter) in other.losses.pairs.iter_mut() {
            if pair.0 != port && pair.1 != port {
                *counter = Counter(counter.0 + 7);
            }
        }
        other.losses.general = Counter(1234);
        other
    };
    let mut unit = full();
    frame(&mut unit, 1, DATA, &[]);
    for (port, function) in PORTS[1..].iter().flat_map(|port| (128..=133).map(move |function| (*port, function))) {
        let mut other = other_counters(&unit, port);
        for (byte, parameter) in (0..=255).flat_map(|byte| [(byte, 3), (byte, 9)]) {
            let payload = [function, byte, parameter, 0, 0, 0, 0, 0];
            let told = message(&mut unit.clone(), port, TOOL, &payload);
            assert_eq!(told, message(&mut other, port, TOOL, &payload), "{port}: {payload:?}");
        }
    }
    assert_eq!(reply_at(&mut unit, 2, "83 12 09 FF FF FF FF FF"), hex("84 12 09 01 00 FF FF FF"));
    assert_eq!(number_at(&mut unit, 3, "83 12 09 FF FF FF FF FF"), 11);
}

/// "The general functions are port 1's alone (11)."
#[test]
fn general_functions_are_port_1s() {
    for ports in 2..=8 {
        let mut unit = claimed_with(ports);
        for port in 1..=ports {
            for (function, parameter) in [(128, 1), (128, 9), (130, 9), (128, 0), (130, 1)] {
                let given = message(&mut unit, port, TOOL, &[function, 0x12, parameter, 0, 0, 0, 0, 0]).0;
                assert_eq!(given == 11, port != 1, "{function} from port {port}");
            }
        }
    }
    let refused = message(&mut claimed(), 2, TOOL, &hex("80 12 09 FF FF FF FF FF"));
    assert_eq!(refused, (11, 59392, hex("02 80 FF FF 21 00 ED 00")));
}

/// "Refusals: 23 parameter not held, or a reset of one other than 9, directly after 11, acknowledged with 1; a reset done is acknowledged like Clear."
#[test]
fn refusals() {
    acknowledges(&mut claimed(), "80 FF 04 FF FF FF FF FF", "01 80 FF FF 21 00 ED 00");
    acknowledges(&mut claimed(), "82 FF 01 FF FF FF FF FF", "01 82 FF FF 21 00 ED 00");
    acknowledges(&mut claimed(), "83 12 00 FF FF FF FF FF", "01 83 FF FF 21 00 ED 00");
    acknowledges(&mut claimed(), "85 12 03 FF FF FF FF FF", "01 85 FF FF 21 00 ED 00");
    acknowledges(&mut claimed(), "85 12 09 FF FF FF FF FF", "00 85 FF FF 21 00 ED 00");
    acknowledges(&mut claimed(), "04 12 FF FF FF FF FF FF", "00 04 FF FF 21 00 ED 00");
    let (told, _) = told(&mut claimed(), 1, TOOL, &hex("83 12 00 FF FF FF FF FF"), 1785);
    assert_eq!((told.number, told.wrong_words()), (23, [0, 0, 0]));
}

/// The counters by the history of answers alone, over generated lists of calls; asking changes nothing, no other call lowers one.
#[test]
fn every_prefix_of_a_history() {
    let (mut asked, mut resets, mut most) = (0, 0, 0);
    for calls in [generate(301, 8000), generate(302, 8000), storms(0).into_iter().take(9000).collect()] {
        let mut unit: Option<Unit> = None;
        let mut history: BTreeMap<(u32, u32), u64> = BTreeMap::new();
        let mut in_general = 0u64;
        for call in calls {
            let answer = apply(&mut unit, &call).expect("a unit");
            let after = unit.as_ref().expect("a unit");
            match (&call, &answer) {
                (Call::PowerOn { .. }, _) => {
                    history = after.pairs.keys().map(|&pair| (pair, 0)).collect();
                    in_general = 0;
                }
                (Call::Frame { port, .. }, Answer::Frame(Ok(FrameAnswer { lost, own_lost, .. }))) => {
                    for &to in lost {
                        *history.get_mut(&(*port, to)).expect("a pair") += 1;
                    }
                    in_general += (lost.len() + own_lost.len()) as u64;
                }
                (Call::Start, Answer::Start(Ok(answer))) => in_general += answer.own_lost.len() as u64,
                (Call::Message { payload, .. }, Answer::Message(given, written)) if given.number == 0 => {
                    let pair = (u32::from(payload[1] >> 4), u32::from(payload[1] & 15));
                    let word = |written: &[u8]| u64::from(written[3]) + 256 * u64::from(written[4]);
                    match (payload[0], payload[2]) {
                        (128, 9) => assert_eq!(word(written), in_general.min(64_255)),
                        (131, 9) => assert_eq!(word(written), history[&pair].min(64_255)),
                        (130, _) => in_general = 0,
                        (133, _) => *history.get_mut(&pair).expect("a pair") = 0,
                        _ => {}
                    }
                    asked += usize::from([128, 131].contains(&payload[0]));
                    resets += usize::from([130, 133].contains(&payload[0]));
                }
                _ => {}
            }
            for (pair, &count) in &history {
                assert_eq!(after.losses.pairs[pair], Counter(count.min(64_255)));
                most = most.max(count);
            }
            assert_eq!(after.losses.general, Counter(in_general.min(64_255)));
        }
    }
    assert!(asked > 100 && resets > 30 && most > 5000, "{asked}, {resets}, {most}");
}

/// What crosses, waits and is refused does not depend on a counter.
#[test]
fn nothing_else_depends_on_a_counter() {
    let mut units: [Option<Unit>; 2] = [None, None];
    for (place, call) in generate(303, 6000).into_iter().enumerate() {
        let answers = units.each_mut().map(|unit| apply(unit, &call).expect("a unit"));
        let [one, other] = &mut units.each_mut().map(|unit| unit.as_mut().expect("a unit"));
        match (&answers[0], &answers[1]) {
            (Answer::Message(a, _), Answer::Message(b, _)) => assert_eq!(a, b),
            (a, b) => assert_eq!(a, b),
        }
        let without = |unit: &Unit| Unit { losses: Losses::default(), ..unit.clone() };
        assert_eq!(without(one), without(other));
        if place % 50 == 0 {
            other.losses.pairs.values_mut().for_each(|counter| *counter = Counter(place as u64 * 1000));
            other.losses.general = Counter(u64::MAX);
        }
    }
}

/// A storm's script: counters of a pair and in general are told at 64,255, lose on, and are reset.
#[test]
fn storms_reach_the_most() {
    let mut coverage = Coverage::default();
    let lines: Vec<String> = storms(7).iter().map(write_call).collect();
    coverage.count_script(lines.join("\n").as_bytes());
    for row in AT_THE_MOST {
        assert!(coverage.reached(row) > 0, "{row}");
    }
}
