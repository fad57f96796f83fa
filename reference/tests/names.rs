//! NAME entries: what they match, what is compared, function 7 and its refusals.

mod common;

use common::*;
use reference::address::Event;
use reference::names::NameEntry;
use reference::pair::{Pair, Reason};
use reference::unit::{FrameAnswer, Unit};
use Reason::*;

/// Two rate controllers of one maker: another function instance, bits 35 to 39, and another identity number, bits 0 to 20.
const FIRST: u64 = 0xA00C_8300_0AC1_2345;
const SECOND: u64 = 0xA00C_8308_0AC1_2399;
const INSTANCE: u64 = 0x1F << 35;
/// A PGN for all, and one that has a destination.
const RATE: u32 = 65296;
const TO_ONE: u32 = 61184;

fn entry(pgn: u32, name: u64, mask: u64) -> NameEntry {
    NameEntry { pgn, name, mask }
}

/// Function 7 in 23 bytes.
fn by_name(pair: u8, entry: NameEntry) -> Vec<u8> {
    let mut payload = vec![7, pair];
    payload.extend(&entry.pgn.to_le_bytes()[..3]);
    payload.extend(entry.name.to_le_bytes());
    payload.extend(entry.mask.to_le_bytes());
    payload.extend([0xFA, 0x00]);
    payload
}

/// A unit whose pair from 2 to 1 is this one with these NAME entries, and both controllers known at port 2, at 0x81 and 0x82.
fn with_names(pair: Pair, names: &[NameEntry]) -> Unit {
    let mut unit = claimed();
    set(&mut unit, 2, 1, pair);
    unit.names.insert((2, 1), names.to_vec());
    claim(&mut unit, 2, 0x81, FIRST);
    claim(&mut unit, 2, 0x82, SECOND);
    drain(&mut unit);
    unit
}

fn send(unit: &mut Unit, port: u32, pgn: u32, sa: u32) -> FrameAnswer {
    frame(unit, port, 0x18000000 + (pgn << 8) + sa, &[])
}

/// What port 1 says of a PGN from port 2: the reason, the count, whether a NAME entry listed it.
fn asked(unit: &mut Unit, pgn: u32, sa: u32) -> (Reason, usize, bool) {
    let answer = send(unit, 2, pgn, sa);
    assert!(answer.by_name.iter().all(|&port| port == 1), "the other pairs have none");
    (answer.reasons[0].expect("asked"), answer.compared, !answer.by_name.is_empty())
}

/// The grower's wish, in either mode.
#[test]
fn one_of_two_controllers() {
    let names = [entry(RATE, FIRST, INSTANCE)];
    let mut pass = with_names(Pair::Pass(vec![]), &names);
    assert_eq!(asked(&mut pass, RATE, 0x81), (ListedInPass, 1, true));
    assert_eq!(asked(&mut pass, RATE, 0x82), (StoppedAsNotListed, 1, false));
    let mut block = with_names(Pair::Block(vec![]), &names);
    assert_eq!(asked(&mut block, RATE, 0x81), (StoppedAsListed, 1, true));
    assert_eq!(asked(&mut block, RATE, 0x82), (NotListedInBlock, 1, false));
}

/// Every single bit of NAME and mask: a difference counts exactly where the mask has the bit.
#[test]
fn each_bit() {
    for bit in 0..64 {
        let other = FIRST ^ (1 << bit);
        for (mask, matches) in [(0, true), (1 << bit, false), (!(1 << bit), true), (u64::MAX, false)] {
            assert_eq!(entry(RATE, FIRST, mask).matches(RATE, Some(other)), matches, "bit {bit}, mask {mask:X}");
            assert!(entry(RATE, FIRST, mask).matches(RATE, Some(FIRST)));
            assert!(!entry(RATE, FIRST, mask).matches(RATE + 1, Some(FIRST)), "another PGN");
            assert!(!entry(RATE, FIRST, mask).matches(RATE, None), "no NAME");
        }
    }
}

/// NAMEs that differ in many bits, and masks of several.
#[test]
fn several_bits() {
    assert!(entry(RATE, FIRST, !INSTANCE & !0x1F_FFFF).matches(RATE, Some(SECOND)));
    assert!(!entry(RATE, FIRST, !INSTANCE).matches(RATE, Some(SECOND)), "the identity number differs");
    assert!(!entry(RATE, FIRST, u64::MAX << 21).matches(RATE, Some(SECOND)), "the instance differs");
    assert!(entry(RATE, 0, 0).matches(RATE, Some(u64::MAX)));
    assert!(!entry(RATE, 0, u64::MAX).matches(RATE, Some(1 << 63)));
}

/// Unknown, withdrawn, displaced, the unit's own address: none matches, not even with mask 0.
#[test]
fn senders_without_a_name() {
    let mut unit = with_names(Pair::Pass(vec![]), &[entry(RATE, 0, 0)]);
    for sa in [0, 0x80, 0x83, 253, ADDRESS] {
        assert_eq!(asked(&mut unit, RATE, sa), (StoppedAsNotListed, 1, false), "{sa}");
    }
    assert_eq!(asked(&mut unit, RATE, 0x81), (ListedInPass, 1, true));
    assert_eq!(claim(&mut unit, 3, 254, FIRST).event, Event::Withdrew);
    assert_eq!(asked(&mut unit, RATE, 0x81), (StoppedAsNotListed, 1, false));
    // A NAME that moves has its new address alone.
    assert_eq!(claim(&mut unit, 3, 0x90, SECOND).event, Event::Recorded);
    assert_eq!(asked(&mut unit, RATE, 0x82), (StoppedAsNotListed, 1, false));
    assert_eq!(asked(&mut unit, RATE, 0x90), (ListedInPass, 1, true));
}

/// Who takes an address over is the sender from then on; who is beaten is not.
#[test]
fn the_holder_is_the_sender() {
    let mut unit = with_names(Pair::Pass(vec![]), &[entry(RATE, SECOND, u64::MAX)]);
    assert!(matches!(claim(&mut unit, 2, 0x82, FIRST).event, Event::TookOver(SECOND)));
    assert_eq!(asked(&mut unit, RATE, 0x82).0, StoppedAsNotListed);
    assert_eq!(claim(&mut unit, 2, 0x82, SECOND).event, Event::Beaten);
    assert_eq!(asked(&mut unit, RATE, 0x82).0, StoppedAsNotListed);
    // The unit that loses its address to a lower NAME: that one is the sender there.
    unit.names.insert((2, 1), vec![entry(RATE, NAME - 1, u64::MAX)]);
    assert_eq!(asked(&mut unit, RATE, ADDRESS).0, StoppedAsNotListed);
    assert_eq!(claim(&mut unit, 2, ADDRESS, NAME - 1).event, Event::Displaced);
    assert_eq!(asked(&mut unit, RATE, ADDRESS).0, ListedInPass);
}

/// The port of the claim is of no matter, and neither is the frame's destination; but not the destination's NAME.
#[test]
fn any_port_and_any_destination() {
    for at in [1, 2, 3, 4] {
        let mut unit = with_names(Pair::Pass(vec![]), &[entry(TO_ONE, FIRST, u64::MAX)]);
        claim(&mut unit, at, 0x81, FIRST);
        for ps in [0x00, 0x82, 0xFE, 0xFF] {
            let answer = frame(&mut unit, 2, 0x18EF0081 + (ps << 8), &[]);
            assert_eq!((answer.reasons[0], answer.compared), (Some(ListedInPass), 1), "claimed at {at}, to {ps}");
        }
        assert_eq!(frame(&mut unit, 2, 0x18EF8182, &[]).reasons[0], Some(StoppedAsNotListed));
    }
}

/// The way back has entries of its own, and so has every other pair.
#[test]
fn a_pair_has_its_own() {
    let mut unit = with_names(Pair::Pass(vec![]), &[entry(RATE, FIRST, u64::MAX)]);
    for (from, to) in [(1, 2), (1, 3), (3, 1), (2, 3)] {
        set(&mut unit, from, to, Pair::Pass(vec![]));
        let answer = send(&mut unit, from, RATE, 0x81);
        assert_eq!(answer.reasons[to as usize - 1], Some(StoppedAsNotListed), "{from} to {to}");
    }
}

/// The claim's own frame is forwarded by the table before it; claims are permanent, so a claim with a page bit is tried.
#[test]
fn the_table_before_the_frame() {
    let mut unit = with_names(Pair::Pass(vec![]), &[entry(0x1EE00, 0, 0), entry(60928, 0, 0)]);
    assert_eq!(frame(&mut unit, 2, 0x19EEFF83, &FIRST.to_le_bytes()).reasons[0], Some(StoppedAsNotListed));
    let answer = claim(&mut unit, 2, 0x83, 5);
    assert_eq!((answer.reasons[0], answer.compared, answer.by_name.len()), (Some(Permanent), 0, 0));
    assert_eq!(frame(&mut unit, 2, 0x19EEFF83, &FIRST.to_le_bytes()).reasons[0], Some(ListedInPass));
}

/// Rule 5: the probes of the list, and behind them the NAME entries up to the first match; none of them where the list has the PGN.
/// Above a list of five there are three probes, and one for the PGN in its middle.
#[test]
fn compared() {
    let mut names: Vec<NameEntry> = (0..7).map(|place| entry(RATE + 1 + place, 0, 0)).collect();
    for place in 1..=8 {
        names.insert(place - 1, entry(RATE, FIRST, u64::MAX));
        let mut unit = with_names(Pair::Pass(pgns(5)), &names);
        assert_eq!(asked(&mut unit, RATE, 0x81), (ListedInPass, 3 + place, true));
        assert_eq!(asked(&mut unit, RATE, 0x82), (StoppedAsNotListed, 3 + 8, false));
        assert_eq!(asked(&mut unit, 61442, 0x81), (ListedInPass, 1, false));
        assert_eq!(asked(&mut unit, 60928, 0x81), (Permanent, 0, false));
        assert_eq!(asked(&mut unit, 59904, 0x81), (Permanent, 0, false));
        names.remove(place - 1);
    }
    let mut unit = with_names(Pair::Block(vec![RATE]), &[entry(RATE, FIRST, 0); 1]);
    assert_eq!(asked(&mut unit, RATE, 0x81), (StoppedAsListed, 1, false), "the list has it");
    let twice = [entry(RATE, FIRST, 1), entry(RATE, FIRST, 3)];
    assert_eq!(asked(&mut with_names(Pair::Pass(vec![]), &twice), RATE, 0x81), (ListedInPass, 1, true));
    assert_eq!(asked(&mut with_names(Pair::Pass(vec![]), &[]), RATE, 0x81), (StoppedAsNotListed, 0, false));
}

/// The counts of the pairs are added, and each port has its own reason.
#[test]
fn added_over_the_pairs() {
    let mut unit = with_names(Pair::Pass(pgns(2)), &[entry(RATE, FIRST, 0)]);
    set(&mut unit, 2, 3, Pair::Block(pgns(3)));
    unit.names.insert((2, 3), vec![entry(RATE, SECOND, u64::MAX), entry(RATE, FIRST, u64::MAX)]);
    let answer = send(&mut unit, 2, RATE, 0x81);
    assert_eq!(answer.reasons, [Some(ListedInPass), None, Some(StoppedAsListed), Some(Cleared)]);
    assert_eq!((answer.compared, answer.by_name, answer.accepted), (2 + 1 + 2 + 2, vec![1, 3], vec![1, 4]));
}

/// A match crosses under rule 3: with 32 waiting the frame is lost, and counted.
#[test]
fn a_match_at_a_full_port() {
    let mut unit = with_names(Pair::Pass(vec![]), &[entry(RATE, FIRST, 0)]);
    fill(&mut unit, 1, 32);
    let answer = send(&mut unit, 2, RATE, 0x81);
    assert_eq!((answer.lost, answer.by_name), (vec![1], vec![1]));
    assert_eq!(unit.losses.pairs[&(2, 1)].told(), 1);
}

/// The bytes, least significant first; the acknowledgment is Add's with the function 7.
#[test]
fn the_bytes() {
    let mut unit = with_names(Pair::Pass(vec![]), &[]);
    let payload = hex("07 21 10 FF 00 45 23 C1 0A 00 83 0C A0 00 00 E0 FF F8 FF 00 00 12 34");
    assert_eq!(payload.len(), 23);
    assert_eq!(message(&mut unit, 1, TOOL, &payload), (0, 59392, hex("00 07 FF FF 21 00 ED 00")));
    assert_eq!(unit.names[&(2, 1)], [entry(RATE, FIRST, 0x0000_FFF8_FFE0_0000)]);
    assert!(unit.names.iter().all(|(pair, names)| *pair == (2, 1) || names.is_empty()));
    assert_eq!(list(&unit, 2, 1), []);
}

/// One already there: PGN, NAME and mask are equal, the rate is not looked at. It is done even beside seven others.
#[test]
fn already_there() {
    let one = entry(RATE, FIRST, INSTANCE);
    let mut unit = with_names(Pair::Pass(vec![]), &[one]);
    let mut payload = by_name(0x21, one);
    for rate in [[0, 0], [0xFF, 0xFF], [250, 0], [0, 1]] {
        payload[21..].copy_from_slice(&rate);
        let before = unit.clone();
        assert_eq!((number(&mut unit, &payload), &unit == &before), (0, true));
    }
    // Others though they would match the same senders.
    for other in [entry(RATE, FIRST, INSTANCE + 1), entry(RATE, FIRST + 1, INSTANCE), entry(RATE + 1, FIRST, INSTANCE)]
    {
        assert_eq!(number(&mut unit, &by_name(0x21, other)), 0);
    }
    assert_eq!(unit.names[&(2, 1)].len(), 4);
    for mask in 0..4 {
        assert_eq!(number(&mut unit, &by_name(0x21, entry(RATE, 0, mask))), 0);
    }
    let all = unit.names[&(2, 1)].clone();
    assert_eq!(all.len(), 8);
    for there in &all {
        assert_eq!(number(&mut unit, &by_name(0x21, *there)), 0);
    }
    assert_eq!(number(&mut unit, &by_name(0x21, entry(RATE, 0, 4))), 16);
    assert_eq!(unit.names[&(2, 1)], all);
}

/// The list may be full, and the PGN on it: that is no matter of the NAME entries, nor these of the list.
#[test]
fn beside_the_list() {
    let mut unit = with_names(Pair::Block(pgns(32)), &[]);
    for place in 0..8 {
        assert_eq!(number(&mut unit, &by_name(0x21, entry(61440 + place, 0, 0))), 0);
    }
    assert_eq!(number(&mut unit, &by_name(0x21, entry(61440 + 8, 0, 0))), 16);
    set(&mut unit, 2, 1, Pair::Block(pgns(31)));
    assert_eq!(number(&mut unit, &command(2, 0x21, 0, &[65535])), 0);
    assert_eq!(number(&mut unit, &command(2, 0x21, 0, &[65534])), 16);
}

/// 10 for every pair byte of units of every size, To 15 among them; then 11, from every port.
#[test]
fn whose_pair() {
    for ports in 2..=8 {
        let mut unit = claimed_with(ports);
        unit.pairs.values_mut().for_each(|pair| *pair = Pair::Pass(vec![]));
        let is_port = |port: u32| (1..=ports).contains(&port);
        for (byte, tool) in (0..=255).flat_map(|byte| (1..=ports).map(move |tool| (byte, tool))) {
            let (from, to) = (u32::from(byte >> 4), u32::from(byte & 0x0F));
            let good = is_port(from) && is_port(to) && from != to;
            let expected = match (good, tool == 1 || tool == from || tool == to) {
                (false, _) => 10,
                (true, false) => 11,
                (true, true) => 0,
            };
            let payload = by_name(byte, entry(RATE, FIRST, 0));
            let mut after = unit.clone();
            assert_eq!(message(&mut after, tool, TOOL, &payload).0, expected, "{ports} ports, {byte:02X} from {tool}");
            let changed: Vec<_> = after.names.iter().filter(|(_, names)| !names.is_empty()).collect();
            assert_eq!(changed.len(), usize::from(expected == 0));
            assert!(changed.iter().all(|(pair, _)| **pair == (from, to)));
            assert_eq!(after.pairs, unit.pairs);
        }
    }
}

/// Every length from 8 to 30: 23 alone is right.
#[test]
fn every_length() {
    let mut unit = with_names(Pair::Pass(vec![]), &[]);
    for length in (8..=30).chain([1785]) {
        let mut payload = by_name(0x21, entry(RATE, FIRST, 0));
        payload.resize(length, 0xFF);
        let expected = if length == 23 { 0 } else { 12 };
        assert_eq!(number(&mut unit, &payload), expected, "{length} bytes");
        payload[2..5].fill(0xFF);
        let expected = if length == 23 { no_pgn(1) } else { (12, None) };
        assert_eq!(wrong(&mut unit, &payload), expected, "{length} bytes, no PGN");
    }
    assert_eq!(number(&mut unit, &by_name(0x21, entry(RATE, FIRST, 0))[..7]), 7);
}

/// All faults at once, mended one after the other: 9 no more, 10, 11, 12, 22, 15, 16.
#[test]
fn order() {
    let mut unit = with_names(Pair::Cleared, &[]);
    let bad = entry(0xFEF100, FIRST, 0);
    let payload = by_name(0x22, bad);
    assert_eq!(message(&mut unit, 3, TOOL, &payload[..22]).0, 10);
    let payload = by_name(0x2F, bad);
    assert_eq!(message(&mut unit, 3, TOOL, &payload[..22]).0, 10);
    let payload = by_name(0x21, bad);
    assert_eq!(message(&mut unit, 3, TOOL, &payload[..22]).0, 11);
    assert_eq!(message(&mut unit, 2, TOOL, &payload[..22]).0, 12);
    assert_eq!(wrong(&mut unit, &payload), no_pgn(1));
    assert_eq!(number(&mut unit, &by_name(0x21, entry(RATE, FIRST, 0))), 15);
    set(&mut unit, 2, 1, Pair::Block(vec![]));
    for mask in 0..8 {
        assert_eq!(number(&mut unit, &by_name(0x21, entry(RATE, FIRST, mask))), 0);
    }
    assert_eq!(number(&mut unit, &by_name(0x21, entry(RATE, FIRST, 8))), 16);
    assert_eq!(wrong(&mut unit, &payload), no_pgn(1));
    let mut unit = claiming();
    assert_eq!(number(&mut unit, &by_name(0x21, entry(RATE, FIRST, 0))), 6);
}

/// A neighbour's tool is told 11 whatever the pair has, and fills no pair but its own.
#[test]
fn a_neighbour_learns_nothing() {
    let eight: Vec<NameEntry> = (0..8).map(|mask| entry(RATE, FIRST, mask)).collect();
    for names in [vec![], vec![eight[0]], eight] {
        let mut unit = with_names(Pair::Pass(vec![]), &names);
        assert_eq!(message(&mut unit, 3, TOOL, &by_name(0x21, entry(RATE, FIRST, 0))).0, 11);
        set(&mut unit, 2, 3, Pair::Pass(vec![]));
        assert_eq!(message(&mut unit, 3, TOOL, &by_name(0x23, entry(RATE, FIRST, 0))).0, 0);
        assert_eq!(unit.names[&(2, 1)], names);
    }
}

/// Replies, entries and Delete are about the list alone.
#[test]
fn the_list_alone_is_told() {
    let names = [entry(RATE, FIRST, 0), entry(61441, FIRST, 0)];
    let mut unit = with_names(Pair::Pass(vec![61440]), &names);
    let plain = with_names(Pair::Pass(vec![61440]), &[]);
    for payload in
        ["00 21 FF FF FF FF FF FF", "83 21 02 FF FF FF FF FF", "83 21 03 FF FF FF FF FF", "80 FF 03 FF FF FF FF FF"]
    {
        assert_eq!(message(&mut unit, 1, TOOL, &hex(payload)), message(&mut plain.clone(), 1, TOOL, &hex(payload)));
    }
    assert_eq!(wrong(&mut unit, &command(3, 0x21, 0, &[RATE])), absent(1, 1, RATE));
    assert_eq!(wrong(&mut unit, &command(3, 0x21, 0, &[61440, 61441])), absent(2, 1, 61441));
    assert_eq!(number(&mut unit, &command(2, 0x21, 0, &[RATE])), 0);
    assert_eq!((list(&unit, 2, 1), &unit.names[&(2, 1)][..]), (vec![61440, RATE], &names[..]));
    assert_eq!(number(&mut unit, &command(3, 0x21, 0, &[61440, RATE])), 0);
    assert_eq!(unit.names[&(2, 1)], names, "Delete leaves them");
    assert_eq!(asked(&mut unit, RATE, 0x81), (ListedInPass, 1, true));
}

/// Clear empties both, of every pair that it names; Create finds none, and an emptied list keeps them.
#[test]
fn clear_and_create() {
    for (byte, cleared) in [(0x21, vec![(2, 1)]), (0x2F, vec![(2, 1), (2, 3), (2, 4)])] {
        let mut unit = claimed();
        for pair in unit.pairs.values_mut() {
            *pair = Pair::Pass(vec![61440]);
        }
        unit.names.values_mut().for_each(|names| *names = vec![entry(RATE, FIRST, 0)]);
        assert_eq!(number(&mut unit, &command(4, byte, 0, &[])), 0);
        for (pair, names) in &unit.names {
            assert_eq!(names.is_empty(), cleared.contains(pair), "{pair:?}");
        }
        assert_eq!(number(&mut unit, &command(6, byte, 1, &[61440])), 0);
        assert!(cleared.iter().all(|pair| unit.names[pair].is_empty()));
    }
    let mut unit = with_names(Pair::Pass(vec![61440]), &[entry(RATE, FIRST, 0)]);
    let (_, _, mut reply) = message(&mut unit, 1, TOOL, &command(0, 0x21, 0, &[]));
    assert_eq!(number(&mut unit, &command(4, 0x21, 0, &[])), 0);
    assert_eq!(asked(&mut unit, RATE, 0x82), (Cleared, 0, false));
    reply[0] = 6;
    assert_eq!(number(&mut unit, &reply), 0);
    assert_eq!(asked(&mut unit, RATE, 0x81), (StoppedAsNotListed, 1, false), "there and back is the list alone");
}

/// Power-on leaves none, whatever there was.
#[test]
fn power_on() {
    for ports in 2..=8 {
        let unit = claimed_with(ports);
        assert_eq!(unit.names.len(), unit.pairs.len());
        assert!(unit.names.values().all(Vec::is_empty));
    }
}
