//! Helpers of the tests. Every call goes through a check that a refusal changes no state
//! and that the reply buffer past the written length is untouched.
#![allow(dead_code)]

use reference::address::{ClaimState, Event, Holder, StartAnswer};
use reference::frame::Frame;
use reference::message::{MessageAnswer, WrongEntry};
use reference::pair::Pair;
use reference::unit::{FrameAnswer, Unit};

/// The ports of a unit with four.
pub const PORTS: [u32; 4] = [1, 2, 3, 4];
/// The unit's NAME in the tests; some NAMEs are above it and some below.
pub const NAME: u64 = 0x20001C000AC00123;
/// An address that no example uses.
pub const ADDRESS: u32 = 200;
/// The requester of the examples.
pub const TOOL: u32 = 0x21;

/// Bytes from hex digits, blanks ignored.
pub fn hex(text: &str) -> Vec<u8> {
    let digits: Vec<u32> = text.chars().filter_map(|digit| digit.to_digit(16)).collect();
    digits.chunks(2).map(|pair| (pair[0] * 16 + pair[1]) as u8).collect()
}

pub fn unstarted() -> Unit {
    Unit::power_on(NAME, ADDRESS)
}

/// A unit that is Claimed, with so many ports.
pub fn claimed_with(ports: u32) -> Unit {
    let (mut unit, result) = Unit::power_on_ports(NAME, ADDRESS, ports);
    assert_eq!((result, unit.start()), (Ok(()), started(ClaimState::Claiming, &[])));
    drain(&mut unit);
    assert_eq!(unit.quiet(), Ok(()));
    unit
}

/// Start's answer where it is not refused.
pub fn started(state: ClaimState, own_lost: &[u32]) -> Result<StartAnswer, u32> {
    Ok(StartAnswer { state, own_lost: own_lost.to_vec() })
}

pub fn claiming() -> Unit {
    let mut unit = unstarted();
    assert_eq!(unit.start(), started(ClaimState::Claiming, &[]));
    drain(&mut unit);
    unit
}

/// The unit before P5: Claimed, all pairs cleared, all queues empty.
pub fn claimed() -> Unit {
    let mut unit = claiming();
    assert_eq!(unit.quiet(), Ok(()));
    unit
}

pub fn lost() -> Unit {
    let mut unit = claimed();
    assert_eq!(claim(&mut unit, 1, ADDRESS, NAME - 1).event, Event::Displaced);
    drain(&mut unit);
    unit
}

pub fn drain(unit: &mut Unit) {
    for port in unit.all_ports() {
        while unit.take(port).expect("a good port").is_some() {}
    }
}

/// A frame that must not be refused.
pub fn frame(unit: &mut Unit, port: u32, id: u32, bytes: &[u8]) -> FrameAnswer {
    unit.frame(port, id, bytes).expect("not refused")
}

/// The number of a frame, 0 if it is not refused.
pub fn frame_number(unit: &mut Unit, port: u32, id: u32, bytes: &[u8]) -> u32 {
    let before = unit.clone();
    let answer = unit.frame(port, id, bytes);
    if let Err(number) = answer {
        assert_eq!(*unit, before, "number {number} changed the state");
    }
    answer.err().unwrap_or(0)
}

/// A claim of a NAME for an address.
pub fn claim(unit: &mut Unit, port: u32, address: u32, name: u64) -> FrameAnswer {
    frame(unit, port, 0x18EEFF00 + address, &name.to_le_bytes())
}

/// A message with a buffer of 1,785 bytes: number, PGN, bytes written.
pub fn message(unit: &mut Unit, port: u32, requester: u32, payload: &[u8]) -> (u32, u32, Vec<u8>) {
    message_with(unit, port, requester, payload, 1785)
}

/// A message with a buffer of some length: number, PGN, bytes written.
pub fn message_with(unit: &mut Unit, port: u32, requester: u32, payload: &[u8], length: usize) -> (u32, u32, Vec<u8>) {
    let (answer, written) = told(unit, port, requester, payload, length);
    (answer.number, answer.pgn, written)
}

/// A message's whole answer, and the bytes written.
pub fn told(unit: &mut Unit, port: u32, requester: u32, payload: &[u8], length: usize) -> (MessageAnswer, Vec<u8>) {
    let before = unit.clone();
    let mut reply = vec![0xA5; length];
    let answer = unit.message(port, requester, payload, &mut reply);
    assert!(reply[answer.length..].iter().all(|&byte| byte == 0xA5), "bytes past the length were touched");
    if answer.number != 0 {
        assert_eq!(*unit, before, "number {} changed the state", answer.number);
    }
    let written = reply[..answer.length].to_vec();
    match answer.number {
        0 => assert!(answer.pgn == 60672 || answer.pgn == 59392),
        1..=8 => assert_eq!((answer.pgn, answer.length), (0, 0)),
        number => {
            let control = if number == 11 { 2 } else { 1 };
            assert_eq!(answer.pgn, 59392);
            assert_eq!(written, [control, payload[0], 0xFF, 0xFF, requester as u8, 0x00, 0xED, 0x00]);
        }
    }
    assert_eq!((&unit.queues, &unit.counts), (&before.queues, &before.counts), "messages touch no row");
    assert_eq!(unit.table, before.table);
    let resets = matches!(payload.first(), Some(130 | 133));
    assert!(resets || unit.losses == before.losses, "a message touches no counter but by a reset");
    assert!(!resets || unit.pairs == before.pairs, "a reset touches no list");
    match answer.wrong {
        None => assert!(![17, 22].contains(&answer.number)),
        Some(WrongEntry::NoPgn { .. }) => assert_eq!(answer.number, 22),
        Some(WrongEntry::Absent { .. }) => assert_eq!(answer.number, 17),
    }
    (answer, written)
}

/// The number of a message from the service port's tool, and which entry was wrong.
pub fn wrong(unit: &mut Unit, payload: &[u8]) -> (u32, Option<WrongEntry>) {
    let (answer, _) = told(unit, 1, TOOL, payload, 1785);
    (answer.number, answer.wrong)
}

/// 22 at an entry.
pub fn no_pgn(entry: usize) -> (u32, Option<WrongEntry>) {
    (22, Some(WrongEntry::NoPgn { entry }))
}

/// 17 at an entry, for the pair to a port.
pub fn absent(entry: usize, to: u32, pgn: u32) -> (u32, Option<WrongEntry>) {
    (17, Some(WrongEntry::Absent { entry, to, pgn }))
}

/// The number of a message from the service port's tool.
pub fn number(unit: &mut Unit, payload: &[u8]) -> u32 {
    message(unit, 1, TOOL, payload).0
}

/// The number of a message given in hex, from some port.
pub fn number_at(unit: &mut Unit, port: u32, payload: &str) -> u32 {
    message(unit, port, TOOL, &hex(payload)).0
}

/// A command in good form.
pub fn command(function: u8, pair: u8, mode: u8, pgns: &[u32]) -> Vec<u8> {
    let mut payload = vec![function, pair];
    if function == 6 {
        payload.push(mode);
    }
    for pgn in pgns {
        payload.extend_from_slice(&pgn.to_le_bytes()[..3]);
    }
    while payload.len() < 8 {
        payload.push(0xFF);
    }
    payload
}

/// So many different PGNs, from 61440 on.
pub fn pgns(count: u32) -> Vec<u32> {
    (0..count).map(|index| 61440 + index).collect()
}

pub fn list(unit: &Unit, from: u32, to: u32) -> Vec<u32> {
    unit.pairs[&(from, to)].entries().to_vec()
}

pub fn set(unit: &mut Unit, from: u32, to: u32, pair: Pair) {
    unit.pairs.insert((from, to), pair);
}

pub fn holder(unit: &Unit, address: u32) -> Option<(u64, u32)> {
    unit.table.get(&address).map(|&Holder { name, port }| (name, port))
}

pub fn waiting(unit: &Unit, port: u32) -> usize {
    unit.queues[&port].len()
}

pub fn front(unit: &Unit, port: u32) -> Frame {
    unit.queues[&port].front().expect("a frame waits").clone()
}

/// Puts so many frames at one port alone, counted as if they had been accepted.
pub fn fill(unit: &mut Unit, port: u32, count: usize) {
    for _ in 0..count {
        let filler = Frame { id: 0x1CFEF100, bytes: vec![] };
        unit.queues.get_mut(&port).expect("a port").push_back(filler);
    }
    let counts = unit.counts.get_mut(&port).expect("a port");
    counts.waiting[7] += count as u64;
    counts.accepted += count as u64;
    assert!(unit.counts_hold());
}
