//! The customer's demands over generated lists of calls.

mod common;

use std::collections::BTreeMap;

use common::*;
use reference::address::{ClaimState, Holder};
use reference::coverage::{
    Coverage, ABSENT_PAIRS, ABSENT_PLACES, BY_FUNCTION, DEEP, DESTINATIONS, EVENTS, HALVED, LENGTHS, LETTERS,
    LIST_GAPS, LIST_LENGTHS, LIST_PLACES, MASK_BITS, MODES, NAMED, NAME_LENGTHS, NAME_PLACES, PRIORITIES,
    PROBES_ABSENT, PROBES_FOUND, STATES, WAITING, WRONG_PLACES,
};
use reference::frame::{pgn, priority, Frame, PERMANENT};
use reference::generate::{generate, Random};
use reference::names::NameEntry;
use reference::pair::Pair;
use reference::parameters::{Counter, HELD};
use reference::script::{apply, write_call, Answer, Call};
use reference::unit::Unit;

const CALLS: usize = 8000;

/// Makes every call of a generated list, on units of every number of ports, and shows the unit before and after it.
fn each_call(seed: u64, mut look: impl FnMut(&Unit, &Call, &Answer, &Unit)) {
    let mut unit = None;
    for call in generate(seed, CALLS) {
        let before = unit.clone();
        let answer = apply(&mut unit, &call).expect("a unit");
        if let (Some(before), Some(after)) = (&before, &unit) {
            look(before, &call, &answer, after);
        }
    }
}

#[test]
fn demand_1_refusals_change_nothing() {
    each_call(101, |before, call, answer, after| {
        if let Call::PowerOn { name, preferred, ports } = call {
            let taken = (2..=8).contains(ports);
            assert_eq!(answer.number(), if taken { 0 } else { 27 });
            assert_eq!(*after, Unit::power_on_ports(*name, *preferred, if taken { *ports } else { 4 }).0);
        } else if answer.number() != 0 {
            assert_eq!(before, after);
        }
        if let Answer::Message(given, written) = answer {
            let silent = (1..=8).contains(&given.number);
            assert_eq!(written.is_empty(), silent);
            assert!(given.number < 9 || written.len() == 8);
        }
    });
}

/// Reading the unit changes nothing, and it tells what its calls made of it: Start's state is the unit's from then on.
#[test]
fn start_and_the_unit_tell_the_same() {
    each_call(108, |before, call, answer, after| match (call, answer) {
        (Call::Unit, Answer::Unit(told)) => {
            assert_eq!(before, after);
            assert_eq!((told.state, told.address, told.name), (after.state, after.address(), after.name));
        }
        (Call::Start, Answer::Start(Ok(told))) => {
            assert_eq!(told.state, after.tell().state);
            assert_eq!(told.state == ClaimState::Lost, after.address().is_none());
        }
        _ => {}
    });
}

#[test]
fn demand_2_no_frame_back_and_no_other_pair() {
    each_call(102, |before, call, answer, after| match (call, answer) {
        (Call::Frame { port, .. }, Answer::Frame(Ok(given))) => {
            assert!(!given.accepted.contains(port) && !given.lost.contains(port));
            assert_eq!((&before.pairs, &before.names), (&after.pairs, &after.names));
            for (pair, counter) in &after.losses.pairs {
                let lost = pair.0 == *port && given.lost.contains(&pair.1);
                assert!(lost || *counter == before.losses.pairs[pair]);
            }
        }
        (Call::Message { payload, .. }, Answer::Message(given, _)) if given.number == 0 => {
            let (from, to) = (u32::from(payload[1] >> 4), u32::from(payload[1] & 15));
            for (pair, filter) in &after.pairs {
                let named = pair.0 == from && (pair.1 == to || to == 15);
                assert!(named && payload[0] < 64 || *filter == before.pairs[pair]);
                assert!(named && [4, 7].contains(&payload[0]) || after.names[pair] == before.names[pair]);
                assert!(named && payload[0] == 133 || after.losses.pairs[pair] == before.losses.pairs[pair]);
            }
            assert_eq!((&before.queues, &before.table), (&after.queues, &after.table));
            assert_eq!(before.counts, after.counts);
            assert!(payload[0] == 130 || before.losses.general == after.losses.general);
        }
        (Call::PowerOn { .. }, _) => {}
        (Call::Start, _) => {
            assert_eq!((&before.pairs, &before.names), (&after.pairs, &after.names));
            assert_eq!(before.losses.pairs, after.losses.pairs);
        }
        _ => {
            assert_eq!((&before.pairs, &before.names), (&after.pairs, &after.names));
            assert_eq!(before.losses, after.losses);
        }
    });
}

/// A claim or a request that is neither refused nor consumed is accepted or lost at every other port.
#[test]
fn demand_2_permanent_pgns_cross_every_pair() {
    let mut tried = 0;
    each_call(109, |before, call, answer, _| {
        let (Call::Frame { port, id, .. }, Answer::Frame(Ok(given))) = (call, answer) else { return };
        if PERMANENT.contains(&pgn(*id)) && !given.consumed {
            let mut named: Vec<u32> = given.accepted.iter().chain(&given.lost).copied().collect();
            named.sort();
            assert_eq!((named, given.compared), (before.other_ports(*port), 0));
            tried += 1;
        }
    });
    assert!(tried > 300, "{tried}");
}

/// Other lists, NAME entries, addresses and counters beyond those of port p.
fn scrambled(unit: &Unit, port: u32, random: &mut Random) -> Unit {
    let mut other = unit.clone();
    for (pair, filter) in other.pairs.iter_mut() {
        if pair.0 != port && pair.1 != port {
            let entries = pgns(random.below(33));
            *filter = match random.below(3) {
                0 => Pair::Cleared,
                1 => Pair::Block(entries),
                _ => Pair::Pass(entries),
            };
        }
    }
    for (pair, names) in other.names.iter_mut() {
        if pair.0 != port && pair.1 != port {
            let count = random.below(9);
            let entry = |_| NameEntry { pgn: 61440 + random.below(3), name: random.number(), mask: random.number() };
            *names = (0..count).map(entry).collect();
        }
    }
    for (pair, counter) in other.losses.pairs.iter_mut() {
        if pair.0 != port && pair.1 != port {
            *counter = Counter(random.number() >> random.below(64));
        }
    }
    other.losses.general = Counter(random.number() >> random.below(64));
    other.table.retain(|_, holder| holder.port == port);
    for address in 0..254 {
        if other.address() != Some(address) && !other.table.contains_key(&address) && random.once_in(3) {
            let name = 0x7000_0000_0000_0000 + u64::from(address);
            other.table.insert(address, Holder { name, port: port % unit.ports + 1 });
        }
    }
    other
}

/// For a tool on a port other than 1 the answer does not depend on a neighbour's lists, NAME entries, addresses and counters.
#[test]
fn demand_2_privacy() {
    let mut random = Random::new(1);
    let (mut tried, mut wrong_entries, mut losses) = (0, 0, 0);
    let mut look = |before: &Unit, call: &Call, answer: &Answer, _: &Unit| {
        let Call::Message { port, requester, payload } = call else { return };
        let Answer::Message(given, written) = answer else { return };
        if (2..=before.ports).contains(port) && before.state == ClaimState::Claimed {
            let mut other = scrambled(before, *port, &mut random);
            let (told, bytes) = told(&mut other, *port, *requester, payload, 1785);
            assert_eq!((told, &bytes), (*given, written));
            tried += 1;
            wrong_entries += usize::from(told.wrong.is_some());
            losses += usize::from(told.number == 0 && payload[0] == 131 && payload[2] == 9);
        }
    };
    [103, 110].into_iter().for_each(|seed| each_call(seed, &mut look));
    assert!(tried > 300 && wrong_entries > 30 && losses > 5, "{tried}, {wrong_entries}, {losses}");
}

/// A reported list with entries, sent back as Create to a cleared pair, gives that list again.
#[test]
fn demand_2_round_trip() {
    for (count, mode) in (1..=32).flat_map(|count| [(count, 0), (count, 1)]) {
        for ports in 2..=8 {
            let (mut unit, pair) = (claimed_with(ports), (ports * 16 + 1) as u8);
            assert_eq!(number(&mut unit, &command(6, pair, mode, &pgns(count))), 0);
            let (_, _, mut reply) = message(&mut unit, 1, TOOL, &command(0, pair, 0, &[]));
            let listed = unit.pairs[&(ports, 1)].clone();
            assert_eq!(number(&mut unit, &command(4, pair, 0, &[])), 0);
            reply[0] = 6;
            assert_eq!(number(&mut unit, &reply), 0);
            assert_eq!(unit.pairs[&(ports, 1)], listed);
        }
    }
}

/// A frame that waits, with the counts of demand 3.
struct Waiting {
    frame: Frame,
    equal_or_higher_before: usize,
    higher_after: usize,
    takes: usize,
}

/// A frame joins: A counts those that wait with equal or higher rank, B rises for those of lower rank.
fn joined(row: &mut Vec<Waiting>, frame: &Frame) {
    let rank = priority(frame.id);
    for other in row.iter_mut() {
        other.higher_after += usize::from(rank < priority(other.frame.id));
    }
    let before = row.iter().filter(|other| priority(other.frame.id) <= rank).count();
    row.push(Waiting { frame: frame.clone(), equal_or_higher_before: before, higher_after: 0, takes: 0 });
}

/// A take: the one frame whose number of takes is 1 + A + B leaves.
fn leaving(row: &mut Vec<Waiting>) -> Option<Frame> {
    for waiting in row.iter_mut() {
        waiting.takes += 1;
    }
    let due = |waiting: &Waiting| waiting.takes == 1 + waiting.equal_or_higher_before + waiting.higher_after;
    assert!(row.iter().filter(|waiting| due(waiting)).count() <= 1);
    assert!(row.iter().all(|waiting| waiting.takes <= 1 + waiting.equal_or_higher_before + waiting.higher_after));
    let index = row.iter().position(due)?;
    Some(row.remove(index).frame)
}

#[test]
fn demand_3_every_frame_leaves_at_its_take() {
    for seed in [104, 105] {
        let mut rows: BTreeMap<u32, Vec<Waiting>> = (1..=8).map(|port| (port, Vec::new())).collect();
        each_call(seed, |before, call, answer, after| {
            if matches!(call, Call::PowerOn { .. }) {
                rows.values_mut().for_each(Vec::clear);
                return;
            }
            if let (Call::Take { port }, Answer::Take(Ok(given))) = (call, answer) {
                let row = rows.get_mut(port).unwrap();
                let empty = row.is_empty();
                assert_eq!(leaving(row), *given);
                assert_eq!(given.is_none(), empty);
            } else {
                for port in after.all_ports() {
                    let (old, new) = (&before.queues[&port], &after.queues[&port]);
                    assert!(old.iter().eq(new.iter().take(old.len())), "only a take makes a frame leave");
                    new.iter().skip(old.len()).for_each(|frame| joined(rows.get_mut(&port).unwrap(), frame));
                }
            }
            for port in after.all_ports() {
                assert!(rows[&port].iter().map(|waiting| &waiting.frame).eq(after.queues[&port].iter()));
                assert!(after.queues[&port].len() <= 32);
            }
        });
    }
}

/// The forwarded frame joins the accepted ports, the unit's own frame all but those named.
#[test]
fn demand_3_ports_named() {
    each_call(106, |before, call, answer, after| {
        let Call::Frame { id, bytes, .. } = call else { return };
        let Answer::Frame(Ok(given)) = answer else { return };
        let frame = Frame { id: *id, bytes: bytes.clone() };
        let new = |port: u32| after.queues[&port].iter().skip(before.queues[&port].len()).cloned().collect::<Vec<_>>();
        let own = after.all_ports().find_map(|port| new(port).into_iter().find(|joined| *joined != frame));
        for port in after.all_ports() {
            let mut expected = Vec::new();
            if given.accepted.contains(&port) {
                expected.push(frame.clone());
            }
            if !given.own_lost.contains(&port) {
                expected.extend(own.clone());
            }
            assert_eq!(new(port), expected);
            let lost = given.lost.contains(&port) || given.own_lost.contains(&port);
            assert!(!lost || after.queues[&port].len() == 32);
        }
    });
}

/// What holds of the record after every call.
#[test]
fn invariants_of_the_record() {
    each_call(107, |_, _, _, after| {
        assert!(after.address().iter().all(|address| !after.table.contains_key(address)));
        assert!(after.table.values().all(|holder| holder.name != after.name));
        let mut names: Vec<u64> = after.table.values().map(|holder| holder.name).collect();
        names.sort();
        names.dedup();
        assert_eq!(names.len(), after.table.len(), "one address for each NAME");
        for filter in after.pairs.values() {
            let mut entries = filter.entries().to_vec();
            entries.sort();
            entries.dedup();
            assert_eq!(entries.len(), filter.entries().len());
            assert!(entries.len() <= 32);
        }
    });
}

/// The generator reaches every number but 2, every event, state and mode, and the deep rows.
#[test]
fn generator_reaches_deep_states() {
    let mut coverage = Coverage::default();
    for seed in [1, 2, 3] {
        let lines: Vec<String> = generate(seed, 20_000).iter().map(write_call).collect();
        coverage.count_script(lines.join("\n").as_bytes());
    }
    for number in (0..=18).chain([22, 23, 27]).filter(|&number| number != 2) {
        let reached: u64 = LETTERS.iter().map(|letter| coverage.reached(&format!("number {number} {letter}"))).sum();
        assert!(reached > 0, "number {number}");
    }
    assert!(EVENTS.iter().all(|row| coverage.reached(&format!("event {row}")) > 0));
    assert!(STATES.iter().all(|row| coverage.reached(&format!("state {row}")) > 0));
    assert!(STATES.iter().all(|row| coverage.reached(&format!("told {row}")) > 0));
    assert!(STATES.iter().all(|row| coverage.reached(&format!("counts in {row}")) > 0));
    assert!(PRIORITIES.clone().all(|priority| coverage.reached(&format!("counts with priority {priority}")) > 0));
    assert!(MODES.iter().all(|row| coverage.reached(&format!("mode {row}")) > 0));
    assert!((0..=6).all(|reason| coverage.reached(&format!("reason {reason}")) > 0));
    assert!(DESTINATIONS.iter().all(|row| coverage.reached(&format!("permanent to {row}")) > 0));
    assert!(LENGTHS.iter().all(|row| coverage.reached(&format!("permanent of {row}")) > 0));
    for ports in 2..=8 {
        assert!(coverage.reached(&format!("ports {ports}")) > 0, "{ports} ports");
    }
    for waiting in WAITING {
        assert!(coverage.reached(&format!("counts of queues with {waiting}")) > 0, "{waiting} waiting");
    }
    for place in WRONG_PLACES {
        assert!(coverage.reached(&format!("22 at entry {place}")) > 0, "22 at {place}");
    }
    for place in ABSENT_PLACES {
        assert!(coverage.reached(&format!("17 at entry {place}")) > 0, "17 at {place}");
    }
    for place in ABSENT_PAIRS {
        assert!(coverage.reached(&format!("17 at pair {place} of To 15")) > 0, "17 at pair {place}");
    }
    for (function, numbers) in BY_FUNCTION {
        for number in numbers {
            assert!(coverage.reached(&format!("function {function} number {number}")) > 0, "{function}: {number}");
        }
    }
    for held in HELD {
        assert!(coverage.reached(&format!("parameter {held} in general")) > 0, "parameter {held}");
        assert!(coverage.reached(&format!("parameter {held} of a pair")) > 0, "parameter {held}");
    }
    for length in NAME_LENGTHS {
        assert!(coverage.reached(&format!("function 7 of length {length}")) > 0, "function 7 of {length}");
    }
    assert!(MASK_BITS.clone().all(|bit| coverage.reached(&format!("masks of bit {bit}")) > 0));
    assert!(NAME_PLACES.clone().all(|place| coverage.reached(&format!("matched NAME entry {place}")) > 0));
    for (row, places) in [
        ("lists looked up of length", LIST_LENGTHS),
        ("listed PGN found at place", LIST_PLACES),
        ("absent PGN above so many", LIST_GAPS),
        ("listed PGN by probes", PROBES_FOUND),
        ("absent PGN by probes", PROBES_ABSENT),
    ] {
        for place in places {
            assert!(coverage.reached(&format!("{row} {place}")) > 0, "{row} {place}");
        }
    }
    for row in DEEP.iter().chain(&NAMED).chain(&HALVED) {
        assert!(coverage.reached(row) > 0, "{row}");
    }
}
