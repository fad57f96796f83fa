//! A number of ports from 2 to 8, chosen at power-on; every rule with that number.

mod common;

use common::*;
use reference::address::Event;
use reference::pair::Pair;
use reference::unit::Unit;

/// The ports of a unit but one.
fn others(unit: &Unit, port: u32) -> Vec<u32> {
    (1..=unit.ports).filter(|&other| other != port).collect()
}

#[test]
fn power_on_with_every_count() {
    for ports in 2..=8 {
        let (unit, result) = Unit::power_on_ports(NAME, ADDRESS, ports);
        assert_eq!((result, unit.ports, unit.tell().ports), (Ok(()), ports, ports));
        assert_eq!(unit.pairs.len() as u32, ports * (ports - 1));
        assert!(unit.pairs.iter().all(|(&(from, to), pair)| from != to && *pair == Pair::Cleared));
        assert!(unit.queues.keys().copied().eq(1..=ports));
        assert!(unit.queues.values().all(|queue| queue.is_empty()));
    }
    assert_eq!(Unit::power_on_ports(NAME, ADDRESS, 4).0, Unit::power_on(NAME, ADDRESS));
    assert_eq!(claimed_with(8).pairs.len(), 56);
}

/// 27 hands back the unit as with four ports.
#[test]
fn number_27_port_count() {
    for (ports, given) in [(0, 27), (1, 27), (2, 0), (8, 0), (9, 27), (16, 27), (256 + 4, 27), (u32::MAX, 27)] {
        let (unit, result) = Unit::power_on_ports(NAME, ADDRESS, ports);
        assert_eq!(result.err().unwrap_or(0), given, "{ports}");
        if given == 27 {
            assert_eq!(unit, Unit::power_on(NAME, ADDRESS));
        }
    }
}

#[test]
fn number_1_reads_with_the_count() {
    for ports in 2..=8 {
        for port in [0, 1, ports, ports + 1, 9, 15, 256 + 1, u32::MAX] {
            let given = if (1..=ports).contains(&port) { 0 } else { 1 };
            let mut unit = claimed_with(ports);
            assert_eq!(frame_number(&mut unit, port, 0x18FEF100, &[]), given);
            assert_eq!(unit.take(port).err().unwrap_or(0), given);
            assert_eq!(message(&mut unit, port, TOOL, &command(64, port as u8, 0, &[])).0, given);
        }
    }
}

/// Every pair byte of every function, from port 1 and from the last. With two ports To 15 names one pair, which is the
/// other port's too.
#[test]
fn numbers_10_and_11_read_with_the_count() {
    for ports in 2..=8 {
        let unit = claimed_with(ports);
        let is_port = |port: u32| (1..=ports).contains(&port);
        for (byte, tool) in (0..=255).flat_map(|byte| [(byte, 1), (byte, ports)]) {
            let (from, to) = (u32::from(byte >> 4), u32::from(byte & 0x0F));
            for function in [0, 2, 3, 4, 6] {
                let all = to == 15 && function != 0;
                let named = is_port(from) && from != to && (is_port(to) || all);
                let own = tool == 1 || from == tool || to == tool || (all && ports == 2);
                let given = message(&mut unit.clone(), tool, TOOL, &command(function, byte, 0, &[61440])).0;
                assert_eq!(given == 10, !named, "{ports} ports, {function} {byte:02X}");
                assert_eq!(given == 11, named && !own, "{ports} ports, {function} {byte:02X} from {tool}");
            }
            for function in [131, 133] {
                let expected =
                    match (is_port(from) && is_port(to) && from != to, tool == 1 || from == tool || to == tool) {
                        (false, _) => 10,
                        (true, false) => 11,
                        (true, true) => 0,
                    };
                let given = message(&mut unit.clone(), tool, TOOL, &[function, byte, 9, 0, 0, 0, 0, 0]).0;
                assert_eq!(given, expected, "{ports} ports, {function} {byte:02X} from {tool}");
            }
            let given = message(&mut unit.clone(), tool, TOOL, &command(64, byte, 0, &[])).0;
            let expected = if !is_port(to) {
                10
            } else if tool != 1 && tool != to {
                11
            } else {
                0
            };
            assert_eq!(given, expected, "{ports} ports, 64 {byte:02X} from {tool}");
        }
    }
}

/// To 15 is every pair from that port: one with two ports, seven with eight.
#[test]
fn to_15_is_all_pairs_of_the_count() {
    for ports in 2..=8 {
        for from in 1..=ports {
            let mut unit = claimed_with(ports);
            assert_eq!(message(&mut unit, from, TOOL, &command(6, (from * 16 + 15) as u8, 1, &[65265])).0, 0);
            for (pair, filter) in &unit.pairs {
                let expected = if pair.0 == from { Pair::Pass(vec![65265]) } else { Pair::Cleared };
                assert_eq!(*filter, expected);
            }
            let last = *others(&unit, from).last().unwrap();
            set(&mut unit, from, last, Pair::Pass(vec![]));
            assert_eq!(number(&mut unit, &command(3, (from * 16 + 15) as u8, 0, &[65265])), 17);
            assert_eq!(number(&mut unit, &command(4, (from * 16 + 15) as u8, 0, &[])), 0);
            assert!(unit.pairs.values().all(Pair::is_cleared));
        }
    }
}

/// A frame goes to every other port; the compared counts of all its pairs are added. Its PGN is above those of the lists of 1 to 8.
#[test]
fn forwarding_to_every_other_port() {
    for ports in 2..=8 {
        for from in 1..=ports {
            let mut unit = claimed_with(ports);
            assert_eq!(frame(&mut unit, from, 0x18F00400, &[1]).accepted, others(&unit, from));
            for &to in &others(&unit, from) {
                set(&mut unit, from, to, Pair::Block(pgns(to)));
            }
            let probes: usize = others(&unit, from).iter().map(|&to| [1, 2, 2, 3, 3, 3, 3, 4][to as usize - 1]).sum();
            let answer = frame(&mut unit, from, 0x18FEF100, &[2]);
            assert_eq!((answer.accepted, answer.compared), (others(&unit, from), probes));
            assert_eq!(unit.take(from), Ok(None));
            for to in others(&unit, from) {
                let given: Vec<_> = (0..3).map(|_| unit.take(to).unwrap().map(|frame| frame.bytes)).collect();
                assert_eq!(given, [Some(vec![1]), Some(vec![2]), None]);
            }
        }
    }
}

/// The unit's own frames join every queue, and are lost where one is full.
#[test]
fn own_frames_at_every_port() {
    for ports in 2..=8 {
        let (mut unit, _) = Unit::power_on_ports(NAME, ADDRESS, ports);
        fill(&mut unit, ports, 32);
        assert_eq!(unit.start().map(|answer| answer.own_lost), Ok(vec![ports]));
        assert!((1..ports).all(|port| waiting(&unit, port) == 1));
        let answer = claim(&mut unit, 1, ADDRESS, NAME + 1);
        assert_eq!((answer.event, answer.lost, answer.own_lost), (Event::Defended, vec![ports], vec![ports]));
    }
}

/// An address is told at the port where it was claimed, the last one too.
#[test]
fn addresses_of_every_port() {
    for ports in 2..=8 {
        let mut unit = claimed_with(ports);
        for port in 1..=ports {
            claim(&mut unit, port, 10 + port, NAME + u64::from(port));
        }
        for port in 1..=ports {
            let reply = message(&mut unit, port, TOOL, &command(64, port as u8, 0, &[])).2;
            assert_eq!(reply[..3], [65, port as u8, 10 + port as u8]);
        }
    }
}
