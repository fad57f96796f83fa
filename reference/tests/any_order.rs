//! "Claims in any order": from power-on, if no claim is refused, each NAME claims one address only
//! and on one port only, none withdraws and none is the unit's, the final table is the same for every order of the same
//! claims, and each address goes to its lowest claimant, the unit counted as one where it has started.

mod common;

use std::collections::BTreeMap;

use common::*;
use reference::address::{ClaimState, Holder};
use reference::generate::Random;
use reference::unit::Unit;

const DAYS: u64 = 400;

/// An arrival port, an address and a NAME.
type Claim = (u32, u32, u64);

/// Claims of different NAMEs on so many ports, for few addresses, so that they meet; some for the unit's own.
fn claims(random: &mut Random, ports: u32) -> Vec<Claim> {
    (1..=u64::from(random.below(12)))
        .map(|i| {
            let name = if random.once_in(2) { NAME + i } else { NAME - i };
            (1 + random.below(ports), random.pick(&[0, 38, 39, 253, ADDRESS, ADDRESS]), name)
        })
        .collect()
}

fn shuffle(random: &mut Random, claims: &mut [Claim]) {
    for last in (1..claims.len()).rev() {
        claims.swap(last, random.below(last as u32 + 1) as usize);
    }
}

/// Calls that are no claims, some of them refused.
fn other_calls(random: &mut Random, unit: &mut Unit) {
    for _ in 0..random.below(4) {
        match random.below(7) {
            0 => drain(unit),
            1 => drop(unit.quiet()),
            2 => drop(unit.frame(random.below(10), 0x0CF00400, &[1])),
            3 => drop(unit.frame(2, 0x18EEFF26, &[1, 2, 3, 4, 5, 6, 7])),
            4 => drop(unit.frame(1, 0x18EAFFFE, &[0x00, 0xEE, 0x00])),
            5 => drop(unit.take(random.below(10))),
            _ => drop(message(unit, 1, TOOL, &[4, 0x12, 255, 255, 255, 255, 255, 255])),
        }
    }
}

/// A morning from power-on with so many ports. Start comes before the claim of this number, if at all.
fn morning(random: &mut Random, ports: u32, claims: &[Claim], start: Option<usize>) -> Unit {
    let (mut unit, result) = Unit::power_on_ports(NAME, ADDRESS, ports);
    assert_eq!(result, Ok(()));
    for (number, &(port, address, name)) in claims.iter().enumerate() {
        if start == Some(number) {
            assert!(unit.start().is_ok());
        }
        other_calls(random, &mut unit);
        claim(&mut unit, port, address, name);
    }
    if start == Some(claims.len()) {
        assert!(unit.start().is_ok());
    }
    other_calls(random, &mut unit);
    unit
}

/// The lowest claimant of each address, and whether the unit keeps its own.
fn settled(claims: &[Claim], started: bool) -> (BTreeMap<u32, Holder>, bool) {
    let mut table: BTreeMap<u32, Holder> = BTreeMap::new();
    for &(port, address, name) in claims {
        let holder = table.entry(address).or_insert(Holder { name, port });
        if name < holder.name {
            *holder = Holder { name, port };
        }
    }
    let keeps = started && table.get(&ADDRESS).is_none_or(|holder| NAME < holder.name);
    if keeps {
        table.remove(&ADDRESS);
    }
    (table, keeps)
}

fn expect(unit: &Unit, claims: &[Claim], started: bool) {
    let (table, keeps) = settled(claims, started);
    assert_eq!(unit.table, table);
    assert_eq!(unit.address().is_some(), keeps);
    assert_eq!(unit.state == ClaimState::Lost, started && !keeps);
}

#[test]
fn the_unit_is_unstarted() {
    let mut random = Random::new(1201);
    for _ in 0..DAYS {
        let ports = 2 + random.below(7);
        let mut claims = claims(&mut random, ports);
        for _ in 0..4 {
            shuffle(&mut random, &mut claims);
            expect(&morning(&mut random, ports, &claims, None), &claims, false);
        }
    }
}

#[test]
fn the_unit_was_started_before_the_first_claim() {
    let mut random = Random::new(1202);
    for _ in 0..DAYS {
        let ports = 2 + random.below(7);
        let mut claims = claims(&mut random, ports);
        for _ in 0..4 {
            shuffle(&mut random, &mut claims);
            expect(&morning(&mut random, ports, &claims, Some(0)), &claims, true);
        }
    }
}

/// More than the ticket asks: Start may stand anywhere, and claims may come again.
#[test]
fn started_anywhere_and_claims_again() {
    let mut random = Random::new(1203);
    for _ in 0..DAYS {
        let ports = 2 + random.below(7);
        let once = claims(&mut random, ports);
        for _ in 0..4 {
            let mut claims = once.clone();
            for _ in 0..random.below(4) {
                claims.extend(once.get(random.below(12) as usize));
            }
            shuffle(&mut random, &mut claims);
            let start = random.below(claims.len() as u32 + 1) as usize;
            expect(&morning(&mut random, ports, &claims, Some(start)), &once, true);
        }
    }
}

/// The tables of two orders of two claims.
fn both(first: Claim, second: Claim) -> [BTreeMap<u32, Holder>; 2] {
    [[first, second], [second, first]].map(|claims| {
        let mut unit = unstarted();
        for (port, address, name) in claims {
            claim(&mut unit, port, address, name);
        }
        unit.table
    })
}

#[test]
fn each_premise_is_needed() {
    let name = NAME + 1;
    let [one_address, then] = both((2, 5, name), (2, 6, name));
    assert_ne!(one_address, then);
    let [one_port, then] = both((2, 5, name), (3, 5, name));
    assert_ne!(one_port, then);
    let [none_withdraws, then] = both((2, 5, name), (2, 254, name));
    assert_ne!(none_withdraws, then);
    let [none_is_the_unit, _] = both((2, 5, NAME), (2, 5, NAME));
    assert!(none_is_the_unit.is_empty());
    let mut refused = unstarted();
    assert_eq!(frame_number(&mut refused, 5, 0x18EEFF05, &name.to_le_bytes()), 1);
    assert!(refused.table.is_empty());
    let (mut started, mut not_started) = (claiming(), unstarted());
    claim(&mut started, 2, ADDRESS, name);
    claim(&mut not_started, 2, ADDRESS, name);
    assert_ne!(started.table, not_started.table);
}
