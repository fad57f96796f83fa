//! The halving rule: the probes for each place of a list and for each gap, worked by hand; whatever the order of
//! addition; what else is counted and what is not.

mod common;

use common::*;
use reference::halving::{probes, rising};
use reference::pair::{Pair, Reason, LONGEST_LIST};
use reference::unit::Unit;

/// So many PGNs in rising order with room for one between two, below the first and above the last: 61442, 61444 ..
fn spaced(count: usize) -> Vec<u32> {
    (1..=count as u32).map(|place| 61440 + 2 * place).collect()
}

/// The probes for each PGN of such a list, and for each gap: below the first, between two, above the last.
fn counts(count: usize) -> (Vec<usize>, Vec<usize>) {
    let list = spaced(count);
    let gaps = (0..=count as u32).map(|place| 61441 + 2 * place);
    (list.iter().map(|&pgn| probes(&list, pgn)).collect(), gaps.map(|pgn| probes(&list, pgn)).collect())
}

/// The first probe of two is the lower, of four the second, of five the third.
#[test]
fn short_lists() {
    assert_eq!(counts(0), (vec![], vec![0]));
    assert_eq!(counts(1), (vec![1], vec![1, 1]));
    assert_eq!(counts(2), (vec![1, 2], vec![1, 2, 2]));
    assert_eq!(counts(3), (vec![2, 1, 2], vec![2, 2, 2, 2]));
    assert_eq!(counts(4), (vec![2, 1, 2, 3], vec![2, 2, 2, 3, 3]));
    assert_eq!(counts(5), (vec![2, 3, 1, 2, 3], vec![2, 3, 3, 2, 3, 3]));
}

/// Of 31 the halves are equal down to the last: 1, 2, 4, 8 and 16 PGNs have 1 to 5 probes, and every gap has 5.
#[test]
fn thirty_one() {
    let found = [
        [5, 4, 5, 3, 5, 4, 5, 2, 5, 4, 5, 3, 5, 4, 5].as_slice(),
        &[1],
        &[5, 4, 5, 3, 5, 4, 5, 2, 5, 4, 5, 3, 5, 4, 5],
    ];
    assert_eq!(counts(31), (found.concat(), vec![5; 32]));
}

/// Of 32 there are 15 below the first probe and 16 above it. Six are made for the greatest, for what is between the two
/// greatest, and above.
#[test]
fn thirty_two() {
    let found = [
        [5, 4, 5, 3, 5, 4, 5, 2, 5, 4, 5, 3, 5, 4, 5].as_slice(),
        &[1],
        &[5, 4, 5, 3, 5, 4, 5, 2],
        &[5, 4, 5, 3],
        &[5, 4, 5, 6],
    ];
    let gaps = [vec![5; 31], vec![6; 2]];
    assert_eq!(counts(32), (found.concat(), gaps.concat()));
}

/// At most one probe more than the length can be halved, 6 for 32; never more than there are entries; one at least
/// where there are some.
#[test]
fn ceiling() {
    for count in 0..=LONGEST_LIST {
        let (found, gaps) = counts(count);
        let most = [0, 1, 2, 2, 3, 3, 3, 3].get(count).copied().unwrap_or(match count {
            8..=15 => 4,
            16..=31 => 5,
            _ => 6,
        });
        assert_eq!(found.iter().chain(&gaps).max(), Some(&most), "{count}");
        assert_eq!(found.iter().filter(|&&made| made == 1).count(), count.min(1));
        assert!(gaps.iter().all(|&made| made >= usize::from(count > 0) && made <= count));
    }
}

/// Commands to the pair from 2 to 1; then what the frame of a PGN from port 2 counts there, the other pairs cleared.
fn count_after(commands: &[(u8, &[u32])], pgn: u32) -> usize {
    asked(&mut listed(commands), pgn)
}

fn listed(commands: &[(u8, &[u32])]) -> Unit {
    let mut unit = claimed();
    for (function, entries) in commands {
        assert_eq!(number(&mut unit, &command(*function, 0x21, 1, entries)), 0);
    }
    unit
}

fn asked(unit: &mut Unit, pgn: u32) -> usize {
    frame(unit, 2, 0x1800_0000 + (pgn << 8), &[]).compared
}

/// The count is that of the PGNs, in whatever order they were added and however the list came about; the reply shows
/// the order of addition.
#[test]
fn order_of_addition() {
    let all = spaced(5);
    let [a, b, c, d, e] = all[..] else { panic!("five") };
    let ways: [&[(u8, &[u32])]; 7] = [
        &[(6, &[a, b, c, d, e])],
        &[(6, &[e, d, c, b, a])],
        &[(6, &[c, a]), (2, &[e]), (2, &[b, d])],
        &[(6, &[c, a, c, a]), (2, &[e, a]), (2, &[b, e, d, d])],
        &[(6, &[61440, e, d, 61450, c]), (3, &[61440]), (2, &[b, a])],
        &[(6, &[65535, d, b, 0]), (2, &[a, c, e]), (3, &[0, 65535])],
        &[(6, &[a]), (3, &[a]), (2, &[b, c, d, e, a])],
    ];
    for way in ways {
        let mut unit = listed(way);
        let entries = unit.pairs[&(2, 1)].entries().to_vec();
        assert_eq!(rising(&entries), all);
        let found: Vec<usize> = all.iter().map(|&pgn| asked(&mut unit, pgn)).collect();
        let gaps: Vec<usize> = (0..=5).map(|place| asked(&mut unit, 61441 + 2 * place)).collect();
        assert_eq!((found, gaps), (vec![2, 3, 1, 2, 3], vec![2, 3, 3, 2, 3, 3]), "{way:?}");
        let shown: Vec<u8> = entries.iter().flat_map(|pgn| pgn.to_le_bytes()[..3].to_vec()).collect();
        let (_, _, reply) = message(&mut unit, 1, TOOL, &hex("00 21 FF FF FF FF FF FF"));
        assert_eq!(reply[3..], shown, "{way:?}");
    }
}

/// Grown from none to 32 and shrunk again, one by one, at the lower end, at the upper and in between.
#[test]
fn grown_and_shrunk() {
    let all = spaced(LONGEST_LIST);
    let from_the_middle: Vec<u32> = (0..32).map(|step| all[(16 + 5 * step) % 32]).collect();
    let falling: Vec<u32> = all.iter().rev().copied().collect();
    for order in [&all, &falling, &from_the_middle] {
        let mut unit = listed(&[(6, &order[..1]), (3, &order[..1])]);
        assert_eq!(asked(&mut unit, 61441), 0, "an emptied list");
        for step in 1..=64 {
            let place = if step <= 32 { step - 1 } else { step - 33 };
            let function = if step <= 32 { 2 } else { 3 };
            assert_eq!(number(&mut unit, &command(function, 0x21, 0, &order[place..=place])), 0);
            let left = if step <= 32 { &order[..step] } else { &order[step - 32..] };
            for pgn in 61441..=61505 {
                let answer = frame(&mut unit, 2, 0x1800_0000 + (pgn << 8), &[]);
                let listed = if left.contains(&pgn) { Reason::StoppedAsNotListed } else { Reason::ListedInPass };
                assert_ne!(answer.reasons[0], Some(listed));
                assert_eq!(answer.compared, probes(left, pgn));
            }
        }
    }
}

/// Nothing is probed for a permanent PGN, listed or not, nor at a cleared pair, nor for a frame that is consumed.
#[test]
fn not_probed() {
    for list in [vec![], spaced(5), vec![59904, 60928], spaced(32)] {
        for pair in [Pair::Pass(list.clone()), Pair::Block(list)] {
            let mut unit = claimed();
            unit.other_ports(2).iter().for_each(|&to| set(&mut unit, 2, to, pair.clone()));
            assert_eq!((asked(&mut unit, 59904), asked(&mut unit, 60928)), (0, 0));
            assert_eq!(frame(&mut unit, 2, 0x18EF_0000 + (ADDRESS << 8), &[]).compared, 0);
        }
    }
    assert_eq!(count_after(&[(6, &[61442, 61444]), (4, &[])], 61444), 0, "cleared");
    assert_eq!(count_after(&[(6, &[61442, 61444]), (4, &[]), (6, &[61444])], 61444), 1, "created anew");
}

/// A refused command leaves the count as it was, on every pair that it names.
#[test]
fn refused_commands() {
    let mut unit = claimed();
    let all = spaced(32);
    assert_eq!(number(&mut unit, &command(6, 0x2F, 0, &all[..31])), 0);
    assert_eq!(number(&mut unit, &command(2, 0x23, 0, &all[31..])), 0);
    let wrong: [(u8, &[u32], u32); 4] =
        [(2, &[61440], 16), (3, &[61442, 61440], 17), (2, &[61442, 1], 22), (6, &all, 14)];
    for (function, entries, refused) in wrong {
        assert_eq!(number(&mut unit, &command(function, 0x2F, 0, entries)), refused);
        assert_eq!((asked(&mut unit, 61442), asked(&mut unit, 61504)), (5 + 5 + 5, 5 + 6 + 5));
    }
}
