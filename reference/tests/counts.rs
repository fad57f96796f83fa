//! "How full a queue is": eight counts for each port, frames accepted and taken since power-on.

mod common;

use std::collections::BTreeMap;

use common::*;
use reference::address::{is_request_for_address_claimed, ClaimState, Event};
use reference::counts::{recount, Counts};
use reference::frame::{ps, Frame};
use reference::generate::generate;
use reference::pair::Pair;
use reference::script::{apply, Answer, Call};
use reference::unit::{FrameAnswer, Unit};

/// An identifier of a priority; its PGN is in no list.
fn id_of(priority: u32) -> u32 {
    priority << 26 | 0x00FE_F105
}

fn counts(unit: &Unit, port: u32) -> Counts {
    assert!(unit.counts_hold());
    unit.how_full(port).expect("a good port")
}

/// The counts of a port: so many at some priorities, accepted, taken.
fn some(waiting: &[(usize, u64)], accepted: u64, taken: u64) -> Counts {
    let mut counts = Counts { waiting: [0; 8], accepted, taken };
    waiting.iter().for_each(|&(priority, count)| counts.waiting[priority] = count);
    counts
}

#[test]
fn power_on_counts_nothing() {
    for ports in 2..=8 {
        let (mut unit, _) = Unit::power_on_ports(NAME, ADDRESS, ports);
        for from in 1..=ports {
            frame(&mut unit, from, id_of(from % 8), &[]);
        }
        assert!((1..=ports).all(|port| counts(&unit, port).accepted == u64::from(ports - 1)));
        let (unit, _) = Unit::power_on_ports(NAME, ADDRESS, ports);
        assert!((1..=ports).all(|port| counts(&unit, port) == Counts::default()));
    }
}

/// Number 1; asking changes nothing.
#[test]
fn ports_that_are_asked() {
    for ports in 2..=8 {
        let mut unit = claimed_with(ports);
        frame(&mut unit, 1, id_of(3), &[]);
        let before = unit.clone();
        for port in (0..=17).chain([256, 257, u32::MAX]) {
            let told = unit.how_full(port);
            assert_eq!(told.err(), if (1..=ports).contains(&port) { None } else { Some(1) });
        }
        assert_eq!(unit, before);
    }
}

/// Priority 0 to 7, one count each, at the ports that accept; a take takes from the highest rank's. The words stand in the answer's order.
#[test]
fn each_rank_has_its_count() {
    let mut unit = unstarted();
    for (priority, count) in (0..8).zip([1, 2, 3, 4, 5, 6, 6, 5]) {
        (0..count).for_each(|_| drop(frame(&mut unit, 1, id_of(priority), &[1, 2])));
    }
    assert_eq!(counts(&unit, 1), Counts::default());
    assert_eq!(counts(&unit, 3).words(), [1, 2, 3, 4, 5, 6, 6, 5, 32, 0]);
    let mut left = [1, 2, 3, 4, 5, 6, 6, 5];
    for taken in 1..=32 {
        unit.take(2).expect("a good port").expect("a frame");
        *left.iter_mut().find(|count| **count > 0).expect("one waits") -= 1;
        assert_eq!(counts(&unit, 2), Counts { waiting: left, accepted: 32, taken });
    }
    assert_eq!((unit.take(2), counts(&unit, 2)), (Ok(None), some(&[], 32, 32)));
    assert_eq!(counts(&unit, 3).words(), [1, 2, 3, 4, 5, 6, 6, 5, 32, 0]);
}

/// A frame that is lost, stopped, consumed or refused counts nowhere; nor does a refused take, one of nothing, or a message.
#[test]
fn what_counts_nothing() {
    let mut unit = claimed();
    fill(&mut unit, 2, 32);
    set(&mut unit, 1, 3, Pair::Pass(vec![]));
    let before = unit.counts.clone();
    let answer = frame(&mut unit, 1, id_of(0), &[]);
    assert_eq!((answer.accepted, answer.lost), (vec![4], vec![2]));
    assert!([1, 2, 3].iter().all(|port| unit.counts[port] == before[port]));
    assert_eq!(counts(&unit, 4), some(&[(0, 1)], before[&4].accepted + 1, before[&4].taken));
    let after = unit.counts.clone();
    assert!(frame(&mut unit, 1, 0x18EFC805, &[]).consumed);
    for (port, id) in [(1, 0x20000000), (9, id_of(3)), (1, 0x18FEF1FF)] {
        assert_ne!(frame_number(&mut unit, port, id, &[]), 0);
    }
    assert_eq!((unit.take(1), unit.take(0), unit.take(5)), (Ok(None), Err(1), Err(1)));
    assert_eq!(number(&mut unit, &command(6, 0x12, 0, &pgns(3))), 0);
    assert_eq!(number(&mut unit, &command(4, 0x1F, 0, &[])), 0);
    assert_eq!((unit.start(), unit.quiet()), (Err(18), Err(18)));
    assert_eq!(unit.counts, after);
}

/// The unit's own frames count like others, at priority 6: at Start, where it defends or loses its address, where it is asked.
#[test]
fn own_frames_count() {
    let mut unit = unstarted();
    fill(&mut unit, 3, 32);
    let full = counts(&unit, 3);
    assert_eq!(unit.start(), started(ClaimState::Claiming, &[3]));
    for port in [1, 2, 4] {
        assert_eq!(counts(&unit, port), some(&[(6, 1)], 1, 0));
    }
    assert_eq!(counts(&unit, 3), full);
    // A claim forwarded to three ports, and the unit's own at all of them.
    assert_eq!(claim(&mut unit, 2, ADDRESS, NAME + 1).event, Event::Defended);
    assert_eq!(counts(&unit, 1), some(&[(6, 3)], 3, 0));
    assert_eq!(counts(&unit, 2), some(&[(6, 2)], 2, 0));
    // A request to the unit is consumed; the answer is not.
    assert!(frame(&mut unit, 4, 0x0CEAC805, &[0, 0xEE, 0]).consumed);
    assert_eq!(counts(&unit, 1), some(&[(6, 4)], 4, 0));
    assert_eq!(claim(&mut unit, 2, ADDRESS, NAME - 1).event, Event::Displaced);
    frame(&mut unit, 2, 0x0CEAFF05, &[0, 0xEE, 0]);
    assert_eq!(counts(&unit, 1), some(&[(3, 1), (6, 7)], 8, 0));
    assert_eq!(counts(&unit, 3), full);
    unit.take(1).expect("a good port").expect("a frame");
    assert_eq!(counts(&unit, 1), some(&[(6, 7)], 8, 1));
}

/// Where two frames come at once, one place left: the forwarded one is counted and the unit's own is not.
#[test]
fn the_last_place() {
    let mut unit = claimed();
    fill(&mut unit, 2, 31);
    let before = counts(&unit, 2);
    let answer = frame(&mut unit, 1, 0x00EAFFFE, &[0, 0xEE, 0]);
    assert_eq!((answer.accepted, answer.own_lost), (vec![2, 3, 4], vec![2]));
    assert_eq!(counts(&unit, 2), some(&[(0, 1), (7, 31)], before.accepted + 1, before.taken));
    assert_eq!(counts(&unit, 3).waiting, [1, 0, 0, 0, 0, 0, 1, 0]);
}

/// The totals are remainders by 2^64, not by 2^32; the counts of the ranks go on as they were.
#[test]
fn remainders() {
    for (before, after) in [(u64::MAX, 0), (u64::from(u32::MAX), 1 << 32), (1 << 63, (1 << 63) + 1)] {
        let mut unit = claimed();
        let counts_of_2 = unit.counts.get_mut(&2).expect("a port");
        (counts_of_2.accepted, counts_of_2.taken) = (before, before);
        frame(&mut unit, 1, id_of(5), &[]);
        assert_eq!(counts(&unit, 2), some(&[(5, 1)], after, before));
        unit.take(2).expect("a good port").expect("a frame");
        assert_eq!(counts(&unit, 2), some(&[], after, after));
    }
}

/// The ports at which a call put frames, by its arguments and its answer alone: the forwarded frame's, then the unit's own.
fn accepted_by(before: &Unit, call: &Call, answer: &Answer) -> Vec<u32> {
    let all_but = |lost: &[u32]| before.all_ports().filter(|port| !lost.contains(port)).collect::<Vec<_>>();
    match (call, answer) {
        (Call::Start, Answer::Start(Ok(given))) => all_but(&given.own_lost),
        (Call::Frame { id, bytes, .. }, Answer::Frame(Ok(given))) => {
            let own = sends_own(before.state, &Frame { id: *id, bytes: bytes.clone() }, given);
            let own_ports = if own { all_but(&given.own_lost) } else { Vec::new() };
            given.accepted.iter().copied().chain(own_ports).collect()
        }
        _ => Vec::new(),
    }
}

fn sends_own(state: ClaimState, frame: &Frame, answer: &FrameAnswer) -> bool {
    let asked = is_request_for_address_claimed(frame);
    let answered = answer.consumed || (ps(frame.id) == 255 && state != ClaimState::Unstarted);
    matches!(answer.event, Event::Defended | Event::Displaced) || (asked && answered)
}

/// After every call since power-on: the counts equal a recount; accepted and taken are those of the history of calls; accepted equals
/// taken plus waiting.
#[test]
fn every_prefix_of_a_history() {
    let (mut most, mut asked) = (0, 0);
    for seed in [201, 202, 203] {
        let mut unit: Option<Unit> = None;
        let mut history: BTreeMap<u32, (u64, u64)> = BTreeMap::new();
        for call in generate(seed, 8000) {
            let before = unit.clone();
            let answer = apply(&mut unit, &call).expect("a unit");
            let after = unit.as_ref().expect("a unit");
            match (&call, &answer, &before) {
                (Call::PowerOn { .. }, ..) => history = after.all_ports().map(|port| (port, (0, 0))).collect(),
                (Call::Take { port }, Answer::Take(Ok(Some(_))), _) => history.get_mut(port).expect("a port").1 += 1,
                (_, _, Some(before)) => {
                    for port in accepted_by(before, &call, &answer) {
                        history.get_mut(&port).expect("a port").0 += 1;
                    }
                }
                _ => {}
            }
            for (port, &(accepted, taken)) in &history {
                let (counts, queue) = (after.counts[port], &after.queues[port]);
                assert_eq!(counts, Counts { waiting: recount(queue), accepted, taken });
                assert_eq!(accepted, taken + queue.len() as u64);
                assert_eq!(counts.all_waiting(), queue.len() as u64);
                most = most.max(accepted);
            }
            if let (Call::Counts { port }, Answer::Counts(told)) = (&call, &answer) {
                assert_eq!(before.as_ref(), Some(after));
                assert_eq!(*told, after.counts.get(port).copied().ok_or(1));
                asked += 1;
            }
        }
    }
    assert!(most > 100 && asked > 1000, "{most}, {asked}");
}

/// The recount itself, by hand.
#[test]
fn a_recount() {
    let queue: Vec<Frame> = [7, 0, 3, 3, 7, 7].map(|priority| Frame { id: id_of(priority), bytes: vec![] }).to_vec();
    assert_eq!(recount(&queue), [1, 0, 0, 2, 0, 0, 0, 3]);
    assert_eq!(recount(&[]), [0; 8]);
}

/// Counts that are no recount, or totals that do not fit, are found.
#[test]
fn wrong_counts_are_found() {
    let spoil: [fn(&mut Counts); 4] = [
        |counts| counts.waiting[3] += 1,
        |counts| counts.waiting.swap(3, 4),
        |counts| counts.accepted += 1,
        |counts| counts.taken = counts.taken.wrapping_sub(1),
    ];
    let mut unit = claimed();
    frame(&mut unit, 1, id_of(3), &[]);
    for change in spoil {
        let mut wrong = unit.clone();
        change(wrong.counts.get_mut(&2).expect("a port"));
        assert!(unit.counts_hold() && !wrong.counts_hold());
    }
}
