//! What a script tried: counts of calls, refusal numbers, events, states, modes and limits.

use std::collections::{BTreeMap, BTreeSet};
use std::ops::RangeInclusive;

use crate::address::{is_claim, is_request_for_address_claimed, name_of, ClaimState, Event, StartAnswer};
use crate::counts::{recount, Counts};
use crate::frame::{self, is_pgn, Frame, PERMANENT};
use crate::halving::{probes, rising};
use crate::message::{entries, entry_places, name_entry, MessageAnswer, WrongEntry, NAME_PAYLOAD};
use crate::names::{first_match, NameEntry, MOST_NAMES};
use crate::pair::{added, Pair, Reason, LONGEST_LIST};
use crate::parameters::{Whose, ENTRIES, HELD, LOST, MOST_LOSSES};
use crate::script::{apply, is_passed_over, lines_of, read_call, Answer, Call};
use crate::unit::{FrameAnswer, Number, Unit, LONGEST_QUEUE, PORT_COUNTS};
use crate::words::{REASONS, WORDS};

/// The call letters of a script.
pub const LETTERS: [&str; 8] = ["P", "S", "Q", "F", "T", "M", "U", "C"];
/// The rows of the event count.
pub const EVENTS: [&str; 8] = ["-", "Withdrew", "Defended", "Displaced", "Recorded", "Refreshed", "TookOver", "Beaten"];
/// The rows of the state count.
pub const STATES: [&str; 4] = ["Unstarted", "Claiming", "Claimed", "Lost"];
/// The rows of the mode count; an emptied list is a row of its own.
pub const MODES: [&str; 5] = ["cleared", "block", "block emptied", "pass", "pass emptied"];

/// The rows of where the permanent PGNs went.
pub const DESTINATIONS: [&str; 3] = ["all", "the unit", "another"];
/// The rows of how long the frames of permanent PGNs were.
pub const LENGTHS: [&str; 9] = ["0", "1", "2", "3", "4", "5", "6", "7", "8"];

/// The further rows that a deep script reaches.
pub const DEEP: [&str; 91] = [
    "frame consumed",
    "frame stopped by a pair",
    "frame lost at some ports, accepted at others",
    "frame lost at every other port",
    "frame accepted at seven ports",
    "frame at the last port",
    "permanent PGN through a cleared pair",
    "permanent PGN through a pass pair, listed",
    "permanent PGN through a pass pair, not listed",
    "permanent PGN through a block pair, listed",
    "permanent PGN through a block pair, not listed",
    "permanent PGN lost at a full port",
    "permanent PGN consumed",
    "permanent PGN with a page bit stopped",
    "permanent PGN with a page bit let through by a list",
    "permanent PGN in a reply",
    "permanent PGN deleted",
    "permanent PGN that makes a list pass 32",
    "own frame lost at some ports",
    "own frame lost at every port",
    "own claim lost, forwarded frame took the last place",
    "claim with the unit's own NAME",
    "claim that moved its NAME",
    "claim that moved its NAME and won nothing",
    "global request answered with claim",
    "global request answered with cannot-claim",
    "global request while Unstarted",
    "consumed request answered",
    "other frame of PGN 59904",
    "other frame of PGN 60928",
    "SA 254 accepted",
    "start to Claiming, address free",
    "start to Claiming, holder dropped",
    "start to Lost",
    "start with own frame lost",
    "take of a later frame of higher rank",
    "take from a full queue",
    "take with nothing waiting",
    "counts before a frame was accepted",
    "counts of an emptied queue",
    "counts of a full queue",
    "counts of a full queue of one rank",
    "counts with every rank waiting",
    "counts with a frame of the unit's own waiting",
    "counts after a loss",
    "counts at the last port",
    "frame stopped on the way to a full port",
    "loss counted for a pair",
    "own losses counted in general",
    "own losses counted in general beside a forwarded frame's",
    "losses of a pair told, not 0",
    "losses in general told, not 0",
    "losses in general told, no sum of the pairs'",
    "reset of a pair's counter that was not 0",
    "reset of the general counter that was not 0",
    "entries of a pair told, not 0",
    "entries of a cleared pair told",
    "entries in general told, not 0",
    "10 for a parameter of To 15",
    "11 though the parameter is not held",
    "23 though the length is wrong",
    "23 for a reset of a parameter that is held",
    "12 though an entry is no PGN",
    "22 with other entries that are none",
    "22 at a first entry before filling",
    "22 at the second entry of eight bytes",
    "22 at the last of 594 entries",
    "22 though Create's mode is none",
    "22 though a pair is cleared or not as the function wants it",
    "22 though the entries pass 32",
    "17 at a later entry and a later pair of To 15",
    "17 where a later pair lacks an entry too",
    "17 where a later pair lacks an earlier entry",
    "17 at an entry that the command has twice",
    "17 at an entry behind one that stands twice",
    "To 15 done by Add",
    "To 15 done by Delete",
    "To 15 done by Clear",
    "To 15 done by Create",
    "To 15 done on one pair",
    "To 15 done on seven pairs",
    "list of exactly 32 reached",
    "list emptied by Delete",
    "command of 594 entries done",
    "reply 1 of 99 bytes",
    "reply 65 over 8 bytes",
    "reply 65 of 255 bytes",
    "done from another port than 1",
    "refused 11 from another port than 1",
    "port one past the count refused with 1",
    "pair with the port one past the count refused with 10",
];

/// The further rows of NAME entries: function 7, and the frames that they are compared with.
pub const NAMED: [&str; 36] = [
    "NAME entry with mask 0",
    "NAME entry with a mask of all ones",
    "NAME entry with a mask of one bit",
    "NAME entry with another mask",
    "NAME entry with the PGN and NAME of another, another mask",
    "NAME entry with the PGN and mask of another, another NAME",
    "NAME entry with a permanent PGN",
    "NAME entry with a PGN that the list has",
    "NAME entry that was there already",
    "NAME entry that was there already, beside seven others",
    "NAME entry added by another port than 1",
    "the eighth NAME entry",
    "10 for a NAME entry with To 15",
    "11 though the length is wrong, function 7",
    "12 though three bytes are no PGN, function 7",
    "22 though the pair is cleared, function 7",
    "16 though the PGN is listed, function 7",
    "reply 1 of a pair with NAME entries",
    "entries told of a pair with NAME entries",
    "17 for a PGN that a NAME entry has",
    "Clear of a pair with NAME entries",
    "Create of a pair that had NAME entries",
    "listed by NAME in pass",
    "listed by NAME in block",
    "listed by NAME behind a plain list",
    "listed by NAME, known on the arrival port",
    "listed by NAME, known on another port",
    "listed by NAME to a full port",
    "listed by NAME at some ports, not at others",
    "listed by NAME, sent to one address",
    "compared with eight NAME entries, none matches",
    "list has the PGN, a NAME entry would match",
    "sender unknown, mask 0",
    "sender withdrawn, would have matched",
    "sender displaced, would have matched",
    "sender with the unit's own address, mask 0",
];

/// The lengths of function 7's payloads, the bits of its masks of one bit, and the places of the entry that matches.
pub const NAME_LENGTHS: RangeInclusive<usize> = 8..=30;
pub const MASK_BITS: RangeInclusive<usize> = 0..=63;
pub const NAME_PLACES: RangeInclusive<usize> = 1..=MOST_NAMES;

/// The further rows of lists that are looked up by halving.
pub const HALVED: [&str; 10] = [
    "list in rising order of addition looked up",
    "list in falling order of addition looked up",
    "list in another order of addition looked up",
    "absent PGN below the first of a list",
    "absent PGN above the last of a list",
    "absent PGN between two of a list",
    "list that Add has grown looked up",
    "list that Delete has shrunk looked up",
    "absent PGN probed, then a NAME entry matches",
    "permanent PGN at a list that is not empty",
];

/// The lengths of lists that are looked up; the places in rising order where a PGN is found, and how many are below one that is absent; the probes for either.
pub const LIST_LENGTHS: RangeInclusive<usize> = 0..=LONGEST_LIST;
pub const LIST_PLACES: RangeInclusive<usize> = 1..=LONGEST_LIST;
pub const LIST_GAPS: RangeInclusive<usize> = 0..=LONGEST_LIST;
pub const PROBES_FOUND: RangeInclusive<usize> = 1..=6;
pub const PROBES_ABSENT: RangeInclusive<usize> = 0..=6;

/// The rows that only a script reaches whose counters stay (`generate::storms`).
pub const AT_THE_MOST: [&str; 6] = [
    "losses of a pair told at the most",
    "losses in general told at the most",
    "loss of a pair where the counter stays",
    "loss in general where the counter stays",
    "reset of a pair's counter at the most",
    "reset of the general counter at the most",
];

/// Function 7 and those of parameters, their replies among them, and the numbers from 9 on that each can give.
pub const BY_FUNCTION: [(u8, &[Number]); 7] = [
    (7, &[0, 10, 11, 12, 22, 15, 16]),
    (128, &[0, 11, 23, 12]),
    (129, &[9]),
    (130, &[0, 11, 23, 12]),
    (131, &[0, 10, 11, 23, 12]),
    (132, &[9]),
    (133, &[0, 10, 11, 23, 12]),
];

/// The places from 1 where 22 finds an entry that is no PGN, and where 17 finds one that is absent.
pub const WRONG_PLACES: RangeInclusive<usize> = 1..=40;
pub const ABSENT_PLACES: RangeInclusive<usize> = 1..=LONGEST_LIST;
/// The places from 1 of the pair of To 15 that lacks it.
pub const ABSENT_PAIRS: RangeInclusive<usize> = 1..=7;

/// How many frames wait where counts are told, and of which priorities.
pub const WAITING: RangeInclusive<usize> = 0..=LONGEST_QUEUE;
pub const PRIORITIES: RangeInclusive<usize> = 0..=7;

/// The counts of one or more scripts.
#[derive(Default)]
pub struct Coverage {
    counts: BTreeMap<String, u64>,
    functions: BTreeSet<u8>,
    pair_bytes: BTreeSet<(u32, u8)>,
    lengths: BTreeMap<usize, u64>,
    not_calls: u64,
    /// The ports of the unit that have lost a frame.
    losing: BTreeSet<u32>,
    /// The pairs of the unit whose NAME entries were cleared.
    emptied: BTreeSet<(u32, u32)>,
    /// The pairs of the unit whose list has grown by an Add, or shrunk by a Delete.
    grown: BTreeSet<(u32, u32)>,
    shrunk: BTreeSet<(u32, u32)>,
    /// The NAMEs of the unit's table that withdrew from an address or were displaced there, by the address.
    gone: BTreeMap<u32, (u64, &'static str)>,
    longest_queue: usize,
    largest_table: usize,
}

impl Coverage {
    /// Runs a script and counts it.
    pub fn count_script(&mut self, script: &[u8]) {
        let mut unit = None;
        for line in lines_of(script).into_iter().filter(|line| !is_passed_over(line)) {
            let before = unit.clone();
            let call = read_call(line).ok();
            match call.as_ref().and_then(|call| Some((call, apply(&mut unit, call)?))) {
                Some((call, answer)) => self.count_call(before.as_ref(), call, &answer, unit.as_ref()),
                None => self.not_calls += 1,
            }
        }
    }

    /// How often a row was reached.
    pub fn reached(&self, row: &str) -> u64 {
        self.counts.get(row).copied().unwrap_or(0)
    }

    fn add(&mut self, row: &str) {
        *self.counts.entry(row.to_string()).or_insert(0) += 1;
    }

    fn add_if(&mut self, condition: bool, row: &str) {
        if condition {
            self.add(row);
        }
    }

    /// Counts one call, its answer, and the unit before and after it.
    pub fn count_call(&mut self, before: Option<&Unit>, call: &Call, answer: &Answer, after: Option<&Unit>) {
        let letter = letter(call);
        self.add(&format!("call {letter}"));
        self.add(&format!("number {} {letter}", answer.number()));
        let Some(after) = after else { return };
        self.add(&format!("ports {}", after.ports));
        self.longest_queue = after.queues.values().map(|queue| queue.len()).fold(self.longest_queue, usize::max);
        self.largest_table = self.largest_table.max(after.table.len());
        if matches!(call, Call::PowerOn { .. }) {
            self.losing.clear();
            self.emptied.clear();
            self.grown.clear();
            self.shrunk.clear();
            self.gone.clear();
        }
        let Some(before) = before else { return };
        if !matches!(call, Call::PowerOn { .. }) {
            self.add(&format!("state {:?}", before.state));
        }
        let past = named_port(call) == Some(before.ports + 1);
        self.add_if(past && answer.number() == 1, "port one past the count refused with 1");
        match (call, answer) {
            (Call::Frame { port, id, bytes }, Answer::Frame(Ok(answer))) => {
                let frame = Frame { id: *id, bytes: bytes.clone() };
                self.count_frame(before, *port, &frame, answer);
                self.count_by_name(before, *port, &frame, answer);
                self.count_look_ups(before, *port, &frame, answer);
                self.note_gone(before, &frame, answer);
                self.count_losses(before, *port, &answer.lost, &answer.own_lost);
            }
            (Call::Start, Answer::Start(Ok(answer))) => {
                self.count_start(before, answer);
                self.count_losses(before, 0, &[], &answer.own_lost);
            }
            (Call::Take { port }, Answer::Take(Ok(given))) => self.count_take(before, *port, given, after),
            (Call::Message { port, payload, .. }, Answer::Message(..)) => {
                self.count_message(before, *port, payload, answer, after)
            }
            (Call::Unit, Answer::Unit(answer)) => self.add(&format!("told {:?}", answer.state)),
            (Call::Counts { port }, Answer::Counts(Ok(counts))) => self.count_counts(before, *port, counts),
            _ => {}
        }
    }

    fn count_frame(&mut self, before: &Unit, port: u32, frame: &Frame, answer: &FrameAnswer) {
        self.add(&format!("event {}", event_row(&answer.event)));
        self.add_if(answer.consumed, "frame consumed");
        let asked = if answer.consumed { Vec::new() } else { before.other_ports(port) };
        self.add_if(port == before.ports, "frame at the last port");
        for port in before.all_ports() {
            self.add(&format!("reason {}", answer.reason_number(port)));
        }
        for to in &asked {
            self.add(&format!("mode {}", mode_row(&before.pairs[&(port, *to)])));
        }
        self.losing.extend(answer.lost.iter().chain(&answer.own_lost));
        let (accepted, lost) = (answer.accepted.len(), answer.lost.len());
        self.add_if(accepted + lost < asked.len(), "frame stopped by a pair");
        let stopped = |to: &u32| before.queues[to].len() == LONGEST_QUEUE && answer.reason_number(*to) > 4;
        self.add_if(asked.iter().any(stopped), "frame stopped on the way to a full port");
        self.add_if(lost > 0 && accepted > 0, "frame lost at some ports, accepted at others");
        self.add_if(lost > 0 && lost == asked.len(), "frame lost at every other port");
        self.add_if(accepted == 7, "frame accepted at seven ports");
        let own_lost = &answer.own_lost;
        let all = before.ports as usize;
        self.add_if((1..all).contains(&own_lost.len()), "own frame lost at some ports");
        self.add_if(own_lost.len() == all, "own frame lost at every port");
        let took_last = own_lost.iter().any(|to| answer.accepted.contains(to));
        self.add_if(took_last, "own claim lost, forwarded frame took the last place");
        self.add_if(frame::sa(frame.id) == frame::NULL, "SA 254 accepted");
        self.count_claim_or_request(before, frame, answer);
        let pairs: Vec<&Pair> = asked.iter().map(|to| &before.pairs[&(port, *to)]).collect();
        self.count_permanent(frame, answer, &pairs);
    }

    /// The ports where a forwarded frame from a port was lost, and one of the unit's own.
    fn count_losses(&mut self, before: &Unit, port: u32, lost: &[u32], own_lost: &[u32]) {
        let stays = |to: &u32| before.losses.pairs[&(port, *to)].told() == MOST_LOSSES;
        self.add_if(!lost.is_empty(), "loss counted for a pair");
        self.add_if(!own_lost.is_empty(), "own losses counted in general");
        self.add_if(
            !lost.is_empty() && !own_lost.is_empty(),
            "own losses counted in general beside a forwarded frame's",
        );
        self.add_if(lost.iter().any(stays), "loss of a pair where the counter stays");
        let any = !(lost.is_empty() && own_lost.is_empty());
        self.add_if(any && before.losses.general.told() == MOST_LOSSES, "loss in general where the counter stays");
    }

    /// A message of the functions of parameters.
    fn count_parameter(&mut self, before: &Unit, payload: &[u8], number: Number, written: &[u8]) {
        let (function, byte, parameter) = (payload[0], payload[1], payload[2]);
        self.add_if(number == 10 && byte & 0x0F == 15, "10 for a parameter of To 15");
        self.add_if(number == 11 && !HELD.contains(&parameter), "11 though the parameter is not held");
        self.add_if(number == 23 && payload.len() != 8, "23 though the length is wrong");
        self.add_if(number == 23 && HELD.contains(&parameter), "23 for a reset of a parameter that is held");
        if number != 0 {
            return;
        }
        let (from, to) = (u32::from(byte >> 4), u32::from(byte & 0x0F));
        let (whose, of) =
            if function < 131 { (Whose::General, "in general") } else { (Whose::Pair(from, to), "of a pair") };
        if function == 130 || function == 133 {
            let counter = if whose == Whose::General { "the general counter" } else { "a pair's counter" };
            let lost = before.value(whose, LOST);
            self.add_if(lost != 0, &format!("reset of {counter} that was not 0"));
            self.add_if(lost == MOST_LOSSES, &format!("reset of {counter} at the most"));
            return;
        }
        let told = u64::from(written[3]) + 256 * u64::from(written[4]);
        self.add(&format!("parameter {parameter} {of}"));
        match parameter {
            ENTRIES => {
                self.add_if(told != 0, &format!("entries {of} told, not 0"));
                let cleared = before.pairs.get(&(from, to)).is_some_and(Pair::is_cleared);
                self.add_if(function == 131 && cleared, "entries of a cleared pair told");
                let has_names = before.names.get(&(from, to)).is_some_and(|names| !names.is_empty());
                self.add_if(function == 131 && has_names, "entries told of a pair with NAME entries");
            }
            LOST => {
                self.add_if(told != 0, &format!("losses {of} told, not 0"));
                self.add_if(told == MOST_LOSSES, &format!("losses {of} told at the most"));
                let sum: u64 = before.losses.pairs.values().map(|counter| counter.told()).sum();
                self.add_if(function == 128 && told != sum, "losses in general told, no sum of the pairs'");
            }
            _ => {}
        }
    }

    /// A message of function 7.
    fn count_name_entry(&mut self, before: &Unit, port: u32, payload: &[u8], number: Number) {
        self.add(&format!("function 7 of length {}", payload.len()));
        let no_pgn = is_no_pgn(&payload[2..5]);
        let pair = before.one_pair(payload[1]);
        self.add_if(number == 10 && payload[1] & 0x0F == 15, "10 for a NAME entry with To 15");
        self.add_if(number == 11 && payload.len() != NAME_PAYLOAD, "11 though the length is wrong, function 7");
        self.add_if(number == 12 && no_pgn, "12 though three bytes are no PGN, function 7");
        let cleared = pair.is_ok_and(|pair| before.pairs[&pair].is_cleared());
        self.add_if(number == 22 && cleared, "22 though the pair is cleared, function 7");
        let (Ok(pair), Ok(entry)) = (pair, name_entry(payload)) else { return };
        let listed = before.pairs[&pair].entries().contains(&entry.pgn);
        self.add_if(number == 16 && listed, "16 though the PGN is listed, function 7");
        if number == 0 {
            self.add_if(port != 1, "NAME entry added by another port than 1");
            self.add_if(listed, "NAME entry with a PGN that the list has");
            self.count_entry(&before.names[&pair], &entry);
        }
    }

    /// A NAME entry that was taken, beside those that the pair had.
    fn count_entry(&mut self, names: &[NameEntry], entry: &NameEntry) {
        let NameEntry { pgn, name, mask } = *entry;
        self.add(match mask.count_ones() {
            0 => "NAME entry with mask 0",
            1 => "NAME entry with a mask of one bit",
            64 => "NAME entry with a mask of all ones",
            _ => "NAME entry with another mask",
        });
        if mask.is_power_of_two() {
            self.add(&format!("masks of bit {}", mask.trailing_zeros()));
        }
        self.add_if(PERMANENT.contains(&pgn), "NAME entry with a permanent PGN");
        let there = names.contains(entry);
        self.add_if(there, "NAME entry that was there already");
        self.add_if(there && names.len() == MOST_NAMES, "NAME entry that was there already, beside seven others");
        self.add_if(!there && names.len() + 1 == MOST_NAMES, "the eighth NAME entry");
        let same = |one: &&NameEntry| !there && one.pgn == pgn;
        let other_mask = names.iter().filter(same).any(|one| one.name == name);
        let other_name = names.iter().filter(same).any(|one| one.mask == mask);
        self.add_if(other_mask, "NAME entry with the PGN and NAME of another, another mask");
        self.add_if(other_name, "NAME entry with the PGN and mask of another, another NAME");
    }

    /// A frame at the pairs that have NAME entries.
    fn count_by_name(&mut self, before: &Unit, port: u32, frame: &Frame, answer: &FrameAnswer) {
        let (pgn, sa) = (frame::pgn(frame.id), frame::sa(frame.id));
        let sender = before.table.get(&sa).map(|holder| holder.name);
        let asked = if answer.consumed || PERMANENT.contains(&pgn) { vec![] } else { before.other_ports(port) };
        for to in asked.iter().filter(|to| !before.names[&(port, **to)].is_empty()) {
            let (pair, names) = (&before.pairs[&(port, *to)], &before.names[&(port, *to)]);
            let place = first_match(names, pgn, sender);
            if answer.by_name.contains(to) {
                self.add(&format!("matched NAME entry {}", place.unwrap_or(0)));
                self.add_if(pair.mode() == 1, "listed by NAME in pass");
                self.add_if(pair.mode() == 0, "listed by NAME in block");
                self.add_if(!pair.entries().is_empty(), "listed by NAME behind a plain list");
                self.add_if(before.queues[to].len() == LONGEST_QUEUE, "listed by NAME to a full port");
            } else if pair.entries().contains(&pgn) {
                self.add_if(place.is_some(), "list has the PGN, a NAME entry would match");
            } else {
                self.add_if(names.len() == MOST_NAMES, "compared with eight NAME entries, none matches");
                self.count_no_match(before, names, pgn, sa);
            }
        }
        if !answer.by_name.is_empty() {
            let known = before.table.get(&sa).map(|holder| holder.port);
            self.add_if(known == Some(port), "listed by NAME, known on the arrival port");
            self.add_if(known != Some(port), "listed by NAME, known on another port");
            let others = answer.by_name.len() < asked.len();
            self.add_if(others, "listed by NAME at some ports, not at others");
            let one = frame::pf(frame.id) < 240 && frame::ps(frame.id) != frame::GLOBAL;
            self.add_if(one, "listed by NAME, sent to one address");
        }
    }

    /// A frame at the pairs that have a list.
    fn count_look_ups(&mut self, before: &Unit, port: u32, frame: &Frame, answer: &FrameAnswer) {
        let pgn = frame::pgn(frame.id);
        let asked = if answer.consumed { vec![] } else { before.other_ports(port) };
        for to in asked.into_iter().filter(|to| !before.pairs[&(port, *to)].is_cleared()) {
            let list = before.pairs[&(port, to)].entries();
            if PERMANENT.contains(&pgn) {
                self.add_if(!list.is_empty(), "permanent PGN at a list that is not empty");
                continue;
            }
            let below = list.iter().filter(|&&listed| listed < pgn).count();
            let made = probes(list, pgn);
            self.add(&format!("lists looked up of length {}", list.len()));
            if list.contains(&pgn) {
                self.add(&format!("listed PGN found at place {}", below + 1));
                self.add(&format!("listed PGN by probes {made}"));
            } else {
                self.add(&format!("absent PGN above so many {below}"));
                self.add(&format!("absent PGN by probes {made}"));
                self.add_if(!list.is_empty() && below == 0, "absent PGN below the first of a list");
                self.add_if(!list.is_empty() && below == list.len(), "absent PGN above the last of a list");
                self.add_if((1..list.len()).contains(&below), "absent PGN between two of a list");
                self.add_if(made > 0 && answer.by_name.contains(&to), "absent PGN probed, then a NAME entry matches");
            }
            self.count_order(list);
            self.add_if(self.grown.contains(&(port, to)), "list that Add has grown looked up");
            self.add_if(self.shrunk.contains(&(port, to)), "list that Delete has shrunk looked up");
        }
    }

    /// The order of addition of a list that is looked up.
    fn count_order(&mut self, list: &[u32]) {
        if list.len() < 2 {
            return;
        }
        let sorted = rising(list);
        self.add(match list {
            _ if list == sorted => "list in rising order of addition looked up",
            _ if list.iter().eq(sorted.iter().rev()) => "list in falling order of addition looked up",
            _ => "list in another order of addition looked up",
        });
    }

    /// A sender that no NAME entry matches, though one has the PGN.
    fn count_no_match(&mut self, before: &Unit, names: &[NameEntry], pgn: u32, sa: u32) {
        let any = names.iter().any(|entry| entry.pgn == pgn && entry.mask == 0);
        let (own, known) = (before.address() == Some(sa), before.table.contains_key(&sa));
        self.add_if(any && own, "sender with the unit's own address, mask 0");
        self.add_if(any && !own && !known, "sender unknown, mask 0");
        if let Some((name, how)) = self.gone.get(&sa).copied() {
            let would = first_match(names, pgn, Some(name)).is_some();
            self.add_if(would, &format!("sender {how}, would have matched"));
        }
    }

    /// Who withdrew or was displaced, after the frame.
    fn note_gone(&mut self, before: &Unit, frame: &Frame, answer: &FrameAnswer) {
        match answer.event {
            Event::Withdrew => {
                let name = name_of(&frame.bytes);
                let held = before.table.iter().filter(|(_, holder)| holder.name == name);
                self.gone.extend(held.map(|(&address, _)| (address, (name, "withdrawn"))));
            }
            Event::TookOver(old) => {
                self.gone.insert(frame::sa(frame.id), (old, "displaced"));
            }
            Event::Recorded => {
                self.gone.remove(&frame::sa(frame.id));
            }
            _ => {}
        }
    }

    /// A frame of a permanent PGN, or of one beside it, and the pairs that were asked.
    fn count_permanent(&mut self, frame: &Frame, answer: &FrameAnswer, pairs: &[&Pair]) {
        let pgn = frame::pgn(frame.id);
        if PERMANENT.contains(&pgn) {
            self.add(&format!("permanent to {}", destination_row(frame, answer)));
            self.add(&format!("permanent of {}", frame.bytes.len()));
            self.add_if(answer.consumed, "permanent PGN consumed");
            self.add_if(!answer.lost.is_empty(), "permanent PGN lost at a full port");
            for pair in pairs {
                self.add(match (pair, pair.entries().contains(&pgn)) {
                    (Pair::Cleared, _) => "permanent PGN through a cleared pair",
                    (Pair::Pass(_), true) => "permanent PGN through a pass pair, listed",
                    (Pair::Pass(_), false) => "permanent PGN through a pass pair, not listed",
                    (Pair::Block(_), true) => "permanent PGN through a block pair, listed",
                    (Pair::Block(_), false) => "permanent PGN through a block pair, not listed",
                });
            }
        } else if PERMANENT.contains(&(pgn & 0xFFFF)) {
            let stopped = answer.reasons.iter().flatten().any(|reason| !reason.crosses());
            let listed = answer.reasons.contains(&Some(Reason::ListedInPass));
            self.add_if(stopped, "permanent PGN with a page bit stopped");
            self.add_if(listed, "permanent PGN with a page bit let through by a list");
        }
    }

    fn count_claim_or_request(&mut self, before: &Unit, frame: &Frame, answer: &FrameAnswer) {
        let global = frame::ps(frame.id) == frame::GLOBAL;
        if is_claim(frame) {
            let name = name_of(&frame.bytes);
            let sa = frame::sa(frame.id);
            let moved = before.table.iter().any(|(&held, holder)| holder.name == name && held != sa);
            let moved = moved && sa != frame::NULL;
            let won_nothing = matches!(answer.event, Event::Beaten | Event::Defended);
            self.add_if(name == before.name, "claim with the unit's own NAME");
            self.add_if(moved && !won_nothing, "claim that moved its NAME");
            self.add_if(moved && won_nothing, "claim that moved its NAME and won nothing");
        } else if is_request_for_address_claimed(frame) && (global || answer.consumed) {
            self.add(match before.state {
                ClaimState::Unstarted => "global request while Unstarted",
                ClaimState::Lost => "global request answered with cannot-claim",
                _ if answer.consumed => "consumed request answered",
                _ => "global request answered with claim",
            });
        } else {
            self.add_if(frame::pgn(frame.id) == frame::REQUEST, "other frame of PGN 59904");
            self.add_if(frame::pgn(frame.id) == frame::ADDRESS_CLAIMED, "other frame of PGN 60928");
        }
    }

    fn count_start(&mut self, before: &Unit, answer: &StartAnswer) {
        let held = before.table.contains_key(&before.preferred);
        self.add(match (answer.state, held) {
            (ClaimState::Lost, _) => "start to Lost",
            (_, true) => "start to Claiming, holder dropped",
            (_, false) => "start to Claiming, address free",
        });
        self.add_if(!answer.own_lost.is_empty(), "start with own frame lost");
        self.losing.extend(&answer.own_lost);
    }

    fn count_take(&mut self, before: &Unit, port: u32, given: &Option<Frame>, after: &Unit) {
        let waiting = &before.queues[&port];
        self.add_if(given.is_none(), "take with nothing waiting");
        self.add_if(waiting.len() == LONGEST_QUEUE, "take from a full queue");
        let front_stays = waiting.len() > 1 && after.queues[&port].front() == waiting.front();
        let front_left = given.as_ref() == waiting.front();
        self.add_if(front_stays && !front_left, "take of a later frame of higher rank");
    }

    fn count_counts(&mut self, unit: &Unit, port: u32, counts: &Counts) {
        let queue = &unit.queues[&port];
        let (nothing, full) = (queue.is_empty(), queue.len() == LONGEST_QUEUE);
        let by_rank = recount(queue);
        let ranks: Vec<usize> = PRIORITIES.filter(|&priority| by_rank[priority] > 0).collect();
        self.add(&format!("counts in {:?}", unit.state));
        self.add(&format!("counts of queues with {}", queue.len()));
        for priority in &ranks {
            self.add(&format!("counts with priority {priority}"));
        }
        self.add_if(counts.accepted == 0, "counts before a frame was accepted");
        self.add_if(nothing && counts.accepted > 0, "counts of an emptied queue");
        self.add_if(full, "counts of a full queue");
        self.add_if(full && ranks.len() == 1, "counts of a full queue of one rank");
        self.add_if(ranks.len() == 8, "counts with every rank waiting");
        let own = queue.iter().any(|frame| is_claim(frame) && name_of(&frame.bytes) == unit.name);
        self.add_if(own, "counts with a frame of the unit's own waiting");
        self.add_if(self.losing.contains(&port), "counts after a loss");
        self.add_if(port == unit.ports, "counts at the last port");
    }

    fn count_message(&mut self, before: &Unit, port: u32, payload: &[u8], answer: &Answer, after: &Unit) {
        let Answer::Message(answer, written) = answer else { return };
        *self.lengths.entry(payload.len()).or_insert(0) += 1;
        if (1..=8).contains(&answer.number) {
            return;
        }
        let function = payload[0];
        self.functions.insert(function);
        if BY_FUNCTION.iter().any(|(listed, _)| *listed == function) {
            self.add(&format!("function {function} number {}", answer.number));
        }
        match function {
            7 => self.count_name_entry(before, port, payload, answer.number),
            128..=133 => self.count_parameter(before, payload, answer.number, written),
            _ => {}
        }
        if answer.number != 9 {
            self.pair_bytes.insert((port, payload[1]));
        }
        self.add_if(answer.number == 11, "refused 11 from another port than 1");
        self.add_if(answer.number == 16 && others_fit(before, payload), "permanent PGN that makes a list pass 32");
        let halves = [payload[1] >> 4, payload[1] & 0x0F].map(u32::from);
        let past = halves.contains(&(before.ports + 1));
        self.add_if(past && answer.number == 10, "pair with the port one past the count refused with 10");
        self.count_wrong(before, payload, answer);
        if answer.number == 0 {
            self.add(&format!("done {function}"));
            self.add_if(port != 1, "done from another port than 1");
            self.count_done(before, payload, answer.length, after);
        }
    }

    /// A command that is refused for an entry, or though one is wrong.
    fn count_wrong(&mut self, before: &Unit, payload: &[u8], answer: &MessageAnswer) {
        match answer.wrong {
            Some(WrongEntry::NoPgn { entry }) => self.count_no_pgn(before, payload, entry),
            Some(WrongEntry::Absent { entry, to, .. }) => self.count_absent(before, payload, entry, to),
            None => {
                let mut whole = payload[first_entry(payload)..].chunks_exact(3);
                let refused = answer.number == 12 && [2, 3, 6].contains(&payload[0]);
                self.add_if(refused && whole.any(is_no_pgn), "12 though an entry is no PGN");
            }
        }
    }

    /// 22 at an entry of the command.
    fn count_no_pgn(&mut self, before: &Unit, payload: &[u8], entry: usize) {
        let places = entry_places(payload, first_entry(payload)).unwrap_or_default();
        let none = places.iter().filter(|three| is_no_pgn(&three[..])).count();
        let different: BTreeSet<&[u8; 3]> = places.iter().collect();
        let named = before.pairs_named(payload[1]).unwrap_or_default();
        let (eight, creates) = (payload.len() == 8, payload[0] == 6);
        let unsuited = named.iter().any(|pair| before.pairs[pair].is_cleared() != creates);
        self.add(&format!("22 at entry {entry}"));
        self.add_if(none > 1, "22 with other entries that are none");
        self.add_if(eight && places.len() == 1, "22 at a first entry before filling");
        self.add_if(eight && entry == 2, "22 at the second entry of eight bytes");
        self.add_if(entry == 594, "22 at the last of 594 entries");
        self.add_if(creates && payload[2] > 1, "22 though Create's mode is none");
        self.add_if(unsuited, "22 though a pair is cleared or not as the function wants it");
        self.add_if(different.len() > LONGEST_LIST + none, "22 though the entries pass 32");
    }

    /// 17 at an entry of the command and at the pair to a port.
    fn count_absent(&mut self, before: &Unit, payload: &[u8], entry: usize, to: u32) {
        let named = before.pairs_named(payload[1]).unwrap_or_default();
        let entries = entries(payload, 2).unwrap_or_default();
        let lacks = |pair: &(u32, u32)| entries.iter().position(|pgn| !before.pairs[pair].entries().contains(pgn));
        let later: Vec<usize> = named.iter().filter(|pair| pair.1 > to).filter_map(lacks).collect();
        let place = named.iter().position(|pair| pair.1 == to).unwrap_or(0);
        let (earlier, pgn) = (&entries[..entry - 1], entries[entry - 1]);
        let by_name = named.iter().filter(|pair| pair.1 == to).any(|pair| names_have(&before.names[pair], pgn));
        self.add_if(by_name, "17 for a PGN that a NAME entry has");
        self.add(&format!("17 at entry {entry}"));
        self.add_if(named.len() > 1, &format!("17 at pair {} of To 15", place + 1));
        self.add_if(entry > 1 && place > 0, "17 at a later entry and a later pair of To 15");
        self.add_if(!later.is_empty(), "17 where a later pair lacks an entry too");
        self.add_if(later.iter().any(|at| at + 1 < entry), "17 where a later pair lacks an earlier entry");
        self.add_if(entries[entry..].contains(&pgn), "17 at an entry that the command has twice");
        let different: BTreeSet<&u32> = earlier.iter().collect();
        self.add_if(different.len() < earlier.len(), "17 at an entry behind one that stands twice");
    }

    fn count_done(&mut self, before: &Unit, payload: &[u8], length: usize, after: &Unit) {
        let function = payload[0];
        let word = match function {
            2 => "Add",
            3 => "Delete",
            4 => "Clear",
            _ => "Create",
        };
        let all = payload[1] & 0x0F == 15 && function < 64;
        self.add_if(all, &format!("To 15 done by {word}"));
        self.add_if(all && before.ports == 2, "To 15 done on one pair");
        self.add_if(all && before.ports == 8, "To 15 done on seven pairs");
        self.add_if(payload.len() >= 1784, "command of 594 entries done");
        self.add_if(function == 0 && length == 99, "reply 1 of 99 bytes");
        self.add_if(function == 64 && length > 8, "reply 65 over 8 bytes");
        self.add_if(function == 64 && length == 255, "reply 65 of 255 bytes");
        let shown = before.pairs.get(&(u32::from(payload[1] >> 4), u32::from(payload[1] & 0x0F)));
        self.add_if(function == 0 && shown.is_some_and(lists_permanent), "permanent PGN in a reply");
        let shown_names = before.names.get(&(u32::from(payload[1] >> 4), u32::from(payload[1] & 0x0F)));
        let has_names = shown_names.is_some_and(|names| !names.is_empty());
        self.add_if(function == 0 && has_names, "reply 1 of a pair with NAME entries");
        for (pair, list) in &after.pairs {
            if !before.names[pair].is_empty() && after.names[pair].is_empty() {
                self.add("Clear of a pair with NAME entries");
                self.emptied.insert(*pair);
            }
            let created = before.pairs[pair].is_cleared() && !list.is_cleared();
            self.add_if(created && self.emptied.contains(pair), "Create of a pair that had NAME entries");
            let gone = lists_permanent(&before.pairs[pair]) && !lists_permanent(list);
            self.add_if(function == 3 && gone, "permanent PGN deleted");
            let (old, new) = (before.pairs[pair].entries().len(), list.entries().len());
            self.add_if(old != new && new == LONGEST_LIST, "list of exactly 32 reached");
            self.add_if(function == 3 && old != 0 && new == 0, "list emptied by Delete");
            match function {
                2 if old < new => self.grown.insert(*pair),
                3 if old > new => self.shrunk.insert(*pair),
                _ => list.is_cleared() && (self.grown.remove(pair) | self.shrunk.remove(pair)),
            };
        }
    }

    /// The table as printed lines.
    pub fn table(&self) -> Vec<String> {
        let mut lines = vec![self.line_of("calls", &LETTERS, "call ")];
        lines.push(format!("lines that are no call: {}", self.not_calls));
        for number in [0].into_iter().chain(WORDS.map(|(number, _)| number)) {
            let by_call = LETTERS.map(|letter| self.reached(&format!("number {number} {letter}")));
            let shown = LETTERS.iter().zip(by_call).filter(|(_, count)| *count > 0);
            let split: Vec<String> = shown.map(|(letter, count)| format!("{letter} {count}")).collect();
            let total: u64 = by_call.iter().sum();
            lines.push(format!("number {number:2}: {total:6}  {}", split.join(", ")));
        }
        let counts = PORT_COUNTS.map(|ports| format!("{ports}: {}", self.reached(&format!("ports {ports}"))));
        lines.push(format!("calls on units with ports {}", counts.collect::<Vec<_>>().join(", ")));
        lines.push(self.line_of("events", &EVENTS, "event "));
        lines.push(self.line_of("calls in state", &STATES, "state "));
        lines.push(self.line_of("unit told in state", &STATES, "told "));
        lines.push(self.line_of("counts told in state", &STATES, "counts in "));
        lines.push(self.places_of("counts of queues with", WAITING, ""));
        lines.push(self.places_of("counts with priority", PRIORITIES, ""));
        lines.push(self.line_of("pairs asked in mode", &MODES, "mode "));
        let reasons = REASONS.map(|(number, words)| format!("{words} {}", self.reached(&format!("reason {number}"))));
        lines.push(format!("ports by reason: {}", reasons.join(", ")));
        lines.push(self.line_of("permanent PGNs to", &DESTINATIONS, "permanent to "));
        lines.push(self.line_of("permanent PGNs of length", &LENGTHS, "permanent of "));
        lines.push(self.line_of(
            "done by function",
            &["0", "2", "3", "4", "6", "7", "64", "128", "130", "131", "133"],
            "done ",
        ));
        lines.push(self.places_of("22 at entry", WRONG_PLACES, ""));
        lines.push(self.places_of("17 at entry", ABSENT_PLACES, ""));
        lines.push(self.places_of("17 at pair", ABSENT_PAIRS, " of To 15"));
        for (function, numbers) in BY_FUNCTION {
            let reached = |number: &Number| self.reached(&format!("function {function} number {number}"));
            let counts: Vec<String> = numbers.iter().map(|number| format!("{number}: {}", reached(number))).collect();
            lines.push(format!("function {function} by number {}", counts.join(", ")));
        }
        for of in ["in general", "of a pair"] {
            let counts = HELD.map(|held| format!("{held}: {}", self.reached(&format!("parameter {held} {of}"))));
            lines.push(format!("parameters told {of} {}", counts.join(", ")));
        }
        lines.push(self.places_of("function 7 of length", NAME_LENGTHS, ""));
        lines.push(self.places_of("masks of bit", MASK_BITS, ""));
        lines.push(self.places_of("matched NAME entry", NAME_PLACES, ""));
        lines.push(self.places_of("lists looked up of length", LIST_LENGTHS, ""));
        lines.push(self.places_of("listed PGN found at place", LIST_PLACES, ""));
        lines.push(self.places_of("absent PGN above so many", LIST_GAPS, ""));
        lines.push(self.places_of("listed PGN by probes", PROBES_FOUND, ""));
        lines.push(self.places_of("absent PGN by probes", PROBES_ABSENT, ""));
        for row in DEEP.iter().chain(&NAMED).chain(&HALVED).chain(&AT_THE_MOST) {
            lines.push(format!("{row}: {}", self.reached(row)));
        }
        lines.push(format!("function bytes answered: {} of 256", self.functions.len()));
        lines.push(format!("port and pair byte answered: {} of 2048", self.pair_bytes.len()));
        let lengths = [7, 8, 9, 10, 11, 12, 1783, 1784, 1785, 1786];
        let shown = lengths.map(|length| format!("{length}: {}", self.lengths.get(&length).unwrap_or(&0)));
        lines.push(format!("payloads of length {}", shown.join(", ")));
        lines.push(format!("longest queue {}, largest table {}", self.longest_queue, self.largest_table));
        lines
    }

    /// How many of the places were met, and how often the first and the last.
    fn places_of(&self, before: &str, places: RangeInclusive<usize>, behind: &str) -> String {
        let reached = |place: usize| self.reached(&format!("{before} {place}{behind}"));
        let met = places.clone().filter(|&place| reached(place) > 0).count();
        let (first, last) = (*places.start(), *places.end());
        let counts = format!("{first}: {}, {last}: {}", reached(first), reached(last));
        format!("{before}{behind}: {met} of {} places, {counts}", places.count())
    }

    fn line_of(&self, title: &str, rows: &[&str], prefix: &str) -> String {
        let counts = rows.iter().map(|row| format!("{row} {}", self.reached(&format!("{prefix}{row}"))));
        format!("{title}: {}", counts.collect::<Vec<_>>().join(", "))
    }
}

fn letter(call: &Call) -> &'static str {
    match call {
        Call::PowerOn { .. } => "P",
        Call::Start => "S",
        Call::Quiet => "Q",
        Call::Frame { .. } => "F",
        Call::Take { .. } => "T",
        Call::Message { .. } => "M",
        Call::Unit => "U",
        Call::Counts { .. } => "C",
    }
}

fn named_port(call: &Call) -> Option<u32> {
    match call {
        Call::Frame { port, .. } | Call::Take { port } | Call::Message { port, .. } | Call::Counts { port } => {
            Some(*port)
        }
        _ => None,
    }
}

fn event_row(event: &Event) -> &'static str {
    match event {
        Event::None => "-",
        Event::Withdrew => "Withdrew",
        Event::Defended => "Defended",
        Event::Displaced => "Displaced",
        Event::Recorded => "Recorded",
        Event::Refreshed => "Refreshed",
        Event::TookOver(_) => "TookOver",
        Event::Beaten => "Beaten",
    }
}

fn mode_row(pair: &Pair) -> &'static str {
    match pair {
        Pair::Cleared => "cleared",
        Pair::Block(entries) if entries.is_empty() => "block emptied",
        Pair::Block(_) => "block",
        Pair::Pass(entries) if entries.is_empty() => "pass emptied",
        Pair::Pass(_) => "pass",
    }
}

fn destination_row(frame: &Frame, answer: &FrameAnswer) -> &'static str {
    match frame::ps(frame.id) {
        frame::GLOBAL => "all",
        _ if answer.consumed => "the unit",
        _ => "another",
    }
}

fn lists_permanent(pair: &Pair) -> bool {
    pair.entries().iter().any(|pgn| PERMANENT.contains(pgn))
}

fn names_have(names: &[NameEntry], pgn: u32) -> bool {
    names.iter().any(|entry| entry.pgn == pgn)
}

/// Where a command's entries begin.
fn first_entry(payload: &[u8]) -> usize {
    if payload[0] == 6 {
        3
    } else {
        2
    }
}

/// Three bytes, least significant first, that are no PGN.
fn is_no_pgn(three: &[u8]) -> bool {
    !is_pgn(three.iter().rev().fold(0, |number, &byte| 256 * number + u32::from(byte)))
}

/// Whether a command that was refused with 16 has room on every pair for its PGNs but the permanent ones.
fn others_fit(before: &Unit, payload: &[u8]) -> bool {
    let named = entries(payload, first_entry(payload)).unwrap_or_default();
    let pairs = before.pairs_named(payload[1]).unwrap_or_default();
    pairs.iter().all(|pair| {
        let list = added(before.pairs[pair].entries(), &named);
        list.iter().filter(|pgn| !PERMANENT.contains(pgn)).count() <= LONGEST_LIST
    })
}
