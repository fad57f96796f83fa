//! The proved unit through its C interface, as a type that is safe to call: Rust's slices are the lent storage, and the
//! borrow checker sees to what a C caller owes. What the record's words mean is read by the published layout.

#![allow(unsafe_code)]

// `usize` below is the C interface's `deorasaeng_size`, which has 64 bits on every processor.
#[cfg(not(target_pointer_width = "64"))]
compile_error!("lengths have 64 bits in the library");

use std::ops::Range;

use crate::frame::{Frame, NULL};
use crate::halving::rising;
use crate::layout::*;
use crate::names::NameEntry;
use crate::pair::Pair;
use crate::parameters::{Losses, MOST_LOSSES};
use crate::plan::Question;
use crate::unit::{Unit, PORT_COUNTS};

/// The length of a record with so many ports, in words; for a count that is none that of four ports.
pub fn record_words_for(ports: u32) -> usize {
    record_words(if PORT_COUNTS.contains(&ports) { ports as usize } else { USUAL_PORTS })
}

#[link(name = "deorasaeng", kind = "static")]
extern "C" {
    fn deorasaeng_power_on(record: *mut u64, record_len: usize, name: u64, preferred: u32) -> u32;
    fn deorasaeng_power_on_ports(record: *mut u64, record_len: usize, name: u64, preferred: u32, ports: u32) -> u32;
    fn deorasaeng_frame(
        record: *mut u64,
        record_len: usize,
        port: u32,
        id: u32,
        bytes: *const u8,
        len: usize,
        answer: *mut u64,
        answer_len: usize,
    ) -> u32;
    fn deorasaeng_take(
        record: *mut u64,
        record_len: usize,
        port: u32,
        answer: *mut u64,
        answer_len: usize,
        bytes: *mut u8,
        bytes_len: usize,
    ) -> u32;
    fn deorasaeng_message(
        record: *mut u64,
        record_len: usize,
        port: u32,
        requester: u32,
        payload: *const u8,
        payload_len: usize,
        reply: *mut u8,
        reply_len: usize,
        answer: *mut u64,
        answer_len: usize,
    ) -> u32;
    fn deorasaeng_start(record: *mut u64, record_len: usize, answer: *mut u64, answer_len: usize) -> u32;
    fn deorasaeng_quiet(record: *mut u64, record_len: usize) -> u32;
    fn deorasaeng_unit(record: *const u64, record_len: usize, answer: *mut u64, answer_len: usize) -> u32;
    fn deorasaeng_counts(record: *const u64, record_len: usize, port: u32, answer: *mut u64, answer_len: usize) -> u32;
    fn deorasaeng_take_queue(
        queue: *mut u64,
        answer: *mut u64,
        answer_len: usize,
        bytes: *mut u8,
        bytes_len: usize,
    ) -> u32;
    fn deorasaeng_plan(
        ports: *const u64,
        ports_len: usize,
        lists: *const u64,
        lists_len: usize,
        segments: u32,
        units: u32,
        first: u32,
        pgn: u32,
        answer: *mut u64,
        answer_len: usize,
    ) -> u32;
    fn deorasaeng_plan_links(
        links: *const Link,
        links_len: usize,
        lists: *const u64,
        lists_len: usize,
        segments: u32,
        units: u32,
        first: u32,
        pgn: u32,
        answer: *mut u64,
        answer_len: usize,
    ) -> u32;
}

/// A record that is lent, of any length. Each call gives the number, 0 for done.
pub struct Record<'a>(pub &'a mut [u64]);

impl Record<'_> {
    pub fn power_on(&mut self, name: u64, preferred: u32) -> u32 {
        unsafe { deorasaeng_power_on(self.0.as_mut_ptr(), self.0.len(), name, preferred) }
    }

    pub fn power_on_ports(&mut self, name: u64, preferred: u32, ports: u32) -> u32 {
        unsafe { deorasaeng_power_on_ports(self.0.as_mut_ptr(), self.0.len(), name, preferred, ports) }
    }

    pub fn frame(&mut self, port: u32, id: u32, bytes: &[u8], answer: &mut [u64]) -> u32 {
        let (record, to) = (self.0.as_mut_ptr(), answer.as_mut_ptr());
        unsafe { deorasaeng_frame(record, self.0.len(), port, id, bytes.as_ptr(), bytes.len(), to, answer.len()) }
    }

    pub fn take(&mut self, port: u32, answer: &mut [u64], bytes: &mut [u8]) -> u32 {
        let (record, to) = (self.0.as_mut_ptr(), answer.as_mut_ptr());
        unsafe { deorasaeng_take(record, self.0.len(), port, to, answer.len(), bytes.as_mut_ptr(), bytes.len()) }
    }

    pub fn message(&mut self, port: u32, requester: u32, payload: &[u8], reply: &mut [u8], answer: &mut [u64]) -> u32 {
        unsafe {
            deorasaeng_message(
                self.0.as_mut_ptr(),
                self.0.len(),
                port,
                requester,
                payload.as_ptr(),
                payload.len(),
                reply.as_mut_ptr(),
                reply.len(),
                answer.as_mut_ptr(),
                answer.len(),
            )
        }
    }

    pub fn start(&mut self, answer: &mut [u64]) -> u32 {
        unsafe { deorasaeng_start(self.0.as_mut_ptr(), self.0.len(), answer.as_mut_ptr(), answer.len()) }
    }

    pub fn quiet(&mut self) -> u32 {
        unsafe { deorasaeng_quiet(self.0.as_mut_ptr(), self.0.len()) }
    }

    pub fn unit(&self, answer: &mut [u64]) -> u32 {
        unsafe { deorasaeng_unit(self.0.as_ptr(), self.0.len(), answer.as_mut_ptr(), answer.len()) }
    }

    pub fn counts(&self, port: u32, answer: &mut [u64]) -> u32 {
        unsafe { deorasaeng_counts(self.0.as_ptr(), self.0.len(), port, answer.as_mut_ptr(), answer.len()) }
    }
}

/// The take on one port's queue.
pub fn take_queue(queue: &mut [u64; QUEUE_WORDS], answer: &mut [u64], bytes: &mut [u8]) -> u32 {
    let (words, to) = (queue.as_mut_ptr(), answer.as_mut_ptr());
    unsafe { deorasaeng_take_queue(words, to, answer.len(), bytes.as_mut_ptr(), bytes.len()) }
}

/// A plan of a machine asked: the number, 0 for done; all lengths may be any.
pub fn plan(ports: &[u64], lists: &[u64], question: Question, answer: &mut [u64]) -> u32 {
    let Question { segments, units, first, pgn } = question;
    let (port_words, list_words, told) = (ports.as_ptr(), lists.as_ptr(), answer.as_mut_ptr());
    unsafe {
        deorasaeng_plan(
            port_words,
            ports.len(),
            list_words,
            lists.len(),
            segments,
            units,
            first,
            pgn,
            told,
            answer.len(),
        )
    }
}

pub fn plan_links(links: &[Link], lists: &[u64], question: Question, answer: &mut [u64]) -> u32 {
    let Question { segments, units, first, pgn } = question;
    let (list_words, told) = (lists.as_ptr(), answer.as_mut_ptr());
    unsafe {
        deorasaeng_plan_links(
            links.as_ptr(),
            links.len(),
            list_words,
            lists.len(),
            segments,
            units,
            first,
            pgn,
            told,
            answer.len(),
        )
    }
}

/// The number of a port's reason in the last word of a frame's answer.
pub fn reason(word: u64, port: u32) -> u32 {
    (word >> (4 * (port - 1)) & 15) as u32
}

/// The words of a port's queue in the record.
pub fn queue_range(port: u32) -> Range<usize> {
    let start = QUEUES_AT + QUEUE_WORDS * (port as usize - 1);
    start..start + QUEUE_WORDS
}

/// Where a record's words mean something else than a unit: the first such thing, in words.
pub fn difference(words: &[u64], unit: &Unit) -> Option<String> {
    let ports = unit.ports as usize;
    ports_difference(words, unit)
        .or_else(|| own_difference(&words[..PORTS_AT], unit))
        .or_else(|| table_difference(&words[TABLE_AT..QUEUES_AT], unit))
        .or_else(|| queues_difference(words, unit))
        .or_else(|| pairs_difference(&words[pairs_at(ports)..losses_at(ports)], unit))
        .or_else(|| losses_difference(&words[losses_at(ports)..], unit))
}

fn ports_difference(words: &[u64], unit: &Unit) -> Option<String> {
    let (said, expected) = (ports_of(words), unit.ports as usize);
    (said != expected).then(|| format!("{said} ports, expected {expected}"))
}

/// Claim state, address, preferred address, NAME.
fn own_difference(words: &[u64], unit: &Unit) -> Option<String> {
    let state = u64::from(unit.state.number());
    let address = unit.address().unwrap_or(NULL);
    let expected = [state, u64::from(address), u64::from(unit.preferred), unit.name];
    (words != expected).then(|| format!("own words {words:X?}, expected {expected:X?}"))
}

/// A pair's words as the list and NAME entries that they mean; a count or number above its size is the size.
fn read_pair(block: &[u64]) -> (Pair, Vec<NameEntry>) {
    let count = block[1].min(LIST as u64) as usize;
    let entries = block[2..2 + count].iter().map(|&pgn| pgn as u32).collect();
    let pair = match block[0] {
        0 => Pair::Cleared,
        BLOCK | BLOCK_NAMED => Pair::Block(entries),
        _ => Pair::Pass(entries),
    };
    let named = if block[0] < BLOCK_NAMED { 0 } else { block[NAMES_AT].min(NAMES as u64) as usize };
    let names = block[NAMES_AT + 1..RISING_AT].chunks(NAME_WORDS).take(named);
    (pair, names.map(|words| NameEntry { pgn: words[0] as u32, name: words[1], mask: words[2] }).collect())
}

/// The pairs in order of From, then To; behind the NAME entries the list in rising order.
fn pairs_difference(words: &[u64], unit: &Unit) -> Option<String> {
    let mut blocks = words.chunks(PAIR_WORDS);
    for from in unit.all_ports() {
        for to in unit.other_ports(from) {
            let block = blocks.next()?;
            let (pair, names) = read_pair(block);
            let (expected, expected_names) = (&unit.pairs[&(from, to)], &unit.names[&(from, to)]);
            if (&pair, &names) != (expected, expected_names) {
                let found = format!("{pair:?} {names:X?}");
                return Some(format!("pair {from} to {to}: {found}, expected {expected:?} {expected_names:X?}"));
            }
            let sorted: Vec<u64> = rising(expected.entries()).into_iter().map(u64::from).collect();
            let found = &block[RISING_AT..][..sorted.len()];
            if found != sorted {
                return Some(format!("pair {from} to {to}: {found:?} in rising order, expected {sorted:?}"));
            }
        }
    }
    None
}

/// The counters' words, the general one's last.
pub fn loss_words(losses: &Losses) -> Vec<u64> {
    losses.pairs.values().chain([&losses.general]).map(|counter| counter.0).collect()
}

fn losses_difference(words: &[u64], unit: &Unit) -> Option<String> {
    // A word above the most is the most, before a loss and after it.
    let told: Vec<u64> = words.iter().map(|&word| word.min(MOST_LOSSES)).collect();
    let expected: Vec<u64> = loss_words(&unit.losses).iter().map(|&word| word.min(MOST_LOSSES)).collect();
    (told != expected).then(|| format!("losses {words:X?}, expected {expected:X?}"))
}

/// For each port: how many wait, what it counts, then each frame's identifier and length, and its bytes.
fn queues_difference(words: &[u64], unit: &Unit) -> Option<String> {
    for (&port, queue) in &unit.queues {
        let block = &words[queue_range(port)];
        let (counts, expected) = (&block[COUNTS_AT..FRAMES_AT], unit.counts[&port].words());
        if counts != expected {
            return Some(format!("counts of port {port}: {counts:X?}, expected {expected:X?}"));
        }
        let count = (block[0] as usize).min(QUEUE);
        let waiting = block[FRAMES_AT..].chunks(2).take(count);
        let same = count == queue.len() && waiting.zip(queue).all(|(pair, frame)| is_frame(pair, frame));
        if !same {
            let found = &block[FRAMES_AT..FRAMES_AT + 2 * count];
            return Some(format!("queue of port {port}: {found:X?}, expected {queue:X?}"));
        }
    }
    None
}

fn is_frame(words: &[u64], frame: &Frame) -> bool {
    let mut bytes = [0; 8];
    bytes[..frame.bytes.len()].copy_from_slice(&frame.bytes);
    let head = u64::from(frame.id) + ((frame.bytes.len() as u64) << 32);
    words == [head, u64::from_le_bytes(bytes)]
}

/// For each address 0 to 253: the arrival port, 0 for none, and the NAME.
fn table_difference(words: &[u64], unit: &Unit) -> Option<String> {
    let mut held = unit.table.iter().peekable();
    for (address, place) in words.chunks(2).enumerate() {
        let expected = held.next_if(|(&at, _)| at as usize == address).map(|(_, holder)| holder);
        let same = match expected {
            Some(holder) => *place == [u64::from(holder.port), holder.name],
            None => place[0] == 0,
        };
        if !same {
            return Some(format!("address {address}: {place:X?}, expected {expected:X?}"));
        }
    }
    None
}
