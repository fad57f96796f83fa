//! The unit by hand in Rust, over the same words: safe code on slices, with the C functions at the edge.

use std::slice;

#[allow(dead_code)]
#[path = "../src/layout.rs"]
mod layout;
use layout::*;

/// What a port counts: the ranks, then accepted and taken.
const ACCEPTED: usize = RANKS;
const TAKEN: usize = RANKS + 1;
const NO_ADDRESS: u64 = 254;
const ALL: usize = 15;
const FILLING: u8 = 0xFF;
const MOST_LOSSES: u64 = 64255;

const UNSTARTED: u64 = 0;
const CLAIMING: u64 = 1;
const CLAIMED: u64 = 2;
const LOST: u64 = 3;

const CLEARED: u64 = 0;

const REQUEST_PGN: u32 = 59904;
const CLAIM_PGN: u32 = 60928;
const REPLY_PGN: u64 = 60672;
const ACKNOWLEDGMENT_PGN: u64 = 59392;

mod reason {
    pub const PERMANENT: u64 = 1;
    pub const CLEARED: u64 = 2;
    pub const LISTED_IN_PASS: u64 = 3;
    pub const NOT_LISTED_IN_BLOCK: u64 = 4;
    pub const STOPPED_AS_LISTED: u64 = 5;
    pub const STOPPED_AS_NOT_LISTED: u64 = 6;
}

const REQUEST: u8 = 0;
const ADD: u8 = 2;
const DELETE: u8 = 3;
const CLEAR: u8 = 4;
const CREATE: u8 = 6;
const ADD_BY_NAME: u8 = 7;
const ADDRESSES: u8 = 64;
const TELL_GENERAL: u8 = 128;
const RESET_GENERAL: u8 = 130;
const TELL_PAIR: u8 = 131;
const RESET_PAIR: u8 = 133;

const BUFFER_SIZE: u8 = 1;
const LIST_SIZE: u8 = 2;
const ENTRIES: u8 = 3;
const LOSSES: u8 = 9;

/// The mode, the count, the PGNs; behind them how many NAME entries, where the mode says that there are some, and each one's
/// PGN, NAME and mask; then the PGNs in rising order.
type Pair = [u64; PAIR_WORDS];
/// The mode, the count, the PGNs.
type PlanPair = [u64; PLAN_PAIR_WORDS];
type NameEntry = [u64; NAME_WORDS];
/// How many wait, what the port counts, and two words for each frame: the identifier with the length above it, the bytes.
type Queue = [u64; QUEUE_WORDS];
/// The arrival port, the NAME.
type Place = [u64; PLACE_WORDS];

/// The record's regions. The pairs are, for each port, those to the others; the losses are a counter for each, and the general one last.
struct Unit<'a> {
    own: &'a mut [u64; OWN_WORDS],
    table: &'a mut [Place; PLACES],
    queues: &'a mut [Queue],
    pairs: &'a mut [Pair],
    losses: &'a mut [u64],
}

enum Event {
    Nothing,
    Withdrew,
    Defended,
    Displaced,
    Recorded,
    Refreshed,
    TookOver(u64),
    Beaten,
}

struct FrameAnswer {
    consumed: bool,
    accepted: u64,
    lost: u64,
    event: Event,
    own_lost: u64,
    compared: u64,
    reasons: u64,
}

struct Taken {
    id: u32,
    len: u32,
    bytes: u64,
}

// ---- queues

/// How many wait, what the port counts, the frames' words.
fn parts(queue: &mut Queue) -> (&mut u64, &mut [u64; COUNTS_ANSWER], &mut [u64; 2 * QUEUE]) {
    let [count, rest @ ..] = queue;
    let (counts, frames) = rest.split_at_mut(COUNTS_ANSWER);
    (count, counts.try_into().unwrap(), frames.try_into().unwrap())
}

fn rank_of(head: u64) -> usize {
    (head >> 26 & 7) as usize
}

fn join(queue: &mut Queue, head: u64, bytes: u64) -> bool {
    let (count, counts, frames) = parts(queue);
    let n = *count as usize;
    if n >= QUEUE {
        return false;
    }
    frames[2 * n] = head;
    frames[2 * n + 1] = bytes;
    *count += 1;
    counts[rank_of(head)] = counts[rank_of(head)].wrapping_add(1);
    counts[ACCEPTED] = counts[ACCEPTED].wrapping_add(1);
    true
}

fn take(queue: &mut Queue) -> Option<Taken> {
    let (count, counts, frames) = parts(queue);
    let waiting = &mut frames.as_chunks_mut::<2>().0[..*count as usize];
    let first = (0..waiting.len()).min_by_key(|&i| rank_of(waiting[i][0]))?;
    let [head, bytes] = waiting[first];
    waiting.copy_within(first + 1.., first);
    *count -= 1;
    counts[rank_of(head)] = counts[rank_of(head)].wrapping_sub(1);
    counts[TAKEN] = counts[TAKEN].wrapping_add(1);
    Some(Taken { id: head as u32, len: (head >> 32) as u32, bytes })
}

// ---- lists

fn entries_of(pair: &[u64]) -> &[u64] {
    match pair[0] {
        CLEARED => &[],
        _ => &pair[2..2 + pair[1] as usize],
    }
}

/// The same PGNs in rising order, of a pair that is not cleared.
fn rising_of(pair: &Pair) -> &[u64] {
    &pair[RISING_AT..][..pair[1] as usize]
}

fn names_of(pair: &Pair) -> &[NameEntry] {
    match pair[0] {
        BLOCK_NAMED.. => &pair[NAMES_AT + 1..RISING_AT].as_chunks().0[..pair[NAMES_AT] as usize],
        _ => &[],
    }
}

fn passes(mode: u64) -> bool {
    mode == PASS || mode == PASS_NAMED
}

/// The place of the first that a test holds for, from 1, or how many there are; and whether there is one.
fn search<T>(all: &[T], test: impl Fn(&T) -> bool) -> (bool, u64) {
    match all.iter().position(test) {
        Some(i) => (true, i as u64 + 1),
        None => (false, all.len() as u64),
    }
}

/// Whether a list in rising order has a PGN, and the probes of the middle place, the lower of two, that it takes.
fn halve(mut left: &[u64], x: u64) -> (bool, u64) {
    let mut probes = 0;
    while let Some(&y) = left.get(left.len().wrapping_sub(1) / 2) {
        probes += 1;
        if y == x {
            return (true, probes);
        }
        let (below, above) = left.split_at((left.len() - 1) / 2);
        left = if y < x { &above[1..] } else { below };
    }
    (false, probes)
}

/// Puts a PGN into the first so many words, which are in rising order.
fn insert(rising: &mut [u64], held: usize, x: u64) {
    let mut at = held;
    while at > 0 && rising[at - 1] > x {
        rising[at] = rising[at - 1];
        at -= 1;
    }
    rising[at] = x;
}

/// Takes the places that a mask has out of a list; how many are left.
fn squeeze(list: &mut [u64], gone: u32) -> usize {
    let mut kept = 0;
    for i in 0..list.len() {
        list[kept] = list[i];
        kept += usize::from(gone >> i & 1 == 0);
    }
    kept
}

/// Why a pair lets a PGN from an address through or stops it, and the entries compared. Who is in no place of the table sends permanent PGNs alone.
fn ask(pair: &Pair, pgn: u32, table: &[Place; PLACES], sa: usize) -> (u64, u64) {
    if pair[0] == CLEARED {
        return (reason::CLEARED, 0);
    }
    let pgn = u64::from(pgn);
    let (mut listed, mut compared) = halve(rising_of(pair), pgn);
    if pair[0] >= BLOCK_NAMED && !listed {
        let [port, sender] = table.get(sa).copied().unwrap_or_default();
        let matches = |&[of, name, mask]: &NameEntry| of == pgn && port != 0 && (name ^ sender) & mask == 0;
        let (named, further) = search(names_of(pair), matches);
        (listed, compared) = (named, compared + further);
    }
    (reason_of(pair[0], listed), compared)
}

fn reason_of(mode: u64, listed: bool) -> u64 {
    match (passes(mode), listed) {
        (true, true) => reason::LISTED_IN_PASS,
        (true, false) => reason::STOPPED_AS_NOT_LISTED,
        (false, true) => reason::STOPPED_AS_LISTED,
        (false, false) => reason::NOT_LISTED_IN_BLOCK,
    }
}

fn entries_from(body: &[u8]) -> impl Iterator<Item = u32> + '_ {
    body.chunks_exact(3).map(|b| u32::from_le_bytes([b[0], b[1], b[2], 0]))
}

fn is_pgn(number: u32) -> bool {
    number < 1 << 18 && (number >> 8 & 0xFF >= 240 || number & 0xFF == 0)
}

/// Why a message is refused: the number, and which entry was wrong, by its number from 1, the To port and the PGN.
struct Refusal {
    number: u32,
    wrong: [u64; 3],
}

impl From<u32> for Refusal {
    fn from(number: u32) -> Refusal {
        Refusal { number, wrong: [0; 3] }
    }
}

/// The bytes that are entries, or 12 or 22.
fn entries_in(payload: &[u8], start: usize) -> Result<&[u8], Refusal> {
    let mut body = &payload[start..];
    if payload.len() == 8 && body[3..].iter().all(|&b| b == FILLING) {
        body = &body[..3];
    }
    if body.len() % 3 != 0 {
        return Err(12.into());
    }
    match entries_from(body).position(|x| !is_pgn(x)) {
        Some(i) => Err(Refusal { number: 22, wrong: [i as u64 + 1, 0, 0] }),
        None => Ok(body),
    }
}

/// The different PGNs of the entries, in order, and how many; 16 where they are more than a list holds.
fn different(body: &[u8]) -> Result<([u64; LIST], usize), Refusal> {
    let mut pgns = [0; LIST];
    let mut held = 0;
    for x in entries_from(body).map(u64::from) {
        if !pgns[..held].contains(&x) {
            *pgns.get_mut(held).ok_or(16u32)? = x;
            held += 1;
        }
    }
    Ok((pgns, held))
}

fn add(pairs: &mut [Pair], body: &[u8]) -> Result<(), Refusal> {
    if pairs.iter().any(|p| p[0] == CLEARED) {
        return Err(15.into());
    }
    let (pgns, held) = different(body)?;
    let pgns = &pgns[..held];
    let mut fresh = [0u32; MOST_PORTS - 1];
    for (pair, fresh) in pairs.iter().zip(&mut fresh) {
        let entries = entries_of(pair);
        for (i, x) in pgns.iter().enumerate() {
            if !entries.contains(x) {
                *fresh |= 1 << i;
            }
        }
        if entries.len() + fresh.count_ones() as usize > LIST {
            return Err(16.into());
        }
    }
    for (pair, fresh) in pairs.iter_mut().zip(fresh) {
        for (i, &x) in pgns.iter().enumerate() {
            if fresh >> i & 1 == 1 {
                let held = pair[1] as usize;
                insert(&mut pair[RISING_AT..], held, x);
                pair[2 + held] = x;
                pair[1] += 1;
            }
        }
    }
    Ok(())
}

/// The pairs lead to the ports that `to` gives, in order.
fn delete(pairs: &mut [Pair], to: impl Iterator<Item = usize>, body: &[u8]) -> Result<(), Refusal> {
    if pairs.iter().any(|p| p[0] == CLEARED) {
        return Err(15.into());
    }
    let mut gone = [0u32; MOST_PORTS - 1];
    for ((pair, gone), to) in pairs.iter().zip(&mut gone).zip(to) {
        let entries = entries_of(pair);
        for (i, x) in entries_from(body).map(u64::from).enumerate() {
            let Some(at) = entries.iter().position(|&y| y == x) else {
                return Err(Refusal { number: 17, wrong: [i as u64 + 1, to as u64, x] });
            };
            *gone |= 1 << at;
        }
    }
    for (pair, gone) in pairs.iter_mut().zip(gone) {
        let held = pair[1] as usize;
        let (list, rising) = pair.split_at_mut(RISING_AT);
        let (list, rising) = (&mut list[2..2 + held], &mut rising[..held]);
        let places = (0..held).filter(|at| gone >> at & 1 == 1);
        let sorted = places.filter_map(|at| rising.iter().position(|&x| x == list[at]));
        let sorted = sorted.fold(0, |mask, at| mask | 1 << at);
        squeeze(rising, sorted);
        pair[1] = squeeze(list, gone) as u64;
    }
    Ok(())
}

fn create(pairs: &mut [Pair], mode: u8, body: &[u8]) -> Result<(), Refusal> {
    if mode > 1 {
        return Err(13.into());
    }
    if pairs.iter().any(|p| p[0] != CLEARED) {
        return Err(14.into());
    }
    let (pgns, held) = different(body)?;
    let mut rising = [0; LIST];
    for (i, &x) in pgns[..held].iter().enumerate() {
        insert(&mut rising, i, x);
    }
    for pair in pairs {
        pair[0] = BLOCK + u64::from(mode);
        pair[1] = held as u64;
        pair[2..2 + held].copy_from_slice(&pgns[..held]);
        pair[RISING_AT..][..held].copy_from_slice(&rising[..held]);
    }
    Ok(())
}

/// One NAME entry, in 23 bytes, to one pair.
fn add_by_name(pair: &mut Pair, payload: &[u8]) -> Result<(), Refusal> {
    let &[_, _, a, b, c, ref rest @ ..] = payload else { return Err(12.into()) };
    let Ok(rest) = <&[u8; 18]>::try_from(rest) else { return Err(12.into()) };
    let (pgn, words) = (u32::from_le_bytes([a, b, c, 0]), rest.as_chunks::<8>().0);
    if !is_pgn(pgn) {
        return Err(Refusal { number: 22, wrong: [1, 0, 0] });
    }
    if pair[0] == CLEARED {
        return Err(15.into());
    }
    let entry = [u64::from(pgn), u64::from_le_bytes(words[0]), u64::from_le_bytes(words[1])];
    let names = names_of(pair);
    if names.contains(&entry) {
        return Ok(());
    }
    let n = names.len();
    if n == NAMES {
        return Err(16.into());
    }
    pair[NAMES_AT + 1 + NAME_WORDS * n..][..NAME_WORDS].copy_from_slice(&entry);
    pair[NAMES_AT] = n as u64 + 1;
    if pair[0] < BLOCK_NAMED {
        pair[0] += BLOCK_NAMED - BLOCK;
    }
    Ok(())
}

fn has_eight_bytes(payload: &[u8]) -> Result<(), Refusal> {
    if payload.len() == 8 {
        Ok(())
    } else {
        Err(12.into())
    }
}

// ---- addresses

/// Every address of a NAME but one is dropped; whether there was one.
fn drop_others(table: &mut [Place; PLACES], name: u64, keep: usize) -> bool {
    let mut dropped = false;
    for (i, place) in table.iter_mut().enumerate() {
        if place[1] == name && place[0] != 0 && i != keep {
            *place = [0, 0];
            dropped = true;
        }
    }
    dropped
}

fn contest(place: &mut Place, port: u64, name: u64) -> Event {
    let [holder_port, holder] = *place;
    let event = match () {
        _ if holder_port == 0 => Event::Recorded,
        _ if name == holder => Event::Refreshed,
        _ if name < holder => Event::TookOver(holder),
        _ => return Event::Beaten,
    };
    *place = [port, name];
    event
}

fn lose(counter: &mut u64) {
    if *counter < MOST_LOSSES {
        *counter += 1;
    }
}

fn own_id(address: u64) -> u32 {
    0x18EEFF00 + address as u32
}

fn pack(bytes: &[u8]) -> u64 {
    match bytes.try_into() {
        Ok(eight) => u64::from_le_bytes(eight),
        Err(_) => bytes.iter().rev().fold(0, |word, &b| word << 8 | u64::from(b)),
    }
}

/// The place among a port's pairs of the one to another port.
fn pair_of(from: usize, to: usize) -> usize {
    if to < from {
        to
    } else {
        to - 1
    }
}

impl<'a> Unit<'a> {
    fn over(words: &'a mut [u64]) -> Option<Unit<'a>> {
        let ports = ports_of(words);
        if words.len() != record_words(ports) {
            return None;
        }
        let (own, rest) = words.split_first_chunk_mut()?;
        let (table, rest) = rest.split_at_mut(PLACE_WORDS * PLACES);
        let (queues, rest) = rest.split_at_mut(QUEUE_WORDS * ports);
        let (pairs, losses) = rest.split_at_mut(PAIR_WORDS * ports * (ports - 1));
        Some(Unit {
            own,
            table: table.as_chunks_mut().0.try_into().ok()?,
            queues: queues.as_chunks_mut().0,
            pairs: pairs.as_chunks_mut().0,
            losses,
        })
    }

    fn ports(&self) -> usize {
        self.queues.len()
    }

    /// The pairs from a port, counted from 0.
    fn pairs_from(&mut self, from: usize) -> &mut [Pair] {
        let n = self.ports() - 1;
        &mut self.pairs[n * from..][..n]
    }

    fn holds_address(&self) -> bool {
        self.own[0] == CLAIMING || self.own[0] == CLAIMED
    }

    fn is_own(&self, address: u64) -> bool {
        self.holds_address() && address == self.own[1]
    }

    /// The unit's own frame at every port; the ports where it is lost.
    fn announce(&mut self, id: u32) -> u64 {
        let name = self.own[3];
        let mut lost = 0;
        for (q, queue) in self.queues.iter_mut().enumerate() {
            if !join(queue, u64::from(id) | 8 << 32, name) {
                lost |= 1 << q;
                lose(&mut self.losses[self.pairs.len()]);
            }
        }
        lost
    }

    /// A claim: its event, and the identifier of the frame that the unit sends.
    fn claim(&mut self, port: u64, sa: usize, name: u64) -> (Event, Option<u32>) {
        if name == self.own[3] {
            return (Event::Nothing, None);
        }
        let dropped = drop_others(self.table, name, sa);
        if sa as u64 == NO_ADDRESS {
            return (if dropped { Event::Withdrew } else { Event::Nothing }, None);
        }
        if !self.is_own(sa as u64) {
            return (contest(&mut self.table[sa], port, name), None);
        }
        if self.own[3] < name {
            return (Event::Defended, Some(own_id(sa as u64)));
        }
        self.table[sa] = [port, name];
        self.own[0] = LOST;
        self.own[1] = NO_ADDRESS;
        (Event::Displaced, Some(own_id(NO_ADDRESS)))
    }

    /// Rules 2, 3 and 5: accepted, lost, compared, reasons.
    fn forward(&mut self, from: usize, pgn: u32, head: u64, bytes: u64) -> (u64, u64, u64, u64) {
        let (mut accepted, mut lost, mut total, mut reasons) = (0, 0, 0, 0);
        let permanent = pgn == CLAIM_PGN || pgn == REQUEST_PGN;
        let n = self.ports() - 1;
        let pairs = &self.pairs[n * from..][..n];
        let sa = (head & 255) as usize;
        for (pair, to) in pairs.iter().zip((0..=n).filter(|&to| to != from)) {
            let (reason, compared) = if permanent { (reason::PERMANENT, 0) } else { ask(pair, pgn, self.table, sa) };
            total += compared;
            reasons |= reason << (4 * to);
            if reason >= reason::STOPPED_AS_LISTED {
                continue;
            }
            if join(&mut self.queues[to], head, bytes) {
                accepted |= 1 << to;
            } else {
                lost |= 1 << to;
                lose(&mut self.losses[n * from + pair_of(from, to)]);
                lose(&mut self.losses[self.pairs.len()]);
            }
        }
        (accepted, lost, total, reasons)
    }

    fn frame(&mut self, port: usize, id: u32, bytes: &[u8]) -> Result<FrameAnswer, u32> {
        let (pf, ps, sa) = (id >> 16 & 255, id >> 8 & 255, id & 255);
        let pgn = id >> 8 & if pf < 240 { 0x3FF00 } else { 0x3FFFF };
        if id >> 29 != 0 {
            return Err(3);
        }
        if bytes.len() > 8 {
            return Err(4);
        }
        if sa == 255 || sa == 254 && pgn != REQUEST_PGN && !(pgn == CLAIM_PGN && ps == 255) {
            return Err(5);
        }
        let word = pack(bytes);
        let consumed = pf < 240 && self.is_own(u64::from(ps));
        let head = u64::from(id) | (bytes.len() as u64) << 32;
        let (accepted, lost, compared, reasons) = if consumed { (0, 0, 0, 0) } else { self.forward(port - 1, pgn, head, word) };
        let (event, own) = if pgn == CLAIM_PGN && ps == 255 && bytes.len() == 8 {
            self.claim(port as u64, sa as usize, word)
        } else if pgn == REQUEST_PGN && bytes == [0x00, 0xEE, 0x00] && (consumed || ps == 255) && self.own[0] != UNSTARTED {
            (Event::Nothing, Some(own_id(self.own[1])))
        } else {
            (Event::Nothing, None)
        };
        let own_lost = own.map_or(0, |id| self.announce(id));
        Ok(FrameAnswer { consumed, accepted, lost, event, own_lost, compared, reasons })
    }

    /// A command on pairs, where `to` may be all.
    fn command(&mut self, from: usize, to: usize, payload: &[u8]) -> Result<(), Refusal> {
        let (first, last) = if to == ALL { (1, self.ports()) } else { (to, to) };
        let others = (first..=last).filter(|&other| other != from);
        let all = self.pairs_from(from - 1);
        let pairs = match to {
            ALL => all,
            _ => slice::from_mut(&mut all[pair_of(from - 1, to - 1)]),
        };
        match payload[0] {
            ADD => add(pairs, entries_in(payload, 2)?),
            DELETE => delete(pairs, others, entries_in(payload, 2)?),
            CREATE => create(pairs, payload[2], entries_in(payload, 3)?),
            _ => {
                has_eight_bytes(payload)?;
                pairs.iter_mut().for_each(|p| p[0] = CLEARED);
                Ok(())
            }
        }
    }

    /// Writes the reply that reports a list; its length without filling.
    fn reply_list(&mut self, from: usize, to: usize, pair: u8, reply: &mut [u8]) -> usize {
        let block = &self.pairs_from(from - 1)[pair_of(from - 1, to - 1)];
        let entries = entries_of(block);
        reply[..3].copy_from_slice(&[1, pair, u8::from(passes(block[0]))]);
        for (out, pgn) in reply[3..].chunks_exact_mut(3).zip(entries) {
            out.copy_from_slice(&pgn.to_le_bytes()[..3]);
        }
        3 + 3 * entries.len()
    }

    /// Writes the reply that reports a port's addresses; its length without filling.
    fn reply_addresses(&self, port: usize, reply: &mut [u8]) -> usize {
        reply[0] = 65;
        reply[1] = port as u8;
        let mut n = 2;
        for (i, place) in self.table.iter().enumerate() {
            if place[0] == port as u64 && i as u64 != self.own[1] {
                reply[n] = i as u8;
                n += 1;
            }
        }
        n
    }

    /// 23 and 12, and where none applies a parameter that is reset, or told: then the reply's length without filling. Without a pair it is a general one.
    fn parameter(&mut self, pair: Option<usize>, payload: &[u8], reply: &mut [u8]) -> Result<Option<usize>, Refusal> {
        let (function, asked) = (payload[0], payload[2]);
        let resets = function == RESET_GENERAL || function == RESET_PAIR;
        if asked != LOSSES && (resets || !(BUFFER_SIZE..=ENTRIES).contains(&asked)) {
            return Err(23.into());
        }
        has_eight_bytes(payload)?;
        let counter = &mut self.losses[pair.unwrap_or(self.pairs.len())];
        if resets {
            *counter = 0;
            return Ok(None);
        }
        let (queues, pairs) = match pair {
            Some(i) => (1, &self.pairs[i..=i]),
            None => (self.queues.len(), &self.pairs[..]),
        };
        let value = match asked {
            BUFFER_SIZE => 13 * QUEUE * queues,
            LIST_SIZE => 3 * LIST * pairs.len(),
            ENTRIES => pairs.iter().map(|pair| entries_of(pair).len()).sum(),
            _ => *counter as usize,
        };
        let named = if pair.is_some() { payload[1] } else { FILLING };
        reply[..5].copy_from_slice(&[function + 1, named, asked, value as u8, (value >> 8) as u8]);
        Ok(Some(5))
    }

    /// 9 to 17, 22 and 23, and what the payload asks for where none applies: a reply's length, or nothing where an acknowledgment is due.
    fn perform(&mut self, port: usize, payload: &[u8], reply: &mut [u8]) -> Result<Option<usize>, Refusal> {
        let (from, to) = (usize::from(payload[1] >> 4), usize::from(payload[1] & 15));
        let ports = self.ports();
        let is_port = |p: usize| (1..=ports).contains(&p);
        let function = payload[0];
        match function {
            ADDRESSES if !is_port(to) => Err(10.into()),
            ADDRESSES if port != 1 && port != to => Err(11.into()),
            ADDRESSES => has_eight_bytes(payload).map(|()| Some(self.reply_addresses(to, reply))),
            TELL_GENERAL | RESET_GENERAL if port != 1 => Err(11.into()),
            TELL_GENERAL | RESET_GENERAL => self.parameter(None, payload, reply),
            REQUEST | ADD | DELETE | CLEAR | CREATE | ADD_BY_NAME | TELL_PAIR | RESET_PAIR => {
                if !is_port(from) || from == to || !(is_port(to) || to == ALL && (ADD..=CREATE).contains(&function)) {
                    return Err(10.into());
                }
                // All pairs from a port are a neighbour's too only where there is one.
                if port != 1 && port != from && port != to && !(to == ALL && ports == 2) {
                    return Err(11.into());
                }
                if function == REQUEST {
                    return has_eight_bytes(payload).map(|()| Some(self.reply_list(from, to, payload[1], reply)));
                }
                if function > CREATE {
                    let pair = (ports - 1) * (from - 1) + pair_of(from - 1, to - 1);
                    return match function {
                        ADD_BY_NAME => add_by_name(&mut self.pairs[pair], payload).map(|()| None),
                        _ => self.parameter(Some(pair), payload, reply),
                    };
                }
                self.command(from, to, payload).map(|()| None)
            }
            _ => Err(9.into()),
        }
    }

    /// A message that is not refused with 1, 2, 6, 7 or 8: its number and its answer.
    fn message(&mut self, port: usize, requester: u8, payload: &[u8], reply: &mut [u8]) -> (u32, [u64; MESSAGE_ANSWER]) {
        let Refusal { number, wrong: [entry, to, absent] } = match self.perform(port, payload, reply) {
            Ok(Some(mut n)) => {
                if n < 8 {
                    reply[n..8].fill(FILLING);
                    n = 8;
                }
                return (0, [REPLY_PGN, n as u64, 0, 0, 0]);
            }
            Ok(None) => 0.into(),
            Err(refusal) => refusal,
        };
        let control = match number {
            0 => 0,
            11 => 2,
            _ => 1,
        };
        reply[..8].copy_from_slice(&[control, payload[0], FILLING, FILLING, requester, 0x00, 0xED, 0x00]);
        (number, [ACKNOWLEDGMENT_PGN, 8, entry, to, absent])
    }

    /// The ports where the unit's own frame was lost.
    fn start(&mut self) -> Result<u64, u32> {
        if self.own[0] != UNSTARTED {
            return Err(18);
        }
        let preferred = self.own[2];
        if preferred >= NO_ADDRESS {
            return Err(8);
        }
        let place = &mut self.table[preferred as usize];
        if place[0] != 0 && place[1] < self.own[3] {
            self.own[0] = LOST;
            self.own[1] = NO_ADDRESS;
        } else {
            *place = [0, 0];
            self.own[0] = CLAIMING;
            self.own[1] = preferred;
        }
        Ok(self.announce(own_id(self.own[1])))
    }
}

fn event_words(event: Event) -> (u64, u64) {
    match event {
        Event::Nothing => (0, 0),
        Event::Withdrew => (1, 0),
        Event::Defended => (2, 0),
        Event::Displaced => (3, 0),
        Event::Recorded => (4, 0),
        Event::Refreshed => (5, 0),
        Event::TookOver(old) => (6, old),
        Event::Beaten => (7, 0),
    }
}

/// 1, then 2.
fn lent<'a>(words: &'a mut [u64], port: u32, good: bool) -> Result<Unit<'a>, u32> {
    if !(1..=ports_of(words) as u32).contains(&port) {
        return Err(1);
    }
    match Unit::over(words) {
        Some(unit) if good => Ok(unit),
        _ => Err(2),
    }
}

fn frame(words: &mut [u64], port: u32, id: u32, bytes: &[u8], answer: &mut [u64]) -> Result<(), u32> {
    let mut unit = lent(words, port, answer.len() == FRAME_ANSWER)?;
    let a = unit.frame(port as usize, id, bytes)?;
    let (event, old_name) = event_words(a.event);
    answer.copy_from_slice(&[u64::from(a.consumed), a.accepted, a.lost, event, old_name, a.own_lost, a.compared, a.reasons]);
    Ok(())
}

fn take_out(words: &mut [u64], port: u32, answer: &mut [u64], bytes: &mut [u8]) -> Result<(), u32> {
    let unit = lent(words, port, answer.len() == TAKE_ANSWER && bytes.len() == FRAME_BYTES)?;
    match take(&mut unit.queues[port as usize - 1]) {
        Some(t) => {
            answer.copy_from_slice(&[1, u64::from(t.id), u64::from(t.len)]);
            bytes.copy_from_slice(&t.bytes.to_le_bytes());
        }
        None => answer.fill(0),
    }
    Ok(())
}

fn message(words: &mut [u64], port: u32, requester: u32, payload: &[u8], reply: &mut [u8], answer: &mut [u64]) -> Result<(), u32> {
    let told: Result<&mut [u64; MESSAGE_ANSWER], _> = answer.try_into();
    let mut unit = lent(words, port, told.is_ok() && reply.len() >= REPLY_BYTES);
    if let Ok(u) = &unit {
        if u.own[0] != CLAIMED {
            unit = Err(6);
        } else if !(8..=REPLY_BYTES).contains(&payload.len()) {
            unit = Err(7);
        } else if u64::from(requester) >= NO_ADDRESS {
            unit = Err(8);
        }
    }
    let (number, words) = match unit {
        Ok(mut u) => u.message(port as usize, requester as u8, payload, reply),
        Err(number) => (number, [0; MESSAGE_ANSWER]),
    };
    if let Ok(told) = told {
        *told = words;
    }
    if number == 0 {
        Ok(())
    } else {
        Err(number)
    }
}

fn power_on(words: &mut [u64], name: u64, preferred: u32, ports: u32) -> Result<(), u32> {
    let good = (FEWEST_PORTS..=MOST_PORTS).contains(&(ports as usize));
    let count = if good { ports as usize } else { USUAL_PORTS };
    if words.len() != record_words(count) {
        return Err(2);
    }
    words.fill(0);
    words[..OWN_WORDS].copy_from_slice(&[UNSTARTED, NO_ADDRESS, u64::from(preferred), name, count as u64]);
    if good {
        Ok(())
    } else {
        Err(27)
    }
}

// ---- plans

#[derive(Clone, Copy)]
struct Question {
    segments: usize,
    units: usize,
    first: usize,
    pgn: u32,
}

/// What a number has that no PGN has: bits from 18 on, or a low byte where its PF is below 240.
fn no_pgn(number: u64) -> u64 {
    let low = if number & 0xF000 == 0xF000 { 0 } else { number & 0xFF };
    number >> 18 | low
}

/// A list is judged where there is one: that of a cleared pair is not read.
fn is_good_pair(pair: &PlanPair) -> bool {
    match pair[0] {
        CLEARED => true,
        BLOCK | PASS if pair[1] <= LIST as u64 => entries_of(pair).iter().fold(0, |wrong, &x| wrong | no_pgn(x)) == 0,
        _ => false,
    }
}

/// Whether two paths lead between some segments: a unit has a port on a segment that its earlier ports are joined to.
fn has_ring(units: &[[u64; MOST_PORTS]]) -> bool {
    let mut joined: [u32; MOST_SEGMENTS + 1] = std::array::from_fn(|s| 1 << s);
    for ports in units {
        let mut all = 0;
        for &s in ports.iter().filter(|&&s| s != 0) {
            if all >> s & 1 == 1 {
                return true;
            }
            all |= joined[s as usize];
        }
        for (s, joined) in joined.iter_mut().enumerate() {
            if all >> s & 1 == 1 {
                *joined = all;
            }
        }
    }
    false
}

fn permits(pair: &PlanPair, pgn: u32) -> bool {
    pair[0] == CLEARED || entries_of(pair).contains(&u64::from(pgn)) == (pair[0] == PASS)
}

/// The segments that hear, bit s for segment s. Without a ring each is reached once.
fn walk(units: &[[u64; MOST_PORTS]], pairs: &[PlanPair], first: usize, pgn: u32) -> u64 {
    let permanent = pgn == CLAIM_PGN || pgn == REQUEST_PGN;
    let mut waiting = [(0, MOST_UNITS); MOST_SEGMENTS];
    waiting[0].0 = first as u64;
    let (mut heard, mut n) = (1 << first, 1);
    while n > 0 {
        n -= 1;
        let (segment, by) = waiting[n];
        for (unit, ports) in units.iter().enumerate() {
            let Some(from) = ports.iter().position(|&s| s == segment).filter(|_| unit != by) else { continue };
            let others = (0..MOST_PORTS).filter(|&to| to != from);
            for (to, pair) in others.zip(&pairs[PLAN_PAIRS * unit + (MOST_PORTS - 1) * from..]) {
                let s = ports[to];
                if s != 0 && (permanent || permits(pair, pgn)) {
                    heard |= 1 << s;
                    waiting[n] = (s, unit);
                    n += 1;
                }
            }
        }
    }
    heard
}

fn plan(ports: &[u64], lists: &[u64], q: Question, answer: &mut [u64]) -> Result<(), u32> {
    let (units, pairs) = (ports.as_chunks::<MOST_PORTS>().0, lists.as_chunks::<PLAN_PAIR_WORDS>().0);
    let ([told], true, true) = (answer, units.len() == MOST_UNITS && ports.len() == PLAN_PORTS, lists.len() == PLAN_LISTS) else {
        return Err(2);
    };
    if q.segments > MOST_SEGMENTS || q.units > MOST_UNITS || !(1..=q.segments).contains(&q.first) || !is_pgn(q.pgn) {
        return Err(28);
    }
    let (units, pairs) = (&units[..q.units], &pairs[..PLAN_PAIRS * q.units]);
    if units.as_flattened().iter().any(|&s| s > q.segments as u64) || !pairs.iter().all(is_good_pair) {
        return Err(28);
    }
    if has_ring(units) {
        return Err(29);
    }
    *told = walk(units, pairs, q.first, q.pgn) >> 1;
    Ok(())
}

fn plan_links(links: &[Link], lists: &[u64], q: Question, answer: &mut [u64]) -> Result<(), u32> {
    let mut ports = [0; PLAN_PORTS];
    if lists.len() != PLAN_LISTS || answer.len() != PLAN_ANSWER {
        return Err(2);
    }
    for link in links {
        let (unit, port, segment) = (link.unit as usize, link.port as usize, link.segment as usize);
        let good = (1..=q.units.min(MOST_UNITS)).contains(&unit) && (1..=MOST_PORTS).contains(&port) && (1..=q.segments).contains(&segment);
        if !good || ports[MOST_PORTS * (unit - 1) + port - 1] != 0 {
            return Err(28);
        }
        ports[MOST_PORTS * (unit - 1) + port - 1] = segment as u64;
    }
    plan(&ports, lists, q, answer)
}

fn number(done: Result<(), u32>) -> u32 {
    done.err().unwrap_or(0)
}

// ---- the edge: C hands in pointers with lengths

#[no_mangle]
pub unsafe extern "C" fn rust_power_on(record: *mut u64, record_len: usize, name: u64, preferred: u32) -> u32 {
    number(power_on(slice::from_raw_parts_mut(record, record_len), name, preferred, USUAL_PORTS as u32))
}

#[no_mangle]
pub unsafe extern "C" fn rust_power_on_ports(record: *mut u64, record_len: usize, name: u64, preferred: u32, ports: u32) -> u32 {
    number(power_on(slice::from_raw_parts_mut(record, record_len), name, preferred, ports))
}

#[no_mangle]
pub unsafe extern "C" fn rust_frame(
    record: *mut u64,
    record_len: usize,
    port: u32,
    id: u32,
    bytes: *const u8,
    len: usize,
    answer: *mut u64,
    answer_len: usize,
) -> u32 {
    let words = slice::from_raw_parts_mut(record, record_len);
    let answer = slice::from_raw_parts_mut(answer, answer_len);
    number(frame(words, port, id, slice::from_raw_parts(bytes, len), answer))
}

#[no_mangle]
pub unsafe extern "C" fn rust_take(
    record: *mut u64,
    record_len: usize,
    port: u32,
    answer: *mut u64,
    answer_len: usize,
    bytes: *mut u8,
    bytes_len: usize,
) -> u32 {
    let words = slice::from_raw_parts_mut(record, record_len);
    let answer = slice::from_raw_parts_mut(answer, answer_len);
    number(take_out(words, port, answer, slice::from_raw_parts_mut(bytes, bytes_len)))
}

#[no_mangle]
pub unsafe extern "C" fn rust_message(
    record: *mut u64,
    record_len: usize,
    port: u32,
    requester: u32,
    payload: *const u8,
    payload_len: usize,
    reply: *mut u8,
    reply_len: usize,
    answer: *mut u64,
    answer_len: usize,
) -> u32 {
    let words = slice::from_raw_parts_mut(record, record_len);
    let payload = slice::from_raw_parts(payload, payload_len);
    let reply = slice::from_raw_parts_mut(reply, reply_len);
    number(message(words, port, requester, payload, reply, slice::from_raw_parts_mut(answer, answer_len)))
}

#[no_mangle]
pub unsafe extern "C" fn rust_start(record: *mut u64, record_len: usize, answer: *mut u64, answer_len: usize) -> u32 {
    let words = slice::from_raw_parts_mut(record, record_len);
    let answer = slice::from_raw_parts_mut(answer, answer_len);
    let (Some(mut unit), [lost, state]) = (Unit::over(words), answer) else { return 2 };
    number(unit.start().map(|ports| (*lost, *state) = (ports, unit.own[0])))
}

#[no_mangle]
pub unsafe extern "C" fn rust_quiet(record: *mut u64, record_len: usize) -> u32 {
    let Some(unit) = Unit::over(slice::from_raw_parts_mut(record, record_len)) else { return 2 };
    if unit.own[0] != CLAIMING {
        return 18;
    }
    unit.own[0] = CLAIMED;
    0
}

#[no_mangle]
pub unsafe extern "C" fn rust_unit(record: *const u64, record_len: usize, answer: *mut u64, answer_len: usize) -> u32 {
    let words = slice::from_raw_parts(record, record_len);
    let answer = slice::from_raw_parts_mut(answer, answer_len);
    let ports = ports_of(words);
    if words.len() != record_words(ports) || answer.len() != UNIT_ANSWER {
        return 2;
    }
    answer.copy_from_slice(&words[..OWN_WORDS]);
    answer[PORTS_AT] = ports as u64;
    0
}

#[no_mangle]
pub unsafe extern "C" fn rust_counts(record: *const u64, record_len: usize, port: u32, answer: *mut u64, answer_len: usize) -> u32 {
    let words = slice::from_raw_parts(record, record_len);
    let answer = slice::from_raw_parts_mut(answer, answer_len);
    let ports = ports_of(words);
    if !(1..=ports as u32).contains(&port) {
        return 1;
    }
    if words.len() != record_words(ports) || answer.len() != COUNTS_ANSWER {
        return 2;
    }
    let queue = QUEUES_AT + QUEUE_WORDS * (port as usize - 1);
    answer.copy_from_slice(&words[queue + COUNTS_AT..][..COUNTS_ANSWER]);
    0
}

#[no_mangle]
pub unsafe extern "C" fn rust_plan(
    ports: *const u64,
    ports_len: usize,
    lists: *const u64,
    lists_len: usize,
    segments: u32,
    units: u32,
    first: u32,
    pgn: u32,
    answer: *mut u64,
    answer_len: usize,
) -> u32 {
    let question = Question { segments: segments as usize, units: units as usize, first: first as usize, pgn };
    let lists = slice::from_raw_parts(lists, lists_len);
    number(plan(slice::from_raw_parts(ports, ports_len), lists, question, slice::from_raw_parts_mut(answer, answer_len)))
}

#[no_mangle]
pub unsafe extern "C" fn rust_plan_links(
    links: *const Link,
    links_len: usize,
    lists: *const u64,
    lists_len: usize,
    segments: u32,
    units: u32,
    first: u32,
    pgn: u32,
    answer: *mut u64,
    answer_len: usize,
) -> u32 {
    let question = Question { segments: segments as usize, units: units as usize, first: first as usize, pgn };
    let lists = slice::from_raw_parts(lists, lists_len);
    number(plan_links(slice::from_raw_parts(links, links_len), lists, question, slice::from_raw_parts_mut(answer, answer_len)))
}
