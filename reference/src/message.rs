//! "Network messages": functions 0, 2, 3, 4, 6, 7 and 64, and their refusals; `parameters` has those of 128 on.

use crate::address::{name_of, ClaimState};
use crate::frame::{self, is_pgn};
use crate::names::{NameEntry, MOST_NAMES};
use crate::pair::{added, deleted, Pair, LONGEST_LIST};
use crate::unit::{Number, Unit};

/// PGN of the network message, of every reply.
pub const NETWORK_MESSAGE: u32 = 60672;
/// PGN of the acknowledgment.
pub const ACKNOWLEDGMENT: u32 = 59392;
/// The published length of the reply buffer, and the longest payload.
pub const LONGEST_MESSAGE: usize = 1785;
/// The shortest payload; replies under it are filled with FF.
pub const SHORTEST_MESSAGE: usize = 8;

/// The length of function 7's payload: its last two bytes, the rate, are not looked at.
pub const NAME_PAYLOAD: usize = 23;

const ALL_PORTS: u32 = 15;
pub(crate) const FILLING: u8 = 0xFF;

/// The answer to a message: the number (0 for none), PGN and length of what was written, and with 17 and 22 the entry.
#[derive(Clone, Copy, Debug, PartialEq, Eq)]
pub struct MessageAnswer {
    pub number: Number,
    pub pgn: u32,
    pub length: usize,
    pub wrong: Option<WrongEntry>,
}

/// Which entry of a command was wrong; entries are counted from 1, as they stand in the command.
#[derive(Clone, Copy, Debug, PartialEq, Eq)]
pub enum WrongEntry {
    /// 22: the first that is no PGN.
    NoPgn { entry: usize },
    /// 17: of the first pair in rising To order that lacks a PGN of the command, the first that it lacks.
    Absent { entry: usize, to: u32, pgn: u32 },
}

impl MessageAnswer {
    /// The wrong entry as three words: its number, the To port, the PGN; 0 for what is not told.
    pub fn wrong_words(&self) -> [u64; 3] {
        match self.wrong {
            None => [0, 0, 0],
            Some(WrongEntry::NoPgn { entry }) => [entry as u64, 0, 0],
            Some(WrongEntry::Absent { entry, to, pgn }) => [entry as u64, u64::from(to), u64::from(pgn)],
        }
    }
}

/// Why a message is refused: the number, and with 17 and 22 the entry.
#[derive(Clone, Copy, Debug, PartialEq, Eq)]
pub(crate) struct Refusal {
    number: Number,
    wrong: Option<WrongEntry>,
}

impl From<Number> for Refusal {
    fn from(number: Number) -> Refusal {
        Refusal { number, wrong: None }
    }
}

impl Unit {
    /// A message to the unit, handed in whole.
    pub fn message(&mut self, port: u32, requester: u32, payload: &[u8], reply: &mut [u8]) -> MessageAnswer {
        if let Err(number) = self.check_message(port, requester, payload, reply) {
            return MessageAnswer { number, pgn: 0, length: 0, wrong: None };
        }
        let done = self.carry_out(port, payload);
        let Refusal { number, wrong } = done.as_ref().err().copied().unwrap_or(Refusal::from(0));
        let (pgn, written) = match done {
            Ok(Some(bytes)) => (NETWORK_MESSAGE, bytes),
            _ => (ACKNOWLEDGMENT, acknowledgment(number, payload[0], requester)),
        };
        reply[..written.len()].copy_from_slice(&written);
        MessageAnswer { number, pgn, length: written.len(), wrong }
    }

    /// Numbers 1, 2, 6, 7 and 8, which write nothing.
    fn check_message(&self, port: u32, requester: u32, payload: &[u8], reply: &[u8]) -> Result<(), Number> {
        self.check_port(port)?;
        if reply.len() < LONGEST_MESSAGE {
            return Err(2);
        }
        if self.state != ClaimState::Claimed {
            return Err(6);
        }
        if payload.len() < SHORTEST_MESSAGE || payload.len() > LONGEST_MESSAGE {
            return Err(7);
        }
        if requester > frame::HIGHEST_ADDRESS {
            return Err(8);
        }
        Ok(())
    }

    /// Does the function of byte 1: a reply, or nothing where an acknowledgment is due.
    fn carry_out(&mut self, port: u32, payload: &[u8]) -> Result<Option<Vec<u8>>, Refusal> {
        match payload[0] {
            0 => Ok(Some(self.request(port, payload)?)),
            2 => self.add(port, payload).map(|()| None),
            3 => self.delete(port, payload).map(|()| None),
            4 => {
                self.clear(port, payload)?;
                Ok(None)
            }
            6 => self.create(port, payload).map(|()| None),
            7 => self.add_by_name(port, payload).map(|()| None),
            64 => Ok(Some(self.addresses(port, payload)?)),
            128 | 131 => Ok(Some(self.parameter(port, payload)?)),
            130 | 133 => {
                self.reset(port, payload)?;
                Ok(None)
            }
            _ => Err(9.into()),
        }
    }

    /// 0 Request: 1, the pair byte, the mode, the PGNs in order of addition.
    fn request(&self, port: u32, payload: &[u8]) -> Result<Vec<u8>, Number> {
        let named = self.one_pair(payload[1])?;
        check_right(port, &[named])?;
        check_eight_bytes(payload)?;
        let pair = &self.pairs[&named];
        let mut reply = vec![1, payload[1], pair.mode()];
        for pgn in pair.entries() {
            reply.extend_from_slice(&pgn.to_le_bytes()[..3]);
        }
        Ok(filled(reply))
    }

    /// 2 Add: entries from byte 3.
    fn add(&mut self, port: u32, payload: &[u8]) -> Result<(), Refusal> {
        let named = self.pairs_named(payload[1])?;
        check_right(port, &named)?;
        let entries = entries(payload, 2)?;
        self.check_none_cleared(&named)?;
        for pair in &named {
            if added(self.pairs[pair].entries(), &entries).len() > LONGEST_LIST {
                return Err(16.into());
            }
        }
        for pair in named {
            let list = added(self.pairs[&pair].entries(), &entries);
            let grown = self.pairs[&pair].with_entries(list);
            self.pairs.insert(pair, grown);
        }
        Ok(())
    }

    /// 3 Delete: entries from byte 3, judged against the list before the command.
    fn delete(&mut self, port: u32, payload: &[u8]) -> Result<(), Refusal> {
        let named = self.pairs_named(payload[1])?;
        check_right(port, &named)?;
        let entries = entries(payload, 2)?;
        self.check_none_cleared(&named)?;
        for &(from, to) in &named {
            let listed = self.pairs[&(from, to)].entries();
            if let Some(place) = entries.iter().position(|pgn| !listed.contains(pgn)) {
                let absent = WrongEntry::Absent { entry: place + 1, to, pgn: entries[place] };
                return Err(Refusal { number: 17, wrong: Some(absent) });
            }
        }
        for pair in named {
            let list = deleted(self.pairs[&pair].entries(), &entries);
            let shrunk = self.pairs[&pair].with_entries(list);
            self.pairs.insert(pair, shrunk);
        }
        Ok(())
    }

    /// 4 Clear: the lists and the NAME entries.
    fn clear(&mut self, port: u32, payload: &[u8]) -> Result<(), Number> {
        let named = self.pairs_named(payload[1])?;
        check_right(port, &named)?;
        check_eight_bytes(payload)?;
        for pair in named {
            self.pairs.insert(pair, Pair::Cleared);
            self.names.insert(pair, Vec::new());
        }
        Ok(())
    }

    /// 6 Create: mode in byte 3, entries from byte 4, on cleared pairs only.
    fn create(&mut self, port: u32, payload: &[u8]) -> Result<(), Refusal> {
        let named = self.pairs_named(payload[1])?;
        check_right(port, &named)?;
        let entries = entries(payload, 3)?;
        let mode = payload[2];
        if mode > 1 {
            return Err(13.into());
        }
        if !named.iter().all(|pair| self.pairs[pair].is_cleared()) {
            return Err(14.into());
        }
        let list = added(&[], &entries);
        if list.len() > LONGEST_LIST {
            return Err(16.into());
        }
        for pair in named {
            self.pairs.insert(pair, Pair::create(mode, list.clone()));
        }
        Ok(())
    }

    /// 7 Add by NAME: one entry to one pair; one that is there already changes nothing, be there eight.
    fn add_by_name(&mut self, port: u32, payload: &[u8]) -> Result<(), Refusal> {
        let named = self.one_pair(payload[1])?;
        check_right(port, &[named])?;
        let entry = name_entry(payload)?;
        self.check_none_cleared(&[named])?;
        let names = self.names.get_mut(&named).expect("a pair of the unit");
        if names.contains(&entry) {
            return Ok(());
        }
        if names.len() == MOST_NAMES {
            return Err(16.into());
        }
        names.push(entry);
        Ok(())
    }

    /// 64: 65, the port, its addresses in rising order, the unit's own left out.
    fn addresses(&self, port: u32, payload: &[u8]) -> Result<Vec<u8>, Number> {
        let named = u32::from(payload[1] & 0x0F);
        if !self.all_ports().contains(&named) {
            return Err(10);
        }
        if port != 1 && port != named {
            return Err(11);
        }
        check_eight_bytes(payload)?;
        let mut reply = vec![65, named as u8];
        for (&address, holder) in &self.table {
            if holder.port == named && self.address() != Some(address) {
                reply.push(address as u8);
            }
        }
        Ok(filled(reply))
    }

    /// Number 15.
    fn check_none_cleared(&self, named: &[(u32, u32)]) -> Result<(), Number> {
        if named.iter().any(|pair| self.pairs[pair].is_cleared()) {
            Err(15)
        } else {
            Ok(())
        }
    }

    /// The pair of byte 2, From in the upper four bits, To in the lower, or number 10.
    pub(crate) fn one_pair(&self, byte: u8) -> Result<(u32, u32), Number> {
        let from = u32::from(byte >> 4);
        let to = u32::from(byte & 0x0F);
        if self.all_ports().contains(&from) && self.all_ports().contains(&to) && from != to {
            Ok((from, to))
        } else {
            Err(10)
        }
    }

    /// The pairs of byte 2 in rising To order, where To may be 15, all pairs from that port.
    pub(crate) fn pairs_named(&self, byte: u8) -> Result<Vec<(u32, u32)>, Number> {
        let from = u32::from(byte >> 4);
        let to = u32::from(byte & 0x0F);
        if self.all_ports().contains(&from) && to == ALL_PORTS {
            Ok(self.other_ports(from).into_iter().map(|other| (from, other)).collect())
        } else {
            Ok(vec![self.one_pair(byte)?])
        }
    }
}

/// Number 11: on a port other than 1, every named pair must have it as From or To.
pub(crate) fn check_right(port: u32, named: &[(u32, u32)]) -> Result<(), Number> {
    if port == 1 || named.iter().all(|&(from, to)| from == port || to == port) {
        Ok(())
    } else {
        Err(11)
    }
}

/// Number 12 for functions 0, 4, 64 and those of parameters.
pub(crate) fn check_eight_bytes(payload: &[u8]) -> Result<(), Number> {
    if payload.len() == 8 {
        Ok(())
    } else {
        Err(12)
    }
}

/// The PGNs named from payload[first] on, as they stand there, or number 12 or 22.
pub(crate) fn entries(payload: &[u8], first: usize) -> Result<Vec<u32>, Refusal> {
    let places = entry_places(payload, first)?;
    let mut named = Vec::new();
    for (place, &three_bytes) in places.iter().enumerate() {
        let Some(pgn) = entry(three_bytes) else {
            return Err(Refusal { number: 22, wrong: Some(WrongEntry::NoPgn { entry: place + 1 }) });
        };
        named.push(pgn);
    }
    Ok(named)
}

/// The NAME entry of a payload of function 7: PGN, NAME, mask; or number 12, or 22 at entry 1.
pub(crate) fn name_entry(payload: &[u8]) -> Result<NameEntry, Refusal> {
    if payload.len() != NAME_PAYLOAD {
        return Err(12.into());
    }
    let pgn = entry([payload[2], payload[3], payload[4]]);
    let pgn = pgn.ok_or(Refusal { number: 22, wrong: Some(WrongEntry::NoPgn { entry: 1 }) })?;
    Ok(NameEntry { pgn, name: name_of(&payload[5..13]), mask: name_of(&payload[13..21]) })
}

/// The bytes of each entry, or number 12. Eight bytes have one entry and filling, FF to the last byte, and Add's and
/// Delete's two entries where their last three bytes are not filling; longer payloads hold entries to the last byte.
pub(crate) fn entry_places(payload: &[u8], first: usize) -> Result<Vec<[u8; 3]>, Number> {
    let after_first_entry = &payload[first + 3..];
    let has_filling = payload.len() == 8 && after_first_entry.iter().all(|&byte| byte == FILLING);
    let body = if has_filling { &payload[first..first + 3] } else { &payload[first..] };
    body.chunks(3).map(|bytes| bytes.try_into().map_err(|_| 12)).collect()
}

/// Three bytes, least significant first, that are a PGN.
fn entry([low, middle, high]: [u8; 3]) -> Option<u32> {
    let number = u32::from(low) + 256 * u32::from(middle) + 65536 * u32::from(high);
    is_pgn(number).then_some(number)
}

/// The acknowledgment: 0 for done, 2 for 11, 1 for the others; the function as received, FF, FF, requester, 00, ED, 00.
fn acknowledgment(number: Number, function: u8, requester: u32) -> Vec<u8> {
    let control = match number {
        0 => 0,
        11 => 2,
        _ => 1,
    };
    vec![control, function, FILLING, FILLING, requester as u8, 0x00, 0xED, 0x00]
}

/// Replies under 8 bytes are filled with FF.
pub(crate) fn filled(mut reply: Vec<u8>) -> Vec<u8> {
    while reply.len() < SHORTEST_MESSAGE {
        reply.push(FILLING);
    }
    reply
}
