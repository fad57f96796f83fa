//! A directed pair of ports and its filter list ("Forwarding", rules 2 and 5); `halving` has the count of a look-up in
//! it, `names` what is beside it.

use crate::frame::PERMANENT;
use crate::halving::probes;
use crate::names::{first_match, NameEntry};

/// The longest filter list.
pub const LONGEST_LIST: usize = 32;

/// Why a pair lets a frame cross or stops it.
#[derive(Clone, Copy, Debug, PartialEq, Eq)]
pub enum Reason {
    /// A permanent PGN, whatever the pair.
    Permanent,
    Cleared,
    ListedInPass,
    NotListedInBlock,
    StoppedAsListed,
    StoppedAsNotListed,
}

impl Reason {
    pub fn crosses(self) -> bool {
        !matches!(self, Reason::StoppedAsListed | Reason::StoppedAsNotListed)
    }

    /// Its number; 0 is "not asked".
    pub fn number(self) -> u32 {
        match self {
            Reason::Permanent => 1,
            Reason::Cleared => 2,
            Reason::ListedInPass => 3,
            Reason::NotListedInBlock => 4,
            Reason::StoppedAsListed => 5,
            Reason::StoppedAsNotListed => 6,
        }
    }
}

/// What a pair answers for a frame.
#[derive(Clone, Copy, Debug, PartialEq, Eq)]
pub struct Asked {
    pub reason: Reason,
    /// How many entries were compared: probes of the list, then NAME entries.
    pub compared: usize,
    /// Whether it counts as listed by a NAME entry.
    pub by_name: bool,
}

/// Cleared is not the same as a block pair with no entries (numbers 14 and 15).
#[derive(Clone, Debug, PartialEq, Eq)]
pub enum Pair {
    Cleared,
    /// Mode 0, PGNs in order of addition.
    Block(Vec<u32>),
    /// Mode 1, PGNs in order of addition.
    Pass(Vec<u32>),
}

impl Pair {
    /// The pair that Create makes, for mode 0 or 1.
    pub fn create(mode: u8, entries: Vec<u32>) -> Pair {
        if mode == 0 {
            Pair::Block(entries)
        } else {
            Pair::Pass(entries)
        }
    }

    pub fn is_cleared(&self) -> bool {
        *self == Pair::Cleared
    }

    /// The mode that reply 1 shows; a cleared pair shows 0.
    pub fn mode(&self) -> u8 {
        match self {
            Pair::Cleared | Pair::Block(_) => 0,
            Pair::Pass(_) => 1,
        }
    }

    /// The listed PGNs; a cleared pair has none.
    pub fn entries(&self) -> &[u32] {
        match self {
            Pair::Cleared => &[],
            Pair::Block(entries) | Pair::Pass(entries) => entries,
        }
    }

    /// Forwarding rules 2 and 5 with these NAME entries, for a sender whose NAME is known or not: they count where the list has not the PGN.
    pub fn ask(&self, names: &[NameEntry], pgn: u32, sender: Option<u64>) -> Asked {
        if PERMANENT.contains(&pgn) {
            return Asked { reason: Reason::Permanent, compared: 0, by_name: false };
        }
        let compared = probes(self.entries(), pgn);
        if self.entries().contains(&pgn) {
            return Asked { reason: self.reason(true), compared, by_name: false };
        }
        let place = first_match(names, pgn, sender);
        let compared = compared + place.unwrap_or(names.len());
        Asked { reason: self.reason(place.is_some()), compared, by_name: place.is_some() }
    }

    /// The same where there are no NAME entries: the reason.
    pub fn ask_list(&self, pgn: u32) -> Reason {
        self.ask(&[], pgn, None).reason
    }

    /// By the mode, for a PGN that is not permanent and counts as listed or not.
    fn reason(&self, listed: bool) -> Reason {
        match (self, listed) {
            (Pair::Cleared, _) => Reason::Cleared,
            (Pair::Pass(_), true) => Reason::ListedInPass,
            (Pair::Pass(_), false) => Reason::StoppedAsNotListed,
            (Pair::Block(_), true) => Reason::StoppedAsListed,
            (Pair::Block(_), false) => Reason::NotListedInBlock,
        }
    }

    /// The same pair with another list. A cleared pair stays cleared.
    pub fn with_entries(&self, entries: Vec<u32>) -> Pair {
        match self {
            Pair::Cleared => Pair::Cleared,
            Pair::Block(_) => Pair::Block(entries),
            Pair::Pass(_) => Pair::Pass(entries),
        }
    }
}

/// A list after an addition: listed PGNs keep their place, the others follow in the order named.
pub fn added(list: &[u32], named: &[u32]) -> Vec<u32> {
    let mut result = list.to_vec();
    for &pgn in named {
        if !result.contains(&pgn) {
            result.push(pgn);
        }
    }
    result
}

/// A list after a deletion: what is left keeps its order.
pub fn deleted(list: &[u32], named: &[u32]) -> Vec<u32> {
    list.iter().copied().filter(|pgn| !named.contains(pgn)).collect()
}
