//! A NAME entry: a PGN, a NAME and a mask, by which a pair lists what some senders alone send ("Forwarding", rules 2 and 5).

/// The most NAME entries of a pair.
pub const MOST_NAMES: usize = 8;

/// What function 7 adds to a pair.
#[derive(Clone, Copy, Debug, PartialEq, Eq)]
pub struct NameEntry {
    pub pgn: u32,
    pub name: u64,
    pub mask: u64,
}

impl NameEntry {
    /// Whether it lists a PGN of a sender. One whose NAME is not known is listed by none, whatever the mask.
    pub fn matches(&self, pgn: u32, sender: Option<u64>) -> bool {
        self.pgn == pgn && sender.is_some_and(|name| agrees(self.mask, self.name, name))
    }
}

/// Two NAMEs are equal in every bit that the mask has.
fn agrees(mask: u64, one: u64, other: u64) -> bool {
    (0..64).all(|bit| mask >> bit & 1 == 0 || one >> bit & 1 == other >> bit & 1)
}

/// The place from 1 of the first of these entries that matches.
pub fn first_match(names: &[NameEntry], pgn: u32, sender: Option<u64>) -> Option<usize> {
    names.iter().position(|entry| entry.matches(pgn, sender)).map(|index| index + 1)
}
