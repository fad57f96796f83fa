//! "How full a queue is": what each port counts, and the recount that the counts must equal.

use crate::frame::{self, Frame};
use crate::unit::{Number, Unit};

/// How many ranks there are: priority 0 to 7.
pub const RANKS: usize = 8;

/// What a port counts. All are modulo 2^64.
#[derive(Clone, Copy, Debug, Default, PartialEq, Eq)]
pub struct Counts {
    /// The frames that wait, by priority.
    pub waiting: [u64; RANKS],
    /// Frames accepted since power-on, the unit's own among them.
    pub accepted: u64,
    /// Frames taken since power-on.
    pub taken: u64,
}

impl Counts {
    /// A frame was accepted.
    pub(crate) fn join(&mut self, frame: &Frame) {
        let rank = frame::priority(frame.id) as usize;
        self.waiting[rank] = self.waiting[rank].wrapping_add(1);
        self.accepted = self.accepted.wrapping_add(1);
    }

    /// A take gave a frame.
    pub(crate) fn take(&mut self, frame: &Frame) {
        let rank = frame::priority(frame.id) as usize;
        self.waiting[rank] = self.waiting[rank].wrapping_sub(1);
        self.taken = self.taken.wrapping_add(1);
    }

    /// All that wait.
    pub fn all_waiting(&self) -> u64 {
        self.waiting.iter().fold(0, |sum, count| sum.wrapping_add(*count))
    }

    /// The ten words of the answer.
    pub fn words(&self) -> [u64; RANKS + 2] {
        let mut words = [0; RANKS + 2];
        words[..RANKS].copy_from_slice(&self.waiting);
        words[RANKS..].copy_from_slice(&[self.accepted, self.taken]);
        words
    }
}

/// How many of these frames have each priority.
pub fn recount<'a>(waiting: impl IntoIterator<Item = &'a Frame>) -> [u64; RANKS] {
    let mut counts = [0; RANKS];
    for frame in waiting {
        counts[frame::priority(frame.id) as usize] += 1;
    }
    counts
}

impl Unit {
    /// How full a port's queue is; asking changes nothing.
    pub fn how_full(&self, port: u32) -> Result<Counts, Number> {
        self.check_port(port)?;
        Ok(self.counts[&port])
    }

    /// What must hold after every call since power-on: at each port the counts equal a recount, and accepted is taken plus waiting.
    pub fn counts_hold(&self) -> bool {
        self.all_ports().all(|port| {
            let (counts, queue) = (&self.counts[&port], &self.queues[&port]);
            let waiting = queue.len() as u64;
            counts.waiting == recount(queue) && counts.accepted == counts.taken.wrapping_add(waiting)
        })
    }
}
