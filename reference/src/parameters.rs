//! "Parameters": buffer size, list size, entries, and the messages lost to a full buffer; functions 128, 130, 131 and 133.

use std::collections::BTreeMap;

use crate::message::{check_eight_bytes, check_right, filled, FILLING};
use crate::pair::LONGEST_LIST;
use crate::unit::{Number, Unit, LONGEST_QUEUE};

/// The parameters that are held.
pub const BUFFER_SIZE: u8 = 1;
pub const LIST_SIZE: u8 = 2;
pub const ENTRIES: u8 = 3;
pub const LOST: u8 = 9;
pub const HELD: [u8; 4] = [BUFFER_SIZE, LIST_SIZE, ENTRIES, LOST];

/// The bytes that a size counts for a place.
const QUEUE_PLACE: usize = 13;
const LIST_PLACE: usize = 3;

/// Where a counter of losses stays.
pub const MOST_LOSSES: u64 = 64_255;

/// A counter of losses. A word above the most, which no list of calls leads to, counts as the most.
#[derive(Clone, Copy, Debug, Default, PartialEq, Eq)]
pub struct Counter(pub u64);

impl Counter {
    pub fn told(self) -> u64 {
        self.0.min(MOST_LOSSES)
    }

    fn count(&mut self) {
        *self = Counter((self.told() + 1).min(MOST_LOSSES));
    }
}

/// Losses since power-on or the last reset. The general counter is one of its own and no sum.
#[derive(Clone, Debug, Default, PartialEq, Eq)]
pub struct Losses {
    /// By (From, To): the arrival port, and the port where the frame was lost.
    pub pairs: BTreeMap<(u32, u32), Counter>,
    pub general: Counter,
}

impl Losses {
    /// A forwarded frame was lost at a port.
    pub(crate) fn forwarded(&mut self, from: u32, to: u32) {
        self.of(Whose::Pair(from, to)).count();
        self.general.count();
    }

    /// A frame of the unit's own was lost at so many ports.
    pub(crate) fn own(&mut self, ports: usize) {
        (0..ports).for_each(|_| self.general.count());
    }

    fn of(&mut self, whose: Whose) -> &mut Counter {
        match whose {
            Whose::General => &mut self.general,
            Whose::Pair(from, to) => self.pairs.get_mut(&(from, to)).expect("a pair of the unit"),
        }
    }
}

/// Whose parameter is named: the unit's in general, or a pair's.
#[derive(Clone, Copy, Debug, PartialEq, Eq)]
pub enum Whose {
    General,
    Pair(u32, u32),
}

impl Unit {
    /// 128 and 131: 129 or 132, FF or the pair byte, the parameter, its value in two bytes, least significant first.
    pub(crate) fn parameter(&self, port: u32, payload: &[u8]) -> Result<Vec<u8>, Number> {
        let whose = self.whose(port, payload)?;
        check_parameter(&HELD, payload)?;
        let pair_byte = if whose == Whose::General { FILLING } else { payload[1] };
        let mut reply = vec![payload[0] + 1, pair_byte, payload[2]];
        reply.extend((self.value(whose, payload[2]) as u16).to_le_bytes());
        Ok(filled(reply))
    }

    /// 130 and 133: the named counter, and nothing else.
    pub(crate) fn reset(&mut self, port: u32, payload: &[u8]) -> Result<(), Number> {
        let whose = self.whose(port, payload)?;
        check_parameter(&[LOST], payload)?;
        *self.losses.of(whose) = Counter(0);
        Ok(())
    }

    /// What byte 2 names, or 10 or 11. In the general functions it is ignored, and they are port 1's alone.
    fn whose(&self, port: u32, payload: &[u8]) -> Result<Whose, Number> {
        if payload[0] < 131 {
            return if port == 1 { Ok(Whose::General) } else { Err(11) };
        }
        let (from, to) = self.one_pair(payload[1])?;
        check_right(port, &[(from, to)])?;
        Ok(Whose::Pair(from, to))
    }

    /// The value of a parameter that is held.
    pub fn value(&self, whose: Whose, parameter: u8) -> u64 {
        let (queues, pairs) = match whose {
            Whose::General => (self.queues.len(), self.pairs.keys().copied().collect()),
            Whose::Pair(from, to) => (1, vec![(from, to)]),
        };
        match parameter {
            BUFFER_SIZE => (QUEUE_PLACE * LONGEST_QUEUE * queues) as u64,
            LIST_SIZE => (LIST_PLACE * LONGEST_LIST * pairs.len()) as u64,
            ENTRIES => pairs.iter().map(|pair| self.pairs[pair].entries().len() as u64).sum(),
            _ => self.lost(whose),
        }
    }

    fn lost(&self, whose: Whose) -> u64 {
        match whose {
            Whose::General => self.losses.general.told(),
            Whose::Pair(from, to) => self.losses.pairs[&(from, to)].told(),
        }
    }
}

/// Number 23, then 12.
fn check_parameter(good: &[u8], payload: &[u8]) -> Result<(), Number> {
    if !good.contains(&payload[2]) {
        return Err(23);
    }
    check_eight_bytes(payload)
}
