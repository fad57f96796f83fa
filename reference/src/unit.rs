//! The unit, its power-on, and "Forwarding": frames and takes.

use std::collections::{BTreeMap, VecDeque};
use std::ops::RangeInclusive;

use crate::address::{ClaimState, Event, Holder};
use crate::counts::Counts;
use crate::frame::{self, Frame};
use crate::names::NameEntry;
use crate::pair::{Pair, Reason};
use crate::parameters::{Counter, Losses};

/// How many ports a unit may have.
pub const PORT_COUNTS: RangeInclusive<u32> = 2..=8;
/// How many it has where power-on says no count, or another one.
pub const USUAL_PORTS: u32 = 4;
/// The most frames that wait at one port.
pub const LONGEST_QUEUE: usize = 32;

/// The number of a refusal, from the table "Numbers given back".
pub type Number = u32;

/// The record of one unit.
#[derive(Clone, Debug, PartialEq, Eq)]
pub struct Unit {
    pub name: u64,
    pub preferred: u32,
    pub state: ClaimState,
    /// How many ports it has; port 1 is the service port.
    pub ports: u32,
    /// The directed pairs, by (From, To).
    pub pairs: BTreeMap<(u32, u32), Pair>,
    /// The NAME entries beside each pair's list, in order of addition; a cleared pair has none.
    pub names: BTreeMap<(u32, u32), Vec<NameEntry>>,
    /// One queue for each port, in order of joining.
    pub queues: BTreeMap<u32, VecDeque<Frame>>,
    /// What each port counts.
    pub counts: BTreeMap<u32, Counts>,
    /// The frames that were lost to full queues.
    pub losses: Losses,
    /// The address table: who holds which address.
    pub table: BTreeMap<u32, Holder>,
}

/// The answer to a frame (forwarding rule 5). Ports are in rising order.
#[derive(Clone, Debug, PartialEq, Eq)]
pub struct FrameAnswer {
    pub consumed: bool,
    pub accepted: Vec<u32>,
    pub lost: Vec<u32>,
    pub event: Event,
    pub own_lost: Vec<u32>,
    pub compared: usize,
    /// For each port from 1 on, what its pair said; nothing where none was asked.
    pub reasons: Vec<Option<Reason>>,
    /// The ports whose pair lists the frame by a NAME entry.
    pub by_name: Vec<u32>,
}

impl FrameAnswer {
    /// The number of a port's reason; 0 where no pair was asked, and for a port that the unit has not.
    pub fn reason_number(&self, port: u32) -> u32 {
        self.reasons.get(port as usize - 1).copied().flatten().map_or(0, Reason::number)
    }

    /// The reasons as one word: four bits a port, port 1's the lowest.
    pub fn reason_word(&self) -> u64 {
        self.reasons.iter().rev().fold(0, |word, reason| word << 4 | u64::from(reason.map_or(0, Reason::number)))
    }
}

impl Unit {
    /// Power-on with four ports.
    pub fn power_on(name: u64, preferred: u32) -> Unit {
        Unit::fresh(name, preferred, USUAL_PORTS)
    }

    /// Power-on with a number of ports. 27 hands back the unit as with four, and is a power-on all the same.
    pub fn power_on_ports(name: u64, preferred: u32, ports: u32) -> (Unit, Result<(), Number>) {
        if PORT_COUNTS.contains(&ports) {
            (Unit::fresh(name, preferred, ports), Ok(()))
        } else {
            (Unit::power_on(name, preferred), Err(27))
        }
    }

    /// Pairs cleared, queues and table empty, every count 0, nothing lost, the unit Unstarted.
    fn fresh(name: u64, preferred: u32, ports: u32) -> Unit {
        let mut pairs = BTreeMap::new();
        let mut names = BTreeMap::new();
        let mut queues = BTreeMap::new();
        let mut counts = BTreeMap::new();
        let mut losses = Losses::default();
        for from in 1..=ports {
            queues.insert(from, VecDeque::new());
            counts.insert(from, Counts::default());
            for to in (1..=ports).filter(|&to| to != from) {
                pairs.insert((from, to), Pair::Cleared);
                names.insert((from, to), Vec::new());
                losses.pairs.insert((from, to), Counter::default());
            }
        }
        let (state, table) = (ClaimState::Unstarted, BTreeMap::new());
        Unit { name, preferred, state, ports, pairs, names, queues, counts, losses, table }
    }

    /// The ports, in rising order.
    pub fn all_ports(&self) -> RangeInclusive<u32> {
        1..=self.ports
    }

    /// The ports other than this one, in rising order.
    pub fn other_ports(&self, port: u32) -> Vec<u32> {
        self.all_ports().filter(|&other| other != port).collect()
    }

    /// Number 1.
    pub(crate) fn check_port(&self, port: u32) -> Result<(), Number> {
        if self.all_ports().contains(&port) {
            Ok(())
        } else {
            Err(1)
        }
    }

    /// A frame that arrived at a port.
    pub fn frame(&mut self, port: u32, id: u32, bytes: &[u8]) -> Result<FrameAnswer, Number> {
        self.check_port(port)?;
        check_frame(id, bytes)?;
        let frame = Frame { id, bytes: bytes.to_vec() };
        let mut answer = FrameAnswer {
            consumed: self.consumes(id),
            accepted: Vec::new(),
            lost: Vec::new(),
            event: Event::None,
            own_lost: Vec::new(),
            compared: 0,
            reasons: vec![None; self.ports as usize],
            by_name: Vec::new(),
        };
        if !answer.consumed {
            self.forward(port, &frame, &mut answer);
        }
        self.act_on(port, &frame, &mut answer);
        Ok(answer)
    }

    /// Forwarding rule 1.
    fn consumes(&self, id: u32) -> bool {
        frame::pf(id) < 240 && self.address() == Some(frame::ps(id))
    }

    /// Forwarding rules 2 and 3, and the count and reasons of rule 5. The sender's NAME is the table's before the frame is acted on.
    fn forward(&mut self, port: u32, frame: &Frame, answer: &mut FrameAnswer) {
        let pgn = frame::pgn(frame.id);
        let sender = self.table.get(&frame::sa(frame.id)).map(|holder| holder.name);
        for to in self.other_ports(port) {
            let asked = self.pairs[&(port, to)].ask(&self.names[&(port, to)], pgn, sender);
            answer.compared += asked.compared;
            answer.reasons[to as usize - 1] = Some(asked.reason);
            if asked.by_name {
                answer.by_name.push(to);
            }
            if asked.reason.crosses() {
                if self.join(to, frame) {
                    answer.accepted.push(to);
                } else {
                    answer.lost.push(to);
                    self.losses.forwarded(port, to);
                }
            }
        }
    }

    /// Forwarding rule 3: a permitted frame joins a port's queue where fewer than 32 wait, and is counted there.
    pub(crate) fn join(&mut self, port: u32, frame: &Frame) -> bool {
        let queue = self.queues.get_mut(&port).expect("a port of the unit");
        if queue.len() < LONGEST_QUEUE {
            queue.push_back(frame.clone());
            self.counts.get_mut(&port).expect("a port of the unit").join(frame);
            true
        } else {
            false
        }
    }

    /// Forwarding rule 4: the frame of highest rank, the earliest accepted of those.
    pub fn take(&mut self, port: u32) -> Result<Option<Frame>, Number> {
        self.check_port(port)?;
        let queue = self.queues.get_mut(&port).expect("a port of the unit");
        let Some(highest) = queue.iter().map(|waiting| frame::priority(waiting.id)).min() else {
            return Ok(None);
        };
        let first = queue.iter().position(|waiting| frame::priority(waiting.id) == highest);
        let given = first.and_then(|index| queue.remove(index));
        if let Some(frame) = &given {
            self.counts.get_mut(&port).expect("a port of the unit").take(frame);
        }
        Ok(given)
    }
}

/// Numbers 3, 4 and 5.
fn check_frame(id: u32, bytes: &[u8]) -> Result<(), Number> {
    if id >= 1 << 29 {
        return Err(3);
    }
    if bytes.len() > 8 {
        return Err(4);
    }
    let request = frame::pgn(id) == frame::REQUEST;
    let claim = frame::pgn(id) == frame::ADDRESS_CLAIMED && frame::ps(id) == frame::GLOBAL;
    match frame::sa(id) {
        255 => Err(5),
        frame::NULL if !request && !claim => Err(5),
        _ => Ok(()),
    }
}
