//! "Addresses": claims, requests, the unit's own claim, Start and Quiet.

use crate::frame::{self, Frame};
use crate::unit::{FrameAnswer, Number, Unit};

/// The state of the unit's own claim.
#[derive(Clone, Copy, Debug, PartialEq, Eq)]
pub enum ClaimState {
    Unstarted,
    Claiming,
    Claimed,
    Lost,
}

/// What Start answers: what became of the unit, Claiming or Lost, and the ports where its frame was lost.
#[derive(Clone, Debug, PartialEq, Eq)]
pub struct StartAnswer {
    pub state: ClaimState,
    pub own_lost: Vec<u32>,
}

/// What the unit tells of itself. The address is none when Unstarted or Lost.
#[derive(Clone, Debug, PartialEq, Eq)]
pub struct UnitAnswer {
    pub state: ClaimState,
    pub address: Option<u32>,
    pub preferred: u32,
    pub name: u64,
    pub ports: u32,
}

/// Who holds an address: the NAME, and the port its claim arrived at.
#[derive(Clone, Copy, Debug, PartialEq, Eq)]
pub struct Holder {
    pub name: u64,
    pub port: u32,
}

/// The claim event of a frame. A frame that is no claim has none.
#[derive(Clone, Copy, Debug, PartialEq, Eq)]
pub enum Event {
    None,
    Withdrew,
    Defended,
    Displaced,
    Recorded,
    Refreshed,
    /// Carries the old NAME.
    TookOver(u64),
    Beaten,
}

impl Unit {
    /// The unit's address, none when Unstarted or Lost.
    pub fn address(&self) -> Option<u32> {
        match self.state {
            ClaimState::Claiming | ClaimState::Claimed => Some(self.preferred),
            ClaimState::Unstarted | ClaimState::Lost => None,
        }
    }

    /// What the unit is; reading it changes nothing.
    pub fn tell(&self) -> UnitAnswer {
        UnitAnswer {
            state: self.state,
            address: self.address(),
            preferred: self.preferred,
            name: self.name,
            ports: self.ports,
        }
    }

    /// Claims and requests are acted on after rules 1 to 3, a consumed request too.
    pub(crate) fn act_on(&mut self, port: u32, frame: &Frame, answer: &mut FrameAnswer) {
        if is_claim(frame) {
            self.act_on_claim(port, frame, answer);
        } else if is_request_for_address_claimed(frame) {
            self.act_on_request(frame, answer);
        }
    }

    fn act_on_claim(&mut self, port: u32, frame: &Frame, answer: &mut FrameAnswer) {
        let name = name_of(&frame.bytes);
        let address = frame::sa(frame.id);
        if name == self.name {
            return;
        }
        if address == frame::NULL {
            answer.event = self.withdraw(name);
            return;
        }
        self.table.retain(|&held, holder| holder.name != name || held == address);
        if self.address() == Some(address) {
            answer.event = self.contend(port, name, address);
            answer.own_lost = self.send_own_frame();
        } else {
            answer.event = self.record(port, name, address);
        }
    }

    /// SA 254: the NAME leaves the table.
    fn withdraw(&mut self, name: u64) -> Event {
        let held_before = self.table.len();
        self.table.retain(|_, holder| holder.name != name);
        if self.table.len() < held_before {
            Event::Withdrew
        } else {
            Event::None
        }
    }

    /// A claim for the unit's address: the lower NAME wins.
    fn contend(&mut self, port: u32, name: u64, address: u32) -> Event {
        if name > self.name {
            Event::Defended
        } else {
            self.table.insert(address, Holder { name, port });
            self.state = ClaimState::Lost;
            Event::Displaced
        }
    }

    /// A claim for an address that is not the unit's.
    fn record(&mut self, port: u32, name: u64, address: u32) -> Event {
        let event = match self.table.get(&address) {
            None => Event::Recorded,
            Some(holder) if holder.name == name => Event::Refreshed,
            Some(holder) if name < holder.name => Event::TookOver(holder.name),
            Some(_) => return Event::Beaten,
        };
        self.table.insert(address, Holder { name, port });
        event
    }

    /// A request for address claimed: to 255, or consumed under rule 1.
    fn act_on_request(&mut self, frame: &Frame, answer: &mut FrameAnswer) {
        let global = frame::ps(frame.id) == frame::GLOBAL;
        let unstarted = self.state == ClaimState::Unstarted;
        if answer.consumed || (global && !unstarted) {
            answer.own_lost = self.send_own_frame();
        }
    }

    /// Start; 18 comes before 8.
    pub fn start(&mut self) -> Result<StartAnswer, Number> {
        if self.state != ClaimState::Unstarted {
            return Err(18);
        }
        if self.preferred > frame::HIGHEST_ADDRESS {
            return Err(8);
        }
        match self.table.get(&self.preferred) {
            Some(holder) if holder.name < self.name => self.state = ClaimState::Lost,
            _ => {
                self.table.remove(&self.preferred);
                self.state = ClaimState::Claiming;
            }
        }
        let own_lost = self.send_own_frame();
        Ok(StartAnswer { state: self.state, own_lost })
    }

    /// Quiet, called once the 250 ms are over.
    pub fn quiet(&mut self) -> Result<(), Number> {
        if self.state != ClaimState::Claiming {
            return Err(18);
        }
        self.state = ClaimState::Claimed;
        Ok(())
    }

    /// The unit's claim, or cannot-claim where it has no address.
    fn own_frame(&self) -> Frame {
        let sender = self.address().unwrap_or(frame::NULL);
        Frame { id: 0x18EE_FF00 + sender, bytes: self.name.to_le_bytes().to_vec() }
    }

    /// The unit's frame joins every queue under rule 3; gives the ports where it was lost.
    fn send_own_frame(&mut self) -> Vec<u32> {
        let own = self.own_frame();
        let lost: Vec<u32> = self.all_ports().filter(|&port| !self.join(port, &own)).collect();
        self.losses.own(lost.len());
        lost
    }
}

impl ClaimState {
    /// The state's number.
    pub fn number(self) -> u32 {
        match self {
            ClaimState::Unstarted => 0,
            ClaimState::Claiming => 1,
            ClaimState::Claimed => 2,
            ClaimState::Lost => 3,
        }
    }
}

/// A claim is PGN 60928, PS 255, length 8.
pub fn is_claim(frame: &Frame) -> bool {
    frame::pgn(frame.id) == frame::ADDRESS_CLAIMED && frame::ps(frame.id) == frame::GLOBAL && frame.bytes.len() == 8
}

/// A request for address claimed is PGN 59904, length 3, bytes 00 EE 00.
pub fn is_request_for_address_claimed(frame: &Frame) -> bool {
    frame::pgn(frame.id) == frame::REQUEST && frame.bytes == [0x00, 0xEE, 0x00]
}

/// The NAME of a claim's eight bytes, least significant first.
pub fn name_of(bytes: &[u8]) -> u64 {
    let mut name = 0;
    for &byte in bytes.iter().rev() {
        name = name * 256 + u64::from(byte);
    }
    name
}
