//! A seeded generator of calls. It runs the unit along, so as to aim at deep states.

use crate::address::ClaimState;
use crate::frame::{is_pgn, HIGHEST_ADDRESS, PERMANENT};
use crate::halving::rising;
use crate::names::NameEntry;
use crate::parameters::MOST_LOSSES;
use crate::script::{apply, Call};
use crate::unit::Unit;

/// splitmix64.
pub struct Random {
    state: u64,
}

impl Random {
    pub fn new(seed: u64) -> Random {
        Random { state: seed }
    }

    pub fn number(&mut self) -> u64 {
        self.state = self.state.wrapping_add(0x9E37_79B9_7F4A_7C15);
        let mut mixed = self.state;
        mixed = (mixed ^ (mixed >> 30)).wrapping_mul(0xBF58_476D_1CE4_E5B9);
        mixed = (mixed ^ (mixed >> 27)).wrapping_mul(0x94D0_49BB_1331_11EB);
        mixed ^ (mixed >> 31)
    }

    /// A number below the limit.
    pub fn below(&mut self, limit: u32) -> u32 {
        (self.number() % u64::from(limit)) as u32
    }

    /// True once in so many.
    pub fn once_in(&mut self, times: u32) -> bool {
        self.below(times) == 0
    }

    pub fn pick<T: Copy>(&mut self, choices: &[T]) -> T {
        choices[self.below(choices.len() as u32) as usize]
    }
}

/// A list of calls that begins with a power-on.
pub fn generate(seed: u64, calls: usize) -> Vec<Call> {
    let mut generator = Generator::new(seed);
    while generator.calls.len() < calls {
        generator.life(calls);
    }
    generator.calls.truncate(calls);
    generator.calls
}

/// A long list of calls on one unit, of 2 to 8 ports by the seed, that loses frames until the counters of a pair and in general stay, and beyond.
pub fn storms(seed: u64) -> Vec<Call> {
    let mut generator = Generator::new(seed);
    generator.lose_to_the_most(2 + (seed % 7) as u32);
    generator.calls
}

/// Every pair byte of every function, on a unit with four ports from every port, on one with two and one with eight
/// from the first and the last.
pub fn sweep() -> Vec<Call> {
    let mut calls = sweep_of(4, &[1, 2, 3, 4]);
    calls.extend(sweep_of(2, &[1, 2]));
    calls.extend(sweep_of(8, &[1, 8]));
    calls
}

/// On one unit that is Claimed, with an address at each port. Create comes first, so that the others find lists.
fn sweep_of(ports: u32, tools: &[u32]) -> Vec<Call> {
    let mut calls = vec![Call::PowerOn { name: 1 << 63, preferred: 200, ports }, Call::Start, Call::Quiet];
    calls.extend((1..=ports).map(|port| Call::Frame { port, id: 0x18EE_FF20 + port, bytes: vec![port as u8; 8] }));
    for function in [6, 0, 2, 7, 3, 4, 64, 128, 130, 131, 133] {
        for &port in tools {
            for byte in 0..=255 {
                let pgn = 65265 + u32::from(byte % 3);
                let payload = match function {
                    7 => name_payload(byte, &NameEntry { pgn, name: port.into(), mask: 1 << (byte % 64) }, byte.into()),
                    0..=127 => payload(function, byte, byte % 2, &[pgn]),
                    _ => vec![function, byte, [9, 3, 2, 1, 9, 0, 9][usize::from(byte % 7)], byte, 0, byte, 0, 0],
                };
                calls.push(Call::Message { port, requester: 33, payload });
            }
        }
    }
    calls
}

struct Generator {
    random: Random,
    calls: Vec<Call>,
    /// The unit as the next call meets it.
    unit: Unit,
    /// Few NAMEs, few addresses and some PGNs, so that they collide.
    names: Vec<u64>,
    addresses: Vec<u32>,
    pgns: Vec<u32>,
    /// How many of 100 calls are takes, and a port that is not taken from (0 for none).
    takes: u32,
    stuck: u32,
    /// Step through every function byte, and through every pair byte at every port.
    function_sweep: u32,
    pair_sweep: u32,
    /// Steps through the places of a command where an entry is wrong.
    place_sweep: usize,
    /// Steps through the lengths of function 7's payload, and through the bits of its mask.
    length_sweep: usize,
    bit_sweep: u32,
}

/// Numbers that are a PGN, with those of the rules and the limits of the range among them.
const PGNS: [u32; 22] = [
    0, 59392, 59904, 60160, 60416, 60672, 60928, 61184, 61440, 61444, 65265, 65535, 0x1EA00, 0x2EA00, 0x3EA00, 0x1EE00,
    0x2EE00, 0x3EE00, 0x1F004, 0x2F004, 0x3EF00, 0x3FFFF,
];
/// Numbers that are none.
const NOT_PGNS: [u32; 8] = [0x40000, 0xFF_FFFF, 0xEF01, 0xEEFF, 1, 0x3EF80, 0x40F0, 0xFE_F100];
const FUNCTIONS: [u8; 7] = [0, 2, 3, 4, 6, 7, 64];
/// Parameters that are held, more often the losses, and some that are not.
const PARAMETERS: [u8; 14] = [1, 2, 3, 3, 3, 9, 9, 9, 9, 9, 0, 4, 8, 255];

// Lives: one power-on to the next.
impl Generator {
    fn new(seed: u64) -> Generator {
        let mut random = Random::new(seed);
        let (function_sweep, pair_sweep) = (random.below(256), random.below(2048));
        Generator {
            random,
            calls: Vec::new(),
            unit: Unit::power_on(0, 0),
            names: Vec::new(),
            addresses: Vec::new(),
            pgns: Vec::new(),
            takes: 0,
            stuck: 0,
            function_sweep,
            pair_sweep,
            place_sweep: 0,
            length_sweep: 0,
            bit_sweep: 0,
        }
    }

    fn make(&mut self, call: Call) {
        let mut unit = Some(self.unit.clone());
        apply(&mut unit, &call);
        self.unit = unit.expect("a unit");
        self.calls.push(call);
    }

    fn life(&mut self, calls: usize) {
        self.power_on();
        let never_starts = self.unit.preferred > HIGHEST_ADDRESS;
        let longest = if never_starts { 100 } else { 1400 };
        let end = (self.calls.len() + 100 + self.random.below(longest) as usize).min(calls);
        let start_after = if never_starts { 20 } else { self.random.pick(&[2, 2, 20, 60]) };
        let quiet_after = self.random.pick(&[2, 2, 20, 100]);
        self.before_start();
        while self.calls.len() < end {
            self.mood();
            let mood_end = self.calls.len() + 40 + self.random.below(160) as usize;
            while self.calls.len() < mood_end.min(end) {
                self.claim_calls(start_after, quiet_after);
                self.step();
            }
            if self.unit.state == ClaimState::Lost && !self.random.once_in(4) {
                self.empty_queues();
                return;
            }
        }
    }

    fn power_on(&mut self) {
        let drawn = self.random.number();
        let name = self.random.pick(&[drawn, drawn, drawn, 0, u64::MAX, 1 << 63, (1 << 63) - 1, 1 << 56]);
        let bad = self.random.pick(&[254, 255, 256, u32::MAX]);
        let good = self.random.below(254);
        let preferred = self.random.pick(&[good, good, good, good, good, 0, 253, bad]);
        self.names = vec![name, name.wrapping_sub(1), name.wrapping_add(1), name.swap_bytes(), !name, 0, u64::MAX];
        self.names.push(self.random.number());
        let other = self.random.below(254);
        self.addresses = vec![0, 253, other, preferred.min(HIGHEST_ADDRESS), preferred.min(HIGHEST_ADDRESS)];
        self.pgns = PGNS.to_vec();
        while self.pgns.len() < 50 {
            let number = self.random.below(1 << 18);
            let pgn = if is_pgn(number) { number } else { number & 0x3FF00 };
            if !self.pgns.contains(&pgn) {
                self.pgns.push(pgn);
            }
        }
        let ports = self.some_count();
        self.make(Call::PowerOn { name, preferred, ports });
    }

    /// Each count that there is, four most of all, and now and then one that is none.
    fn some_count(&mut self) -> u32 {
        let bad = self.random.pick(&[0, 1, 9, 10, 15, 16, 256 + 4, u32::MAX]);
        self.random.pick(&[4, 4, 4, 2, 3, 5, 6, 7, 8, 2, 8, bad])
    }

    fn some_port(&mut self) -> u32 {
        1 + self.random.below(self.unit.ports)
    }

    fn some_other_port(&mut self, port: u32) -> u32 {
        self.random.pick(&self.unit.other_ports(port))
    }

    /// Now and then full queues, or claims for the preferred address, before Start.
    fn before_start(&mut self) {
        self.stuck = 0;
        if self.random.once_in(4) {
            for _ in 0..self.random.pick(&[1, 2, 3]) {
                self.burst();
            }
            for _ in 0..self.random.pick(&[0, 2, 6]) {
                self.take();
            }
        }
        match self.random.below(6) {
            0 | 1 => (0..8).for_each(|_| self.claim()),
            2 => self.start_over_a_holder(),
            _ => {}
        }
    }

    /// A higher NAME holds the preferred address, is dropped at Start, and withdraws or comes again.
    fn start_over_a_holder(&mut self) {
        let port = self.some_port();
        let higher = self.unit.name.saturating_add(1).to_le_bytes().to_vec();
        let preferred = self.unit.preferred.min(HIGHEST_ADDRESS);
        let next = self.random.pick(&[254, preferred]);
        self.send(port, 6, 60928, 255, preferred, higher.clone());
        self.make(Call::Start);
        self.send(port, 6, 60928, 255, next, higher.clone());
        self.send(port, 6, 60928, 255, 254, higher);
    }

    /// How full a port's queue is; now and then a port that is none.
    fn look(&mut self) {
        let (port, past) = (self.some_port(), self.unit.ports + 1);
        let bad = self.random.pick(&[0, past, past, 9, 15, 256, 257, u32::MAX]);
        let asked = if self.random.once_in(30) { bad } else { port };
        self.make(Call::Counts { port: asked });
    }

    /// A queue runs over, by frames of all ranks or of one, and is emptied; it is asked on the way how full it is. No pair stops a
    /// permanent PGN.
    fn fill_and_empty(&mut self) {
        let port = self.some_port();
        let from = self.some_other_port(port);
        let asks = self.random.pick(&[1, 3, 9]);
        let one = self.random.below(8);
        let several = self.random.once_in(2);
        if !several {
            (0..self.unit.queues[&port].len()).for_each(|_| self.make(Call::Take { port }));
        }
        for count in 0..34 {
            let any = self.random.below(8);
            let sa = self.some_sa();
            self.send(from, if several { any } else { one }, 59904, 255, sa, vec![count]);
            self.ask_now_and_then(port, asks);
        }
        self.make(Call::Counts { port });
        for _ in 0..=self.unit.queues[&port].len() {
            self.make(Call::Take { port });
            self.ask_now_and_then(port, asks);
        }
        self.make(Call::Counts { port });
    }

    fn ask_now_and_then(&mut self, port: u32, once_in: u32) {
        if self.random.once_in(once_in) {
            self.make(Call::Counts { port });
        }
    }

    /// Takes until nothing waits, and once more.
    fn empty_queues(&mut self) {
        for port in self.unit.all_ports() {
            for _ in 0..=self.unit.queues[&port].len() {
                self.make(Call::Take { port });
            }
        }
    }

    fn mood(&mut self) {
        self.takes = self.random.pick(&[0, 20, 60, 75]);
        self.stuck = self.random.below(self.unit.ports + 1);
    }

    /// Start and Quiet, in their place and out of it, and now and then a look at the unit and at a queue.
    fn claim_calls(&mut self, start_after: u32, quiet_after: u32) {
        if self.random.once_in(60) {
            self.make(Call::Unit);
        }
        if self.random.once_in(12) {
            self.look();
        }
        let stray = self.random.once_in(150);
        let start_due = self.unit.state == ClaimState::Unstarted && self.random.once_in(start_after);
        let quiet_due = self.unit.state == ClaimState::Claiming && self.random.once_in(quiet_after);
        if start_due || (stray && self.random.once_in(2)) {
            self.make(Call::Start);
        } else if quiet_due || stray {
            self.make(Call::Quiet);
        }
    }

    fn step(&mut self) {
        let claimed = self.unit.state == ClaimState::Claimed;
        if self.random.below(100) < self.takes {
            self.take();
        } else if self.random.once_in(if claimed { 3 } else { 20 }) {
            self.message();
        } else if self.random.once_in(if claimed { 500 } else { 3000 }) {
            self.storm();
        } else if self.random.once_in(150) {
            self.burst();
        } else if self.random.once_in(400) {
            self.fill_and_empty();
        } else if self.random.once_in(if claimed { 500 } else { 4000 }) {
            self.lose();
        } else {
            self.frame();
        }
    }

    fn take(&mut self) {
        let port = self.some_port();
        let past = self.unit.ports + 1;
        let bad = self.random.pick(&[0, past, past, 9, 15, 256, 257, u32::MAX]);
        if self.random.once_in(40) {
            self.make(Call::Take { port: bad });
        } else if port != self.stuck {
            self.make(Call::Take { port });
        }
    }
}

// Frames.
impl Generator {
    fn frame(&mut self) {
        let port = self.some_port();
        match self.random.below(23) {
            0..=8 => self.traffic(),
            9..=13 => self.claim(),
            14..=16 => self.request(),
            17 => self.near_claim(),
            18 => self.frame_to_the_unit(),
            19 => self.permanent(port),
            20..=21 => self.named_traffic(port),
            _ => self.bad_frame(),
        }
    }

    fn send(&mut self, port: u32, priority: u32, pgn: u32, ps: u32, sa: u32, bytes: Vec<u8>) {
        let destination = if is_pgn(pgn | 1) { 0 } else { ps << 8 };
        let id = (priority << 26) | (pgn << 8) | destination | sa;
        self.make(Call::Frame { port, id, bytes });
    }

    fn some_bytes(&mut self, length: u32) -> Vec<u8> {
        (0..length).map(|_| self.random.number() as u8).collect()
    }

    fn some_sa(&mut self) -> u32 {
        let any = self.random.below(254);
        let known = self.random.pick(&self.addresses);
        self.random.pick(&[any, known])
    }

    fn some_ps(&mut self) -> u32 {
        let any = self.random.below(256);
        let known = self.random.pick(&self.addresses);
        self.random.pick(&[any, known, 254, 255])
    }

    fn traffic(&mut self) {
        let port = self.some_port();
        let priority = self.random.below(8);
        let pgn = self.random.pick(&self.pgns);
        let (ps, sa) = (self.some_ps(), self.some_sa());
        let length = self.random.below(9);
        let bytes = self.some_bytes(length);
        self.send(port, priority, pgn, ps, sa, bytes);
    }

    /// A frame of a PGN that a NAME entry of a pair from the port has: its sender known or not, or the unit's own address.
    fn named_traffic(&mut self, port: u32) {
        let named = self.unit.names.iter().filter(|((from, _), _)| *from == port);
        let pgns: Vec<u32> = named.flat_map(|(_, names)| names).map(|entry| entry.pgn).collect();
        if pgns.is_empty() {
            return self.traffic();
        }
        let (any, own) = (self.some_sa(), self.unit.address().unwrap_or(0));
        let table: Vec<u32> = self.unit.table.keys().copied().chain([any]).collect();
        let known = self.random.pick(&table);
        let sa = self.random.pick(&[known, known, known, known, any, own]);
        let (pgn, ps) = (self.random.pick(&pgns), self.some_ps());
        let priority = self.random.below(8);
        self.send(port, priority, pgn, ps, sa, vec![]);
    }

    /// Many frames into one port with no take.
    fn burst(&mut self) {
        let port = self.some_port();
        for count in 0..30 + self.random.below(20) {
            let priority = self.random.pick(&[3, 6, 7]);
            let pgn = self.random.pick(&self.pgns);
            let sa = self.some_sa();
            self.send(port, priority, pgn, 255, sa, vec![count as u8]);
        }
    }

    fn claim(&mut self) {
        let port = self.some_port();
        let priority = self.random.pick(&[6, 6, 6, 0, 7]);
        let address = self.random.pick(&self.addresses);
        let sa = if self.random.once_in(8) { 254 } else { address };
        let mut name = self.random.pick(&self.names);
        let displaces = self.unit.address() == Some(sa) && name < self.unit.name;
        if displaces && !self.random.once_in(12) {
            name = self.unit.name.saturating_add(1 + u64::from(self.random.below(3)));
        }
        self.send(port, priority, 60928, 255, sa, name.to_le_bytes().to_vec());
    }

    /// All NAMEs withdraw, then new ones claim every address, at one port or at all.
    fn storm(&mut self) {
        let one = self.some_port();
        let mixed = self.random.once_in(3);
        for holder in self.unit.table.clone().values() {
            self.send(one, 6, 60928, 255, 254, holder.name.to_le_bytes().to_vec());
        }
        for sa in 0..=HIGHEST_ADDRESS {
            let any = self.some_port();
            let port = if mixed { any } else { one };
            let name = self.random.number();
            if self.unit.address() != Some(sa) || name > self.unit.name {
                self.send(port, 6, 60928, 255, sa, name.to_le_bytes().to_vec());
            }
            if self.random.once_in(3) {
                self.take();
            }
        }
        self.make(Call::Message { port: 1, requester: 33, payload: vec![64, one as u8, 0, 0, 0, 0, 0, 0] });
    }

    /// Frames on and on, most of them such as no pair stops, so that they are lost at full queues, the unit's own claims too; on the way the counters are told
    /// and reset.
    fn lose(&mut self) {
        let from = self.some_port();
        let to = self.some_other_port(from);
        let own = self.random.pick(&[0, 2, 10]);
        for count in 0..32 + self.random.pick(&[8, 60, 150]) {
            let elsewhere = self.some_other_port(to);
            let port = self.random.pick(&[from, from, from, elsewhere]);
            if self.random.once_in(2) {
                let (pgn, sa) = (self.random.pick(&self.pgns), self.some_sa());
                self.send(port, 5, pgn, 255, sa, vec![count as u8]);
            } else {
                self.lost_frame(port, own != 0 && count % own == 0);
            }
            if self.random.once_in(10) {
                self.tell_losses(from, to);
            }
            if self.random.once_in(60) {
                self.reset_losses(from, to);
            }
        }
        self.tell_losses(from, to);
    }

    /// A frame of a permanent PGN to all; a request for address claimed, which the unit answers, or not.
    fn lost_frame(&mut self, port: u32, asks: bool) {
        let (priority, sa) = (self.random.below(8), self.random.below(254));
        let byte = self.random.number() as u8;
        self.send(port, priority, 59904, 255, sa, if asks { vec![0x00, 0xEE, 0x00] } else { vec![byte] });
    }

    /// The losses of a pair and in general, asked for by one of those who may.
    fn tell_losses(&mut self, from: u32, to: u32) {
        let port = self.random.pick(&[1, from, to]);
        self.hand_in(port, payload(131, pair_byte(from, to), 9, &[]));
        let any = self.random.number() as u8;
        self.hand_in(1, payload(128, any, 9, &[]));
    }

    /// A reset of a pair's losses or of the general ones.
    fn reset_losses(&mut self, from: u32, to: u32) {
        let port = self.random.pick(&[1, from, to]);
        let any = self.random.number() as u8;
        if self.random.once_in(2) {
            self.hand_in(port, payload(133, pair_byte(from, to), 9, &[]));
        } else {
            self.hand_in(1, payload(130, any, 9, &[]));
        }
    }

    /// Losses from a port on, until the counters of its pairs stay. Some frames of other ports among them, resets of other pairs' counters, and of the general
    /// one each time that it has stayed for a while.
    fn lose_to_the_most(&mut self, ports: u32) {
        let name = self.random.number();
        self.make(Call::PowerOn { name, preferred: 128, ports });
        self.make(Call::Start);
        self.make(Call::Quiet);
        let from = self.some_port();
        let to = self.some_other_port(from);
        let (mut stayed, mut general_stayed) = (0, 0);
        while stayed < 200 {
            let asks = self.random.once_in(40);
            let port = if self.random.once_in(100) { self.some_other_port(from) } else { from };
            self.lost_frame(port, asks);
            let (pair, general) = (self.unit.losses.pairs[&(from, to)].told(), self.unit.losses.general.told());
            stayed += u64::from(pair == MOST_LOSSES);
            general_stayed += u64::from(general == MOST_LOSSES);
            let near = |lost: u64| lost + 20 > MOST_LOSSES;
            if (near(pair) || near(general)) && self.random.once_in(4) || self.random.once_in(1000) {
                self.tell_losses(from, to);
            }
            if self.random.once_in(2000) {
                let (other, further) = (self.some_other_port(from), self.some_other_port(from));
                self.hand_in(1, payload(133, pair_byte(other, from), 9, &[]));
                self.hand_in(1, payload(131, pair_byte(from, further), 9, &[]));
            }
            if general_stayed == 100 {
                self.hand_in(1, payload(130, 0, 9, &[]));
                general_stayed = 0;
            }
        }
        for (function, byte) in [(133, pair_byte(from, to)), (130, 0)] {
            self.tell_losses(from, to);
            self.hand_in(1, payload(function, byte, 9, &[]));
            self.tell_losses(from, to);
            self.lost_frame(from, false);
            self.tell_losses(from, to);
        }
        for (from, to) in self.unit.pairs.clone().into_keys() {
            self.tell_losses(from, to);
        }
    }

    fn request(&mut self) {
        let port = self.some_port();
        let priority = self.random.pick(&[6, 6, 3]);
        let own = self.unit.address().unwrap_or(HIGHEST_ADDRESS);
        let any = self.some_ps();
        let ps = self.random.pick(&[255, 255, 255, own, own, any]);
        let known = self.some_sa();
        let sa = self.random.pick(&[known, known, 254]);
        let mut bytes = vec![0x00, 0xEE, 0x00];
        if self.random.once_in(4) {
            let wrong: [&[u8]; 6] = [
                &[0, 0xEE],
                &[0, 0xEE, 1],
                &[0xEE, 0, 0],
                &[],
                &[0, 0xEE, 0, 0],
                &[0, 0xEE, 0, 255, 255, 255, 255, 255],
            ];
            bytes = self.random.pick(&wrong).to_vec();
        }
        let pgn = self.random.pick(&[59904, 59904, 59904, 59904, 59904, 0x1EA00]);
        self.send(port, priority, pgn, ps, sa, bytes);
    }

    /// Frames that are almost a claim: another length, destination or page.
    fn near_claim(&mut self) {
        let port = self.some_port();
        let sa = self.random.pick(&[self.addresses[0], self.addresses[3], 254]);
        let ps = self.random.pick(&[255, 254, 0, self.addresses[3]]);
        let pgn = self.random.pick(&[60928, 60928, 0x1EE00, 0x2EE00, 60672]);
        let length = self.random.pick(&[8, 8, 7, 0]);
        let bytes = self.some_bytes(length);
        self.send(port, 6, pgn, ps, sa, bytes);
    }

    /// A permanent PGN, or with a page bit another one.
    fn some_permanent(&mut self) -> u32 {
        self.random.pick(&PERMANENT) + (self.random.pick(&[0, 0, 0, 1, 2, 3]) << 16)
    }

    /// A frame of such a PGN, of any length and to any destination.
    fn permanent(&mut self, port: u32) {
        let pgn = self.some_permanent();
        let priority = self.random.below(8);
        let (any, sa) = (self.some_ps(), self.some_sa());
        let ps = self.random.pick(&[any, any, 255, self.unit.preferred & 0xFF]);
        let length = self.random.below(9);
        let bytes = self.some_bytes(length);
        self.send(port, priority, pgn, ps, sa, bytes);
    }

    fn frame_to_the_unit(&mut self) {
        let port = self.some_port();
        let pgn = self.random.pick(&[61184, 60672, 60928, 59392, 0x3EF00, 0]);
        let ps = self.unit.preferred & 0xFF;
        let sa = self.some_sa();
        let length = self.random.below(9);
        let bytes = self.some_bytes(length);
        self.send(port, 3, pgn, ps, sa, bytes);
    }

    /// One or more of numbers 1, 3, 4 and 5, and their neighbours.
    fn bad_frame(&mut self) {
        let (good, past) = (self.some_port(), self.unit.ports + 1);
        let port = self.random.pick(&[good, good, good, good, 0, past, u32::MAX]);
        let any = self.random.number() as u32;
        let below = any & 0x1FFF_FFFF;
        let known = 0x18FE_F100 | self.some_sa();
        let id = self.random.pick(&[
            known,
            known,
            below,
            0x1FFF_FFFE,
            0x1FFF_FFFF,
            0x2000_0000,
            any | 0x2000_0000,
            u32::MAX,
            0x18FE_F1FE,
            0x18FE_F1FF,
            0x18EE_FFFF,
            0x18EE_01FE,
            0x18EA_01FE,
            0x18EA_01FF,
            0x1AEA_FFFE,
        ]);
        let length = self.random.pick(&[8, 8, 0, 9, 9, 10, 16, 64]);
        let bytes = self.some_bytes(length);
        self.make(Call::Frame { port, id, bytes });
    }
}

// Messages.
impl Generator {
    fn message(&mut self) {
        match self.random.below(39) {
            0..=9 => self.command(),
            10..=11 => self.fill_list(),
            12 => self.all_pairs(),
            13 => self.empty_list(),
            14..=15 => self.function_sweep(),
            16..=18 => self.pair_sweep(),
            19..=20 => self.boundary_length(),
            21..=22 => self.bad_body(),
            23..=24 => self.several_faults(),
            25 => self.permanent_in_a_list(),
            26 => self.silent_refusal(),
            27..=28 => self.wrong_entries(),
            29..=32 => self.parameters(),
            33..=35 => self.names_of_a_pair(),
            36 => self.wrong_names(),
            37 => self.looked_up_list(),
            _ => self.absent_entries(),
        }
    }

    /// The pairs of a good pair byte.
    fn pairs_of(&self, byte: u8) -> Vec<(u32, u32)> {
        let (from, to) = (u32::from(byte >> 4), u32::from(byte & 0x0F));
        let all = self.unit.other_ports(from).into_iter().map(|other| (from, other));
        all.filter(|&(_, other)| to == 15 || to == other).collect()
    }

    fn hand_in(&mut self, port: u32, payload: Vec<u8>) {
        let any = self.random.below(254);
        let requester = self.random.pick(&[33, 33, 0, 253, any]);
        self.make(Call::Message { port, requester, payload });
    }

    /// A port and a pair byte that its tool may name, To 15 now and then.
    fn port_and_pair(&mut self) -> (u32, u8) {
        let from = self.some_port();
        let to = self.some_other_port(from);
        let port = self.random.pick(&[1, from, to]);
        if self.random.once_in(4) {
            (self.random.pick(&[1, from]), pair_byte(from, 15))
        } else {
            (port, pair_byte(from, to))
        }
    }

    /// A command that suits the named pairs, most of the time.
    fn command(&mut self) {
        let (port, byte) = self.port_and_pair();
        let named = self.pairs_of(byte);
        let cleared = named.iter().filter(|pair| self.unit.pairs[pair].is_cleared()).count();
        let suits: &[u8] = match cleared {
            0 => &[2, 2, 2, 3, 3, 3, 4, 0, 6, 64],
            _ if cleared == named.len() => &[6, 6, 6, 6, 6, 6, 0, 2, 3, 4],
            _ => &[4, 6, 2, 3],
        };
        let function = self.random.pick(suits);
        let count = self.random.pick(&[1, 1, 1, 2, 2, 3, 5, 12, 32, 33]);
        let mut entries = self.different_pgns(count);
        if function == 3 && !self.random.once_in(8) {
            entries = self.listed_pgns(&named, count);
        }
        if self.random.once_in(12) {
            let times = self.random.pick(&[40, 100, 594]);
            entries = repeated(&entries, times);
        }
        let mode = self.random.pick(&[0, 0, 0, 0, 1, 1, 1, 1, 2, 255]);
        let byte = if function == 64 { (byte & 0xF0) | port as u8 } else { byte };
        self.hand_in(port, payload(function, byte, mode, &entries));
    }

    fn different_pgns(&mut self, count: usize) -> Vec<u32> {
        let mut left = self.pgns.clone();
        (0..count).map(|_| left.remove(self.random.below(left.len() as u32) as usize)).collect()
    }

    /// PGNs that all the named pairs list, some named twice.
    fn listed_pgns(&mut self, named: &[(u32, u32)], count: usize) -> Vec<u32> {
        let first = self.unit.pairs[&named[0]].entries();
        let in_all = |pgn: &u32| named.iter().all(|pair| self.unit.pairs[pair].entries().contains(pgn));
        let common: Vec<u32> = first.iter().copied().filter(in_all).collect();
        if common.is_empty() {
            return self.different_pgns(1);
        }
        (0..count).map(|_| self.random.pick(&common)).collect()
    }

    /// Brings a list to exactly 32, then one more (16), then a listed one, then the reply.
    fn fill_list(&mut self) {
        let (port, byte) = self.port_and_pair();
        let longest = self.pairs_of(byte).iter().map(|pair| self.unit.pairs[pair].entries().len()).max().unwrap_or(0);
        let function = if longest == 0 { 6 } else { 2 };
        let mode = self.random.pick(&[0, 1]);
        let all = self.different_pgns(50);
        let named = self.pairs_of(byte);
        let listed = self.unit.pairs[&named[0]].entries().to_vec();
        let fresh: Vec<u32> = all.into_iter().filter(|pgn| !listed.contains(pgn)).collect();
        let room = 32usize.saturating_sub(listed.len());
        let to_32 = &fresh[..room.min(fresh.len())];
        let one_more = fresh.get(room).copied().unwrap_or(0);
        if self.random.once_in(3) {
            let too_many = fresh[..(room + 1).min(fresh.len())].to_vec();
            self.hand_in(port, payload(function, byte, mode, &too_many));
        }
        if !to_32.is_empty() {
            let times = self.random.pick(&[0, 0, 594]);
            self.hand_in(port, payload(function, byte, mode, &repeated(to_32, times)));
        }
        self.hand_in(port, payload(2, byte, 0, &[one_more]));
        let listed_one = self.listed_pgns(&named, 1);
        self.hand_in(port, payload(2, byte, 0, &listed_one));
        if byte & 0x0F != 15 {
            self.hand_in(port, payload(0, byte, 0, &[]));
        }
    }

    /// Clear, Create, Add and Delete with To 15.
    fn all_pairs(&mut self) {
        let from = self.some_port();
        let byte = pair_byte(from, 15);
        let port = self.random.pick(&[1, from]);
        let mode = self.random.pick(&[0, 1]);
        let entries = self.different_pgns(6);
        self.hand_in(port, payload(4, byte, 0, &[]));
        self.hand_in(port, payload(6, byte, mode, &entries[..4]));
        self.hand_in(port, payload(2, byte, 0, &entries[3..]));
        if self.random.once_in(2) {
            let one = self.some_other_port(from);
            self.hand_in(port, payload(3, pair_byte(from, one), 0, &entries[..1]));
        }
        self.hand_in(port, payload(3, byte, 0, &entries[..2]));
    }

    /// Deletes all that a pair lists; it does not become cleared by that.
    fn empty_list(&mut self) {
        let (port, byte) = self.port_and_pair();
        let pair = self.pairs_of(byte)[0];
        let byte = pair_byte(pair.0, pair.1);
        let listed = self.unit.pairs[&pair].entries().to_vec();
        let port = if port == pair.0 || port == pair.1 { port } else { 1 };
        if !listed.is_empty() {
            self.hand_in(port, payload(3, byte, 0, &listed));
        }
        self.traffic();
        let function = self.random.pick(&[0, 2, 6, 3]);
        let entries = self.different_pgns(1);
        self.hand_in(port, payload(function, byte, 1, &entries));
    }

    /// A list in either mode that names a permanent PGN, or one beside it; frames of these that meet it; its reply; a Delete.
    fn permanent_in_a_list(&mut self) {
        let (port, byte) = self.port_and_pair();
        let (from, _) = self.pairs_of(byte)[0];
        let mode = self.random.pick(&[0, 1]);
        let count = self.random.pick(&[1, 2, 4, 31]);
        let mut entries = self.different_pgns(count);
        entries[0] = self.some_permanent();
        self.hand_in(port, payload(4, byte, 0, &[]));
        self.hand_in(port, payload(6, byte, mode, &entries));
        (0..3).for_each(|_| self.permanent(from));
        if byte & 0x0F != 15 {
            self.hand_in(port, payload(0, byte, 0, &[]));
        }
        if self.random.once_in(2) {
            self.hand_in(port, payload(3, byte, 0, &entries[..1]));
        }
        self.permanent(from);
    }

    /// A list of PGNs at random, added in rising, falling or any order, piece by piece from none to its length, and deleted in another order; after each piece
    /// frames that look it up.
    fn looked_up_list(&mut self) {
        let from = self.some_port();
        let to = self.some_other_port(from);
        let (port, byte) = (self.random.pick(&[1, from, to]), pair_byte(from, to));
        let count = self.random.pick(&[1, 2, 3, 5, 12, 31, 32, 32, 32]);
        let mut list = self.scattered_pgns(count);
        match self.random.below(3) {
            0 => list.sort_unstable(),
            1 => list.sort_unstable_by(|one, other| other.cmp(one)),
            _ => {}
        }
        self.hand_in(port, payload(4, byte, 0, &[]));
        let (mode, piece) = (self.random.pick(&[0, 1]), self.random.pick(&[1, 3, 8, 31, 32]));
        for (place, pgns) in list.chunks(piece).enumerate() {
            self.hand_in(port, payload(if place == 0 { 6 } else { 2 }, byte, mode, pgns));
            (0..4).for_each(|_| self.look_up((from, to)));
        }
        let (turned, piece) = (self.random.below(count as u32) as usize, self.random.pick(&[1, 3, 8, 31]));
        list.rotate_left(turned);
        for pgns in list.chunks(piece).take(8) {
            self.hand_in(port, payload(3, byte, 0, pgns));
            (0..4).for_each(|_| self.look_up((from, to)));
        }
    }

    /// So many different PGNs of the whole range, or close to one another.
    fn scattered_pgns(&mut self, count: usize) -> Vec<u32> {
        let (base, width) = self.random.pick(&[(0, 1 << 18), (0, 1 << 18), (0xF000, 64), (0x3FF00, 256)]);
        let mut pgns = Vec::new();
        while pgns.len() < count {
            let number = base + self.random.below(width);
            let pgn = if is_pgn(number) { number } else { number & 0x3FF00 };
            if !pgns.contains(&pgn) {
                pgns.push(pgn);
            }
        }
        pgns
    }

    /// A frame of a PGN that the pair lists, of one beside it, below its first or above its last in rising order, or of any.
    fn look_up(&mut self, pair: (u32, u32)) {
        let sorted = rising(self.unit.pairs[&pair].entries());
        let (any, ps, sa) = (self.random.below(1 << 18), self.some_ps(), self.some_sa());
        let (first, last) = (sorted.first().copied().unwrap_or(any), sorted.last().copied().unwrap_or(any));
        let listed = if sorted.is_empty() { any } else { self.random.pick(&sorted) };
        let (below, above) = (self.random.below(first + 1), last + self.random.below((1 << 18) - last));
        let beside = self.random.pick(&[listed.saturating_sub(1), (listed + 1).min(0x3FFFF)]);
        let number = self.random.pick(&[listed, listed, listed, beside, beside, below, above, last, any]);
        let pgn = if is_pgn(number) { number } else { number & 0x3FF00 };
        let priority = self.random.below(8);
        self.send(pair.0, priority, pgn, ps, sa, vec![]);
    }

    fn function_sweep(&mut self) {
        let port = self.some_port();
        for _ in 0..6 {
            self.function_sweep += 1;
            let byte = self.random.pick(&[0x12, 0x21, 0x34, 0x00, 0x1F]);
            let mut bytes = self.some_bytes(8);
            bytes[0] = self.function_sweep as u8;
            bytes[1] = byte;
            self.hand_in(port, bytes);
        }
    }

    /// Every pair byte from every port, neighbours' pairs among them.
    fn pair_sweep(&mut self) {
        let function = self.random.pick(&FUNCTIONS);
        let entries = self.different_pgns(1);
        for _ in 0..6 {
            self.pair_sweep += 1;
            let port = 1 + self.pair_sweep / 256 % self.unit.ports;
            self.hand_in(port, payload(function, self.pair_sweep as u8, 1, &entries));
        }
        let port = self.some_other_port(1);
        let from = self.some_port();
        let any = self.some_port();
        let to = self.random.pick(&[any, any, any, any, 15]);
        self.hand_in(port, payload(function, pair_byte(from, to), 0, &entries));
    }

    fn boundary_length(&mut self) {
        let (port, byte) = self.port_and_pair();
        let function = self.random.pick(&FUNCTIONS);
        let length = self.random.pick(&[7, 8, 9, 10, 11, 12, 13, 14, 1783, 1784, 1785, 1786]);
        let first = if function == 6 { 3 } else { 2 };
        let few = self.different_pgns(20);
        let mut bytes = vec![function, byte, self.random.pick(&[0, 1])];
        bytes.truncate(first);
        for pgn in repeated(&few, 600) {
            bytes.extend_from_slice(&pgn.to_le_bytes()[..3]);
        }
        bytes.truncate(length);
        self.hand_in(port, bytes);
    }

    /// Wrong entries and filling, FF FF FF as entry, two entries in eight bytes.
    fn bad_body(&mut self) {
        let (port, byte) = self.port_and_pair();
        let function = self.random.pick(&[2, 3, 6]);
        let mode = self.random.pick(&[0, 1, 2]);
        let mut entries = self.different_pgns(3);
        let not_pgn = self.random.pick(&NOT_PGNS);
        let place = self.random.below(4) as usize;
        if let Some(entry) = entries.get_mut(place) {
            *entry = not_pgn;
        }
        let count = self.random.pick(&[1, 2, 3]);
        let mut bytes = payload(function, byte, mode, &entries[..count]);
        if self.random.once_in(3) {
            let last = bytes.len() - 1 - self.random.below(3) as usize;
            bytes[last] = self.random.pick(&[0, 0xFE, 0xFF]);
        } else if self.random.once_in(3) {
            bytes = payload(function, byte, mode, &entries[..1]);
            bytes.resize(bytes.len() + self.random.pick(&[1, 3, 4]), 0xFF);
        }
        self.hand_in(port, bytes);
    }

    /// Commands of forty entries and of other counts with one that is no PGN, at every place, further ones behind it, all of
    /// them, or faults of the other numbers beside it.
    fn wrong_entries(&mut self) {
        let (port, byte) = self.port_and_pair();
        for _ in 0..4 {
            let function = self.random.pick(&[2, 3, 6]);
            let count = self.random.pick(&[40, 40, 40, 1, 2, 33, 594]);
            let few = self.different_pgns(count.min(40));
            let mut entries = repeated(&few, count);
            let last = count - 1;
            let place = if count == 594 { self.random.pick(&[last, 300]) } else { self.some_place(count) };
            let behind = self.random.once_in(3);
            for entry in &mut entries[place..] {
                if behind && self.random.once_in(4) {
                    *entry = self.random.pick(&NOT_PGNS);
                }
            }
            entries[place] = self.random.pick(&NOT_PGNS);
            if self.random.once_in(12) {
                entries.fill_with(|| self.random.pick(&NOT_PGNS));
            }
            let mode = self.random.pick(&[0, 1, 1, 2]);
            let mut bytes = payload(function, byte, mode, &entries);
            if self.random.once_in(8) {
                bytes.push(0xFF);
            }
            self.hand_in(port, bytes);
        }
    }

    /// The same list on all pairs from a port; one or two of them lose a PGN; then Deletes of the whole list, from any of
    /// its places on or turned round, with one named twice or one that no pair lists, on all pairs or on one.
    fn absent_entries(&mut self) {
        let from = self.some_port();
        let byte = pair_byte(from, 15);
        let port = self.random.pick(&[1, from]);
        let count = self.random.pick(&[1, 2, 5, 32, 32, 32]);
        let mode = self.random.pick(&[0, 1]);
        let entries = self.different_pgns(count);
        self.hand_in(port, payload(4, byte, 0, &[]));
        self.hand_in(port, payload(6, byte, mode, &entries));
        for _ in 0..self.random.pick(&[1, 2, 2]) {
            let (one, place) = (self.some_other_port(from), self.some_place(count));
            self.hand_in(port, payload(3, pair_byte(from, one), 0, &entries[place..=place]));
        }
        for _ in 0..8 {
            let mut named = entries.clone();
            named.rotate_left(self.some_place(count));
            let place = self.some_place(count);
            match self.random.below(5) {
                0 => named.reverse(),
                1 => named.insert(0, named[place]),
                2 => named.insert(place, self.pgns[0]),
                _ => {}
            }
            let one = self.some_other_port(from);
            let named_pairs = self.random.pick(&[byte, byte, byte, pair_byte(from, one)]);
            self.hand_in(port, payload(3, named_pairs, 0, &named));
        }
    }

    /// Parameters asked for and reset. Now and then one that is not held, or a reset of one other than the losses, another length, a pair that
    /// is none or not the tool's, a reply that is sent to the unit. What stands behind the parameter is any bytes.
    fn parameters(&mut self) {
        for _ in 0..5 {
            let function = self.random.pick(&[128, 128, 131, 131, 131, 131, 130, 133, 133, 129, 132]);
            let from = self.some_port();
            let to = self.some_other_port(from);
            let (own, byte) = (self.random.pick(&[from, to]), pair_byte(from, to));
            let (any_port, past) = (self.some_port(), self.unit.ports + 1);
            let any = self.random.number() as u8;
            let bad = self.random.pick(&[0x11, pair_byte(past, 1), pair_byte(1, past), 0x00, pair_byte(from, 15), any]);
            let byte = self.random.pick(&[byte, byte, byte, byte, byte, bad]);
            let port = self.random.pick(&[1, own, own, any_port]);
            let any = self.random.number() as u8;
            let asked = self.random.pick(&PARAMETERS);
            let parameter = match function {
                130 | 133 => self.random.pick(&[9, 9, 9, asked]),
                _ => self.random.pick(&[asked, asked, asked, asked, asked, asked, any]),
            };
            let mut bytes = self.some_bytes(8);
            bytes[..3].copy_from_slice(&[function, byte, parameter]);
            if self.random.once_in(3) {
                bytes[3..].fill(0xFF);
            }
            if self.random.once_in(8) {
                bytes.resize(self.random.pick(&[9, 9, 10, 16, 1785]), 0xFF);
            }
            self.hand_in(port, bytes);
        }
    }

    /// A port and a pair that its tool may name, with a list: one is made where it is cleared, and now and then anew.
    fn listed_pair(&mut self) -> (u32, (u32, u32)) {
        let from = self.some_port();
        let to = self.some_other_port(from);
        let port = self.random.pick(&[1, from, to]);
        let byte = pair_byte(from, to);
        if self.random.once_in(4) {
            self.hand_in(port, payload(4, byte, 0, &[]));
        }
        if self.unit.pairs[&(from, to)].is_cleared() {
            let (count, mode) = (self.random.pick(&[1, 1, 2, 5]), self.random.pick(&[0, 1, 1]));
            let entries = self.different_pgns(count);
            self.hand_in(port, payload(6, byte, mode, &entries));
        }
        if self.random.once_in(2) {
            let listed = self.unit.pairs[&(from, to)].entries().to_vec();
            self.hand_in(port, payload(3, byte, 0, &listed));
        }
        (port, (from, to))
    }

    /// A NAME entry of few PGNs and NAMEs, with no bit in its mask, all, one after the other or any; now and then of a PGN that the pair lists, or a permanent one.
    fn some_name_entry(&mut self, (from, to): (u32, u32)) -> NameEntry {
        self.bit_sweep += 1;
        let (any, permanent) = (self.random.number(), self.some_permanent());
        let mask = self.random.pick(&[0, u64::MAX, 1 << (self.bit_sweep % 64), 1 << (self.bit_sweep % 64), any]);
        let held: Vec<u64> = self.unit.table.values().map(|holder| holder.name).collect();
        let name = if held.is_empty() || self.random.once_in(4) { self.names[0] } else { self.random.pick(&held) };
        let flipped = name ^ (1 << (self.bit_sweep % 64));
        let few = [self.pgns[4], self.pgns[7], self.pgns[8]];
        let listed = self.unit.pairs[&(from, to)].entries().first().copied().unwrap_or(few[0]);
        let pgn = self.random.pick(&[few[0], few[0], few[0], few[1], few[2], listed, permanent]);
        NameEntry { pgn, name: self.random.pick(&[name, name, name, flipped]), mask }
    }

    /// NAME entries for a pair up to the eighth and the ninth, some of them again, with another rate, mask or NAME; frames of senders that they name, before and
    /// after these withdraw or are displaced; what is told of the pair; now and then a Clear and a Create, and the frames again.
    fn names_of_a_pair(&mut self) {
        let (port, pair) = self.listed_pair();
        let byte = pair_byte(pair.0, pair.1);
        for _ in 0..self.random.pick(&[1, 2, 4, 12]) {
            let entry = self.some_name_entry(pair);
            self.add_name(port, byte, entry);
            let there = self.unit.names[&pair].clone();
            let again = if there.is_empty() { entry } else { self.random.pick(&there) };
            match self.random.below(6) {
                0 => self.add_name(port, byte, again),
                1 => self.add_name(port, byte, NameEntry { mask: !again.mask, ..again }),
                2 => self.add_name(port, byte, NameEntry { name: !again.name, ..again }),
                _ => {}
            }
            self.named_traffic(pair.0);
        }
        self.senders_go(pair.0);
        let (pgn, none) = (self.unit.names[&pair].first().map_or(0, |entry| entry.pgn), vec![]);
        let function = self.random.pick(&[0, 131, 3, 4]);
        let entries = if function == 3 { vec![pgn] } else { none };
        self.hand_in(port, payload(function, byte, 3, &entries));
        if function == 4 {
            let mode = self.random.pick(&[0, 1]);
            self.hand_in(port, payload(6, byte, mode, &[self.pgns[1]]));
            (0..3).for_each(|_| self.named_traffic(pair.0));
        }
    }

    /// Function 7 with any two bytes of rate.
    fn add_name(&mut self, port: u32, byte: u8, entry: NameEntry) {
        let rate = self.random.number() as u16;
        self.hand_in(port, name_payload(byte, &entry, rate));
    }

    /// Frames that NAME entries of the pairs from a port list, before and after their sender withdraws or a lower NAME takes its address.
    fn senders_go(&mut self, port: u32) {
        for _ in 0..3 {
            let (address, own) = (self.random.pick(&self.addresses), self.unit.address());
            if own == Some(address) {
                continue;
            }
            let (claimant, at) = (self.random.pick(&self.names).max(2), self.some_port());
            self.send(at, 6, 60928, 255, address, claimant.to_le_bytes().to_vec());
            let Some(name) = self.unit.table.get(&address).map(|holder| holder.name) else { continue };
            let named = self.unit.names.iter().filter(|((from, _), _)| *from == port).flat_map(|(_, names)| names);
            let pgns: Vec<u32> =
                named.filter(|entry| entry.matches(entry.pgn, Some(name))).map(|entry| entry.pgn).collect();
            let pgn = if pgns.is_empty() { self.pgns[4] } else { self.random.pick(&pgns) };
            self.send(port, 6, pgn, 255, address, vec![]);
            let (next, claimant) = if self.random.once_in(2) { (254, name) } else { (address, name.saturating_sub(1)) };
            self.send(at, 6, 60928, 255, next, claimant.to_le_bytes().to_vec());
            self.send(port, 6, pgn, 255, address, vec![]);
        }
    }

    /// Function 7 of every length from 8 to 30, with one fault or several: three bytes that are no PGN, To 15 and other pair bytes, a pair that is cleared or full.
    fn wrong_names(&mut self) {
        for _ in 0..6 {
            let (port, good) = self.port_and_pair();
            let (any_port, any) = (self.some_port(), self.random.number() as u8);
            let pair = self.pairs_of(good)[0];
            let mut entry = self.some_name_entry(pair);
            if self.random.once_in(4) {
                entry.pgn = self.random.pick(&NOT_PGNS);
            }
            let one = pair_byte(pair.0, pair.1);
            let byte = self.random.pick(&[one, one, one, one, good, any]);
            let mut bytes = name_payload(byte, &entry, any.into());
            if self.random.once_in(2) {
                self.length_sweep += 1;
                bytes.resize(8 + self.length_sweep % 23, 0xFF);
            }
            let tool = self.random.pick(&[port, port, port, any_port]);
            self.hand_in(tool, bytes);
        }
    }

    /// A place below the count, step by step.
    fn some_place(&mut self, count: usize) -> usize {
        self.place_sweep += 1 + self.random.below(2) as usize;
        self.place_sweep % count
    }

    /// Faults of numbers 9 to 17 and 22 together, for the order of the numbers.
    fn several_faults(&mut self) {
        for _ in 0..4 {
            let port = self.some_port();
            let (_, allowed) = self.port_and_pair();
            let past = self.unit.ports + 1;
            let byte =
                self.random.pick(&[allowed, allowed, allowed, 0x11, pair_byte(past, 1), pair_byte(1, past), 0xF1]);
            let function = self.random.pick(&[0, 2, 3, 4, 6, 64, 5, 7, 128, 131, 133]);
            let mode = self.random.pick(&[0, 1, 2]);
            let count = self.random.pick(&[1, 2, 33]);
            let mut entries = self.different_pgns(count);
            if self.random.once_in(4) {
                entries[count - 1] = self.random.pick(&NOT_PGNS);
            }
            let mut bytes = payload(function, byte, mode, &entries);
            if self.random.once_in(3) {
                bytes.push(0xFF);
            }
            self.hand_in(port, bytes);
        }
    }

    /// One or more of numbers 1, 6, 7 and 8.
    fn silent_refusal(&mut self) {
        let (good, past) = (self.some_port(), self.unit.ports + 1);
        let port = self.random.pick(&[good, good, good, 0, past, u32::MAX]);
        let requester = self.random.pick(&[33, 33, 253, 254, 255, 256, u32::MAX]);
        let length = self.random.pick(&[8, 8, 8, 0, 1, 7, 1785, 1786, 2000]);
        let bytes = vec![0; length];
        self.make(Call::Message { port, requester, payload: bytes });
    }
}

fn pair_byte(from: u32, to: u32) -> u8 {
    (from * 16 + to) as u8
}

/// The PGNs over and over, up to so many entries.
fn repeated(pgns: &[u32], times: usize) -> Vec<u32> {
    pgns.iter().copied().cycle().take(times.max(pgns.len())).collect()
}

/// A payload of function 7.
fn name_payload(byte: u8, entry: &NameEntry, rate: u16) -> Vec<u8> {
    let mut bytes = vec![7, byte];
    bytes.extend(&entry.pgn.to_le_bytes()[..3]);
    bytes.extend(entry.name.to_le_bytes());
    bytes.extend(entry.mask.to_le_bytes());
    bytes.extend(rate.to_le_bytes());
    bytes
}

/// A payload in good form: filling only in eight bytes.
fn payload(function: u8, byte: u8, mode: u8, entries: &[u32]) -> Vec<u8> {
    let mut bytes = vec![function, byte];
    if function == 6 || function >= 128 {
        bytes.push(mode);
    }
    if [2, 3, 6].contains(&function) {
        for pgn in entries {
            bytes.extend_from_slice(&pgn.to_le_bytes()[..3]);
        }
    }
    while bytes.len() < 8 {
        bytes.push(0xFF);
    }
    bytes
}
