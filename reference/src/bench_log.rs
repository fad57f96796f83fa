//! "The bench log": candump's text, our log, the two turnings and a run.

use crate::frame::Frame;
use crate::generate::Random;
use crate::unit::{Number, Unit, USUAL_PORTS};

/// Unknown kind; to text, a take too.
pub const UNKNOWN_KIND: Number = 24;
/// Log cut short.
pub const CUT_SHORT: Number = 25;
/// Text line that no frame is written as.
pub const NO_FRAME: Number = 26;

/// One record of a log. The length of a frame is as written, so it may be over 8.
#[derive(Clone, Debug, PartialEq, Eq)]
pub enum Record {
    Frame { port: u8, id: u32, length: u8, data: [u8; 8] },
    Take { port: u8 },
}

impl Record {
    pub fn of_frame(port: u8, frame: &Frame) -> Record {
        let mut data = [0; 8];
        data[..frame.bytes.len()].copy_from_slice(&frame.bytes);
        Record::Frame { port, id: frame.id, length: frame.bytes.len() as u8, data }
    }

    /// The record's bytes: kind, port, and of a frame identifier, length and eight data bytes.
    pub fn bytes(&self) -> Vec<u8> {
        match self {
            Record::Take { port } => vec![2, *port],
            Record::Frame { port, id, length, data } => {
                let mut bytes = vec![1, *port];
                bytes.extend(id.to_be_bytes());
                bytes.push(*length);
                bytes.extend(data);
                bytes
            }
        }
    }

    /// The record at the front of a log that is not at its end, and how many bytes it has.
    pub fn first(log: &[u8]) -> Result<(Record, usize), Number> {
        match log[0] {
            1 if log.len() < 15 => Err(CUT_SHORT),
            1 => {
                let id = u32::from_be_bytes([log[2], log[3], log[4], log[5]]);
                let mut data = [0; 8];
                data.copy_from_slice(&log[7..15]);
                Ok((Record::Frame { port: log[1], id, length: log[6], data }, 15))
            }
            2 if log.len() < 2 => Err(CUT_SHORT),
            2 => Ok((Record::Take { port: log[1] }, 2)),
            _ => Err(UNKNOWN_KIND),
        }
    }
}

/// Bytes in hex, upper case, unspaced.
fn hex(bytes: &[u8]) -> String {
    bytes.iter().map(|byte| format!("{byte:02X}")).collect()
}

/// A frame as candump text, with its line feed.
pub fn line_of(port: u8, frame: &Frame) -> String {
    format!("(0000000000.000000) can{port} {:08X}#{}\n", frame.id, hex(&frame.bytes))
}

/// The frame that a line, with its line feed, is written as; the time's digits may be any.
pub fn frame_of(line: &[u8]) -> Result<(u8, Frame), Number> {
    read(line).ok_or(NO_FRAME)
}

fn read(line: &[u8]) -> Option<(u8, Frame)> {
    let text = std::str::from_utf8(line).ok()?.strip_suffix('\n')?;
    let (time, rest) = text.strip_prefix('(')?.split_once(") can")?;
    let (seconds, fraction) = time.split_once('.')?;
    let all_digits = |part: &str| part.bytes().all(|byte| byte.is_ascii_digit());
    if seconds.len() != 10 || fraction.len() != 6 || !all_digits(seconds) || !all_digits(fraction) {
        return None;
    }
    let (port, rest) = rest.split_once(' ')?;
    let (id, data) = rest.split_once('#')?;
    let port = match port {
        "1" => 1,
        "2" => 2,
        "3" => 3,
        "4" => 4,
        _ => return None,
    };
    if id.len() != 8 || data.len() > 16 || data.len() % 2 != 0 {
        return None;
    }
    let digits = |part: &str| part.bytes().all(|byte| matches!(byte, b'0'..=b'9' | b'A'..=b'F'));
    if !digits(id) || !digits(data) {
        return None;
    }
    let id = u32::from_str_radix(id, 16).ok().filter(|id| *id < 1 << 29)?;
    let bytes = (0..data.len() / 2).map(|i| u8::from_str_radix(&data[2 * i..2 * i + 2], 16));
    Some((port, Frame { id, bytes: bytes.collect::<Result<_, _>>().ok()? }))
}

/// A record as candump text.
pub fn to_text(record: &Record) -> Result<String, Number> {
    let Record::Frame { port, id, length, data } = record else {
        return Err(UNKNOWN_KIND);
    };
    if !(1..=USUAL_PORTS).contains(&u32::from(*port)) {
        return Err(1);
    }
    if *id >= 1 << 29 {
        return Err(3);
    }
    let bytes = data.get(..usize::from(*length)).ok_or(4u32)?;
    Ok(line_of(*port, &Frame { id: *id, bytes: bytes.to_vec() }))
}

/// What a turning of a whole input gives: the output, and each refusal as its place from 1 and its number.
#[derive(Default, Debug, PartialEq, Eq)]
pub struct Turned {
    pub output: Vec<u8>,
    pub refused: Vec<(usize, Number)>,
}

/// Text to our log, line by line.
pub fn from_candump(text: &[u8]) -> Turned {
    let mut turned = Turned::default();
    for (index, line) in text.split_inclusive(|byte| *byte == b'\n').enumerate() {
        match frame_of(line) {
            Ok((port, frame)) => turned.output.extend(Record::of_frame(port, &frame).bytes()),
            Err(number) => turned.refused.push((index + 1, number)),
        }
    }
    turned
}

/// Our log to text, record by record; an unknown kind or a cut ends it.
pub fn to_candump(log: &[u8]) -> Turned {
    let mut turned = Turned::default();
    let mut rest = log;
    let mut place = 0;
    while !rest.is_empty() {
        place += 1;
        let (record, size) = match Record::first(rest) {
            Ok(found) => found,
            // A take gets 24, a cut one too: 24 stands before 25.
            Err(_) if rest[0] == 2 => {
                turned.refused.push((place, UNKNOWN_KIND));
                return turned;
            }
            Err(number) => {
                turned.refused.push((place, number));
                return turned;
            }
        };
        match to_text(&record) {
            Ok(line) => turned.output.extend(line.bytes()),
            Err(number) => turned.refused.push((place, number)),
        }
        rest = &rest[size..];
    }
    turned
}

/// Why a line of a real bus is passed over, in the order in which they are told.
pub const PASSED_OVER: [&str; 6] = [
    "interface not in the map",
    "11-bit identifier",
    "remote frame",
    "CAN FD frame",
    "error frame",
    "no line of candump's",
];
const NOT_MAPPED: usize = 0;
const ELEVEN_BITS: usize = 1;
const REMOTE: usize = 2;
const FLEXIBLE: usize = 3;
const ERROR: usize = 4;
const NO_LINE: usize = 5;

/// What a turning of text as `candump -l` writes it gives: the output, how many lines were turned, and those passed over by reason.
#[derive(Default, Debug, PartialEq, Eq)]
pub struct Mapped {
    pub output: Vec<u8>,
    pub turned: usize,
    pub passed_over: [usize; 6],
}

/// Text as `candump -l` writes it to our log: the 29-bit data frames of the interfaces that a map gives a port. With a bit rate, takes stand where buses of it would
/// send. A last line needs no line feed.
pub fn from_candump_map(text: &[u8], map: &[(&str, u8)], rate: Option<u64>) -> Mapped {
    let mut mapped = Mapped::default();
    let mut buses = rate.map(Buses::of_rate);
    let text = if text.is_empty() || text.ends_with(b"\n") { text.to_vec() } else { [text, b"\n"].concat() };
    for line in text.split_inclusive(|byte| *byte == b'\n') {
        match bus_frame(line, map) {
            Ok((port, frame)) => {
                mapped.turned += 1;
                if let Some(buses) = &mut buses {
                    mapped.output.extend(buses.before(port, time_of(line)));
                }
                mapped.output.extend(Record::of_frame(port, &frame).bytes());
            }
            Err(reason) => mapped.passed_over[reason] += 1,
        }
    }
    if let Some(buses) = &mut buses {
        mapped.output.extend(buses.rest());
    }
    mapped
}

/// The time of a line in ns.
fn time_of(line: &[u8]) -> u64 {
    let digits = line[..19].iter().filter(|byte| byte.is_ascii_digit());
    1000 * digits.fold(0, |time, digit| 10 * time + u64::from(digit - b'0'))
}

/// Four buses of a bit rate: how many frames wait for each, with every pair cleared, and from when on it is free.
struct Buses {
    frame: u64,
    waiting: [usize; 4],
    free: [u64; 4],
}

impl Buses {
    /// A frame of 8 bytes has 131 bits with the gap behind it, stuff bits left out.
    fn of_rate(rate: u64) -> Buses {
        Buses { frame: 131_000_000_000 / rate, waiting: [0; 4], free: [0; 4] }
    }

    /// The takes of one bus that begin by a time.
    fn sends(&mut self, bus: usize, limit: u64) -> Vec<u8> {
        let mut takes = Vec::new();
        while self.waiting[bus] > 0 && self.free[bus] <= limit {
            self.waiting[bus] -= 1;
            self.free[bus] = self.free[bus].wrapping_add(self.frame);
            takes.extend(Record::Take { port: bus as u8 + 1 }.bytes());
        }
        takes
    }

    /// The takes before a frame that has arrived at a port by a time; then it waits for the other buses, and its own is free.
    fn before(&mut self, port: u8, time: u64) -> Vec<u8> {
        let own = usize::from(port) - 1;
        let mut takes = Vec::new();
        for bus in 0..4 {
            takes.extend(self.sends(bus, if bus == own { time.saturating_sub(self.frame) } else { time }));
        }
        for bus in 0..4 {
            if bus == own || self.waiting[bus] == 0 {
                self.free[bus] = self.free[bus].max(time);
            }
            if bus != own {
                self.waiting[bus] = (self.waiting[bus] + 1).min(32);
            }
        }
        takes
    }

    /// The takes of what waits at the end.
    fn rest(&mut self) -> Vec<u8> {
        (0..4).flat_map(|bus| self.sends(bus, u64::MAX)).collect()
    }
}

/// The parts of a line: the time and a blank in 20 bytes, the interface behind any blanks, a blank, identifier and data up to the direction or the line's end.
fn bus_frame(line: &[u8], map: &[(&str, u8)]) -> Result<(u8, Frame), usize> {
    let (time, rest) = line.split_at_checked(20).ok_or(NO_LINE)?;
    let rest = &rest[rest.iter().position(|byte| *byte != b' ').ok_or(NO_LINE)?..];
    let blank = rest.iter().position(|byte| *byte == b' ').ok_or(NO_LINE)?;
    let (name, rest) = (&rest[..blank], &rest[blank + 1..]);
    let end = rest.iter().position(|byte| b" \r\n".contains(byte)).ok_or(NO_LINE)?;
    let (word, tail) = rest.split_at(end);
    let tails: [&[u8]; 6] = [b"\n", b"\r\n", b" R\n", b" T\n", b" R\r\n", b" T\r\n"];
    if !tails.contains(&tail) {
        return Err(NO_LINE);
    }
    let &(_, port) = map.iter().find(|(mapped, _)| mapped.as_bytes() == name).ok_or(NOT_MAPPED)?;
    let word: Vec<u8> =
        word.iter().map(|&b| if matches!(b, b'a'..=b'f') { b.to_ascii_uppercase() } else { b }).collect();
    let strict = [time, format!("can{port} ").as_bytes(), &word[..], b"\n"].concat();
    frame_of(&strict).map_err(|_| kind_of(&word))
}

/// What an identifier with its data is, if it is no 29-bit data frame.
fn kind_of(word: &[u8]) -> usize {
    let behind = |place: usize| word.get(place).copied();
    if behind(3) == Some(b'#') {
        return if behind(4) == Some(b'#') { FLEXIBLE } else { ELEVEN_BITS };
    }
    if behind(8) != Some(b'#') {
        return NO_LINE;
    }
    match behind(9) {
        Some(b'#') => FLEXIBLE,
        Some(b'R') => REMOTE,
        _ if matches!(word[0], b'2' | b'3') => ERROR,
        _ => NO_LINE,
    }
}

/// The ports of an answer, - for none.
fn ports(ports: &[u32]) -> String {
    if ports.is_empty() {
        return "-".to_string();
    }
    ports.iter().map(u32::to_string).collect()
}

/// The line of a record.
fn answer(unit: &mut Unit, record: &Record) -> Result<String, Number> {
    match record {
        Record::Frame { port, id, length, data } => {
            // A length over 8 is refused for that, whatever the bytes are.
            let mut bytes = data.to_vec();
            bytes.resize(usize::from(*length), 0);
            let told = unit.frame(u32::from(*port), *id, &bytes)?;
            Ok(format!("F {} {}", ports(&told.accepted), ports(&told.lost)))
        }
        Record::Take { port } => Ok(match unit.take(u32::from(*port))? {
            None => "T -".to_string(),
            Some(frame) if frame.bytes.is_empty() => format!("T {:08X} 0", frame.id),
            Some(frame) => format!("T {:08X} {} {}", frame.id, frame.bytes.len(), hex(&frame.bytes)),
        }),
    }
}

/// The lines of a log, run on a unit from power-on with NAME 0, never started.
pub fn run(log: &[u8]) -> String {
    let mut unit = Unit::power_on(0, 0);
    let mut printed = String::new();
    let mut rest = log;
    while !rest.is_empty() {
        let line = match Record::first(rest) {
            Ok((record, size)) => {
                rest = &rest[size..];
                answer(&mut unit, &record)
            }
            Err(number) => {
                rest = &[];
                Err(number)
            }
        };
        match line {
            Ok(line) => printed += &line,
            Err(number) => printed += &format!("R {number}"),
        }
        printed.push('\n');
    }
    printed
}

/// A frame as it may come from a bus, now and then one out of range.
fn random_record(random: &mut Random) -> Record {
    let port = if random.once_in(40) { random.below(256) as u8 } else { 1 + random.below(4) as u8 };
    if random.below(5) < 3 {
        return Record::Take { port };
    }
    let mut id = random.below(1 << 29);
    if random.once_in(3) {
        // A claim, which the table has to take in.
        id = 0x18EE_FF00 + random.below(255);
    }
    if random.once_in(40) {
        id |= 1 << (29 + random.below(3));
    }
    let length = if random.once_in(40) { random.below(256) as u8 } else { random.below(9) as u8 };
    let mut data = random.number().to_le_bytes();
    if !random.once_in(4) {
        // Unused bytes are written 0, and others are not read.
        for byte in data.iter_mut().skip(usize::from(length)) {
            *byte = 0;
        }
    }
    Record::Frame { port, id, length, data }
}

/// A log of so many records. `bad_end`: then a record of no kind, or a cut one, and more.
pub fn generate_log(seed: u64, records: usize, bad_end: bool) -> Vec<u8> {
    let mut random = Random::new(seed);
    let mut log: Vec<u8> = (0..records).flat_map(|_| random_record(&mut random).bytes()).collect();
    if bad_end {
        if random.once_in(2) {
            log.push(random.pick(&[0, 3, 4, 24, 255]));
            log.extend([1, 1, 24]);
        } else {
            let whole = random_record(&mut random).bytes();
            log.extend(&whole[..1 + random.below(whole.len() as u32 - 1) as usize]);
        }
    }
    log
}

/// A log of so many frames for a unit at address 80 whose NAME begins with A0, from ports 0 to 9, mostly the first two, and a take behind every second: claims
/// of that address and of others by lower and higher NAMEs, requests, frames to the unit, frames of two PGNs for lists, identifiers and lengths out of range.
pub fn generate_frames(seed: u64, frames: usize) -> Vec<u8> {
    let mut random = Random::new(seed);
    let mut log = Vec::new();
    for frame in 0..frames {
        let port = random.pick(&[0, 1, 1, 1, 1, 2, 2, 2, 3, 4, 5, 6, 7, 8, 9]);
        let first =
            random.pick(&[0x18EE_FF00, 0x18EA_FF00, 0x18EA_5000, 0x18EF_5000, 0x18FE_F100, 0x0CF0_0400, 0x1CFF_0000]);
        let id = first + random.pick(&[0x50, 0x20, 0x21, 0x22, 0x23, 0x20, 0x21, 0x22, 0x23, 254, 255]);
        let (length, data) = match first {
            0x18EE_FF00 => (8, [random.below(4) as u8, 0, 0, 0, 0, 0, 0, 0x90 + random.below(32) as u8]),
            0x18EA_FF00 | 0x18EA_5000 => (3, [0x00, 0xEE, 0x00, 0, 0, 0, 0, 0]),
            _ => (random.below(10) as u8, random.number().to_le_bytes()),
        };
        let id = if random.once_in(16) { id | 1 << 29 } else { id };
        log.extend(Record::Frame { port, id, length, data }.bytes());
        if frame % 2 == 1 {
            log.extend(Record::Take { port }.bytes());
        }
    }
    log
}

/// Text of so many lines, one in three of them damaged at a character.
pub fn generate_text(seed: u64, lines: usize) -> Vec<u8> {
    let mut random = Random::new(seed);
    let mut text = Vec::new();
    while text.iter().filter(|byte| **byte == b'\n').count() < lines {
        let Record::Frame { id, length, data, .. } = random_record(&mut random) else {
            continue;
        };
        let bytes = data[..usize::from(length.min(8))].to_vec();
        let mut line = line_of(1 + random.below(4) as u8, &Frame { id: id & 0x3FFF_FFFF, bytes }).into_bytes();
        for place in 1..18 {
            if line[place] == b'0' && random.once_in(2) {
                line[place] = b'0' + random.below(10) as u8;
            }
        }
        if random.once_in(3) {
            damage(&mut random, &mut line);
        }
        text.extend(line);
    }
    text
}

/// Text of so many lines as a real bus has them: every kind of frame, several interfaces, a direction letter now and then, one in five damaged.
pub fn generate_bus(seed: u64, lines: usize) -> Vec<u8> {
    let mut random = Random::new(seed);
    let mut text = Vec::new();
    let mut now = 1_763_380_800_000_000;
    for _ in 0..lines {
        let data = &random.number().to_le_bytes()[..random.below(9) as usize];
        let id = random.below(1 << 29);
        let word = match random.below(12) {
            0 => format!("{:03X}#{}", id % 2048, hex(data)),
            1 => format!("{id:08X}#R"),
            2 => format!("{:03X}#R{}", id % 2048, data.len()),
            3 => format!("{id:08X}##1{}", hex(&data.repeat(4))),
            4 => format!("{:03X}##0{}", id % 2048, hex(data)),
            5 => format!("{:08X}#{}", id | 1 << 29, hex(&[0; 8])),
            6 => format!("{id:08x}#{}", hex(data).to_lowercase()),
            _ => format!("{id:08X}#{}", hex(data)),
        };
        // Mostly some frames' time later, now and then anything.
        now = if random.once_in(500) {
            random.number() % 10_000_000_000_000_000
        } else {
            now + u64::from(random.below(2000))
        };
        let time = format!("({:010}.{:06})", now / 1_000_000 % 10_000_000_000, now % 1_000_000);
        let name = random.pick(&["can0", "vcan1", "can2", "slcan10", "can1", "   can0", "  vcan1"]);
        let end = random.pick(&["\n", "\n", " R\n", " T\n", "\r\n", " R\r\n"]);
        let mut line = format!("{time} {name} {word}{end}").into_bytes();
        if random.once_in(5) {
            damage(&mut random, &mut line);
        }
        text.extend(line);
    }
    if random.once_in(2) {
        text.pop();
    }
    text
}

fn damage(random: &mut Random, line: &mut Vec<u8>) {
    let place = random.below(line.len() as u32) as usize;
    match random.below(4) {
        0 => line[place] = random.pick(b"0 1f9AG#.()\r\ncan5"),
        1 => line.insert(place, random.pick(b"0 1f9AG#.()\r\ncan5")),
        2 => {
            line.remove(place);
        }
        _ => line.make_ascii_lowercase(),
    }
}
