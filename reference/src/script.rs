//! The script format: one call a line, one answer a line.

use std::fmt;

use crate::address::{Event, StartAnswer, UnitAnswer};
use crate::counts::Counts;
use crate::frame::Frame;
use crate::message::{name_entry, MessageAnswer, WrongEntry, LONGEST_MESSAGE};
use crate::names::NameEntry;
use crate::unit::{FrameAnswer, Number, Unit, USUAL_PORTS};
use crate::words::REASONS;

/// One call of a script.
#[derive(Clone, Debug, PartialEq, Eq)]
pub enum Call {
    PowerOn { name: u64, preferred: u32, ports: u32 },
    Start,
    Quiet,
    Frame { port: u32, id: u32, bytes: Vec<u8> },
    Take { port: u32 },
    Message { port: u32, requester: u32, payload: Vec<u8> },
    Unit,
    Counts { port: u32 },
}

/// The answer to a call; a message's answer carries the bytes written.
#[derive(Clone, Debug, PartialEq, Eq)]
pub enum Answer {
    PowerOn(Result<(), Number>),
    Start(Result<StartAnswer, Number>),
    Quiet(Result<(), Number>),
    Frame(Result<FrameAnswer, Number>),
    Take(Result<Option<Frame>, Number>),
    Message(MessageAnswer, Vec<u8>),
    Unit(UnitAnswer),
    Counts(Result<Counts, Number>),
}

impl Answer {
    /// The number of a refusal, 0 for none.
    pub fn number(&self) -> Number {
        match self {
            Answer::Unit(_) => 0,
            Answer::PowerOn(result) => result.err().unwrap_or(0),
            Answer::Start(result) => result.as_ref().err().copied().unwrap_or(0),
            Answer::Quiet(result) => result.as_ref().err().copied().unwrap_or(0),
            Answer::Frame(result) => result.as_ref().err().copied().unwrap_or(0),
            Answer::Take(result) => result.as_ref().err().copied().unwrap_or(0),
            Answer::Message(answer, _) => answer.number,
            Answer::Counts(result) => result.as_ref().err().copied().unwrap_or(0),
        }
    }
}

/// The most bytes of a line, blanks at its ends aside; a longer one is no call.
pub const LONGEST_LINE: usize = 4096;

/// Why a line is no call; a word is named by what it stands for.
#[derive(Clone, Debug, PartialEq, Eq)]
pub enum Wrong {
    TooLong,
    NoLetter,
    Missing(&'static str),
    Malformed(&'static str, &'static str),
    MoreWords,
    NoUnit,
}

impl fmt::Display for Wrong {
    fn fmt(&self, out: &mut fmt::Formatter) -> fmt::Result {
        match self {
            Wrong::TooLong => out.write_str("longer than 4,096 bytes"),
            Wrong::NoLetter => out.write_str("the first word is none of P S Q F T M U C"),
            Wrong::Missing(field) => write!(out, "{field} missing"),
            Wrong::Malformed(field, form) => write!(out, "{field}: not {form}"),
            Wrong::MoreWords => out.write_str("more words than the call has"),
            Wrong::NoUnit => out.write_str("no unit yet: a power-on, P, comes first"),
        }
    }
}

/// Makes one call. Power-on makes the unit; without a unit there is no answer. The counts are held against a recount.
pub fn apply(unit: &mut Option<Unit>, call: &Call) -> Option<Answer> {
    if let Call::PowerOn { name, preferred, ports } = call {
        let (fresh, result) = Unit::power_on_ports(*name, *preferred, *ports);
        *unit = Some(fresh);
        return Some(Answer::PowerOn(result));
    }
    let unit = unit.as_mut()?;
    let answer = match call {
        Call::PowerOn { .. } => return None,
        Call::Start => Answer::Start(unit.start()),
        Call::Quiet => Answer::Quiet(unit.quiet()),
        Call::Frame { port, id, bytes } => Answer::Frame(unit.frame(*port, *id, bytes)),
        Call::Take { port } => Answer::Take(unit.take(*port)),
        Call::Message { port, requester, payload } => {
            let mut reply = [0; LONGEST_MESSAGE];
            let answer = unit.message(*port, *requester, payload, &mut reply);
            Answer::Message(answer, reply[..answer.length].to_vec())
        }
        Call::Unit => Answer::Unit(unit.tell()),
        Call::Counts { port } => Answer::Counts(unit.how_full(*port)),
    };
    assert!(unit.counts_hold(), "{}: a port's counts are no recount", write_call(call));
    Some(answer)
}

/// Blanks, tabs and carriage returns part words and are no part of them.
fn is_blank(byte: u8) -> bool {
    matches!(byte, b' ' | b'\t' | b'\r')
}

/// A byte-order mark; on the first line it counts as a blank at the beginning.
const MARK: &[u8] = &[0xEF, 0xBB, 0xBF];

/// The lines of a script without the blanks at their ends. After the last line end there is a line only if it has more than blanks.
pub fn lines_of(script: &[u8]) -> Vec<&[u8]> {
    let mut lines: Vec<&[u8]> = script.split(|&byte| byte == b'\n').collect();
    lines[0] = without_marks(lines[0]);
    let mut lines: Vec<&[u8]> = lines.into_iter().map(trimmed).collect();
    if lines.last().is_some_and(|last| last.is_empty()) {
        lines.pop();
    }
    lines
}

fn without_marks(line: &[u8]) -> &[u8] {
    let line = trimmed(line);
    line.strip_prefix(MARK).map_or(line, without_marks)
}

fn trimmed(line: &[u8]) -> &[u8] {
    let start = line.iter().position(|&byte| !is_blank(byte)).unwrap_or(line.len());
    let end = line.iter().rposition(|&byte| !is_blank(byte)).map_or(start, |last| last + 1);
    &line[start..end]
}

/// An empty line and a comment are passed over.
pub fn is_passed_over(line: &[u8]) -> bool {
    line.is_empty() || line[0] == b'#'
}

/// The words of a line after its letter, one by one; the first that is wrong ends the reading.
struct Words<'a>(Vec<&'a [u8]>);

impl<'a> Words<'a> {
    /// The next word as what it stands for, if it has that form.
    fn next<T>(
        &mut self,
        field: &'static str,
        form: &'static str,
        read: impl Fn(&[u8]) -> Option<T>,
    ) -> Result<T, Wrong> {
        let word = self.0.pop().ok_or(Wrong::Missing(field))?;
        read(word).ok_or(Wrong::Malformed(field, form))
    }

    fn decimal(&mut self, field: &'static str) -> Result<u32, Wrong> {
        self.next(field, "a decimal number below 2^32", read_decimal)
    }

    fn bytes(&mut self, field: &'static str) -> Result<Vec<u8>, Wrong> {
        self.next(field, "pairs of hex digits, or - for none", read_bytes)
    }

    fn end(&self) -> Result<(), Wrong> {
        if self.0.is_empty() {
            Ok(())
        } else {
            Err(Wrong::MoreWords)
        }
    }
}

/// Reads a line of a script, or says why it is no call.
pub fn read_call(line: impl AsRef<[u8]>) -> Result<Call, Wrong> {
    let line = trimmed(line.as_ref());
    if line.len() > LONGEST_LINE {
        return Err(Wrong::TooLong);
    }
    let split = line.split(|&byte| is_blank(byte)).filter(|word| !word.is_empty());
    let mut words = Words(split.collect());
    words.0.reverse();
    let letter = words.0.pop().unwrap_or_default();
    let call = match letter {
        b"P" => Call::PowerOn {
            name: words.next("NAME", "1 to 16 hex digits", |word| read_hex(word, 16))?,
            preferred: words.decimal("preferred address")?,
            ports: if words.0.is_empty() { USUAL_PORTS } else { words.decimal("number of ports")? },
        },
        b"S" => Call::Start,
        b"Q" => Call::Quiet,
        b"F" => Call::Frame {
            port: words.decimal("port")?,
            id: words.next("identifier", "1 to 8 hex digits", |word| read_hex(word, 8))? as u32,
            bytes: words.bytes("bytes")?,
        },
        b"T" => Call::Take { port: words.decimal("port")? },
        b"M" => Call::Message {
            port: words.decimal("port")?,
            requester: words.decimal("requester")?,
            payload: words.bytes("payload")?,
        },
        b"U" => Call::Unit,
        b"C" => Call::Counts { port: words.decimal("port")? },
        _ => return Err(Wrong::NoLetter),
    };
    words.end().map(|()| call)
}

/// Decimal digits of a number below 2^32.
fn read_decimal(word: &[u8]) -> Option<u32> {
    if word.iter().all(u8::is_ascii_digit) {
        std::str::from_utf8(word).ok()?.parse().ok()
    } else {
        None
    }
}

/// One to `longest` hex digits, upper or lower case.
fn read_hex(word: &[u8], longest: usize) -> Option<u64> {
    if word.iter().all(u8::is_ascii_hexdigit) && word.len() <= longest {
        u64::from_str_radix(std::str::from_utf8(word).ok()?, 16).ok()
    } else {
        None
    }
}

/// Two hex digits a byte, `-` for no bytes.
fn read_bytes(word: &[u8]) -> Option<Vec<u8>> {
    if word == b"-" {
        return Some(Vec::new());
    }
    word.chunks(2).map(|pair| if pair.len() == 2 { read_hex(pair, 2).map(|byte| byte as u8) } else { None }).collect()
}

/// Writes a call as a line of a script.
pub fn write_call(call: &Call) -> String {
    match call {
        Call::PowerOn { name, preferred, ports: USUAL_PORTS } => format!("P {name:016X} {preferred}"),
        Call::PowerOn { name, preferred, ports } => format!("P {name:016X} {preferred} {ports}"),
        Call::Start => "S".to_string(),
        Call::Quiet => "Q".to_string(),
        Call::Frame { port, id, bytes } => format!("F {port} {id:08X} {}", print_bytes(bytes)),
        Call::Take { port } => format!("T {port}"),
        Call::Message { port, requester, payload } => {
            format!("M {port} {requester} {}", print_bytes(payload))
        }
        Call::Unit => "U".to_string(),
        Call::Counts { port } => format!("C {port}"),
    }
}

/// The printed line of a call's answer.
pub fn print_answer(call: &Call, answer: &Answer) -> String {
    match answer {
        Answer::PowerOn(Ok(())) => "P".to_string(),
        Answer::PowerOn(Err(number)) => format!("P R {number}"),
        Answer::Start(Ok(answer)) => format!("S {:?} {}", answer.state, print_ports(&answer.own_lost)),
        Answer::Start(Err(number)) => format!("S R {number}"),
        Answer::Quiet(Ok(())) => "Q".to_string(),
        Answer::Quiet(Err(number)) => format!("Q R {number}"),
        Answer::Frame(Ok(answer)) => print_frame_answer(answer),
        Answer::Frame(Err(number)) => format!("F R {number}"),
        Answer::Take(Ok(Some(frame))) => {
            format!("T {:08X} {} {}", frame.id, frame.bytes.len(), print_bytes(&frame.bytes))
        }
        Answer::Take(Ok(None)) => "T -".to_string(),
        Answer::Take(Err(number)) => format!("T R {number}"),
        Answer::Message(answer, written) => print_message_answer(answer, written) + &print_name_entry(call, answer),
        Answer::Unit(answer) => print_unit_answer(answer),
        Answer::Counts(Ok(counts)) => print_counts(counts),
        Answer::Counts(Err(number)) => format!("C R {number}"),
    }
}

/// Consumed, accepted ports, lost ports, event, ports where the unit's own frame was lost, compared; then the reasons.
fn print_frame_answer(answer: &FrameAnswer) -> String {
    format!(
        "F {} {} {} {} {} {}  {}{}",
        if answer.consumed { "c" } else { "-" },
        print_ports(&answer.accepted),
        print_ports(&answer.lost),
        print_event(&answer.event),
        print_ports(&answer.own_lost),
        answer.compared,
        print_reasons(answer),
        print_by_name(&answer.by_name)
    )
}

/// Each reason that some ports have, behind these ports; every port of the unit stands once.
fn print_reasons(answer: &FrameAnswer) -> String {
    let ports = 1..=answer.reasons.len() as u32;
    let with = |number| ports.clone().filter(|&port| answer.reason_number(port) == number).collect::<Vec<u32>>();
    let named = REASONS.iter().map(|(number, words)| (with(*number), words)).filter(|(ports, _)| !ports.is_empty());
    named.map(|(ports, words)| format!("{}: {words}", print_ports(&ports))).collect::<Vec<_>>().join(", ")
}

/// The ports to which the frame counts as listed by a NAME entry, if there are some.
fn print_by_name(ports: &[u32]) -> String {
    if ports.is_empty() {
        return String::new();
    }
    format!("  by NAME: {}", print_ports(ports))
}

/// The entry of a function 7 that was done.
fn print_name_entry(call: &Call, answer: &MessageAnswer) -> String {
    let Call::Message { payload, .. } = call else { return String::new() };
    match name_entry(payload) {
        Ok(NameEntry { pgn, name, mask }) if payload[0] == 7 && answer.number == 0 => {
            let (from, to) = (payload[1] >> 4, payload[1] & 0x0F);
            format!("  pair {from} to {to}: PGN {pgn}, NAME {name:016X}, mask {mask:016X}")
        }
        _ => String::new(),
    }
}

/// Number, PGN, length and bytes of what was written; then with 17 and 22 which entry was wrong.
fn print_message_answer(answer: &MessageAnswer, written: &[u8]) -> String {
    let line = format!("M {} {} {} {}", answer.number, answer.pgn, answer.length, print_bytes(written));
    match answer.wrong {
        None => line,
        Some(WrongEntry::NoPgn { entry }) => format!("{line}  entry {entry}"),
        Some(WrongEntry::Absent { to, pgn, .. }) => format!("{line}  port {to} PGN {pgn}"),
    }
}

/// State, address, `-` for none, preferred address, NAME, number of ports.
fn print_unit_answer(answer: &UnitAnswer) -> String {
    let address = answer.address.map_or("-".to_string(), |address| address.to_string());
    format!("U {:?} {address} {} {:016X} {}", answer.state, answer.preferred, answer.name, answer.ports)
}

/// How many frames wait at priority 0 to 7; then how many in all, and how many were accepted and taken.
fn print_counts(counts: &Counts) -> String {
    let by_rank = counts.waiting.map(|count| count.to_string()).join(" ");
    let (waiting, accepted, taken) = (counts.all_waiting(), counts.accepted, counts.taken);
    format!("C {by_rank}  waiting {waiting}, accepted {accepted}, taken {taken}")
}

/// The event's word, `-` for none.
pub fn print_event(event: &Event) -> String {
    match event {
        Event::None => "-".to_string(),
        Event::TookOver(old) => format!("TookOver:{old:016X}"),
        other => format!("{other:?}"),
    }
}

fn print_ports(ports: &[u32]) -> String {
    if ports.is_empty() {
        return "-".to_string();
    }
    ports.iter().map(|port| port.to_string()).collect()
}

fn print_bytes(bytes: &[u8]) -> String {
    if bytes.is_empty() {
        return "-".to_string();
    }
    bytes.iter().map(|byte| format!("{byte:02X}")).collect()
}
