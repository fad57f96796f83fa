//! A plan as a dealer writes it (docs/PLANS.md), and what is printed for it.

use crate::frame::is_pgn;
use crate::pair::{Reason, LONGEST_LIST};
use crate::plan::*;
use crate::script::{is_passed_over, lines_of, LONGEST_LINE};
use crate::words::REASONS;

/// The most bytes of a name.
pub const LONGEST_NAME: usize = 32;

/// The most bytes that are shown of a word.
const SHOWN: usize = 32;

/// A line by its form: numbers may be any below 2^32, each with its word.
enum Line<'a> {
    Segment { number: Number<'a>, name: Vec<u8> },
    Unit { number: Number<'a>, name: Vec<u8> },
    Port { port: Number<'a>, segment: &'a [u8] },
    Pair { from: Number<'a>, to: Number<'a>, mode: u64, pgns: Vec<Number<'a>> },
    Ask { pgn: Number<'a>, segment: &'a [u8] },
}

/// A number as it was written, and what it is.
#[derive(Clone, Copy)]
struct Number<'a> {
    word: &'a [u8],
    value: u32,
}

/// Why a line is wrong: what its word stands for, the word, and the reason, in bytes, for a word may be any.
#[derive(Clone, Debug, PartialEq, Eq)]
pub struct Wrong(Vec<u8>);

impl Wrong {
    fn missing(field: &str) -> Wrong {
        Wrong(format!("{field} missing").into_bytes())
    }

    /// A word that is wrong, with what it stands for, if that is told.
    fn word(field: &str, word: &[u8], reason: impl AsRef<[u8]>) -> Wrong {
        let field = if field.is_empty() { String::new() } else { format!("{field} ") };
        Wrong([field.as_bytes(), &quoted(word), b": ", reason.as_ref()].concat())
    }
}

/// A word in quotation marks, or as it stands where it begins with one; a long one is cut.
fn quoted(word: &[u8]) -> Vec<u8> {
    let cut = match word.get(..SHOWN) {
        Some(start) if word.len() > SHOWN => [start, b".."].concat(),
        _ => word.to_vec(),
    };
    let mark: &[u8] = if word.starts_with(b"\"") { b"" } else { b"\"" };
    [mark, &cut, mark].concat()
}

fn is_blank(byte: &u8) -> bool {
    matches!(byte, b' ' | b'\t' | b'\r')
}

/// Where a word ends that a text begins with: behind the next quotation mark, if it begins with one.
fn end_of_word(text: &[u8]) -> usize {
    match text.split_first() {
        Some((b'"', rest)) => rest.iter().position(|&byte| byte == b'"').map_or(text.len(), |mark| mark + 2),
        _ => text.iter().position(is_blank).unwrap_or(text.len()),
    }
}

/// The words of a line. One that begins with # begins a comment.
fn words_of(line: &[u8]) -> Vec<&[u8]> {
    let mut words = Vec::new();
    let mut rest = line;
    loop {
        rest = &rest[rest.iter().position(|byte| !is_blank(byte)).unwrap_or(rest.len())..];
        if rest.is_empty() || rest[0] == b'#' {
            return words;
        }
        let (word, more) = rest.split_at(end_of_word(rest));
        words.push(word);
        rest = more;
    }
}

fn decimal(word: &[u8]) -> Option<u32> {
    let digits = std::str::from_utf8(word).ok().filter(|text| text.bytes().all(|byte| byte.is_ascii_digit()))?;
    digits.parse().ok()
}

/// Decimal, or hex behind 0x.
fn decimal_or_hex(word: &[u8]) -> Option<u32> {
    match word {
        [b'0', b'x' | b'X', digits @ ..] if !digits.is_empty() && digits.iter().all(u8::is_ascii_hexdigit) => {
            u32::from_str_radix(std::str::from_utf8(digits).ok()?, 16).ok()
        }
        _ => decimal(word),
    }
}

/// A word that begins with a quotation mark and does not end with another.
fn is_open(word: &[u8]) -> bool {
    word.starts_with(b"\"") && (word.len() == 1 || !word.ends_with(b"\""))
}

fn without_marks(word: &[u8]) -> &[u8] {
    if word.starts_with(b"\"") && word.len() > 1 {
        &word[1..word.len() - 1]
    } else {
        word
    }
}

/// The words of a line, one by one, the last first.
struct Words<'a>(Vec<&'a [u8]>);

impl<'a> Words<'a> {
    fn of(line: &'a [u8]) -> Words<'a> {
        let mut words = words_of(line);
        words.reverse();
        Words(words)
    }

    fn next(&mut self, field: &str) -> Result<&'a [u8], Wrong> {
        self.0.pop().ok_or_else(|| Wrong::missing(field))
    }

    fn number(&mut self, field: &str) -> Result<Number<'a>, Wrong> {
        let word = self.next(field)?;
        let value = decimal(word).ok_or_else(|| Wrong::word(field, word, "not a decimal number below 2^32"))?;
        Ok(Number { word, value })
    }

    fn pgn(&mut self) -> Result<Number<'a>, Wrong> {
        let word = self.next("PGN")?;
        let reason = "not a number below 2^32, decimal or 0x hex";
        let value = decimal_or_hex(word).ok_or_else(|| Wrong::word("PGN", word, reason))?;
        Ok(Number { word, value })
    }

    /// A name, if there is one.
    fn name(&mut self) -> Result<Vec<u8>, Wrong> {
        let word = self.0.pop().unwrap_or_default();
        let name = without_marks(check_marks(word)?);
        if name.len() > LONGEST_NAME {
            return Err(Wrong::word("name", word, "longer than 32 bytes"));
        }
        Ok(name.to_vec())
    }

    /// The word "segment", and its number or name.
    fn segment(&mut self) -> Result<&'a [u8], Wrong> {
        match self.next("the word segment")? {
            b"segment" => check_marks(self.next("segment")?),
            other => Err(Wrong::word("", other, "the word segment missing")),
        }
    }

    fn mode(&mut self) -> Result<u64, Wrong> {
        match self.next("mode")? {
            b"block" => Ok(1),
            b"pass" => Ok(2),
            other => Err(Wrong::word("mode", other, "not pass or block")),
        }
    }

    fn pgns(&mut self) -> Result<Vec<Number<'a>>, Wrong> {
        if self.0.len() > LONGEST_LIST {
            return Err(Wrong::word("PGN", self.0[self.0.len() - 1 - LONGEST_LIST], "more than 32 PGNs"));
        }
        (0..self.0.len()).map(|_| self.pgn()).collect()
    }
}

fn check_marks(word: &[u8]) -> Result<&[u8], Wrong> {
    if is_open(word) {
        return Err(Wrong::word("", word, "no quotation mark ends it"));
    }
    Ok(word)
}

impl Line<'_> {
    /// Reads a line without the blanks at its ends.
    fn read(line: &[u8]) -> Result<Line<'_>, Wrong> {
        let mut words = Words::of(line);
        let first = words.0.pop().unwrap_or_default();
        if line.len() > LONGEST_LINE {
            return Err(Wrong::word("", first, "longer than 4,096 bytes"));
        }
        let line = match first {
            b"segment" => Line::Segment { number: words.number("segment")?, name: words.name()? },
            b"unit" => Line::Unit { number: words.number("unit")?, name: words.name()? },
            b"port" => Line::Port { port: words.number("port")?, segment: words.segment()? },
            b"pair" => Line::Pair {
                from: words.number("From")?,
                to: words.number("To")?,
                mode: words.mode()?,
                pgns: words.pgns()?,
            },
            b"ask" => Line::Ask { pgn: words.pgn()?, segment: words.segment()? },
            _ => return Err(Wrong::word("", first, "the first word is none of segment, unit, port, pair, ask")),
        };
        match words.0.last() {
            None => Ok(line),
            Some(word) => Err(Wrong::word("", word, "more words than the line has")),
        }
    }
}

/// A plan as far as it is read, with its names, and what was printed.
#[derive(Default)]
struct Text {
    ports: Vec<u64>,
    lists: Vec<u64>,
    segments: Vec<Vec<u8>>,
    units: Vec<Vec<u8>>,
    questions: u32,
    wrong: u32,
    out: Vec<u8>,
}

impl Text {
    fn line(&mut self, line: &[u8]) -> Result<(), Wrong> {
        let said = Line::read(line)?;
        if self.questions > 0 && !matches!(said, Line::Ask { .. }) {
            return Err(Wrong::word("", words_of(line)[0], "after an ask come asks alone"));
        }
        match said {
            Line::Segment { number, name } => add_name(&mut self.segments, MOST_SEGMENTS, "segment", number, name),
            Line::Unit { number, name } => add_name(&mut self.units, MOST_UNITS, "unit", number, name),
            Line::Port { port, segment } => self.port(port, segment),
            Line::Pair { from, to, mode, pgns } => self.pair(from, to, mode, &pgns),
            Line::Ask { pgn, segment } => self.ask(pgn, segment),
        }
    }

    /// A segment or a unit whose line is wrong counts all the same, without a name.
    fn count_wrong(&mut self, line: &[u8]) {
        self.wrong += 1;
        if self.questions > 0 || line.len() > LONGEST_LINE {
            return;
        }
        match words_of(line)[0] {
            b"segment" if self.segments.len() < MOST_SEGMENTS as usize => self.segments.push(Vec::new()),
            b"unit" if self.units.len() < MOST_UNITS as usize => self.units.push(Vec::new()),
            _ => {}
        }
    }

    /// The unit that a line speaks of: the last one above.
    fn unit(&self, kind: &str) -> Result<u32, Wrong> {
        match self.units.len() {
            0 => Err(Wrong::word("", kind.as_bytes(), "no unit yet")),
            count => Ok(count as u32),
        }
    }

    /// The segment that is meant, by its number or its name.
    fn segment(&self, word: &[u8]) -> Result<u32, Wrong> {
        if let Some(number) = decimal(word) {
            let is_above = (1..=self.segments.len() as u32).contains(&number);
            return if is_above { Ok(number) } else { Err(Wrong::word("segment", word, "not above")) };
        }
        let name = without_marks(word);
        let is_meant =
            |(place, other): (usize, &Vec<u8>)| (!name.is_empty() && other == name).then_some(place as u32 + 1);
        let mut meant = self.segments.iter().enumerate().filter_map(is_meant);
        match (meant.next(), meant.next()) {
            (None, _) => Err(Wrong::word("segment", word, "not above")),
            (Some(number), None) => Ok(number),
            _ => Err(Wrong::word("segment", word, "two have this name")),
        }
    }

    /// The port is not put where the units above lead already, and a second path would.
    fn port(&mut self, port: Number, word: &[u8]) -> Result<(), Wrong> {
        let unit = self.unit("port")?;
        if !(1..=PORTS).contains(&port.value) {
            return Err(Wrong::word("port", port.word, "not 1 to 8"));
        }
        let on = |port| self.ports[port_at(unit, port)] as u32;
        if on(port.value) != 0 {
            let reason = [b"on segment ", &named(&self.segments, on(port.value))[..], b" already"].concat();
            return Err(Wrong::word("port", port.word, reason));
        }
        let segment = self.segment(word)?;
        let others = self.plan(unit - 1).paths(segment).expect("no ring");
        let is_reached = |port: &u32| others.iter().any(|path| path.end == on(*port));
        if let Some(other) = (1..=PORTS).find(is_reached) {
            let reason = if on(other) == segment { self.two_ports(other) } else { self.two_paths(on(other), segment) };
            return Err(Wrong::word("segment", word, reason));
        }
        self.ports[port_at(unit, port.value)] = u64::from(segment);
        Ok(())
    }

    fn two_ports(&self, port: u32) -> Vec<u8> {
        let unit = named(&self.units, self.units.len() as u32);
        [format!("port {port} of unit ").as_bytes(), &unit, b" is on it already (29)"].concat()
    }

    /// The last unit is on one segment and would be on the other, to which the units above lead.
    fn two_paths(&self, one: u32, other: u32) -> Vec<u8> {
        let last = self.units.len() as u32;
        let paths = self.plan(last - 1).paths(one).expect("no ring");
        let steps = &paths.iter().find(|path| path.end == other).expect("a path").steps;
        let mut told = [b"two paths to segment ", &named(&self.segments, one)[..], b" (29): by unit "].concat();
        told.extend(named(&self.units, last));
        for (step, place) in steps.iter().zip(0..) {
            if place == 0 {
                told.extend(b", and by unit ");
            } else {
                let entered = self.ports[port_at(step.unit, step.from)] as u32;
                told.extend([b", segment ", &named(&self.segments, entered)[..], b", unit "].concat());
            }
            told.extend(named(&self.units, step.unit));
        }
        told
    }

    fn pair(&mut self, from: Number, to: Number, mode: u64, pgns: &[Number]) -> Result<(), Wrong> {
        let unit = self.unit("pair")?;
        let used = |port| (1..=PORTS).contains(&port) && self.ports[port_at(unit, port)] != 0;
        for (field, port) in [("From", from), ("To", to)] {
            if !used(port.value) {
                return Err(Wrong::word(field, port.word, "no such port above"));
            }
        }
        if from.value == to.value {
            return Err(Wrong::word("To", to.word, "equals From"));
        }
        let block = &mut self.lists[pair_at(unit, from.value, to.value)..][..PAIR_WORDS];
        if block[0] != 0 {
            let reason = format!("pair {} {} is above already", from.value, to.value);
            return Err(Wrong::word("From", from.word, reason));
        }
        pgns.iter().try_for_each(check_pgn)?;
        let words = [mode, pgns.len() as u64].into_iter().chain(pgns.iter().map(|pgn| u64::from(pgn.value)));
        block.iter_mut().zip(words).for_each(|(place, word)| *place = word);
        Ok(())
    }

    /// The plan as far as it is read, of its first units; there is a segment.
    fn plan(&self, units: u32) -> Plan {
        let question = Question { segments: self.segments.len() as u32, units, first: 1, pgn: 0 };
        Plan::read(&self.ports, &self.lists, question).expect("all numbers in range")
    }

    /// A question counts; it is answered unless a line above it is wrong.
    fn ask(&mut self, pgn: Number, word: &[u8]) -> Result<(), Wrong> {
        check_pgn(&pgn)?;
        let first = self.segment(word)?;
        self.questions += 1;
        if self.wrong > 0 {
            return Ok(());
        }
        let hearing = self.plan(self.units.len() as u32).hearing(first, pgn.value).expect("no ring");
        self.print(&[format!("PGN {} sent on segment ", pgn.value).as_bytes(), &named(&self.segments, first)]);
        for (told, segment) in hearing.iter().zip(1..) {
            let words = self.words(told);
            self.print(&[b"  ", &named(&self.segments, segment), b": ", &words]);
        }
        Ok(())
    }

    fn words(&self, told: &Hearing) -> Vec<u8> {
        match told {
            Hearing::Sent => b"sent here".to_vec(),
            Hearing::Hears => b"hears it".to_vec(),
            Hearing::NoPath => b"does not hear it: no path leads there".to_vec(),
            Hearing::Stopped(step, reason) => {
                let ports = format!(", port {} to port {}: {}", step.from, step.to, reason_words(*reason));
                [b"does not hear it: unit ", &named(&self.units, step.unit)[..], ports.as_bytes()].concat()
            }
        }
    }

    /// A line made of these parts.
    fn print(&mut self, parts: &[&[u8]]) {
        self.out.extend(parts.concat());
        self.out.push(b'\n');
    }

    /// How much there was, or how many lines were wrong.
    fn end(&mut self) {
        let (segments, units) = (self.segments.len(), self.units.len());
        let told = match self.wrong {
            0 => format!("segments {segments}, units {units}, answers {}", self.questions),
            wrong => format!("wrong lines {wrong}"),
        };
        self.print(&[told.as_bytes()]);
    }
}

fn check_pgn(pgn: &Number) -> Result<(), Wrong> {
    if is_pgn(pgn.value) {
        Ok(())
    } else {
        Err(Wrong::word("PGN", pgn.word, "no PGN"))
    }
}

fn reason_words(reason: Reason) -> &'static str {
    REASONS.iter().find(|(number, _)| *number == reason.number()).map_or("", |(_, words)| words)
}

/// A number and, after a blank, its name, if it has one.
fn named(names: &[Vec<u8>], number: u32) -> Vec<u8> {
    let mut text = number.to_string().into_bytes();
    let name = &names[number as usize - 1];
    if !name.is_empty() {
        text.push(b' ');
        text.extend(name);
    }
    text
}

/// Segments and units are numbered as they come.
fn add_name(names: &mut Vec<Vec<u8>>, most: u32, what: &str, number: Number, name: Vec<u8>) -> Result<(), Wrong> {
    let next = names.len() as u32 + 1;
    if next > most {
        return Err(Wrong::word(what, number.word, format!("there are 16 {what}s already")));
    }
    if number.value != next {
        return Err(Wrong::word(what, number.word, format!("the next {what} is {next}")));
    }
    names.push(name);
    Ok(())
}

/// What is printed for a text: the answers and the lines that are wrong, below which nothing is answered; then how much
/// there was, or how many lines were wrong.
pub fn run(text: &[u8]) -> Vec<u8> {
    let mut read = Text { ports: vec![0; PORT_WORDS], lists: vec![0; LIST_WORDS], ..Text::default() };
    for (line, number) in lines_of(text).into_iter().zip(1..) {
        if is_passed_over(line) {
            continue;
        }
        if let Err(Wrong(told)) = read.line(line) {
            read.print(&[format!("? line {number}: ").as_bytes(), &told]);
            read.count_wrong(line);
        }
    }
    read.end();
    read.out
}
