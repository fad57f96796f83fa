//! Plans of every shape from a seed: mostly without a ring, so that many are answered; rings, double ports, and a bad
//! number at each place; lists of all modes, with the PGN asked and without.

use crate::frame::{is_pgn, PERMANENT};
use crate::generate::Random;
use crate::pair::LONGEST_LIST;
use crate::plan::*;

/// A plan as a call is lent it.
#[derive(Clone)]
pub struct Case {
    pub ports: Vec<u64>,
    pub lists: Vec<u64>,
    pub question: Question,
}

/// Numbers that are no PGN, the limits of the range among them.
const NOT_PGNS: [u64; 9] = [1 << 18, 0xFF_FFFF, 0xEF01, 0xEFFF, 0xEEFF, 1, 0x3EF80, 0x40F0, (1 << 32) + 0xFEF1];

pub fn generate(random: &mut Random) -> Case {
    let mut made = Generator { random, case: empty(), free: Vec::new() };
    made.numbers();
    made.past_the_units();
    made.links();
    made.fill_lists();
    if made.random.once_in(4) {
        made.shut_the_longest_path();
    }
    if made.random.once_in(4) {
        made.spoil();
    }
    made.case
}

fn empty() -> Case {
    let question = Question { segments: 1, units: 0, first: 1, pgn: 0 };
    Case { ports: vec![0; PORT_WORDS], lists: vec![0; LIST_WORDS], question }
}

struct Generator<'a> {
    random: &'a mut Random,
    case: Case,
    /// The unused ports of the units in use, shuffled.
    free: Vec<(u32, u32)>,
}

impl Generator<'_> {
    fn between(&mut self, least: u32, most: u32) -> u32 {
        least + self.random.below(most - least + 1)
    }

    fn shuffle<T>(&mut self, items: &mut [T]) {
        for last in (1..items.len()).rev() {
            let place = self.random.below(last as u32 + 1) as usize;
            items.swap(place, last);
        }
    }

    /// Counts, the first segment and the PGN, all in range.
    fn numbers(&mut self) {
        let (segments, units) = (self.between(1, MOST_SEGMENTS), self.between(0, MOST_UNITS));
        let segments = self.random.pick(&[segments, segments, segments, 1, 2, 16, 16]);
        let units = self.random.pick(&[units, units, units, 0, 1, 16, 16]);
        let first = self.between(1, segments);
        let first = self.random.pick(&[first, first, first, 1, segments]);
        let pgn = self.some_pgn();
        self.case.question = Question { segments, units, first, pgn };
    }

    fn some_pgn(&mut self) -> u32 {
        let number = self.random.below(1 << 18);
        let any = if is_pgn(number) { number } else { number & 0x3FF00 };
        let permanent = self.random.pick(&PERMANENT);
        let with_page = permanent + (self.between(1, 3) << 16);
        self.random.pick(&[any, any, any, any, permanent, with_page, 65267, 0, 0x3FFFF])
    }

    /// Nothing there is read, so now and then all of it is wrong.
    fn past_the_units(&mut self) {
        let units = self.case.question.units as usize;
        let segments = u64::from(self.case.question.segments);
        let any = self.random.number();
        let word = self.random.pick(&[0, 0, 1, segments + 1, u64::MAX, any]);
        self.case.ports[units * PORTS as usize..].fill(word);
        self.case.lists[units * PAIRS * PAIR_WORDS..].fill(word);
    }
}

// Which segment is on which port.
impl Generator<'_> {
    fn links(&mut self) {
        let units = self.case.question.units;
        self.free = (1..=units).flat_map(|unit| (1..=PORTS).map(move |port| (unit, port))).collect();
        let mut free = std::mem::take(&mut self.free);
        self.shuffle(&mut free);
        self.free = free;
        match self.random.below(8) {
            0 => self.chain(),
            1 => self.star(),
            2 => self.any_ports(),
            _ => self.forest(),
        }
        match self.random.below(8) {
            0 => self.close_a_ring(),
            1 => self.double_a_port(),
            _ => {}
        }
    }

    fn segment(&self, unit: u32, port: u32) -> u32 {
        self.case.ports[port_at(unit, port)] as u32
    }

    /// Puts a segment on some unused port of a unit, if it has one.
    fn link(&mut self, unit: u32, segment: u32) {
        if let Some(place) = self.free.iter().position(|&(of, _)| of == unit) {
            let (unit, port) = self.free.remove(place);
            self.case.ports[port_at(unit, port)] = u64::from(segment);
        }
    }

    /// The segments on a unit's ports.
    fn on_unit(&self, unit: u32) -> Vec<u32> {
        (1..=PORTS).map(|port| self.segment(unit, port)).filter(|&segment| segment != 0).collect()
    }

    fn shuffled(&mut self, count: u32) -> Vec<u32> {
        let mut numbers: Vec<u32> = (1..=count).collect();
        self.shuffle(&mut numbers);
        numbers
    }

    /// A unit between each two segments, as many as there are.
    fn chain(&mut self) {
        let Question { segments, units, .. } = self.case.question;
        let (segments, units) = (self.shuffled(segments), self.shuffled(units));
        for (pair, unit) in segments.windows(2).zip(units) {
            self.link(unit, pair[0]);
            self.link(unit, pair[1]);
        }
        self.case.question.first = self.random.pick(&[segments[0], segments[segments.len() - 1]]);
    }

    /// Units round one segment.
    fn star(&mut self) {
        let Question { segments, units, .. } = self.case.question;
        let segments = self.shuffled(segments);
        for unit in 1..=units {
            self.link(unit, segments[0]);
        }
        for (&segment, unit) in segments[1..].iter().zip((1..=units).cycle()) {
            self.link(unit, segment);
        }
    }

    /// Any segment on any port: mostly two paths.
    fn any_ports(&mut self) {
        let one_in = self.random.pick(&[1, 2, 8]);
        for (unit, port) in self.free.clone() {
            if self.random.once_in(one_in) {
                let segment = self.random.below(self.case.question.segments + 1);
                self.case.ports[port_at(unit, port)] = u64::from(segment);
            }
        }
        self.free.retain(|&(unit, port)| self.case.ports[port_at(unit, port)] == 0);
    }

    /// A segment is put on a port only where no path leads there yet.
    fn forest(&mut self) {
        let most = self.random.pick(&[2, 10, 40, 128]);
        for (unit, _) in self.free.clone().into_iter().take(most) {
            let segment = self.between(1, self.case.question.segments);
            let near = self.joined(segment);
            if self.on_unit(unit).iter().all(|other| !near.contains(other)) {
                self.link(unit, segment);
            }
        }
    }

    /// The segments joined to one, itself among them.
    fn joined(&self, segment: u32) -> Vec<u32> {
        let mut joined = vec![segment];
        loop {
            let before = joined.len();
            for unit in 1..=self.case.question.units {
                let on_unit = self.on_unit(unit);
                if on_unit.iter().any(|other| joined.contains(other)) {
                    joined.extend(on_unit);
                }
            }
            joined.sort();
            joined.dedup();
            if joined.len() == before {
                return joined;
            }
        }
    }

    /// One more port, on a segment that a path leads to already and that is not the unit's own; the nearest, or any.
    fn close_a_ring(&mut self) {
        for (unit, _) in self.free.clone() {
            let on_unit = self.on_unit(unit);
            let Some(&segment) = on_unit.first() else { continue };
            let others: Vec<u32> = self.joined(segment).into_iter().filter(|other| !on_unit.contains(other)).collect();
            if !others.is_empty() {
                let segment = self.random.pick(&others);
                return self.link(unit, segment);
            }
        }
    }

    fn double_a_port(&mut self) {
        for (unit, _) in self.free.clone() {
            let on_unit = self.on_unit(unit);
            if !on_unit.is_empty() {
                let segment = self.random.pick(&on_unit);
                return self.link(unit, segment);
            }
        }
    }
}

// The lists.
impl Generator<'_> {
    fn fill_lists(&mut self) {
        let stops = self.random.pick(&[0, 0, 5, 20, 60]);
        let used = self.case.question.units as usize * PAIRS;
        for pair in 0..used {
            let block = self.some_block(stops);
            self.case.lists[PAIR_WORDS * pair..PAIR_WORDS * (pair + 1)].copy_from_slice(&block);
        }
    }

    /// At its last unit, and nowhere else.
    fn shut_the_longest_path(&mut self) {
        let Question { first, pgn, .. } = self.case.question;
        let plan = Plan::read(&self.case.ports, &self.case.lists, self.case.question);
        let Ok(paths) = plan.and_then(|plan| plan.paths(first)) else { return };
        let steps = &paths[paths.len() - 1].steps;
        for (place, step) in steps.iter().enumerate() {
            let at = pair_at(step.unit, step.from, step.to);
            let mode = if place + 1 == steps.len() { 1 } else { 2 };
            self.case.lists[at..at + 3].copy_from_slice(&[mode, 1, u64::from(pgn)]);
        }
    }

    /// A pair that permits the PGN asked, or, so many times of 100, stops it, were it not permanent.
    fn some_block(&mut self, stops: u32) -> Vec<u64> {
        let stops = self.random.below(100) < stops;
        let mode = self.random.pick(if stops { &[1, 2][..] } else { &[0, 0, 1, 2][..] });
        let listed = (mode == 1) == stops;
        let count = self.between(0, LONGEST_LIST as u32);
        let count = self.random.pick(&[0, 1, 2, 2, 3, 31, 32, count]).max(u32::from(listed)) as usize;
        let asked = u64::from(self.case.question.pgn);
        let mut block = vec![mode, count as u64];
        let past = self.random.pick(&[0, 0, asked, asked, NOT_PGNS[0], u64::MAX]);
        block.resize(PAIR_WORDS, past);
        let near = self.near();
        for word in &mut block[2..2 + count] {
            *word = self.random.pick(&near);
        }
        if listed {
            let place = self.random.below(count as u32) as usize;
            block[2 + self.random.pick(&[0, place, place, count - 1])] = asked;
        }
        if mode == 0 && self.random.once_in(4) {
            block[1] = self.random.pick(&[33, 1 << 32, u64::MAX, 32, 1]);
        }
        block
    }

    /// PGNs that are not the one asked, those beside it and the permanent ones among them.
    fn near(&mut self) -> Vec<u64> {
        let asked = self.case.question.pgn;
        let any = self.random.below(1 << 10) << 8;
        let candidates = [asked ^ 1, asked ^ 0x10000, asked ^ 0x20000, asked ^ 0x100, any, 65256, 61184, 60928, 59904];
        candidates.into_iter().filter(|&pgn| pgn != asked && is_pgn(pgn)).map(u64::from).collect()
    }
}

// One bad number.
impl Generator<'_> {
    fn spoil(&mut self) {
        let Question { segments, .. } = self.case.question;
        match self.random.below(9) {
            0 => self.case.question.segments = self.random.pick(&[0, 17, 256 + segments, u32::MAX]),
            1 => self.case.question.units = self.random.pick(&[17, 32, 256, u32::MAX]),
            2 => self.case.question.first = 0,
            3 => self.case.question.first = self.random.pick(&[segments + 1, 17, 256 + segments, u32::MAX]),
            4 => self.case.question.pgn = self.random.pick(&NOT_PGNS[..8]) as u32,
            5 => self.spoil_port(),
            6 => self.spoil_word(0),
            7 => self.spoil_word(1),
            _ => self.spoil_entry(),
        }
    }

    fn spoil_port(&mut self) {
        let Question { segments, units, .. } = self.case.question;
        let segments = u64::from(segments);
        let word = self.random.pick(&[segments + 1, 17, (1 << 32) + segments, u64::MAX]);
        if units > 0 {
            let place = self.random.below(units * PORTS) as usize;
            self.case.ports[place] = word;
        }
    }

    /// The places of the lists' blocks of units in use, shuffled.
    fn blocks(&mut self) -> Vec<usize> {
        let mut blocks: Vec<usize> =
            (0..self.case.question.units as usize * PAIRS).map(|pair| PAIR_WORDS * pair).collect();
        self.shuffle(&mut blocks);
        blocks
    }

    /// A mode, or the count of a pair that has a list.
    fn spoil_word(&mut self, place: usize) {
        let least = self.random.pick(&[3, 1 << 32, (1 << 32) + 2, u64::MAX]);
        let blocks = self.blocks();
        if let Some(at) = blocks.into_iter().find(|&at| place == 0 || self.case.lists[at] != 0) {
            self.case.lists[at + place] = if place == 1 { least.max(33) } else { least };
        }
    }

    /// The first or the last of a list, or any, is no PGN.
    fn spoil_entry(&mut self) {
        let blocks = self.blocks();
        if let Some(at) = blocks.into_iter().find(|&at| self.case.lists[at] != 0 && self.case.lists[at + 1] != 0) {
            let count = self.case.lists[at + 1] as u32;
            let place = self.random.below(count);
            let place = self.random.pick(&[0, count - 1, place]) as usize;
            self.case.lists[at + 2 + place] = self.random.pick(&NOT_PGNS);
        }
    }
}

/// The ports in use as links, in any order.
pub fn links_of(random: &mut Random, case: &Case) -> Vec<Link> {
    let units = case.question.units.min(MOST_UNITS);
    let mut links = Vec::new();
    for (unit, port) in (1..=units).flat_map(|unit| (1..=PORTS).map(move |port| (unit, port))) {
        let segment = case.ports[port_at(unit, port)].min(u64::from(u32::MAX)) as u32;
        if segment != 0 {
            let place = random.below(links.len() as u32 + 1) as usize;
            links.insert(place, Link { unit, port, segment });
        }
    }
    links
}

/// Links with one that is wrong among them, and what is wrong with it: a number out of range, or a port named twice.
pub fn wrong_links(random: &mut Random, case: &Case) -> (Vec<Link>, &'static str) {
    let mut links = links_of(random, case);
    let Question { segments, units, .. } = case.question;
    let good = Link { unit: 1, port: 1, segment: 1 };
    let known = if links.is_empty() { good } else { random.pick(&links) };
    let past = random.pick(&[0, 1, 255]);
    let (link, what) = match random.below(9) {
        0 => (Link { unit: 0, ..known }, "unit 0"),
        1 => (Link { unit: units.saturating_add(1 + past), ..known }, "unit past the last"),
        2 => (Link { port: 0, ..known }, "port 0"),
        3 => (Link { port: 9 + past, ..known }, "port past 8"),
        4 => (Link { segment: 0, ..known }, "segment 0"),
        5 => (Link { segment: segments.saturating_add(1 + past), ..known }, "segment past the last"),
        6 => (known, "a port twice on one segment"),
        7 => (Link { segment: 1 + known.segment % segments.max(1), ..known }, "a port twice on two segments"),
        _ => {
            links.resize(129 + past as usize, known);
            (known, "more links than ports")
        }
    };
    if links.is_empty() {
        links.push(known);
    }
    let place = random.below(links.len() as u32 + 1) as usize;
    links.insert(place, link);
    (links, what)
}

/// A generated plan as a text (docs/PLANS.md), with questions about it. Where it has a ring, some line closes it.
pub fn text(random: &mut Random) -> String {
    let mut case = generate(random);
    while !is_for_text(random, &case) {
        case = generate(random);
    }
    let Question { segments, units, first, pgn } = case.question;
    let mut lines = vec!["# generated".to_string()];
    let names: Vec<Name> = (0..segments).map(|_| name(random, "bus")).collect();
    lines.extend(names.iter().zip(1..).map(|(name, segment)| format!("segment {segment}{}", name.written)));
    for unit in 1..=units {
        lines.push(String::new());
        lines.push(format!("unit {unit}{}", name(random, "box").written));
        lines.extend(unit_lines(random, &case, &names, unit));
    }
    lines.push(format!("ask {pgn} segment {first} # as it was made"));
    for _ in 0..random.below(6) {
        let pgn = random.pick(&[pgn, pgn, 60928, 59904, 65256, pgn ^ 0x20000]);
        let segment = 1 + random.below(segments);
        lines.push(format!("ask {} segment {}", pgn_word(random, pgn.into()), on_word(random, &names, segment)));
    }
    lines.join("\n") + "\n"
}

/// A PGN in decimal or in hex.
fn pgn_word(random: &mut Random, pgn: u64) -> String {
    match random.below(6) {
        0 => format!("0x{pgn:X}"),
        1 => format!("0X{pgn:04x}"),
        _ => pgn.to_string(),
    }
}

/// A segment by its number or, mostly where no other has it, its name.
fn on_word(random: &mut Random, names: &[Name], segment: u32) -> String {
    let word = &names[segment as usize - 1].word;
    let alike = names.iter().filter(|name| name.word == *word).count();
    let by_name = !word.is_empty() && random.once_in(3) && (alike == 1 || random.once_in(20));
    if by_name {
        word.clone()
    } else {
        segment.to_string()
    }
}

/// All numbers in range, and mostly no ring.
fn is_for_text(random: &mut Random, case: &Case) -> bool {
    let plan = Plan::read(&case.ports, &case.lists, case.question);
    plan.is_ok_and(|plan| plan.judge().is_ok() || random.once_in(4))
}

/// What stands behind a number, and the name in it as a word, or none.
struct Name {
    written: String,
    word: String,
}

/// A name, the longest too, of two words in quotation marks, or none.
fn name(random: &mut Random, what: &str) -> Name {
    let number = random.below(100);
    let word = match random.below(9) {
        0 | 1 => String::new(),
        2 => "x".repeat(32),
        3 => format!("\u{e9}#{number}"),
        4 => format!("\"{what} #{number}\""),
        _ => format!("{what}-{number}"),
    };
    let written = match random.below(4) {
        0 => format!("\t{word}  # {what}"),
        _ => format!(" {word}"),
    };
    Name { written, word }
}

fn unit_lines(random: &mut Random, case: &Case, names: &[Name], unit: u32) -> Vec<String> {
    let on = |port| case.ports[port_at(unit, port)];
    let used: Vec<u32> = (1..=PORTS).filter(|&port| on(port) != 0).collect();
    let mut lines: Vec<String> = Vec::new();
    for &port in &used {
        lines.push(format!("  port {port} segment {}", on_word(random, names, on(port) as u32)));
    }
    for (from, to) in used.iter().flat_map(|from| used.iter().map(move |to| (from, to))).filter(|(from, to)| from != to)
    {
        let block = &case.lists[pair_at(unit, *from, *to)..][..PAIR_WORDS];
        if block[0] != 0 {
            let mode = if block[0] == 1 { "block" } else { "pass" };
            let pgns = &block[2..2 + block[1] as usize];
            let words: String = pgns.iter().map(|&pgn| format!(" {}", pgn_word(random, pgn))).collect();
            lines.push(format!("  pair {from} {to} {mode}{words}"));
        }
    }
    if random.once_in(8) {
        lines.reverse();
        lines.sort_by_key(|line| line.contains("pair"));
    }
    lines
}

/// Numbers that a line may be damaged with: out of range somewhere, or in range elsewhere.
const NUMBERS: [&str; 18] = [
    "0",
    "1",
    "2",
    "8",
    "9",
    "16",
    "17",
    "007",
    "61185",
    "65267",
    "262144",
    "4294967295",
    "4294967296",
    "-1",
    "0xEF01",
    "0x",
    "\"\"",
    "bus-7",
];
const BYTES: &[u8] = b" \r\n\t-#+?0123456789acegknoprstux\"\"\x00\xC3\xFF";

/// A text with one of its lines changed.
pub fn damage_text(random: &mut Random, text: &str) -> Vec<u8> {
    let mut lines: Vec<Vec<u8>> = text.lines().map(|line| line.as_bytes().to_vec()).collect();
    let place = random.below(lines.len() as u32) as usize;
    match random.below(8) {
        0 => drop(lines.remove(place)),
        1 => lines.insert(place, lines[place].clone()),
        2 => {
            let other = random.below(lines.len() as u32) as usize;
            lines.swap(place, other);
        }
        3 => lines[place].extend(
            [b" 7".to_vec(), b" more".to_vec()][random.below(2) as usize].repeat(1 + random.below(40) as usize),
        ),
        4 => lines[place] = lines[place].repeat(random.pick(&[2, 100])),
        5 => {
            let at = random.below(lines[place].len() as u32 + 1) as usize;
            lines[place].truncate(at);
        }
        6 => {
            let at = random.below(lines[place].len() as u32 + 1) as usize;
            lines[place].insert(at, random.pick(BYTES));
        }
        _ => lines[place] = damage_word(random, &lines[place]),
    }
    let mut bytes = lines.join(&b'\n');
    if random.once_in(2) {
        bytes.push(b'\n');
    }
    bytes
}

/// One word is another, or missing.
fn damage_word(random: &mut Random, line: &[u8]) -> Vec<u8> {
    let mut words: Vec<&[u8]> = line.split(|&byte| byte == b' ').collect();
    let place = random.below(words.len() as u32) as usize;
    if random.once_in(4) {
        words.remove(place);
    } else {
        words[place] = random.pick(&NUMBERS).as_bytes();
    }
    words.join(&b' ')
}
