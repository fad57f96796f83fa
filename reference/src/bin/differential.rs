//! differential SEED CALLS: the same calls to the reference and to the proved unit through its C interface. Compares
//! every answer, every byte and the record's meaning, and lends storage of wrong lengths in between.

use std::collections::BTreeMap;

use reference::address::{Event, UnitAnswer};
use reference::counts::Counts;
use reference::coverage::Coverage;
use reference::frame::{Frame, NULL};
use reference::generate::{generate, storms, Random};
use reference::halving::rising;
use reference::layout::*;
use reference::linked::*;
use reference::message::LONGEST_MESSAGE;
use reference::names::NameEntry;
use reference::pair::Pair;
use reference::script::{print_answer, write_call, Answer, Call};
use reference::unit::{FrameAnswer, Unit, USUAL_PORTS};

/// Guard elements before and behind whatever is lent.
const GUARDS: usize = 16;
/// How many calls one script has; of so many scripts one is a storm of losses.
const SCRIPT: usize = 100_000;
const STORM: u64 = 10;

/// Storage between guards.
struct Lent<T> {
    all: Vec<T>,
    length: usize,
    guard: T,
}

impl<T: Copy + PartialEq> Lent<T> {
    fn new(length: usize, fill: T, guard: T) -> Lent<T> {
        let mut all = vec![guard; length + 2 * GUARDS];
        all[GUARDS..GUARDS + length].fill(fill);
        Lent { all, length, guard }
    }

    /// The same room with another length; guards stand behind it.
    fn shorten(&mut self, length: usize, fill: T) {
        self.all.fill(self.guard);
        self.length = length;
        self.contents().fill(fill);
    }

    fn contents(&mut self) -> &mut [T] {
        &mut self.all[GUARDS..GUARDS + self.length]
    }

    fn guards_hold(&self) -> bool {
        let behind = &self.all[GUARDS + self.length..];
        self.all[..GUARDS].iter().chain(behind).all(|guard| *guard == self.guard)
    }

    /// As it was made.
    fn untouched(&self, fill: T) -> bool {
        let contents = &self.all[GUARDS..GUARDS + self.length];
        self.guards_hold() && contents.iter().all(|element| *element == fill)
    }
}

/// Both units, and what was tried.
struct Both {
    reference: Unit,
    record: Lent<u64>,
    /// Whether a storm is on, whose counters come from its calls alone.
    in_storm: bool,
    /// Whether the counts are no recount any more.
    has_lost_counts: bool,
    random: Random,
    coverage: Coverage,
    tried: BTreeMap<&'static str, u64>,
}

/// What the proved unit answered: the number, the answer's words and the bytes, as lent.
struct Told {
    number: u32,
    words: Lent<u64>,
    bytes: Lent<u8>,
}

const WORD: u64 = 0xA5A5_5A5A_A5A5_5A5A;
const BYTE: u8 = 0x5C;

impl Both {
    fn new(seed: u64) -> Both {
        Both {
            reference: Unit::power_on(0, 0),
            record: Lent::new(record_words(MOST_PORTS), 0, 0xDEAD_BEEF_DEAD_BEEF),
            in_storm: false,
            has_lost_counts: false,
            random: Random::new(!seed),
            coverage: Coverage::default(),
            tried: BTreeMap::new(),
        }
    }

    fn count(&mut self, what: &'static str) {
        *self.tried.entry(what).or_insert(0) += 1;
    }

    fn told(&self, words: usize, bytes: usize) -> Told {
        Told { number: 0, words: Lent::new(words, WORD, !WORD), bytes: Lent::new(bytes, BYTE, !BYTE) }
    }

    /// The call on both. The error says what differs.
    fn call(&mut self, call: &Call) -> Result<(), String> {
        if self.random.once_in(8) {
            self.wrong_lengths(call)?;
        }
        if self.random.once_in(500) {
            self.lose_count();
        }
        if self.random.once_in(1000) {
            self.move_totals();
        }
        if self.random.once_in(5000) {
            self.lose_counts();
        }
        if !self.in_storm && self.random.once_in(500) {
            self.change_losses();
        }
        if self.random.once_in(500) {
            self.reword_pairs();
        }
        let before = self.reference.clone();
        let words = self.record.contents().to_vec();
        let answer = match call {
            Call::PowerOn { name, preferred, ports } => self.power_on(*name, *preferred, *ports)?,
            Call::Start => self.start()?,
            Call::Quiet => self.quiet()?,
            Call::Frame { port, id, bytes } => self.frame(*port, *id, bytes)?,
            Call::Take { port } => self.take(*port)?,
            Call::Message { port, requester, payload } => self.message(*port, *requester, payload)?,
            Call::Unit => self.unit()?,
            Call::Counts { port } => self.counts(*port)?,
        };
        let after = self.record.contents();
        if answer.number() != 0 && answer.number() != 27 && after != words {
            return Err(format!("{}: the record changed", print_answer(call, &answer)));
        }
        if let Some(difference) = difference(after, &self.reference) {
            return Err(format!("{}: {difference}", print_answer(call, &answer)));
        }
        check(self.record.guards_hold(), "a guard of the record changed")?;
        check(self.has_lost_counts || self.reference.counts_hold(), "the reference's counts are no recount")?;
        self.coverage.count_call(Some(&before), call, &answer, Some(&self.reference));
        Ok(())
    }

    /// On a record of junk; with four ports by either function.
    fn power_on(&mut self, name: u64, preferred: u32, ports: u32) -> Result<Answer, String> {
        let junk = self.random.number();
        self.record.shorten(record_words_for(ports), junk);
        let mut record = Record(self.record.contents());
        let number = if ports == USUAL_PORTS && self.random.once_in(2) {
            record.power_on(name, preferred)
        } else {
            record.power_on_ports(name, preferred, ports)
        };
        let (unit, result) = Unit::power_on_ports(name, preferred, ports);
        self.reference = unit;
        self.has_lost_counts = false;
        same("number", number, result.err().unwrap_or(0))?;
        same("count", self.record.contents()[PORTS_AT], u64::from(self.reference.ports))?;
        Ok(Answer::PowerOn(result))
    }

    /// A word that is no count says four ports: in the record of a unit with four it makes no difference.
    fn lose_count(&mut self) {
        if self.reference.ports == USUAL_PORTS {
            let any = self.random.number();
            self.record.contents()[PORTS_AT] = self.random.pick(&[0, 1, 9, 16, any, (1 << 32) + 8, u64::MAX]);
            self.count("records whose count was made none");
        }
    }

    /// Changes what every port counts, in the reference and in the record.
    fn change_counts(&mut self, mut change: impl FnMut(&mut Counts)) {
        for (&port, counts) in self.reference.counts.iter_mut() {
            change(counts);
            self.record.contents()[queue_range(port)][COUNTS_AT..][..COUNTS_ANSWER].copy_from_slice(&counts.words());
        }
    }

    /// As after so many more frames that were accepted and taken: the totals pass 2^32 and 2^64.
    fn move_totals(&mut self) {
        let any = self.random.number();
        let more = self.random.pick(&[u64::MAX - 40, (1 << 32) - 40, any]);
        self.change_counts(|counts| {
            counts.accepted = counts.accepted.wrapping_add(more);
            counts.taken = counts.taken.wrapping_add(more);
        });
        self.count("records whose totals were moved");
    }

    /// Counts that no list of calls leads to, until the next power-on.
    fn lose_counts(&mut self) {
        let mut random = Random::new(self.random.number());
        self.change_counts(|counts| {
            counts.waiting = counts.waiting.map(|count| {
                let any = random.number();
                random.pick(&[0, u64::MAX, count, any])
            });
        });
        self.has_lost_counts = true;
        self.count("records whose counts were made any words");
    }

    /// Counters of losses near where they stay, or any words.
    fn change_losses(&mut self) {
        let losses = &mut self.reference.losses;
        for counter in losses.pairs.values_mut().chain([&mut losses.general]) {
            let any = self.random.number();
            counter.0 = self.random.pick(&[0, 255, 64_250, 64_254, 64_255, 64_256, 65_535, 1 << 32, any, u64::MAX]);
        }
        let words = loss_words(losses);
        self.record.contents()[losses_at(self.reference.ports as usize)..][..words.len()].copy_from_slice(&words);
        self.count("records whose counters of losses were made any words");
    }

    /// The words of some pairs are others that mean the same: any above pass with NAME entries, with none of them too, counts above their size, and any words where they
    /// mean nothing.
    fn reword_pairs(&mut self) {
        let (ports, unit) = (self.reference.ports as usize, &self.reference);
        let blocks = self.record.contents()[pairs_at(ports)..losses_at(ports)].chunks_mut(PAIR_WORDS);
        for ((block, pair), names) in blocks.zip(unit.pairs.values()).zip(unit.names.values()) {
            if self.random.once_in(2) {
                reword(&mut self.random, block, pair, names);
            }
        }
        self.count("records whose pairs were made other words of the same meaning");
    }

    fn start(&mut self) -> Result<Answer, String> {
        let mut told = self.told(START_ANSWER, 0);
        told.number = Record(self.record.contents()).start(told.words.contents());
        let result = self.reference.start();
        let expected = result.as_ref().map(|answer| vec![mask(&answer.own_lost), u64::from(answer.state.number())]);
        told.is(result.as_ref().err(), expected.ok(), None)?;
        Ok(Answer::Start(result))
    }

    /// The record changes by no word; `call` looks at its meaning.
    fn unit(&mut self) -> Result<Answer, String> {
        let mut told = self.told(UNIT_ANSWER, 0);
        let before = self.record.all.clone();
        told.number = Record(self.record.contents()).unit(told.words.contents());
        let answer = self.reference.tell();
        told.is(None, Some(unit_words(&answer)), None)?;
        check(self.record.all == before, "reading the unit changed the record")?;
        Ok(Answer::Unit(answer))
    }

    /// The record changes by no word.
    fn counts(&mut self, port: u32) -> Result<Answer, String> {
        let mut told = self.told(COUNTS_ANSWER, 0);
        let before = self.record.all.clone();
        told.number = Record(self.record.contents()).counts(port, told.words.contents());
        let result = self.reference.how_full(port);
        told.is(result.as_ref().err(), result.as_ref().ok().map(|counts| counts.words().to_vec()), None)?;
        check(self.record.all == before, "reading the counts changed the record")?;
        Ok(Answer::Counts(result))
    }

    fn quiet(&mut self) -> Result<Answer, String> {
        let number = Record(self.record.contents()).quiet();
        let result = self.reference.quiet();
        same("number", number, result.err().unwrap_or(0))?;
        Ok(Answer::Quiet(result))
    }

    fn frame(&mut self, port: u32, id: u32, bytes: &[u8]) -> Result<Answer, String> {
        let mut told = self.told(FRAME_ANSWER, 0);
        told.number = Record(self.record.contents()).frame(port, id, bytes, told.words.contents());
        let result = self.reference.frame(port, id, bytes);
        told.is(result.as_ref().err(), result.as_ref().ok().map(frame_words), None)?;
        if let Ok(answer) = &result {
            let word = told.words.contents()[FRAME_ANSWER - 1];
            (1..=8).try_for_each(|port| same("reason", reason(word, port), answer.reason_number(port)))?;
        }
        Ok(Answer::Frame(result))
    }

    /// A take on the record, or now and then on the port's queue alone.
    fn take(&mut self, port: u32) -> Result<Answer, String> {
        let mut told = self.told(TAKE_ANSWER, FRAME_BYTES);
        let result = self.reference.take(port);
        let by_queue = result.is_ok() && self.random.once_in(4);
        let record = self.record.contents();
        let (words, bytes) = (told.words.contents(), told.bytes.contents());
        told.number = if by_queue {
            let queue = (&mut record[queue_range(port)]).try_into().expect("a queue's words");
            take_queue(queue, words, bytes)
        } else {
            Record(record).take(port, words, bytes)
        };
        self.count(if by_queue { "takes on the queue alone" } else { "takes on the record" });
        let given = result.as_ref().ok().map(|given| given.as_ref());
        told.is(result.as_ref().err(), given.map(take_words), given.flatten().map(take_bytes))?;
        Ok(Answer::Take(result))
    }

    /// A message, with a reply buffer of any length: a short one is refused with 2.
    fn message(&mut self, port: u32, requester: u32, payload: &[u8]) -> Result<Answer, String> {
        let longer = self.random.below(100) as usize;
        let shorter = self.random.below(LONGEST_MESSAGE as u32) as usize;
        let length = match self.random.below(16) {
            0 => shorter,
            1 => LONGEST_MESSAGE - 1,
            2 => LONGEST_MESSAGE + longer,
            _ => LONGEST_MESSAGE,
        };
        let mut told = self.told(MESSAGE_ANSWER, length);
        let (reply, words) = (told.bytes.contents(), told.words.contents());
        told.number = Record(self.record.contents()).message(port, requester, payload, reply, words);
        let mut expected = vec![BYTE; length];
        let answer = self.reference.message(port, requester, payload, &mut expected);
        same("number", told.number, answer.number)?;
        let [entry, to, absent] = answer.wrong_words();
        let mut words = [u64::from(answer.pgn), answer.length as u64, entry, to, absent];
        same("answer", told.words.contents(), &mut words)?;
        same("reply", told.bytes.contents(), &mut expected)?;
        told.guarded()?;
        Ok(Answer::Message(answer, expected[..answer.length].to_vec()))
    }
}

// Lent storage of wrong lengths.
impl Both {
    /// A call with one or more lengths wrong: 1 where it names no port, else 2; nothing is touched.
    fn wrong_lengths(&mut self, call: &Call) -> Result<(), String> {
        let (port, words, bytes) = match call {
            Call::PowerOn { .. } | Call::Quiet => (None, None, None),
            Call::Start => (None, Some(START_ANSWER), None),
            Call::Unit => (None, Some(UNIT_ANSWER), None),
            Call::Frame { port, .. } => (Some(*port), Some(FRAME_ANSWER), None),
            Call::Take { port } => (Some(*port), Some(TAKE_ANSWER), Some(FRAME_BYTES)),
            Call::Message { port, .. } => (Some(*port), Some(MESSAGE_ANSWER), Some(LONGEST_MESSAGE)),
            Call::Counts { port } => (Some(*port), Some(COUNTS_ANSWER), None),
        };
        let bits = 1 + self.random.below(7);
        let wrong_words = bits & 1 != 0 && words.is_some();
        let wrong_bytes = bits & 2 != 0 && bytes.is_some();
        let wrong_record = bits & 4 != 0 || !(wrong_words || wrong_bytes);
        let is_message = matches!(call, Call::Message { .. });
        let lent = |random: &mut Random, right: usize, wrong| if wrong { another(random, right) } else { right };
        let words = lent(&mut self.random, words.unwrap_or(0), wrong_words);
        let bytes = if is_message && wrong_bytes {
            self.random.below(LONGEST_MESSAGE as u32) as usize
        } else {
            lent(&mut self.random, bytes.unwrap_or(0), wrong_bytes)
        };
        let right = match call {
            Call::PowerOn { ports, .. } => record_words_for(*ports),
            _ => self.record.length,
        };
        let length = if wrong_record { self.wrong_record(right) } else { right };
        let mut told = self.told(words, bytes);
        let before = self.record.all.clone();
        told.number = self.lend(call, length, &mut told);
        let ports = ports_of(&before[GUARDS..GUARDS + length]) as u32;
        let expected = if port.is_some_and(|port| !(1..=ports).contains(&port)) { 1 } else { 2 };
        same("number of a wrong length", told.number, expected)?;
        check(self.record.all == before, "a wrong length changed the record")?;
        // A message whose answer is of its length is told that nothing was written.
        let told_nothing = is_message && !wrong_words && told.words.contents() == [0; MESSAGE_ANSWER];
        check(told_nothing || told.words.untouched(WORD), "a wrong length changed the answer")?;
        check(told.bytes.untouched(BYTE), "a wrong length changed the bytes")?;
        self.count("calls with lent lengths wrong");
        Ok(())
    }

    /// Another length of a record: that of another count, or too short to have a count, or any.
    fn wrong_record(&mut self, right: usize) -> usize {
        let other = record_words_for(2 + self.random.below(7));
        let short = self.random.below(7) as usize;
        let any = another(&mut self.random, right);
        let length = self.random.pick(&[other, other, short, any]);
        if length == right {
            right - 1
        } else {
            length
        }
    }

    /// The call with so many words of the record, which may reach into its guards.
    fn lend(&mut self, call: &Call, length: usize, told: &mut Told) -> u32 {
        let start = GUARDS;
        let mut record = Record(&mut self.record.all[start..start + length]);
        let (words, bytes) = (told.words.contents(), told.bytes.contents());
        match call {
            Call::PowerOn { name, preferred, ports: USUAL_PORTS } if name % 2 == 0 => {
                record.power_on(*name, *preferred)
            }
            Call::PowerOn { name, preferred, ports } => record.power_on_ports(*name, *preferred, *ports),
            Call::Start => record.start(words),
            Call::Quiet => record.quiet(),
            Call::Frame { port, id, bytes } => record.frame(*port, *id, bytes, words),
            Call::Take { port } => record.take(*port, words, bytes),
            Call::Message { port, requester, payload } => record.message(*port, *requester, payload, bytes, words),
            Call::Unit => record.unit(words),
            Call::Counts { port } => record.counts(*port, words),
        }
    }
}

/// Another length: one more, one less, none, or any.
fn another(random: &mut Random, right: usize) -> usize {
    let any = random.below(2 * right as u32 + 2) as usize;
    let length = random.pick(&[right + 1, right - 1, 0, any]).min(right + GUARDS);
    if length == right {
        right + 1
    } else {
        length
    }
}

impl Told {
    /// Refused: the number, and nothing written. Done: 0, these words and these bytes, untouched where there are none.
    fn is(&mut self, refused: Option<&u32>, words: Option<Vec<u64>>, bytes: Option<Vec<u8>>) -> Result<(), String> {
        same("number", self.number, refused.copied().unwrap_or(0))?;
        let mut expected = words.unwrap_or(vec![WORD; self.words.contents().len()]);
        same("answer", self.words.contents(), &mut expected)?;
        let mut expected = bytes.unwrap_or(vec![BYTE; self.bytes.contents().len()]);
        same("bytes", self.bytes.contents(), &mut expected)?;
        self.guarded()
    }

    fn guarded(&self) -> Result<(), String> {
        check(self.words.guards_hold() && self.bytes.guards_hold(), "a guard of what was lent changed")
    }
}

fn same<T: PartialEq + std::fmt::Debug>(what: &str, found: T, expected: T) -> Result<(), String> {
    if found == expected {
        Ok(())
    } else {
        Err(format!("{what} {found:?}, expected {expected:?}"))
    }
}

fn check(holds: bool, otherwise: &str) -> Result<(), String> {
    if holds {
        Ok(())
    } else {
        Err(otherwise.to_string())
    }
}

/// Bit p - 1 for port p.
fn mask(ports: &[u32]) -> u64 {
    ports.iter().map(|port| 1 << (port - 1)).sum()
}

fn frame_words(answer: &FrameAnswer) -> Vec<u64> {
    let (event, old_name) = match answer.event {
        Event::None => (0, 0),
        Event::Withdrew => (1, 0),
        Event::Defended => (2, 0),
        Event::Displaced => (3, 0),
        Event::Recorded => (4, 0),
        Event::Refreshed => (5, 0),
        Event::TookOver(old) => (6, old),
        Event::Beaten => (7, 0),
    };
    let (consumed, compared) = (u64::from(answer.consumed), answer.compared as u64);
    let [accepted, lost, own_lost] = [&answer.accepted, &answer.lost, &answer.own_lost].map(|ports| mask(ports));
    vec![consumed, accepted, lost, event, old_name, own_lost, compared, answer.reason_word()]
}

/// Words of a pair that mean what it is. The pairs are in the order of the record.
fn reword(random: &mut Random, block: &mut [u64], pair: &Pair, names: &[NameEntry]) {
    let (any, above) = (random.number(), random.pick(&[PASS_NAMED, 5, 1 << 32, u64::MAX - 1, u64::MAX]));
    let is_named = !names.is_empty() || random.once_in(4);
    block.fill_with(|| random.number() >> random.below(64));
    block[0] = match (pair, is_named) {
        (Pair::Cleared, _) => return block[0] = 0,
        (Pair::Block(_), false) => BLOCK,
        (Pair::Block(_), true) => BLOCK_NAMED,
        (Pair::Pass(_), false) => PASS,
        (Pair::Pass(_), true) => above,
    };
    let size = |count: usize, size: usize| if count == size { any.max(size as u64) } else { count as u64 };
    block[1] = size(pair.entries().len(), LIST);
    block[2..].iter_mut().zip(pair.entries()).for_each(|(word, &pgn)| *word = pgn.into());
    block[RISING_AT..].iter_mut().zip(rising(pair.entries())).for_each(|(word, pgn)| *word = pgn.into());
    if is_named {
        block[NAMES_AT] = size(names.len(), NAMES);
        for (words, entry) in block[NAMES_AT + 1..RISING_AT].chunks_mut(NAME_WORDS).zip(names) {
            words.copy_from_slice(&[entry.pgn.into(), entry.name, entry.mask]);
        }
    }
}

/// The address is 254 for none.
fn unit_words(answer: &UnitAnswer) -> Vec<u64> {
    let address = answer.address.unwrap_or(NULL);
    let [state, address, preferred, ports] =
        [answer.state.number(), address, answer.preferred, answer.ports].map(u64::from);
    vec![state, address, preferred, answer.name, ports]
}

fn take_words(given: Option<&Frame>) -> Vec<u64> {
    match given {
        Some(frame) => vec![1, u64::from(frame.id), frame.bytes.len() as u64],
        None => vec![0, 0, 0],
    }
}

/// The frame's bytes, 0 past its length.
fn take_bytes(frame: &Frame) -> Vec<u8> {
    let mut bytes = frame.bytes.clone();
    bytes.resize(FRAME_BYTES, 0);
    bytes
}

/// One script after the other, each of a seed of its own, until so many calls agreed.
fn run(seed: u64, calls: usize) -> Result<Both, String> {
    let mut both = Both::new(seed);
    let mut done = 0;
    let mut script = seed;
    while done < calls {
        let left = calls - done;
        both.in_storm = script % STORM == 0;
        let made = if both.in_storm { storms(script) } else { generate(script, SCRIPT.min(left)) };
        for (line, call) in made.iter().take(left).enumerate() {
            let told = both.call(call);
            told.map_err(|error| format!("script {script}, call {line}: {}\n{error}", write_call(call)))?;
            done += 1;
        }
        script = script.wrapping_add(1);
    }
    Ok(both)
}

fn main() {
    let arguments: Vec<String> = std::env::args().skip(1).collect();
    let numbers: Vec<u64> = arguments.iter().filter_map(|text| text.parse().ok()).collect();
    let [seed, calls] = numbers[..] else {
        eprintln!("usage: differential SEED CALLS");
        std::process::exit(2);
    };
    match run(seed, calls as usize) {
        Ok(both) => {
            for line in both.coverage.table() {
                println!("{line}");
            }
            for (what, count) in &both.tried {
                println!("{what}: {count}");
            }
            println!("{calls} calls from seed {seed}: reference and proved unit agree");
        }
        Err(error) => {
            println!("{error}");
            std::process::exit(1);
        }
    }
}
