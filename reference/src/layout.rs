//! The lengths and the layout that the C interface publishes (include/deorasaeng.h), for Rust that reads or fills a record
//! itself: `linked` and `plan` here, and the benchmark's twin, which includes this file. For C it is reference/layout.h.

pub const FEWEST_PORTS: usize = 2;
pub const USUAL_PORTS: usize = 4;
pub const MOST_PORTS: usize = 8;
pub const LIST: usize = 32;
pub const NAMES: usize = 8;
pub const QUEUE: usize = 32;
pub const RANKS: usize = 8;
/// The addresses that the table has a place for.
pub const PLACES: usize = 254;

/// The lengths of the answers, in words; of a frame's bytes in a take, and of a reply buffer at least, in bytes.
pub const FRAME_ANSWER: usize = 8;
pub const TAKE_ANSWER: usize = 3;
pub const MESSAGE_ANSWER: usize = 5;
pub const START_ANSWER: usize = 2;
pub const UNIT_ANSWER: usize = 5;
pub const COUNTS_ANSWER: usize = RANKS + 2;
pub const PLAN_ANSWER: usize = 1;
pub const FRAME_BYTES: usize = 8;
pub const REPLY_BYTES: usize = 1785;

/// The regions of the record, where each begins: the unit's own words, the last of them the number of ports; the table, a port
/// and a NAME for each place; the queues, each how many wait, what the port counts and two words for each frame.
pub const OWN_WORDS: usize = 5;
pub const PORTS_AT: usize = OWN_WORDS - 1;
pub const TABLE_AT: usize = OWN_WORDS;
pub const PLACE_WORDS: usize = 2;
pub const QUEUES_AT: usize = TABLE_AT + PLACE_WORDS * PLACES;
pub const COUNTS_AT: usize = 1;
pub const FRAMES_AT: usize = COUNTS_AT + COUNTS_ANSWER;
pub const QUEUE_WORDS: usize = FRAMES_AT + 2 * QUEUE;
/// A pair: its mode, its count, its list; behind that how many NAME entries it has, for each its PGN, NAME and mask, and the list in rising order.
pub const NAMES_AT: usize = 2 + LIST;
pub const NAME_WORDS: usize = 3;
pub const RISING_AT: usize = NAMES_AT + 1 + NAME_WORDS * NAMES;
pub const PAIR_WORDS: usize = RISING_AT + LIST;

/// The mode word of a pair: 0 cleared, 1 block, 2 pass; from 3 on with NAME entries, 3 block and all above it pass. Below 3 the words of NAME entries mean nothing.
pub const BLOCK: u64 = 1;
pub const PASS: u64 = 2;
pub const BLOCK_NAMED: u64 = 3;
pub const PASS_NAMED: u64 = 4;

/// The pairs lie elsewhere with another number of ports, in order of From, then To.
pub const fn pairs_at(ports: usize) -> usize {
    QUEUES_AT + QUEUE_WORDS * ports
}

/// A counter of losses for each pair, in the same order, and the general one behind them.
pub const fn losses_at(ports: usize) -> usize {
    pairs_at(ports) + PAIR_WORDS * ports * (ports - 1)
}

/// The length of a record, in words.
pub const fn record_words(ports: usize) -> usize {
    losses_at(ports) + ports * (ports - 1) + 1
}

/// How many ports a record's words say, however many they are: four where they say no count.
#[inline]
pub fn ports_of(words: &[u64]) -> usize {
    match words.get(PORTS_AT) {
        Some(&ports) if (FEWEST_PORTS as u64..=MOST_PORTS as u64).contains(&ports) => ports as usize,
        _ => USUAL_PORTS,
    }
}

/// A plan: for each of its units eight ports, a word each, and 56 pairs, which have a list alone and modes 0 to 2.
pub const MOST_SEGMENTS: usize = 16;
pub const MOST_UNITS: usize = 16;
pub const PLAN_PAIRS: usize = MOST_PORTS * (MOST_PORTS - 1);
pub const PLAN_PORTS: usize = MOST_UNITS * MOST_PORTS;
pub const PLAN_PAIR_WORDS: usize = 2 + LIST;
pub const PLAN_LISTS: usize = MOST_UNITS * PLAN_PAIRS * PLAN_PAIR_WORDS;

/// A port of a unit and the segment on it, all three counted from 1.
#[derive(Clone, Copy, Debug, PartialEq, Eq)]
#[repr(C)]
pub struct Link {
    pub unit: u32,
    pub port: u32,
    pub segment: u32,
}
