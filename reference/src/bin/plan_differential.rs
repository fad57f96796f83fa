//! plan_differential SEED PLANS: generated plans to the reference and to the proved plan call through its C interface,
//! with the segments on the ports and as links. Compares numbers and answers, lends storage of wrong lengths in
//! between, and links that are wrong; prints what was tried, and fails if something was not.

use reference::generate::Random;
use reference::linked;
use reference::plan::*;
use reference::plan_coverage::{Coverage, ROWS};
use reference::plan_generate::{generate, links_of, wrong_links, Case};

/// What lies in an answer before a call, and around it.
const WORD: u64 = 0xA5A5_5A5A_A5A5_5A5A;
const GUARD: u64 = 0xDEAD_BEEF_DEAD_BEEF;
/// How long what is lent for an answer may be, with a guard on both sides.
const LONGEST_ANSWER: usize = 4;

/// The rows beside those of the plans themselves.
const CALLS: [&str; 16] = [
    "links in order of the ports",
    "links in another order",
    "no links",
    "wrong length: ports",
    "wrong length: lists",
    "wrong length: answer",
    "wrong length: several",
    "wrong links: unit 0",
    "wrong links: unit past the last",
    "wrong links: port 0",
    "wrong links: port past 8",
    "wrong links: segment 0",
    "wrong links: segment past the last",
    "wrong links: a port twice on one segment",
    "wrong links: a port twice on two segments",
    "wrong links: more links than ports",
];

/// A number and an answer between guards, from a call that is lent so many words for it.
fn told(length: usize, call: impl Fn(&mut [u64]) -> u32) -> (u32, [u64; LONGEST_ANSWER]) {
    let mut words = [GUARD; LONGEST_ANSWER];
    words[1..1 + length].fill(WORD);
    let number = call(&mut words[1..1 + length]);
    (number, words)
}

struct Both {
    random: Random,
    coverage: Coverage,
}

impl Both {
    /// One plan: the call itself, its links, and now and then lengths or links that are wrong.
    fn plan(&mut self) -> Result<(), String> {
        let case = generate(&mut self.random);
        let number = self.ports(&case, [PORT_WORDS, LIST_WORDS, ANSWER_WORDS])?;
        self.coverage.count(&case, number);
        self.links(&case)?;
        if self.random.once_in(4) {
            self.wrong_lengths(&case)?;
        }
        if self.random.once_in(4) {
            self.wrong_links(&case)?;
        }
        Ok(())
    }

    /// With these lengths of ports, lists and answer; what is beyond the published ones is 0.
    fn ports(&self, case: &Case, lengths: [usize; 3]) -> Result<u32, String> {
        let [ports, lists] = [padded(&case.ports, lengths[0]), padded(&case.lists, lengths[1])];
        let (ports, lists) = (&ports[..lengths[0]], &lists[..lengths[1]]);
        let question = case.question;
        let expected = told(lengths[2], |answer| plan(ports, lists, question, answer));
        let found = told(lengths[2], |answer| linked::plan(ports, lists, question, answer));
        same("ports", case, lengths, found, expected)?;
        Ok(expected.0)
    }

    fn with_links(&self, case: &Case, links: &[Link], lengths: [usize; 3]) -> Result<u32, String> {
        let lists = padded(&case.lists, lengths[1]);
        let lists = &lists[..lengths[1]];
        let question = case.question;
        let expected = told(lengths[2], |answer| plan_links(links, lists, question, answer));
        let found = told(lengths[2], |answer| linked::plan_links(links, lists, question, answer));
        same("links", case, lengths, found, expected).map_err(|error| format!("{error}\n{links:?}"))?;
        Ok(expected.0)
    }

    fn links(&mut self, case: &Case) -> Result<(), String> {
        let mut links = links_of(&mut self.random, case);
        let in_order = self.random.once_in(4);
        if in_order {
            links.sort_by_key(|link| (link.unit, link.port));
        }
        self.coverage.add(match (links.is_empty(), in_order) {
            (true, _) => "no links",
            (_, true) => "links in order of the ports",
            _ => "links in another order",
        });
        self.with_links(case, &links, [PORT_WORDS, LIST_WORDS, ANSWER_WORDS]).map(|_| ())
    }

    fn wrong_links(&mut self, case: &Case) -> Result<(), String> {
        let (links, what) = wrong_links(&mut self.random, case);
        let number = self.with_links(case, &links, [PORT_WORDS, LIST_WORDS, ANSWER_WORDS])?;
        let row = CALLS.iter().find(|row| row.strip_prefix("wrong links: ") == Some(what)).expect("a row");
        self.coverage.add(row);
        if number == OUTSIDE {
            Ok(())
        } else {
            Err(format!("{row}: the reference gives {number}"))
        }
    }

    /// One length or more is another: one less, one more, none, or any.
    fn wrong_lengths(&mut self, case: &Case) -> Result<(), String> {
        let right = [PORT_WORDS, LIST_WORDS, ANSWER_WORDS];
        let wrong = self.random.pick(&[1, 2, 4, 3, 5, 6, 7]);
        let mut lengths = right;
        for place in (0..3).filter(|place| wrong >> place & 1 == 1) {
            let any = self.random.below(2 * right[place] as u32) as usize;
            let length = self.random.pick(&[right[place] - 1, right[place] + 1, 0, any]);
            lengths[place] = if length == right[place] { right[place] + 1 } else { length };
        }
        self.coverage.add(match wrong {
            1 => "wrong length: ports",
            2 => "wrong length: lists",
            4 => "wrong length: answer",
            _ => "wrong length: several",
        });
        let number = self.ports(case, lengths)?;
        let links = links_of(&mut self.random, case);
        self.with_links(case, &links, lengths)?;
        if number == 2 {
            Ok(())
        } else {
            Err(format!("lengths {lengths:?}: the reference gives {number}"))
        }
    }
}

/// So many words, and behind them a unit's worth that is in range, so that who reads too far is not told by chance.
fn padded(words: &[u64], length: usize) -> Vec<u64> {
    let mut words = words.to_vec();
    words.resize(length, 0);
    words.resize(length + PAIRS * PAIR_WORDS, 0);
    words
}

type Told = (u32, [u64; LONGEST_ANSWER]);

fn same(form: &str, case: &Case, lengths: [usize; 3], found: Told, expected: Told) -> Result<(), String> {
    if found == expected {
        return Ok(());
    }
    let used = &case.ports[..(8 * case.question.units as usize).min(PORT_WORDS)];
    let used: Vec<&[u64]> = used.chunks(8).collect();
    Err(format!(
        "{:?}, by {form}, lengths {lengths:?}\nports {used:?}\nfound {:?}, expected {:?}",
        case.question, found, expected
    ))
}

fn main() {
    let arguments: Vec<String> = std::env::args().skip(1).collect();
    let numbers: Vec<u64> = arguments.iter().filter_map(|text| text.parse().ok()).collect();
    let [seed, plans] = numbers[..] else {
        eprintln!("usage: plan_differential SEED PLANS");
        std::process::exit(2);
    };
    let mut both = Both { random: Random::new(seed), coverage: Coverage::default() };
    for place in 0..plans {
        if let Err(error) = both.plan() {
            println!("seed {seed}, plan {place}: {error}");
            std::process::exit(1);
        }
    }
    for line in both.coverage.table() {
        println!("{line}");
    }
    println!("{plans} plans from seed {seed}: reference and proved call agree");
    let untried = [both.coverage.untried(&ROWS), both.coverage.untried(&CALLS)].concat();
    if !untried.is_empty() {
        println!("left untried: {}", untried.join("; "));
        std::process::exit(1);
    }
}
