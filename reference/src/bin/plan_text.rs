//! plan_text: reads a plan as a dealer writes it from standard input, prints what the program `plan` is to print.
//! plan_text write SEED [bad]: a generated plan as such a text; with bad, one of its lines is damaged.
//! plan_text texts SEED SEEDS: those of so many seeds, each as it is and damaged, each ended by a form feed.

use std::io::{self, Read, Write};

use reference::generate::Random;
use reference::plan_generate::{damage_text, text};
use reference::plan_text::run;

/// A generated text, and the same with a line damaged.
fn both(seed: u64) -> [Vec<u8>; 2] {
    let mut random = Random::new(seed);
    let text = text(&mut random);
    let damaged = damage_text(&mut random, &text);
    [text.into_bytes(), damaged]
}

fn main() -> io::Result<()> {
    let arguments: Vec<String> = std::env::args().skip(1).collect();
    let words: Vec<&str> = arguments.iter().map(String::as_str).collect();
    let printed = match (&words[..], words.get(1).and_then(|seed| seed.parse().ok())) {
        ([], _) => {
            let mut text = Vec::new();
            io::stdin().read_to_end(&mut text)?;
            run(&text)
        }
        (["write", _], Some(seed)) => both(seed)[0].clone(),
        (["write", _, "bad"], Some(seed)) => both(seed)[1].clone(),
        (["texts", _, seeds], Some(first)) if seeds.parse::<u64>().is_ok() => {
            let seeds = first..first + seeds.parse::<u64>().unwrap_or(0);
            seeds.flat_map(both).flat_map(|text| [text, vec![b'\x0C']].concat()).collect()
        }
        _ => {
            eprintln!("usage: plan_text, or plan_text write SEED [bad], or plan_text texts SEED SEEDS");
            std::process::exit(2);
        }
    };
    io::stdout().write_all(&printed)
}
