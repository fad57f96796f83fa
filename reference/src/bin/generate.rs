//! generate SEED CALLS: prints a script of that many calls. generate sweep: every pair byte of every function from every port. generate storms SEED: a long
//! script whose counters of losses stay.

use std::io::{self, Write};

use reference::generate::{generate, storms, sweep};
use reference::script::{write_call, Call};

fn main() -> io::Result<()> {
    let arguments: Vec<String> = std::env::args().skip(1).collect();
    let Some(calls) = calls_of(&arguments) else {
        eprintln!("usage: generate SEED CALLS, generate sweep, or generate storms SEED");
        std::process::exit(2);
    };
    let mut out = io::BufWriter::new(io::stdout().lock());
    for call in calls {
        writeln!(out, "{}", write_call(&call))?;
    }
    out.flush()
}

fn calls_of(arguments: &[String]) -> Option<Vec<Call>> {
    match arguments {
        [word] if word == "sweep" => Some(sweep()),
        [word, seed] if word == "storms" => Some(storms(seed.parse().ok()?)),
        [seed, calls] => Some(generate(seed.parse().ok()?, calls.parse().ok()?)),
        _ => None,
    }
}
