//! bench_log run | from_candump | to_candump | map NAME=PORT,.. [RATE]: what the programs bench, from_candump (with --map, and --bitrate) and to_candump are to print for standard input.
//! bench_log log SEED RECORDS [bad] | text SEED LINES | bus SEED LINES: generated input for them; frames SEED FRAMES: a log for `frame_parts_examples`.

use std::io::{self, Read, Write};

use reference::bench_log::*;

fn input() -> io::Result<Vec<u8>> {
    let mut bytes = Vec::new();
    io::stdin().read_to_end(&mut bytes)?;
    Ok(bytes)
}

fn tell(turned: Turned) -> io::Result<()> {
    for (place, number) in turned.refused {
        eprintln!("{place} {number}");
    }
    io::stdout().write_all(&turned.output)
}

/// The pairs of a map.
fn pairs(map: &str) -> Option<Vec<(&str, u8)>> {
    map.split(',').map(|item| item.split_once('=').and_then(|(name, port)| Some((name, port.parse().ok()?)))).collect()
}

fn tell_mapped(mapped: Mapped) -> io::Result<()> {
    for (reason, count) in PASSED_OVER.iter().zip(mapped.passed_over).filter(|(_, count)| *count > 0) {
        eprintln!("passed over, {reason}: {count}");
    }
    let over: usize = mapped.passed_over.iter().sum();
    if over > 0 && mapped.turned == 0 {
        eprintln!("nothing was turned, of lines: {over}");
    }
    io::stdout().write_all(&mapped.output)
}

fn number(argument: Option<&String>) -> u64 {
    argument.and_then(|text| text.parse().ok()).unwrap_or_else(|| usage())
}

fn usage() -> ! {
    eprintln!("usage: bench_log run | from_candump | to_candump | map NAME=PORT,.. [RATE] | log SEED RECORDS [bad] | frames SEED FRAMES | text SEED LINES | bus SEED LINES");
    std::process::exit(2);
}

fn main() -> io::Result<()> {
    let arguments: Vec<String> = std::env::args().skip(1).collect();
    match arguments.first().map(String::as_str) {
        Some("run") => io::stdout().write_all(run(&input()?).as_bytes()),
        Some("from_candump") => tell(from_candump(&input()?)),
        Some("to_candump") => tell(to_candump(&input()?)),
        Some("map") => {
            let map = arguments.get(1).and_then(|map| pairs(map)).unwrap_or_else(|| usage());
            let rate = arguments.get(2).map(|_| number(arguments.get(2)));
            tell_mapped(from_candump_map(&input()?, &map, rate))
        }
        Some("log") => {
            let records = number(arguments.get(2)) as usize;
            io::stdout().write_all(&generate_log(number(arguments.get(1)), records, arguments.len() > 3))
        }
        Some("frames") => {
            io::stdout().write_all(&generate_frames(number(arguments.get(1)), number(arguments.get(2)) as usize))
        }
        Some("text") => {
            io::stdout().write_all(&generate_text(number(arguments.get(1)), number(arguments.get(2)) as usize))
        }
        Some("bus") => {
            io::stdout().write_all(&generate_bus(number(arguments.get(1)), number(arguments.get(2)) as usize))
        }
        _ => usage(),
    }
}
