//! run [--plain]: reads a script from standard input, prints each call beside its answer, or the answers alone, then a summary.

use std::io::{self, Read, Write};
use std::process::ExitCode;

use reference::run::Run;

fn main() -> io::Result<ExitCode> {
    let arguments: Vec<String> = std::env::args().skip(1).collect();
    let is_plain = match &arguments[..] {
        [] => false,
        [word] if word == "--plain" => true,
        _ => {
            eprintln!("usage: run [--plain]");
            return Ok(ExitCode::from(2));
        }
    };
    let mut script = Vec::new();
    io::stdin().read_to_end(&mut script)?;
    let run = Run::of(script);
    io::stdout().write_all(&if is_plain { run.plain() } else { run.beside() })?;
    Ok(ExitCode::SUCCESS)
}
