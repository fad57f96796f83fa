//! coverage: reads a script from standard input, prints how often each thing was reached.

use std::io::{self, Read};

use reference::coverage::Coverage;

fn main() -> io::Result<()> {
    let mut script = Vec::new();
    io::stdin().read_to_end(&mut script)?;
    let mut coverage = Coverage::default();
    coverage.count_script(&script);
    for line in coverage.table() {
        println!("{line}");
    }
    Ok(())
}
