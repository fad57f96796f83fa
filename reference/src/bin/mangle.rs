//! mangle SEED: reads a script from standard input, prints it with one line in three damaged: bytes lost, added or
//! changed, line ends among them, and now and then a line that is too long.

use std::io::{self, Read, Write};

use reference::generate::Random;

/// What is put into a line: bytes of the format, bytes near it, and some that are no text.
const BYTES: &[u8] = b" \r\n\t-#+?0123456789abcdefgABCDEFGPSQFTMU\x00\xC3\xA9\xFF";

fn main() -> io::Result<()> {
    let Some(seed) = std::env::args().nth(1).and_then(|text| text.parse().ok()) else {
        eprintln!("usage: mangle SEED");
        std::process::exit(2);
    };
    let mut random = Random::new(seed);
    let mut script = Vec::new();
    io::stdin().read_to_end(&mut script)?;
    let mut out = io::BufWriter::new(io::stdout().lock());
    for line in script.split_inclusive(|&byte| byte == b'\n') {
        let mut line = line.to_vec();
        if random.once_in(3) {
            damage(&mut random, &mut line);
        } else if random.once_in(300) {
            line = line.repeat(200).into_iter().filter(|&byte| byte != b'\n').collect();
        }
        out.write_all(&line)?;
    }
    out.flush()
}

fn damage(random: &mut Random, line: &mut Vec<u8>) {
    for _ in 0..random.pick(&[1, 1, 1, 2, 5]) {
        let place = random.below(line.len() as u32 + 1) as usize;
        let byte = random.pick(BYTES);
        match random.below(3) {
            0 => line.insert(place, byte),
            1 if place < line.len() => line[place] = byte,
            _ if place < line.len() => drop(line.remove(place)),
            _ => {}
        }
    }
}
