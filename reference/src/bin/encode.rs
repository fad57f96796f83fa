//! encode [--answers]: reads a script that begins with a power-on, prints its calls as the words that the crate `witness` takes, or what is answered.

use std::io::{self, Read};
use std::process::ExitCode;

use reference::address::Event;
use reference::frame::NULL;
use reference::run::made;
use reference::script::{is_passed_over, lines_of, read_call, Answer, Call};
use reference::unit::Unit;

fn main() -> io::Result<ExitCode> {
    let mut script = Vec::new();
    io::stdin().read_to_end(&mut script)?;
    let lines: Vec<&[u8]> = lines_of(&script).into_iter().filter(|line| !is_passed_over(line)).collect();
    let calls: Vec<Call> = lines.iter().filter_map(|line| read_call(line).ok()).collect();
    let [Call::PowerOn { name, preferred, ports }, calls @ ..] = &calls[..] else {
        eprintln!("encode: a power-on comes first");
        return Ok(ExitCode::from(2));
    };
    if std::env::args().nth(1).is_some_and(|word| word == "--answers") {
        print_answers(&lines);
    } else {
        println!("# NAME, preferred address, number of ports, how many calls");
        println!("{name:X} {preferred:X} {ports:X} {:X}", calls.len());
        print_calls(calls);
    }
    Ok(ExitCode::SUCCESS)
}

/// A line for each call: kind, port, argument, and where its bytes stand among all of them; then the bytes.
fn print_calls(calls: &[Call]) {
    let mut all: Vec<u8> = Vec::new();
    println!("# kind, port, identifier or requester, first byte, last byte");
    for call in calls {
        let (kind, port, argument, bytes): (u32, u32, u32, &[u8]) = match call {
            Call::Frame { port, id, bytes } => (0, *port, *id, bytes),
            Call::Take { port } => (1, *port, 0, &[]),
            Call::Message { port, requester, payload } => (2, *port, *requester, payload),
            Call::Start => (3, 0, 0, &[]),
            Call::Quiet => (4, 0, 0, &[]),
            Call::Unit => (5, 0, 0, &[]),
            Call::Counts { port } => (6, *port, 0, &[]),
            Call::PowerOn { .. } => panic!("encode: a second power-on"),
        };
        let first = all.len();
        all.extend(bytes);
        println!("{kind:X} {port:X} {argument:X} {first:X} {:X}", all.len());
    }
    println!("# the bytes");
    for line in all.chunks(32) {
        println!("{}", line.iter().map(|byte| format!("{byte:X}")).collect::<Vec<_>>().join(" "));
    }
}

/// Power-on's number, a line for each answer, and how many frames wait at each port.
fn print_answers(lines: &[&[u8]]) {
    let mut unit: Option<Unit> = None;
    for (i, line) in lines.iter().enumerate() {
        let (_, answer) = made(&mut unit, line).expect("encode: a line that is no call");
        match i {
            0 => println!("{:x}", answer.number()),
            _ => println!("{}", twelve_words(&answer).map(|word| format!("{word:x}")).join(" ")),
        }
    }
    let unit = unit.expect("a power-on comes first");
    let waiting: Vec<String> = unit.queues.values().map(|queue| format!("{:x}", queue.len())).collect();
    println!("waiting {}", waiting.join(" "));
}

/// An answer's words: its number, what it tells, 0 behind that.
fn twelve_words(answer: &Answer) -> [u64; 12] {
    let mut words = [0; 12];
    words[0] = u64::from(answer.number());
    for (word, told) in words[1..].iter_mut().zip(told_words(answer)) {
        *word = told;
    }
    words
}

/// What an answer tells beside its number.
fn told_words(answer: &Answer) -> Vec<u64> {
    match answer {
        Answer::Frame(Ok(told)) => {
            let (event, old) = event_words(&told.event);
            let [accepted, lost, own_lost] = [&told.accepted, &told.lost, &told.own_lost].map(|ports| mask(ports));
            let (consumed, compared) = (u64::from(told.consumed), told.compared as u64);
            vec![consumed, accepted, lost, own_lost, compared, event, old, told.reason_word()]
        }
        Answer::Take(Ok(Some(frame))) => {
            let bytes = frame.bytes.iter().rev().fold(0, |word, &byte| word << 8 | u64::from(byte));
            vec![1, u64::from(frame.id), frame.bytes.len() as u64, bytes]
        }
        Answer::Message(told, _) => {
            let [entry, to, absent] = told.wrong_words();
            vec![u64::from(told.pgn), told.length as u64, entry, to, absent]
        }
        Answer::Start(Ok(told)) => vec![mask(&told.own_lost), u64::from(told.state.number())],
        Answer::Unit(told) => {
            let address = told.address.unwrap_or(NULL);
            let [state, address, preferred, ports] =
                [told.state.number(), address, told.preferred, told.ports].map(u64::from);
            vec![state, address, preferred, told.name, ports]
        }
        Answer::Counts(Ok(counts)) => counts.words().to_vec(),
        _ => Vec::new(),
    }
}

fn mask(ports: &[u32]) -> u64 {
    ports.iter().map(|port| 1 << (port - 1)).sum()
}

fn event_words(event: &Event) -> (u64, u64) {
    match event {
        Event::None => (0, 0),
        Event::Withdrew => (1, 0),
        Event::Defended => (2, 0),
        Event::Displaced => (3, 0),
        Event::Recorded => (4, 0),
        Event::Refreshed => (5, 0),
        Event::TookOver(old) => (6, *old),
        Event::Beaten => (7, 0),
    }
}
