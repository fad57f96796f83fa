//! The bundled scripts against their outputs, and the script format itself.

use reference::generate::{generate, sweep};
use reference::run::{run_script, Run};
use reference::script::{read_call, write_call, Call, LONGEST_LINE};
use reference::words::{told, REASONS, WORDS};

fn check(script: &str, output: &str) {
    assert_eq!(String::from_utf8(Run::of(script).beside()).unwrap(), output);
}

#[test]
fn morning() {
    check(include_str!("../scripts/morning.txt"), include_str!("../scripts/morning.out"));
}

#[test]
fn examples() {
    check(include_str!("../scripts/examples.txt"), include_str!("../scripts/examples.out"));
}

#[test]
fn unit() {
    check(include_str!("../scripts/unit.txt"), include_str!("../scripts/unit.out"));
}

#[test]
fn lines() {
    check(include_str!("../scripts/lines.txt"), include_str!("../scripts/lines.out"));
}

/// Eight ports, two, and counts that are none.
#[test]
fn ports() {
    check(include_str!("../scripts/ports.txt"), include_str!("../scripts/ports.out"));
}

/// Sizes, entries, losses and their resets.
#[test]
fn parameters() {
    check(include_str!("../scripts/parameters.txt"), include_str!("../scripts/parameters.out"));
}

/// The unit defends its address and loses it; a port fills up and is counted.
#[test]
fn contention() {
    check(include_str!("../scripts/contention.txt"), include_str!("../scripts/contention.out"));
}

/// The same claims in different orders.
#[test]
fn mornings() {
    check(include_str!("../scripts/mornings.txt"), include_str!("../scripts/mornings.out"));
}

/// Lists looked up by halving, in whatever order they were added.
#[test]
fn halving() {
    check(include_str!("../scripts/halving.txt"), include_str!("../scripts/halving.out"));
}

/// One pair through its cases: listed claims, pass and block, an emptied list, a full one.
#[test]
fn lists() {
    check(include_str!("../scripts/lists.txt"), include_str!("../scripts/lists.out"));
}

/// NAME entries: two controllers told apart, every way to be refused.
#[test]
fn names() {
    check(include_str!("../scripts/names.txt"), include_str!("../scripts/names.out"));
}

/// Claims of every outcome, and the address list of a port after each.
#[test]
fn addresses() {
    check(include_str!("../scripts/addresses.txt"), include_str!("../scripts/addresses.out"));
}

/// Network messages that are right, or wrong in one thing or in two, and every function byte.
#[test]
fn payloads() {
    check(include_str!("../scripts/payloads.txt"), include_str!("../scripts/payloads.out"));
}

/// Every function at every length, and every filling byte wrong by itself.
#[test]
fn bodies() {
    check(include_str!("../scripts/bodies.txt"), include_str!("../scripts/bodies.out"));
}

/// The old box's hole: the port number one up.
#[test]
fn one_up() {
    check(include_str!("../scripts/one_up.txt"), include_str!("../scripts/one_up.out"));
}

/// A file of `scripts/`.
fn file(name: &str) -> String {
    std::fs::read_to_string(format!("{}/scripts/{name}", env!("CARGO_MANIFEST_DIR"))).expect(name)
}

/// The bundled scripts are those that `recorded` names.
#[test]
fn every_script_is_recorded() {
    let mut named: Vec<String> = file("recorded").lines().map(|name| format!("{name}.txt")).collect();
    let folder = std::fs::read_dir(concat!(env!("CARGO_MANIFEST_DIR"), "/scripts")).unwrap();
    let files = folder.map(|entry| entry.unwrap().file_name().into_string().unwrap());
    let mut bundled: Vec<String> = files.filter(|name| name.ends_with(".txt")).collect();
    named.sort();
    bundled.sort();
    assert_eq!(named, bundled);
}

/// What the gate runs the program `replay` on, and what it must print, are what `record` makes.
#[test]
fn recorded() {
    let mut script: String = file("recorded").lines().map(|name| file(&format!("{name}.txt"))).collect();
    for call in sweep().iter().chain(&generate(1353, 9000)) {
        script += &(write_call(call) + "\n");
    }
    script += "T 1";
    assert!(script == include_str!("../../crates/replay/stdin"), "run reference/record");
    check(&script, include_str!("../../crates/replay/stdout"));
}

/// The lines of the format's description.
#[test]
fn printed_forms() {
    let script = "P 20001C000AC00123 200\nU\nS\nU\nQ\nQ\nS\nF 1 18FEF100 -\nF 1 20000000 -\nT 3\nT 3\nT 3\nT 9\n\
        M 1 33 061201F1FE00FFFF\nM 3 33 0012FFFFFFFFFFFF\nM 1 33 0012\nM 1 33 0612\n";
    let printed = [
        "P",
        "U Unstarted - 200 20001C000AC00123 4",
        "S Claiming -",
        "U Claiming 200 200 20001C000AC00123 4",
        "Q",
        "Q R 18",
        "S R 18",
        "F - 234 - - - 0  234: cleared, 1: not asked",
        "F R 3",
        "T 18EEFFC8 8 2301C00A001C0020",
        "T 18FEF100 0 -",
        "T -",
        "T R 1",
        "M 0 59392 8 0006FFFF2100ED00",
        "M 11 59392 8 0200FFFF2100ED00",
        "M 7 0 0 -",
        "M 7 0 0 -",
    ];
    assert_eq!(run_script(script), printed);
}

/// The reasons behind a frame's answer: each port once, by the reasons' numbers and "not asked" last.
#[test]
fn printed_reasons() {
    let lists = "M 1 33 062301F1FE00FFFF\nM 1 33 06240004F000FFFF\nM 1 33 062500F1FE00FFFF\nM 1 33 06260104F000FFFF\n";
    let script = format!(
        "P 20001C000AC00123 200 8\nS\nQ\n{lists}F 2 18FEF105 -\nF 2 18EEFF05 -\nF 2 18EFC805 -\nF 8 18FEF105 -\nF 2 18FEF1FF -\n\
        P 20001C000AC00123 200 2\nF 2 18FEF105 -\n"
    );
    let printed = [
        "F - 13478 - - - 4  178: cleared, 3: listed in pass, 4: not listed in block, 5: stopped as listed, \
        6: stopped as not listed, 2: not asked",
        "F - 1345678 - - - 0  1345678: permanent, 2: not asked",
        "F c - - - - 0  12345678: not asked",
        "F - 1234567 - - - 0  1234567: cleared, 8: not asked",
        "F R 5",
        "P",
        "F - 1 - - - 0  1: cleared, 2: not asked",
    ];
    assert_eq!(run_script(&script)[7..], printed);
    let lines = Run::of(script).summary.lines();
    let of_ports: Vec<&str> =
        lines.iter().map(|line| &line[..]).skip_while(|line| !line.starts_with("  port")).collect();
    let expected = [
        "  port 1: accepted 4, stopped 0, lost 0, own lost 0",
        "    permanent 1, cleared 3, not asked 1",
        "  port 2: accepted 1, stopped 0, lost 0, own lost 0",
        "    cleared 1, not asked 4",
        "  port 3: accepted 3, stopped 0, lost 0, own lost 0",
        "    permanent 1, cleared 1, listed in pass 1, not asked 1",
        "  port 4: accepted 3, stopped 0, lost 0, own lost 0",
        "    permanent 1, cleared 1, not listed in block 1, not asked 1",
        "  port 5: accepted 2, stopped 1, lost 0, own lost 0",
        "    permanent 1, cleared 1, stopped as listed 1, not asked 1",
        "  port 6: accepted 2, stopped 1, lost 0, own lost 0",
        "    permanent 1, cleared 1, stopped as not listed 1, not asked 1",
        "  port 7: accepted 3, stopped 0, lost 0, own lost 0",
        "    permanent 1, cleared 2, not asked 1",
        "  port 8: accepted 2, stopped 0, lost 0, own lost 0",
        "    permanent 1, cleared 1, not asked 2",
    ];
    assert_eq!(of_ports[..16], expected);
}

/// Counts: eight words, then all that wait, accepted and taken; also without the calls.
#[test]
fn printed_counts() {
    let script = "P 20001C000AC00123 200\nC 2\nF 1 0CF00400 -\nF 1 18FEF100 -\nF 3 0CF00400 01\nF 1 1CFEF100 -\nC 2\nC 1\nT 2\nC 2\n\
        C 5\nC 0\nS\nC 00002\n";
    let printed = [
        "C 0 0 0 2 0 0 1 1  waiting 4, accepted 4, taken 0",
        "C 0 0 0 1 0 0 0 0  waiting 1, accepted 1, taken 0",
        "T 0CF00400 0 -",
        "C 0 0 0 1 0 0 1 1  waiting 3, accepted 4, taken 1",
        "C R 1",
        "C R 1",
        "S Claiming -",
        "C 0 0 0 1 0 0 2 1  waiting 4, accepted 5, taken 1",
    ];
    assert_eq!(run_script(script)[1], "C 0 0 0 0 0 0 0 0  waiting 0, accepted 0, taken 0");
    assert_eq!(run_script(script)[6..], printed);
    let plain = String::from_utf8(Run::of(script).plain()).unwrap();
    assert!(plain.starts_with("P\nC 0 0 0 0 0 0 0 0  waiting 0, accepted 0, taken 0\n"));
    let beside = String::from_utf8(Run::of(script).beside()).unwrap();
    let lines: Vec<&str> = beside.lines().collect();
    assert_eq!(
        lines[9..11],
        [
            "C 2                                   C 0 0 0 1 0 0 1 1  waiting 3, accepted 4, taken 1",
            "C 5                                   C R 1  (1 port not 1 to the number of ports)",
        ]
    );
    let summary = Run::of(script).summary.lines();
    let counts = summary.iter().position(|line| line.starts_with("counts ")).unwrap();
    assert_eq!(
        summary[counts - 1..=counts + 2],
        [
            "takes 1: given 1, nothing waiting 0, refused 0",
            "counts 7: told 5, refused 2",
            "    1 port not 1 to the number of ports: 2",
            "messages 0: answered 0, refused 0",
        ]
    );
}

/// The bundled morning shows a queue that fills, is full, and empties.
#[test]
fn morning_shows_a_queue_fill_and_empty() {
    let answers = run_script(include_str!("../scripts/morning.txt"));
    let waiting =
        |answer: &String| answer.strip_prefix("C ")?.split("waiting ").nth(1)?.split(',').next()?.parse().ok();
    let told: Vec<u32> = answers.iter().filter_map(waiting).collect();
    let full = told.iter().position(|&count| count == 32).expect("full");
    assert!(told[..full].contains(&0) && told[full..].contains(&0), "{told:?}");
    assert!(told.len() >= 8, "{told:?}");
}

/// The wrong entry behind a message's answer, also without the calls; the number's words behind it.
#[test]
fn printed_entries() {
    let script = "P 20001C000AC00123 200\nS\nQ\nM 1 33 061F01F1FE00FFFF\nM 1 33 0314F1FE00FFFFFF\nM 1 33 0214F1FE000000FE\n\
        M 1 33 031FF1FE0004F000\nM 1 33 021304F000FFFFFF\nM 1 33 031F04F000F1FE00\nM 1 33 0213F1FE000000FE00\nM 1 33 031300000000F0FE\n";
    let printed = [
        "M 22 59392 8 0102FFFF2100ED00  entry 2",
        "M 17 59392 8 0103FFFF2100ED00  port 2 PGN 61444",
        "M 0 59392 8 0002FFFF2100ED00",
        "M 17 59392 8 0103FFFF2100ED00  port 2 PGN 61444",
        "M 12 59392 8 0102FFFF2100ED00",
        "M 22 59392 8 0103FFFF2100ED00  entry 2",
    ];
    assert_eq!(run_script(script)[5..], printed);
    let plain = String::from_utf8(Run::of(script).plain()).unwrap();
    assert!(plain.contains("\nM 22 59392 8 0102FFFF2100ED00  entry 2\nM 17"));
    let beside = String::from_utf8(Run::of(script).beside()).unwrap();
    let lines: Vec<&str> = beside.lines().collect();
    assert_eq!(
        lines[5..7],
        [
            "M 1 33 0214F1FE000000FE               M 22 59392 8 0102FFFF2100ED00  entry 2  (22 an entry is no PGN)",
            "M 1 33 031FF1FE0004F000               M 17 59392 8 0103FFFF2100ED00  port 2 PGN 61444  \
            (17 Delete: a PGN absent from a named pair)",
        ]
    );
    assert_eq!(
        Run::of(script).summary.lines().into_iter().rev().take(3).collect::<Vec<_>>(),
        [
            "    22 an entry is no PGN: 2",
            "    17 Delete: a PGN absent from a named pair: 2",
            "    12 body wrong: length or filling: 1",
        ]
    );
}

/// The NAME entry behind a function 7 that is done, and the ports that are listed by one, also without the calls.
#[test]
fn printed_names() {
    let add = "0000000000008081828384858687";
    let script = format!(
        "P 20001C000AC00123 200\nS\nQ\nF 2 18EEFF05 0100000000000080\nM 1 33 061F01F1FE00FFFF\nM 1 33 071210FF000102030405060708000000000000000000FF\n\
        M 1 33 071210FF000102030405060788FF0000000000008000FF\nM 1 33 0713{add}0000000000000000\nF 1 18FF1005 -\nM 1 33 071210FF00\n"
    );
    let printed = [
        "M 0 59392 8 0007FFFF2100ED00  pair 1 to 2: PGN 65296, NAME 0807060504030201, mask 0000000000000000",
        "M 0 59392 8 0007FFFF2100ED00  pair 1 to 2: PGN 65296, NAME 8807060504030201, mask 80000000000000FF",
        "M 12 59392 8 0107FFFF2100ED00",
        "F - 2 - - - 4  2: listed in pass, 34: stopped as not listed, 1: not asked  by NAME: 2",
        "M 7 0 0 -",
    ];
    assert_eq!(run_script(&script)[5..], printed);
    assert!(String::from_utf8(Run::of(&script).plain()).unwrap().contains("\nF - 2 - - - 4  2: listed in pass"));
    // Function 7 alone has an entry to show, whatever another of 23 bytes says.
    assert!(!run_script("P 1 2\nS\nQ\nM 1 33 061201F1FE0004F0000BF0000000000000000000000000\n")[3].contains("pair"));
}

/// The bundled morning shows both, not at the first place.
#[test]
fn morning_shows_wrong_entries() {
    let answers = run_script(include_str!("../scripts/morning.txt"));
    for told in ["M 22 59392 8 0102FFFF2100ED00  entry 7", "M 17 59392 8 0103FFFF9100ED00  port 4 PGN 60928"] {
        assert!(answers.iter().any(|answer| answer == told), "{told}");
    }
}

/// The bundled morning shows every reason.
#[test]
fn morning_shows_every_reason() {
    let answers = run_script(include_str!("../scripts/morning.txt"));
    for (_, words) in REASONS {
        assert!(answers.iter().any(|answer| answer.contains(&format!(": {words}"))), "{words}");
    }
}

/// Each line that is no call, and what is said of it.
const NO_CALLS: &[(&str, &str)] = &[
    ("X", "the first word is none of P S Q F T M U C"),
    ("s", "the first word is none of P S Q F T M U C"),
    ("SS", "the first word is none of P S Q F T M U C"),
    ("P", "NAME missing"),
    ("P 1", "preferred address missing"),
    ("P 1 2 3 4", "more words than the call has"),
    ("P 1 2 x", "number of ports: not a decimal number below 2^32"),
    ("P 1 2 4294967296", "number of ports: not a decimal number below 2^32"),
    ("P 1 x 4", "preferred address: not a decimal number below 2^32"),
    ("P 12345678901234567 1", "NAME: not 1 to 16 hex digits"),
    ("P G 1", "NAME: not 1 to 16 hex digits"),
    ("P +1 1", "NAME: not 1 to 16 hex digits"),
    ("P G", "NAME: not 1 to 16 hex digits"),
    ("P 1 -1", "preferred address: not a decimal number below 2^32"),
    ("P 1 4294967296", "preferred address: not a decimal number below 2^32"),
    ("S 1", "more words than the call has"),
    ("Q #", "more words than the call has"),
    ("F", "port missing"),
    ("F 18FEF100 -", "port: not a decimal number below 2^32"),
    ("F a 0 -", "port: not a decimal number below 2^32"),
    ("F 1", "identifier missing"),
    ("F 1 123456789 -", "identifier: not 1 to 8 hex digits"),
    ("F 1 18FEF100", "bytes missing"),
    ("F 1 18FEF100 1", "bytes: not pairs of hex digits, or - for none"),
    ("F 1 18FEF100 0G", "bytes: not pairs of hex digits, or - for none"),
    ("F 1 18FEF100 01 02", "more words than the call has"),
    ("T", "port missing"),
    ("T +1", "port: not a decimal number below 2^32"),
    ("T 1 1", "more words than the call has"),
    ("M 1", "requester missing"),
    ("M 1 x 00", "requester: not a decimal number below 2^32"),
    ("M 1 33", "payload missing"),
    ("M 1 33 é", "payload: not pairs of hex digits, or - for none"),
    ("M 1 33 00 12", "more words than the call has"),
    ("U 1", "more words than the call has"),
    ("u", "the first word is none of P S Q F T M U C"),
    ("C", "port missing"),
    ("C x", "port: not a decimal number below 2^32"),
    ("C 4294967296", "port: not a decimal number below 2^32"),
    ("C 1 2", "more words than the call has"),
    ("c 1", "the first word is none of P S Q F T M U C"),
];

#[test]
fn lines_that_are_no_call() {
    for (line, said) in NO_CALLS {
        assert_eq!(read_call(line).unwrap_err().to_string(), *said, "{line}");
        let script = format!("P 1 2\n# a comment counts as a line\n{line}\nT 1");
        assert_eq!(run_script(&script), ["P", &format!("? line 3: {said}"), "T -"]);
    }
}

#[test]
fn comments_empty_lines_and_no_unit() {
    let printed = ["? line 4: no unit yet: a power-on, P, comes first", "P", "S Claiming -"];
    assert_eq!(run_script("# S\n\n\nS\nP ff 0\n#\nS\n"), printed);
}

/// Blanks, tabs, carriage returns, a byte-order mark and an indented comment are harmless.
#[test]
fn harmless_bytes() {
    let scripts = [
        "P ff 0\nF 1 18FEF100 0102\nS\nT 2\n",
        "\u{feff}P ff 0\r\n F\t1  18FEF100 \t0102 \r\n\tS\n  # no call\n T\r 2",
    ];
    assert_eq!(run_script(scripts[0]), run_script(scripts[1]));
    assert_eq!(run_script(" \u{feff}\u{feff} P ff 0\n \t\r\n"), ["P"]);
    assert_eq!(run_script("P ff 0\n\u{feff}S"), ["P", "? line 2: the first word is none of P S Q F T M U C"]);
}

/// A call stands beside its answer, a refusal with its words; what is passed over stands as it is.
#[test]
fn beside() {
    let script = "# morning\n\n  P 20001C000AC00123 200\nS \nM 3 33 0012FFFFFFFFFFFF\nF 9 18FEF100 -\nx\n";
    let shown = String::from_utf8(Run::of(script).beside()).unwrap();
    let lines: Vec<&str> = shown.lines().take(8).collect();
    let expected = [
        "# morning",
        "",
        "P 20001C000AC00123 200                P",
        "S                                     S Claiming -",
        "M 3 33 0012FFFFFFFFFFFF               M 6 0 0 -  (6 unit not Claimed)",
        "F 9 18FEF100 -                        F R 1  (1 port not 1 to the number of ports)",
        "x                                     ? line 7: the first word is none of P S Q F T M U C",
        "",
    ];
    assert_eq!(lines, expected);
    assert_eq!(Run::of("").beside(), Run::of("").plain());
}

/// The help of `./replay`, the header and the rules have the numbers and the reasons in the same words.
#[test]
fn words_are_the_same_everywhere() {
    let help = include_str!("../../replay");
    let header = include_str!("../../include/deorasaeng.h");
    let rules = include_str!("../../docs/RULES.md");
    for (number, words) in WORDS {
        let comment = format!("/* {words} */");
        let line = header.lines().find(|line| line.ends_with(&comment)).expect(words);
        assert_eq!(line.split([' ', ',']).nth(6), Some(&number.to_string()[..]), "header: {line}");
        assert!(help.contains(&format!(" {}\n", told(number))), "replay: {number}");
        assert!(rules.contains(&format!("| {number} | {words} |")), "rules: {number}");
    }
    for (number, words) in REASONS {
        let comment = format!("/* {words} */");
        let line = header.lines().find(|line| line.ends_with(&comment)).expect(words);
        assert_eq!(line.split([' ', ',']).nth(6), Some(&number.to_string()[..]), "header: {line}");
        assert!(help.contains(&format!("\n  {words}  ")), "replay: {words}");
        assert!(rules.contains(&format!("| {number} | {words} |")), "rules: {words}");
    }
}

#[test]
fn limits_of_the_fields() {
    let power_on = |ports| Ok(Call::PowerOn { name: u64::MAX, preferred: u32::MAX, ports });
    assert_eq!(read_call("P ffffFFFFffffFFFF 4294967295"), power_on(4));
    assert_eq!(read_call("P ffffFFFFffffFFFF 4294967295 008"), power_on(8));
    assert_eq!(read_call("P ffffFFFFffffFFFF 4294967295 4294967295"), power_on(u32::MAX));
    let nine = Call::Frame { port: 0, id: u32::MAX, bytes: vec![0xAB; 9] };
    assert_eq!(read_call("F 0 FFFFFFFF ABABABABABABABABAB"), Ok(nine));
}

#[test]
fn longest_line() {
    let line = |length: usize| format!("M 1 33 {}", "0".repeat(length - 7));
    assert_eq!(run_script(&format!("P 1 2\n{}\r\n", line(LONGEST_LINE - 1))), ["P", "M 6 0 0 -"]);
    assert_eq!(
        run_script(&format!("P 1 2\n{} \t\n", line(LONGEST_LINE + 1))),
        ["P", "? line 2: longer than 4,096 bytes"]
    );
    assert_eq!(
        run_script(&format!("P 1 2\nT 1{}x\nT 1{}\n", " ".repeat(5000), " ".repeat(5000)))[1..],
        ["? line 2: longer than 4,096 bytes", "T -"]
    );
    assert_eq!(run_script(&format!("P 1 2\n#{}\nT 1", line(LONGEST_LINE))), ["P", "T -"]);
}

/// Frames that two ports stop, that are consumed and that are refused; each take; each number.
#[test]
fn summary() {
    let script = "S\nP 20001C000AC00123 200\nS\nQ\nQ\nU\nx\nU\nM 1 33 061201F1FE00FFFF\nM 1 33 061201F1FE00FFFF\n\
        M 3 33 0012FFFFFFFFFFFF\nF 1 18FEE300 -\nF 1 18EFC800 -\nF 1 20000000 -\nF 9 18FEE300 -\nF 9 18FEE300 -\n\
        T 2\nT 2\nT 9\nC 3\nC 9\n";
    let lines = [
        "power-on 1, lines that are no call 2",
        "Start 1: done 1, refused 0",
        "Quiet 2: done 1, refused 1",
        "    18 Start not in Unstarted, Quiet not in Claiming: 1",
        "unit 2: told 2, refused 0",
        "frames 5: consumed 1, refused 3",
        "    1 port not 1 to the number of ports: 2",
        "    3 identifier 2^29 or more: 1",
        "  port 1: accepted 0, stopped 0, lost 0, own lost 0",
        "    not asked 2",
        "  port 2: accepted 0, stopped 1, lost 0, own lost 0",
        "    stopped as not listed 1, not asked 1",
        "  port 3: accepted 1, stopped 0, lost 0, own lost 0",
        "    cleared 1, not asked 1",
        "  port 4: accepted 1, stopped 0, lost 0, own lost 0",
        "    cleared 1, not asked 1",
        "takes 3: given 1, nothing waiting 1, refused 1",
        "    1 port not 1 to the number of ports: 1",
        "counts 2: told 1, refused 1",
        "    1 port not 1 to the number of ports: 1",
        "messages 3: answered 1, refused 2",
        "    11 pair or port not this tool's: 1",
        "    14 Create: a named pair not cleared: 1",
    ];
    assert_eq!(Run::of(script).summary.lines(), lines);
}

#[test]
fn summary_of_a_full_port() {
    let frames = "F 3 18FEF100 -\n".repeat(33);
    let lines = Run::of(&format!("P 1 2\n{frames}S\n")).summary.lines();
    assert_eq!(lines[1], "Start 1: done 1, refused 0");
    assert_eq!(lines[5], "  port 1: accepted 32, stopped 0, lost 1, own lost 1");
    assert_eq!(lines[6], "    cleared 33");
    assert_eq!(lines[9], "  port 3: accepted 0, stopped 0, lost 0, own lost 0");
}

/// A power-on with another number of ports, and one with none that there is, which goes on with four.
#[test]
fn ports_of_a_script() {
    let script = "P 1 2 8\nU\nF 8 18FEF100 -\nF 9 18FEF100 -\nP 1 2 2\nF 1 18FEF100 -\nF 3 18FEF100 -\nP 1 2 9\nU\nF 4 18FEF100 -\n\
        F 5 18FEF100 -\n";
    let printed = [
        "P",
        "U Unstarted - 2 0000000000000001 8",
        "F - 1234567 - - - 0  1234567: cleared, 8: not asked",
        "F R 1",
        "P",
        "F - 2 - - - 0  2: cleared, 1: not asked",
        "F R 1",
        "P R 27",
        "U Unstarted - 2 0000000000000001 4",
        "F - 123 - - - 0  123: cleared, 4: not asked",
        "F R 1",
    ];
    assert_eq!(run_script(script), printed);
    let beside = String::from_utf8(Run::of(script).beside()).unwrap();
    assert_eq!(beside.lines().nth(7), Some("P 1 2 9                               P R 27  (27 port count not 2 to 8)"));
    let lines = Run::of(script).summary.lines();
    assert_eq!(lines[..2], ["power-on 3, lines that are no call 0", "    27 port count not 2 to 8: 1"]);
    let ports: Vec<&String> = lines.iter().filter(|line| line.starts_with("  port ")).collect();
    assert_eq!(ports.len(), 8);
    assert_eq!(ports[1], "  port 2: accepted 3, stopped 0, lost 0, own lost 0");
    assert_eq!(ports[6], "  port 7: accepted 1, stopped 0, lost 0, own lost 0");
    assert_eq!(Run::of("P 1 2 3").summary.lines().iter().filter(|line| line.starts_with("  port ")).count(), 3);
    // Without a frame there are no reasons.
    assert_eq!(
        Run::of("").summary.lines()[5..9],
        [1, 2, 3, 4].map(|port| format!("  port {port}: accepted 0, stopped 0, lost 0, own lost 0"))
    );
}

#[test]
fn generated_calls_are_read_back() {
    let calls = generate(11, 2000);
    assert_eq!(calls.len(), 2000);
    assert_eq!(calls, generate(11, 2000));
    assert_ne!(calls, generate(12, 2000));
    for call in calls {
        assert_eq!(read_call(&write_call(&call)), Ok(call));
    }
}
