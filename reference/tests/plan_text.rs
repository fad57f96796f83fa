//! Plans as text: the bundled one against its output, each line that is wrong, and generated texts.

use reference::generate::Random;
use reference::plan_generate::{damage_text, text};
use reference::plan_text::run;

fn printed(text: impl AsRef<[u8]>) -> String {
    String::from_utf8(run(text.as_ref())).unwrap()
}

#[test]
fn machine() {
    assert_eq!(printed(include_str!("../scripts/machine.plan")), include_str!("../scripts/machine.out"));
}

/// Without names, and with names that are alike or hold a #; a list of none, the unused ports left out.
#[test]
fn names_are_printed_and_nothing_else() {
    let text = "segment 1\nsegment 2 a#b\nsegment 3 a#b\nunit 1\nport 8 segment 1\nport 1 segment 2\npair 8 1 pass\n\
        unit 2 a#b\nport 1 segment 2\nport 2 segment 3\npair 2 1 block 0 262143\nask 262143 segment 1\nask 0 segment 3\n";
    let expected = "PGN 262143 sent on segment 1\n  1: sent here\n\
        \x20 2 a#b: does not hear it: unit 1, port 8 to port 1: stopped as not listed\n\
        \x20 3 a#b: does not hear it: unit 1, port 8 to port 1: stopped as not listed\n\
        PGN 0 sent on segment 3 a#b\n\
        \x20 1: does not hear it: unit 2 a#b, port 2 to port 1: stopped as listed\n\
        \x20 2 a#b: does not hear it: unit 2 a#b, port 2 to port 1: stopped as listed\n\
        \x20 3 a#b: sent here\nsegments 3, units 2, answers 2\n";
    assert_eq!(printed(text), expected);
}

#[test]
fn nothing_and_no_question() {
    for text in ["", "\n\n", "# a comment\n", " \t\r", "\u{feff}# a comment"] {
        assert_eq!(printed(text), "segments 0, units 0, answers 0\n");
    }
    assert_eq!(printed("segment 1 here\nunit 1\nunit 2"), "segments 1, units 2, answers 0\n");
}

/// Blanks, tabs, carriage returns, a byte-order mark, comments behind a line and a last line without its end.
#[test]
fn harmless_bytes() {
    let plain = "segment 1 bus\nunit 1\nport 1 segment 1\nask 61444 segment 1\n";
    for other in [
        "segment 1 bus\r\nunit 1\r\nport 1 segment 1\r\nask 61444 segment 1\r\n",
        "\u{feff}segment 1 bus\nunit 1\nport 1 segment 1\nask 61444 segment 1",
        "  segment\t1   bus \n\tunit 1 \nport 1\t\tsegment 1\nask 61444 segment 1\n",
        "segment 1 bus # the only one\nunit 1 #\nport 1 segment 1 #1\nask 61444 segment 1 # engine\n",
        "segment 001 bus\nunit 01\nport 1 segment 0001\nask 0061444 segment 1\n",
    ] {
        assert_eq!(printed(other), printed(plain), "{other:?}");
    }
}

/// Hex PGNs, a name in quotation marks, with a blank and a #, and segments by their names.
#[test]
fn other_words_for_the_same() {
    let plain = "segment 1 tractor\nsegment 2 a#b\nunit 1 cab\nport 1 segment 1\nport 2 segment 2\n\
        pair 1 2 pass 65265\nask 65265 segment 1\nask 65266 segment 2\n";
    for other in [
        plain.replace("65265", "0xFEF1").replace("65266", "0X00fef2"),
        plain.replace("on segment 1", "on segment tractor").replace("segment 2\n", "segment a#b\n"),
        plain.replace("tractor", "\"tractor\"").replace("cab", "\"cab\"#x"),
        plain.replace("ask 65265 segment 1", "ask 65265 segment \"tractor\"# here"),
    ] {
        assert_eq!(printed(&other), printed(plain), "{other:?}");
    }
    let named = plain.replace("a#b", "\"front # loader\"");
    assert_eq!(printed(&named), printed(plain).replace("a#b", "front # loader"));
    let by_name = named.replace("port 2 segment 2", "port 2 segment \"front # loader\"");
    assert_eq!(printed(by_name), printed(named));
    // a word of digits is a number, in quotation marks a name
    let digits = "segment 1 2\nsegment 2 1\nask 0 segment 2\nask 0 segment \"2\"\n";
    let told = "PGN 0 sent on segment 2 1\n  1 2: does not hear it: no path leads there\n  2 1: sent here\n\
        PGN 0 sent on segment 1 2\n  1 2: sent here\n  2 1: does not hear it: no path leads there\n";
    assert_eq!(printed(digits), format!("{told}segments 2, units 0, answers 2\n"));
}

/// A plan with two units, to which wrong lines are put.
const GOOD: &str = "segment 1 tractor\nsegment 2 \"front loader\"\nsegment 3\nunit 1 cab\nport 1 segment tractor\n\
    port 2 segment 2\nunit 2\nport 1 segment \"front loader\"\n";

/// Each line that is wrong behind GOOD, and what is said of it.
const WRONG: &[(&str, &str)] = &[
    ("Segment 4", "\"Segment\": the first word is none of segment, unit, port, pair, ask"),
    ("segments 4", "\"segments\": the first word is none of segment, unit, port, pair, ask"),
    ("4", "\"4\": the first word is none of segment, unit, port, pair, ask"),
    ("\"segment\" 4", "\"segment\": the first word is none of segment, unit, port, pair, ask"),
    ("segment", "segment missing"),
    ("segment # 4", "segment missing"),
    ("segment four", "segment \"four\": not a decimal number below 2^32"),
    ("segment -4", "segment \"-4\": not a decimal number below 2^32"),
    ("segment +4", "segment \"+4\": not a decimal number below 2^32"),
    ("segment 0x4", "segment \"0x4\": not a decimal number below 2^32"),
    ("segment \"4\"", "segment \"4\": not a decimal number below 2^32"),
    ("segment 4294967300", "segment \"4294967300\": not a decimal number below 2^32"),
    ("segment 5", "segment \"5\": the next segment is 4"),
    ("segment 003", "segment \"003\": the next segment is 4"),
    ("segment 4 front loader", "\"loader\": more words than the line has"),
    (
        "segment 4 123456789012345678901234567890123",
        "name \"12345678901234567890123456789012..\": longer than 32 bytes",
    ),
    (
        "segment 9 \"a name of thirty-three bytes, so 33\" x",
        "name \"a name of thirty-three bytes, s..: longer than 32 bytes",
    ),
    ("segment 4 \"front loader", "\"front loader: no quotation mark ends it"),
    ("segment 4 \"", "\": no quotation mark ends it"),
    ("unit", "unit missing"),
    ("unit x", "unit \"x\": not a decimal number below 2^32"),
    ("unit 4", "unit \"4\": the next unit is 3"),
    ("unit 3 rear axle", "\"axle\": more words than the line has"),
    ("port", "port missing"),
    ("port x segment 3", "port \"x\": not a decimal number below 2^32"),
    ("port 2", "the word segment missing"),
    ("port 2 3", "\"3\": the word segment missing"),
    ("port 2 segment", "segment missing"),
    ("port 2 segment x", "segment \"x\": not above"),
    ("port 2 segment \"x y", "\"x y: no quotation mark ends it"),
    ("port 2 segment \"\"", "segment \"\": not above"),
    ("port 2 segment 4294967296", "segment \"4294967296\": not above"),
    ("port 2 segment 3 4", "\"4\": more words than the line has"),
    ("port 0 segment 3", "port \"0\": not 1 to 8"),
    ("port 9 segment 3", "port \"9\": not 1 to 8"),
    ("port 1 segment 3", "port \"1\": on segment 2 front loader already"),
    ("port 1 segment 9", "port \"1\": on segment 2 front loader already"),
    ("port 2 segment 0", "segment \"0\": not above"),
    ("port 2 segment 4", "segment \"4\": not above"),
    ("port 2 segment 2", "segment \"2\": port 1 of unit 2 is on it already (29)"),
    (
        "port 2 segment tractor",
        "segment \"tractor\": two paths to segment 2 front loader (29): by unit 2, and by unit 1 cab",
    ),
    ("pair", "From missing"),
    ("pair x", "From \"x\": not a decimal number below 2^32"),
    ("pair 1", "To missing"),
    ("pair 1 to 2 pass", "To \"to\": not a decimal number below 2^32"),
    ("pair 1 2", "mode missing"),
    ("pair 1 2 cleared", "mode \"cleared\": not pass or block"),
    ("pair 1 2 65267", "mode \"65267\": not pass or block"),
    ("pair 1 2 pass x", "PGN \"x\": not a number below 2^32, decimal or 0x hex"),
    ("pair 1 2 pass 65267,65256", "PGN \"65267,65256\": not a number below 2^32, decimal or 0x hex"),
    ("pair 1 2 pass 0x", "PGN \"0x\": not a number below 2^32, decimal or 0x hex"),
    ("pair 1 2 pass 0xFEFG", "PGN \"0xFEFG\": not a number below 2^32, decimal or 0x hex"),
    ("pair 1 2 pass 0x100000000", "PGN \"0x100000000\": not a number below 2^32, decimal or 0x hex"),
    ("pair 0 1 pass", "From \"0\": no such port above"),
    ("pair 1 9 pass", "To \"9\": no such port above"),
    ("pair 2 1 pass", "From \"2\": no such port above"),
    ("pair 1 2 pass 1", "To \"2\": no such port above"),
    ("pair 1 1 pass", "To \"1\": equals From"),
    ("ask", "PGN missing"),
    ("ask x segment 1", "PGN \"x\": not a number below 2^32, decimal or 0x hex"),
    ("ask 65267", "the word segment missing"),
    ("ask 65267 1", "\"1\": the word segment missing"),
    ("ask 65267 segment", "segment missing"),
    ("ask 65267 segment 1 2", "\"2\": more words than the line has"),
    ("ask 65267 segment 0", "segment \"0\": not above"),
    ("ask 65267 segment front", "segment \"front\": not above"),
    ("ask 262144 segment 1", "PGN \"262144\": no PGN"),
    ("ask 0xEF01 segment 4", "PGN \"0xEF01\": no PGN"),
];

/// Every wrong line is told, and nothing is answered below one.
#[test]
fn wrong_lines() {
    for (line, said) in WRONG {
        let text = format!("{GOOD}# a comment counts as a line\n{line}\nask 65267 segment 1\nno line\n");
        let no_line = "? line 12: \"no\": the first word is none of segment, unit, port, pair, ask\nwrong lines 2\n";
        assert_eq!(printed(text), format!("? line 10: {said}\n{no_line}"), "{line}");
    }
}

/// The lines of `scripts/wrong_plan_lines`, which are recorded for the program, are these.
#[test]
fn wrong_lines_are_recorded() {
    let recorded: Vec<&str> = include_str!("../scripts/wrong_plan_lines").lines().collect();
    assert_eq!(recorded, WRONG.iter().map(|(line, _)| *line).collect::<Vec<&str>>());
}

/// Pairs, once their ports are there.
#[test]
fn wrong_pairs() {
    let many = " 61440".repeat(32);
    let cases = [
        (format!("pair 1 2 pass{many}\npair 1 2 pass{many}"), "? line 11: From \"1\": pair 1 2 is above already\n"),
        (
            "pair 1 2 pass\npair 2 1 pass\npair 1 2 block".to_string(),
            "? line 12: From \"1\": pair 1 2 is above already\n",
        ),
        (format!("pair 1 2 pass{many} 61441"), "? line 10: PGN \"61441\": more than 32 PGNs\n"),
        (format!("pair 1 2 pass{many} x y"), "? line 10: PGN \"x\": more than 32 PGNs\n"),
        (format!("pair 1 2 pass{many} # 61440"), ""),
        ("pair 2 1 block 65267 0xEF01 262144".to_string(), "? line 10: PGN \"0xEF01\": no PGN\n"),
        (
            "pair 1 2 block\nsegment 4\nunit 3\nport 2 segment 4\npair 2 2 pass".to_string(),
            "? line 14: To \"2\": equals From\n",
        ),
    ];
    for (lines, said) in cases {
        let end = if said.is_empty() { "segments 3, units 2, answers 0\n" } else { "wrong lines 1\n" };
        assert_eq!(printed(format!("{GOOD}port 2 segment 3\n{lines}\n")), format!("{said}{end}"), "{lines}");
    }
}

#[test]
fn limits() {
    let wrong = |told: &str| format!("{told}\nwrong lines 1\n");
    let segments: String = (1..=17).map(|number| format!("segment {number}\n")).collect();
    assert_eq!(printed(segments), wrong("? line 17: segment \"17\": there are 16 segments already"));
    let units: String = (1..=17).map(|number| format!("unit {number}\n")).collect();
    assert_eq!(printed(units), wrong("? line 17: unit \"17\": there are 16 units already"));
    assert_eq!(printed("port 1 segment 1"), wrong("? line 1: \"port\": no unit yet"));
    assert_eq!(printed("\npair 1 2 pass"), wrong("? line 2: \"pair\": no unit yet"));
    let name = "n".repeat(32);
    assert!(
        printed(format!("segment 1 {name}\nask 0 segment 1")).starts_with(&format!("PGN 0 sent on segment 1 {name}\n"))
    );
    let line = |length: usize| format!("segment 1 #{}", "-".repeat(length - 11));
    assert_eq!(printed(line(4096)), "segments 1, units 0, answers 0\n");
    assert_eq!(printed(line(4097)), wrong("? line 1: \"segment\": longer than 4,096 bytes"));
    assert_eq!(printed(format!("#{}", "-".repeat(9000))), "segments 0, units 0, answers 0\n");
}

/// A question is asked of a whole plan: after it only questions come. Those above a wrong line are answered.
#[test]
fn questions_come_last() {
    let answer = "PGN 65267 sent on segment 1\n  1: sent here\n";
    for line in ["segment 2", "unit 1", "port 1 segment 1", "pair 1 2 pass"] {
        let text = format!("segment 1\nask 65267 segment 1\n{line}\n");
        let kind = line.split(' ').next().unwrap();
        let told = format!("? line 3: \"{kind}\": after an ask come asks alone\nwrong lines 1\n");
        assert_eq!(printed(text), format!("{answer}{told}"));
    }
    let text = "segment 1\nask 65267 segment 1\nask 1 segment 1\nask 65267 segment 1\n";
    assert_eq!(printed(text), format!("{answer}? line 3: PGN \"1\": no PGN\nwrong lines 1\n"));
    // by its form a line is wrong before that
    let told = "? line 3: unit missing\nwrong lines 1\n";
    assert_eq!(printed("segment 1\nask 65267 segment 1\nunit"), format!("{answer}{told}"));
    // a question that is wrong is none, and one that is not answered is one
    let text = "segment 1\nask 1 segment 1\nsegment 2\nask 0 segment 2\nsegment 3\n";
    let told = "? line 2: PGN \"1\": no PGN\n? line 5: \"segment\": after an ask come asks alone\nwrong lines 2\n";
    assert_eq!(printed(text), told);
}

/// A segment or a unit whose line is wrong counts, so that the lines below are judged as they were meant.
#[test]
fn wrong_lines_that_count() {
    let text = "segment 1\nsegment 2 front loader\nsegment 3\nunit 7\nport 1 segment 2\nport 2 segment 3\nunit\n\
        port 1 segment 3\nport 2 segment 2\n";
    let told = "? line 2: \"loader\": more words than the line has\n? line 4: unit \"7\": the next unit is 1\n\
        ? line 7: unit missing\n\
        ? line 9: segment \"2\": two paths to segment 3 (29): by unit 2, and by unit 1\nwrong lines 4\n";
    assert_eq!(printed(text), told);
    // one that is too long does not, nor one past the sixteenth
    let long = format!("segment 1 {}\nsegment 1\n", "-".repeat(4096));
    assert_eq!(printed(long), "? line 1: \"segment\": longer than 4,096 bytes\nwrong lines 1\n");
    let segments: String = (1..=18).map(|number| format!("segment {number}\n")).collect();
    assert!(printed(segments).ends_with("segment \"18\": there are 16 segments already\nwrong lines 2\n"));
}

/// Two segments may have one name; it does not say which is meant.
#[test]
fn names_that_are_alike() {
    let text = "segment 1 a\nsegment 2 a\nsegment 3\nask 0 segment a\nask 0 segment 1\n";
    assert_eq!(printed(text), "? line 4: segment \"a\": two have this name\nwrong lines 1\n");
}

/// The port that closes a ring is told, with the units of the other path.
#[test]
fn rings() {
    let chain =
        "segment 1 a\nsegment 2\nsegment 3 c\nsegment 4\nunit 1 x\nport 1 segment 1\nport 2 segment 2\nunit 2\n\
        port 1 segment 2\nport 2 segment 3\nunit 3 z\nport 5 segment 4\n";
    let told = |lines: &str| printed(format!("{chain}{lines}"));
    let ring = |number: u32, other: &str, way: &str| {
        format!("? line 14: segment \"{number}\": two paths to segment {other} (29): by unit 3 z, and by {way}\nwrong lines 1\n")
    };
    let whole = ring(1, "3 c", "unit 2, segment 2, unit 1 x");
    assert_eq!(told("port 6 segment 3\nport 7 segment 1"), whole);
    assert_eq!(told("port 6 segment 3\nport 1 segment 1"), whole);
    assert_eq!(
        told("port 4 segment 1\nport 6 segment 4"),
        "? line 14: segment \"4\": port 5 of unit 3 z is on it already (29)\nwrong lines 1\n"
    );
    // the ring is named by what the other units join
    assert_eq!(told("port 6 segment 3\nport 8 segment 2"), ring(2, "3 c", "unit 2"));
}

/// Every kind of wrong line is met by damaged texts, and good texts are answered.
#[test]
fn generated_texts() {
    let plain = |told: &str| {
        let reason = told.rsplit(": ").next().unwrap_or_default();
        reason.replace(|byte: char| byte.is_ascii_digit(), "")
    };
    let mut random = Random::new(5);
    let mut met = std::collections::BTreeSet::new();
    let mut answered = 0;
    for _ in 0..1_500 {
        let text = text(&mut random);
        let told = printed(&text);
        answered += usize::from(told.lines().last().unwrap().starts_with("segments "));
        for _ in 0..8 {
            let damaged = String::from_utf8_lossy(&run(&damage_text(&mut random, &text))).to_string();
            met.extend(damaged.lines().filter(|line| line.starts_with("? line ")).map(plain));
        }
    }
    assert!(answered > 750);
    // a ring is told with names, and a To that is made the From of its line is too rare
    let is_common = |said: &str| !said.contains("(29)") && !said.ends_with("equals From");
    for (_, said) in WRONG.iter().filter(|(_, said)| is_common(said)) {
        let said = plain(said).replace("on segment  front loader already", "not above");
        assert!(met.contains(&said), "{said}");
    }
    for said in [
        "longer than , bytes",
        "after an ask come asks alone",
        "there are  segments already",
        "no unit yet",
        "more than  PGNs",
        "two have this name",
        "port  of unit  is on it already ()",
    ] {
        assert!(met.contains(said), "{said}");
    }
    assert!(met.iter().any(|said| said.starts_with("by unit ")));
}

/// The example of docs/PLANS.md prints what stands there.
#[test]
fn documented() {
    let lines = include_str!("../../docs/PLANS.md").lines().map(|line| line.strip_prefix("    ").unwrap_or(""));
    let lines: Vec<&str> = lines.collect();
    let mut blocks =
        lines.split(|line| line.is_empty()).filter(|block| !block.is_empty()).map(|block| block.join("\n") + "\n");
    let text = blocks.find(|block| block.starts_with("segment 1")).unwrap();
    assert_eq!(printed(text), blocks.next().unwrap());
}
