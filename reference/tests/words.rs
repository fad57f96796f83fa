//! The words of `include/deorasaeng_words.c` are those of the rules, each at its number.

const RULES: &str = include_str!("../../docs/RULES.md");
const HEADER: &str = include_str!("../../include/deorasaeng.h");
const WORDS: &str = include_str!("../../include/deorasaeng_words.c");

/// The number of a name of the header's enums.
fn number(name: &str) -> u32 {
    let given = HEADER.lines().find_map(|line| line.trim().strip_prefix(name)?.strip_prefix(" = "));
    let digits: String = given.expect(name).chars().take_while(char::is_ascii_digit).collect();
    digits.parse().unwrap()
}

/// What a function of the C file gives: numbers and words, rising.
fn given(function: &str) -> Vec<(u32, String)> {
    let code = WORDS.split(&format!("deorasaeng_{function}_words(")).nth(1).expect(function);
    let cases = code.split("default:").next().unwrap().lines().filter_map(|line| line.trim().strip_prefix("case "));
    let mut given: Vec<(u32, String)> = cases
        .map(|case| {
            let (name, words) = case.split_once(": return \"").unwrap();
            (number(name), words.strip_suffix("\";").unwrap().to_string())
        })
        .collect();
    given.sort();
    given
}

/// The rows of the table behind a heading: a number and its words.
fn table(heading: &str) -> Vec<(u32, String)> {
    let rows = RULES.split(heading).nth(1).unwrap().lines().skip_while(|line| !line.starts_with('|'));
    let mut rows: Vec<(u32, String)> = rows
        .take_while(|line| line.starts_with('|'))
        .filter_map(|line| {
            let mut cells = line.trim_matches(['|', ' ']).split(" | ");
            Some((cells.next()?.parse().ok()?, cells.next()?.to_string()))
        })
        .collect();
    rows.sort();
    rows
}

#[test]
fn numbers() {
    let mut expected = table("## Numbers given back");
    assert!(expected.len() > 20);
    expected.insert(0, (0, "done".to_string()));
    assert_eq!(given("number"), expected);
}

#[test]
fn reasons() {
    let expected = table("**The reason**");
    assert_eq!(expected.len(), 7);
    assert_eq!(given("reason"), expected);
}

#[test]
fn events() {
    let given = given("event");
    assert_eq!(given[0], (0, "none".to_string()));
    assert_eq!(
        given.iter().map(|(number, _)| *number).collect::<Vec<_>>(),
        (0..given.len() as u32).collect::<Vec<_>>()
    );
    let table = RULES.split("| claim | event | what happens |").nth(1).unwrap().split("\n\n").next().unwrap();
    let mut told: Vec<&str> = table.lines().filter_map(|line| line.split(" | ").nth(1)).collect();
    told.sort();
    told.dedup();
    let mut named: Vec<&str> = given.iter().map(|(_, words)| &words[..]).collect();
    named.sort();
    assert_eq!(named, told);
}

#[test]
fn states() {
    let given = given("state");
    assert_eq!(given.len(), 4);
    for (number, words) in given {
        assert!(RULES.contains(&format!("{words} ({number})")), "{words}");
    }
}
