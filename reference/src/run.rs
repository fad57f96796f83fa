//! A script that is run: what is printed for each of its lines, and the summary.

use crate::script::{apply, is_passed_over, lines_of, print_answer, read_call, Answer, Call, Wrong, LONGEST_LINE};
use crate::summary::Summary;
use crate::unit::{Number, Unit};
use crate::words::told;

/// Where an answer stands beside its call.
const COLUMN: usize = 36;

/// One line without the blanks at its ends: passed over, or answered, and the number that refused its call.
struct Line {
    text: Vec<u8>,
    answer: Option<(String, Number)>,
}

/// A script that was run.
#[derive(Default)]
pub struct Run {
    lines: Vec<Line>,
    pub summary: Summary,
}

impl Run {
    /// A whole script. A call before the first power-on has no unit.
    pub fn of(script: impl AsRef<[u8]>) -> Run {
        let mut run = Run::default();
        let mut unit = None;
        for line in lines_of(script.as_ref()) {
            run.step(&mut unit, line);
        }
        run
    }

    fn step(&mut self, unit: &mut Option<Unit>, line: &[u8]) {
        let answer = if is_passed_over(line) { None } else { Some(self.answer(unit, line)) };
        self.lines.push(Line { text: line.to_vec(), answer });
    }

    /// The answer to a line, counted, and the number that refused its call.
    fn answer(&mut self, unit: &mut Option<Unit>, line: &[u8]) -> (String, Number) {
        match made(unit, line) {
            Ok((call, answer)) => {
                self.summary.add(&call, &answer);
                (print_answer(&call, &answer), answer.number())
            }
            Err(wrong) => {
                self.summary.add_no_call();
                (format!("? line {}: {wrong}", self.lines.len() + 1), 0)
            }
        }
    }

    /// The answers, without the summary.
    pub fn answers(&self) -> Vec<String> {
        self.lines.iter().filter_map(|line| line.answer.as_ref()).map(|(text, _)| text.clone()).collect()
    }

    /// The answers alone, an empty line, the summary.
    pub fn plain(&self) -> Vec<u8> {
        let mut out = self.answers().join("\n").into_bytes();
        if !out.is_empty() {
            out.push(b'\n');
        }
        self.with_summary(out)
    }

    /// Every line, a call beside its answer, an empty line, the summary.
    pub fn beside(&self) -> Vec<u8> {
        let mut out = Vec::new();
        for line in &self.lines {
            out.extend(line.shown());
            out.push(b'\n');
        }
        self.with_summary(out)
    }

    fn with_summary(&self, mut out: Vec<u8>) -> Vec<u8> {
        out.push(b'\n');
        for line in self.summary.lines() {
            out.extend(line.into_bytes());
            out.push(b'\n');
        }
        out
    }
}

impl Line {
    fn shown(&self) -> Vec<u8> {
        let mut out = self.text[..self.text.len().min(LONGEST_LINE)].to_vec();
        let Some((answer, number)) = &self.answer else {
            return out;
        };
        out.resize(out.len().max(COLUMN), b' ');
        out.extend(b"  ");
        out.extend(answer.bytes());
        if *number != 0 {
            out.extend(format!("  ({})", told(*number)).into_bytes());
        }
        out
    }
}

/// The call that a line is, made.
pub fn made(unit: &mut Option<Unit>, line: &[u8]) -> Result<(Call, Answer), Wrong> {
    let call = read_call(line)?;
    let answer = apply(unit, &call).ok_or(Wrong::NoUnit)?;
    Ok((call, answer))
}

/// The answers to a script, without the summary.
pub fn run_script(script: &str) -> Vec<String> {
    Run::of(script).answers()
}
