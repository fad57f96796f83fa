//! The summary of a script: what came of its calls, counted from their answers.

use std::collections::BTreeMap;

use crate::script::{Answer, Call};
use crate::unit::{FrameAnswer, Number, USUAL_PORTS};
use crate::words::{told, REASONS};

/// The counts of one script.
#[derive(Default)]
pub struct Summary {
    not_calls: u64,
    power_ons: Outcomes,
    /// The most ports that a unit of the script had.
    most_ports: u32,
    starts: Outcomes,
    quiets: Outcomes,
    frames: Outcomes,
    takes: Outcomes,
    messages: Outcomes,
    units: Outcomes,
    counts: Outcomes,
    consumed: u64,
    given: u64,
    accepted: ByPort,
    lost: ByPort,
    own_lost: ByPort,
    /// By port and the reason's number.
    reasons: BTreeMap<(u32, u32), u64>,
}

/// How the calls of one kind went: 0 for those that were done, else the number that refused them.
#[derive(Default)]
struct Outcomes(BTreeMap<Number, u64>);

impl Outcomes {
    fn add(&mut self, number: Number) {
        *self.0.entry(number).or_insert(0) += 1;
    }

    fn calls(&self) -> u64 {
        self.0.values().sum()
    }

    fn done(&self) -> u64 {
        self.0.get(&0).copied().unwrap_or(0)
    }

    fn refused(&self) -> u64 {
        self.calls() - self.done()
    }

    /// A line for each number that refused calls: its words, and how many.
    fn by_number(&self) -> Vec<String> {
        let numbers = self.0.iter().filter(|(&number, _)| number != 0);
        numbers.map(|(&number, count)| format!("    {}: {count}", told(number))).collect()
    }
}

/// A count for each port.
#[derive(Default)]
struct ByPort(BTreeMap<u32, u64>);

impl ByPort {
    fn add(&mut self, ports: &[u32]) {
        for port in ports {
            *self.0.entry(*port).or_insert(0) += 1;
        }
    }

    fn at(&self, port: u32) -> u64 {
        self.0.get(&port).copied().unwrap_or(0)
    }
}

impl Summary {
    /// Counts a line that is no call, or a call before the first power-on.
    pub fn add_no_call(&mut self) {
        self.not_calls += 1;
    }

    /// Counts a call by its answer.
    pub fn add(&mut self, call: &Call, answer: &Answer) {
        let number = answer.number();
        match (call, answer) {
            (Call::Start, Answer::Start(answer)) => {
                self.starts.add(number);
                if let Ok(answer) = answer {
                    self.own_lost.add(&answer.own_lost);
                }
            }
            (Call::Quiet, _) => self.quiets.add(number),
            (Call::Frame { .. }, Answer::Frame(answer)) => {
                self.frames.add(number);
                if let Ok(answer) = answer {
                    self.add_frame(answer);
                }
            }
            (Call::Take { .. }, Answer::Take(taken)) => {
                self.takes.add(number);
                self.given += u64::from(matches!(taken, Ok(Some(_))));
            }
            (Call::Message { .. }, _) => self.messages.add(number),
            (Call::Unit, _) => self.units.add(number),
            (Call::Counts { .. }, _) => self.counts.add(number),
            (Call::PowerOn { ports, .. }, _) => {
                self.power_ons.add(number);
                let ports = if number == 0 { *ports } else { USUAL_PORTS };
                self.most_ports = self.most_ports.max(ports);
            }
            _ => {}
        }
    }

    fn add_frame(&mut self, answer: &FrameAnswer) {
        self.consumed += u64::from(answer.consumed);
        self.accepted.add(&answer.accepted);
        self.lost.add(&answer.lost);
        self.own_lost.add(&answer.own_lost);
        for port in 1..=answer.reasons.len() as u32 {
            *self.reasons.entry((port, answer.reason_number(port))).or_insert(0) += 1;
        }
    }

    /// How many frames met this reason at a port.
    fn met(&self, port: u32, reason: u32) -> u64 {
        self.reasons.get(&(port, reason)).copied().unwrap_or(0)
    }

    /// The summary as printed lines.
    pub fn lines(&self) -> Vec<String> {
        let nothing = self.takes.done() - self.given;
        let mut lines = vec![format!("power-on {}, lines that are no call {}", self.power_ons.calls(), self.not_calls)];
        lines.extend(self.power_ons.by_number());
        lines.extend(outcome_lines("Start", &format!("done {}", self.starts.done()), &self.starts));
        lines.extend(outcome_lines("Quiet", &format!("done {}", self.quiets.done()), &self.quiets));
        lines.extend(outcome_lines("unit", &format!("told {}", self.units.done()), &self.units));
        lines.extend(outcome_lines("frames", &format!("consumed {}", self.consumed), &self.frames));
        let ports = if self.most_ports == 0 { USUAL_PORTS } else { self.most_ports };
        lines.extend((1..=ports).flat_map(|port| self.port_lines(port)));
        let given = format!("given {}, nothing waiting {nothing}", self.given);
        lines.extend(outcome_lines("takes", &given, &self.takes));
        lines.extend(outcome_lines("counts", &format!("told {}", self.counts.done()), &self.counts));
        lines.extend(outcome_lines("messages", &format!("answered {}", self.messages.done()), &self.messages));
        lines
    }

    /// What became of frames at a port, and by which reasons, if any were met.
    fn port_lines(&self, port: u32) -> Vec<String> {
        let (accepted, lost, own_lost) = (self.accepted.at(port), self.lost.at(port), self.own_lost.at(port));
        let stopped = self.met(port, 5) + self.met(port, 6);
        let mut lines =
            vec![format!("  port {port}: accepted {accepted}, stopped {stopped}, lost {lost}, own lost {own_lost}")];
        let met =
            REASONS.iter().map(|(reason, words)| (words, self.met(port, *reason))).filter(|(_, count)| *count > 0);
        let counts: Vec<String> = met.map(|(words, count)| format!("{words} {count}")).collect();
        if !counts.is_empty() {
            lines.push(format!("    {}", counts.join(", ")));
        }
        lines
    }
}

/// The calls of a kind, what came of them, and a line for each number that refused some.
fn outcome_lines(title: &str, what: &str, outcomes: &Outcomes) -> Vec<String> {
    let mut lines = vec![format!("{title} {}: {what}, refused {}", outcomes.calls(), outcomes.refused())];
    lines.extend(outcomes.by_number());
    lines
}
