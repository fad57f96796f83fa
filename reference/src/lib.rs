//! Reference of the rules (docs/RULES.md), in the order of their headings,
//! then the script format, the numbers in words, the summary, a script's run, the generator and the coverage count, the bench log, the C interface's layout, plans, and the proved unit linked in.

pub mod frame;
pub mod pair;
pub mod halving;
pub mod names;
pub mod unit;
pub mod counts;
pub mod address;
pub mod message;
pub mod parameters;
pub mod script;
pub mod words;
pub mod summary;
pub mod run;
pub mod generate;
pub mod coverage;
pub mod bench_log;
pub mod layout;
pub mod plan;
pub mod plan_generate;
pub mod plan_coverage;
pub mod plan_text;
#[cfg(feature = "linked")]
pub mod linked;
