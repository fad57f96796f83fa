//! What a person reads for a number.

use crate::unit::Number;

/// The numbers in words.
pub const WORDS: [(Number, &str); 21] = [
    (1, "port not 1 to the number of ports"),
    (2, "lent storage not of its published length"),
    (3, "identifier 2^29 or more"),
    (4, "frame length over 8"),
    (5, "source address 255, or 254 in a frame that may not have it"),
    (6, "unit not Claimed"),
    (7, "payload not 8 to 1,785 bytes"),
    (8, "requester, or at Start the preferred address, not 0 to 253"),
    (9, "function not listed"),
    (10, "port outside 1 to the number of ports, or From equals To"),
    (11, "pair or port not this tool's"),
    (12, "body wrong: length or filling"),
    (13, "Create mode not 0 or 1"),
    (14, "Create: a named pair not cleared"),
    (15, "Add, Delete: a named pair cleared"),
    (16, "a named pair would pass 32 PGNs or 8 NAME entries"),
    (17, "Delete: a PGN absent from a named pair"),
    (18, "Start not in Unstarted, Quiet not in Claiming"),
    (22, "an entry is no PGN"),
    (23, "parameter not held, or not one to reset"),
    (27, "port count not 2 to 8"),
];

/// A number and its words.
pub fn told(number: Number) -> String {
    let words = WORDS.iter().find(|(listed, _)| *listed == number).map_or("", |(_, words)| words);
    format!("{number} {words}")
}

/// The reasons in words, in the order in which they are printed.
pub const REASONS: [(u32, &str); 7] = [
    (1, "permanent"),
    (2, "cleared"),
    (3, "listed in pass"),
    (4, "not listed in block"),
    (5, "stopped as listed"),
    (6, "stopped as not listed"),
    (0, "not asked"),
];
