//! The halving rule ("Forwarding", rule 5): how many probes a look-up in a list in rising order makes.

use std::cmp::Ordering;

/// The PGNs in rising order.
pub fn rising(list: &[u32]) -> Vec<u32> {
    let mut sorted = list.to_vec();
    sorted.sort_unstable();
    sorted
}

/// The probes for a PGN in a list, whatever its order of addition: each the middle place of those left in rising order,
/// the lower of two, ending where it is equal or none is left.
pub fn probes(list: &[u32], pgn: u32) -> usize {
    let sorted = rising(list);
    let mut left = &sorted[..];
    let mut made = 0;
    while !left.is_empty() {
        let (below, from_middle) = left.split_at((left.len() - 1) / 2);
        made += 1;
        left = match from_middle[0].cmp(&pgn) {
            Ordering::Equal => return made,
            Ordering::Less => &from_middle[1..],
            Ordering::Greater => below,
        };
    }
    made
}
