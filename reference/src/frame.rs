//! "Frames and numbers": a frame, the fields of its identifier, the PGN.

/// A frame: a 29-bit identifier and 0 to 8 bytes.
#[derive(Clone, Debug, PartialEq, Eq)]
pub struct Frame {
    pub id: u32,
    pub bytes: Vec<u8>,
}

/// PGN of a request (003, Table 2).
pub const REQUEST: u32 = 59904;
/// PGN of an address claim and of cannot-claim (003, Table 2).
pub const ADDRESS_CLAIMED: u32 = 60928;
/// The PGNs that cross every pair.
pub const PERMANENT: [u32; 2] = [REQUEST, ADDRESS_CLAIMED];
/// The global destination.
pub const GLOBAL: u32 = 255;
/// The source address of one who holds none.
pub const NULL: u32 = 254;
/// The highest address that can be claimed.
pub const HIGHEST_ADDRESS: u32 = 253;

/// Bits 28 to 26; 0 is the highest rank.
pub fn priority(id: u32) -> u32 {
    (id >> 26) & 0x7
}

/// Bits 23 to 16.
pub fn pf(id: u32) -> u32 {
    (id >> 16) & 0xFF
}

/// Bits 15 to 8; the destination where PF is below 240.
pub fn ps(id: u32) -> u32 {
    (id >> 8) & 0xFF
}

/// Bits 7 to 0, the source address.
pub fn sa(id: u32) -> u32 {
    id & 0xFF
}

/// Bits 25 to 8, with the PS byte as 0 where PF is below 240.
pub fn pgn(id: u32) -> u32 {
    let bits_25_to_8 = (id >> 8) & 0x3FFFF;
    if pf(id) < 240 {
        bits_25_to_8 - ps(id)
    } else {
        bits_25_to_8
    }
}

/// A number is a PGN if it is below 2^18 and, where its PF is below 240, its low byte is 0.
pub fn is_pgn(number: u32) -> bool {
    let pf_of_number = (number >> 8) & 0xFF;
    let low_byte = number & 0xFF;
    number < 1 << 18 && (pf_of_number >= 240 || low_byte == 0)
}
