//! The saved image of document 01: the words of a state's records, in bytes.

mod reader;
mod writer;

pub use reader::{read, sizes};
pub use writer::write;

/// What every record begins with.
pub const MARK: [u8; 2] = [0x52, 0x47];

/// How many words a record has, by its kind.
pub const WORDS: [usize; 8] = [1, 13, 22, 6, 4, 12, 4, 6];

/// The kinds of records.
pub const END: u8 = 0;
pub const SETTINGS: u8 = 1;
pub const KEY: u8 = 2;
pub const HOT: u8 = 3;
pub const SHADOW: u8 = 4;
pub const PEER: u8 = 5;
pub const SNAPSHOT_KEY: u8 = 6;
pub const CONTESTED: u8 = 7;

/// How many past epochs a peer has at most, and has words for.
pub const PAST_EPOCHS: usize = 4;

/// The 64-bit FNV-1a hash.
pub fn hash(bytes: &[u8]) -> u64 {
    bytes.iter().fold(0xcbf2_9ce4_8422_2325, |hash, &byte| (hash ^ byte as u64).wrapping_mul(0x0100_0000_01b3))
}

/// Adds one record's bytes.
pub fn put(bytes: &mut Vec<u8>, kind: u8, words: &[u64]) {
    bytes.extend(MARK);
    bytes.push(kind);
    for word in words {
        bytes.extend(word.to_le_bytes());
    }
}
