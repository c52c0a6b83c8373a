//! The ways to damage an image. Each family of them can be counted and gone through to its last.

use super::records::{Record, bytes, count};
use crate::image::{HOT, KEY, PEER, SETTINGS, SHADOW, WORDS};

/// How many ways a family has for an image, and the bytes that one of them gives.
pub struct Family {
    pub ways: fn(&[Record]) -> u64,
    pub damaged: fn(&[Record], u64) -> Vec<u8>,
}

pub const FAMILIES: [Family; 11] = [
    Family { ways: |image| 255 * length(image), damaged: byte_changed },
    Family { ways: length, damaged: cut_off },
    Family { ways: |image| words(image) * EDGES_OF_A_WORD, damaged: word_at_edge },
    Family { ways: pairs, damaged: swapped },
    Family { ways: pairs, damaged: moved },
    Family { ways: |image| 2 * image.len() as u64, damaged: doubled },
    Family { ways: |image| 2 * image.len() as u64, damaged: removed },
    Family { ways: |image| KINDS * image.len() as u64, damaged: of_other_kind },
    Family { ways: |image| (256 - KINDS) * image.len() as u64, damaged: of_no_kind },
    Family { ways: |image| image.len() as u64, damaged: stripped },
    Family { ways: |_| 64, damaged: with_bytes_behind },
];

fn length(image: &[Record]) -> u64 {
    image.iter().map(|record| 3 + 8 * record.words.len() as u64).sum()
}

fn words(image: &[Record]) -> u64 {
    image.iter().map(|record| record.words.len() as u64).sum()
}

/// Two places for records, one after the other, the same place twice among them.
fn pairs(image: &[Record]) -> u64 {
    (image.len() * image.len()) as u64
}

fn pair(image: &[Record], way: u64) -> (usize, usize) {
    (way as usize / image.len(), way as usize % image.len())
}

/// One byte gets each other value.
fn byte_changed(image: &[Record], way: u64) -> Vec<u8> {
    let mut bytes = bytes(image);
    bytes[way as usize / 255] ^= (way % 255 + 1) as u8;
    bytes
}

fn cut_off(image: &[Record], way: u64) -> Vec<u8> {
    let mut bytes = bytes(image);
    bytes.truncate(way as usize);
    bytes
}

/// Numbers at the bounds of counts and widths, floats of both widths at the edges of their kinds, and packed words at those
/// of their units.
const EDGES: [u64; 62] = [
    0,
    1,
    2,
    3,
    4,
    5,
    63,
    64,
    65,
    255,
    256,
    257,
    4095,
    4096,
    4097,
    65_535,
    65_536,
    4_194_303,
    4_194_304,
    0x007f_ffff,
    0x0080_0000,
    0x7f7f_ffff,
    0x7f80_0000,
    0x7f80_0001,
    0x7fc0_0000,
    0x8000_0000,
    0x8000_0001,
    0xbf80_0000,
    0xff80_0000,
    0xffff_ffff,
    1 << 32,
    (1 << 32) + 1,
    1 << 53,
    1 << 62,
    (1 << 63) - 1,
    1 << 63,
    (1 << 63) + 1,
    u64::MAX - 1,
    u64::MAX,
    0x000f_ffff_ffff_ffff,
    0x0010_0000_0000_0000,
    0x3fef_ffff_ffff_ffff,
    0x3ff0_0000_0000_0000,
    0x3ff0_0000_0000_0001,
    0xbff0_0000_0000_0000,
    0x7fef_ffff_ffff_ffff,
    0x7ff0_0000_0000_0000,
    0x7ff0_0000_0000_0001,
    0x7ff8_0000_0000_0000,
    0xfff0_0000_0000_0000,
    0xfff8_0000_0000_0000,
    1 << 24,
    1 << 24 | 1,
    1 << 24 | 0x3f_ffff,
    packed(0xff_ffff_ffff, 0),
    packed(1_099_511_627, 1),
    packed(1_099_511_628, 1),
    packed(0xff_ffff_ffff, 1),
    packed(1_099_511_627, 2),
    packed(1_099_511_628, 2),
    packed(0xff_ffff_ffff, 2),
    packed(1_099_511_628, 3),
];

/// Beside the edges a word is moved by one, doubled, and gets its high half.
const EDGES_OF_A_WORD: u64 = EDGES.len() as u64 + 4;

const fn packed(value: u64, unit: u64) -> u64 {
    value << 24 | unit << 22 | 1
}

fn edge(word: u64, way: u64) -> u64 {
    match way {
        0 => word.wrapping_add(1),
        1 => word.wrapping_sub(1),
        2 => word.wrapping_mul(2),
        3 => word ^ 1 << 32,
        _ => EDGES[way as usize - 4],
    }
}

fn word_at_edge(image: &[Record], way: u64) -> Vec<u8> {
    let mut image = image.to_vec();
    let at = (way / EDGES_OF_A_WORD) as usize;
    if let Some(word) = image.iter_mut().flat_map(|record| &mut record.words).nth(at) {
        *word = edge(*word, way % EDGES_OF_A_WORD);
    }
    bytes(&image)
}

fn swapped(image: &[Record], way: u64) -> Vec<u8> {
    let mut image = image.to_vec();
    let (one, other) = pair(&image, way);
    image.swap(one, other);
    bytes(&image)
}

fn moved(image: &[Record], way: u64) -> Vec<u8> {
    let mut image = image.to_vec();
    let (from, to) = pair(&image, way);
    let record = image.remove(from);
    image.insert(to, record);
    bytes(&image)
}

/// One record stands twice; the end counts it, or not.
fn doubled(image: &[Record], way: u64) -> Vec<u8> {
    let mut image = image.to_vec();
    let at = way as usize / 2;
    image.insert(at, image[at].clone());
    counted(image, way)
}

/// One record is missing; the end counts the others, or one more.
fn removed(image: &[Record], way: u64) -> Vec<u8> {
    let mut image = image.to_vec();
    image.remove(way as usize / 2);
    counted(image, way)
}

/// The end's count is set on every second way, where there is an end.
fn counted(mut image: Vec<Record>, way: u64) -> Vec<u8> {
    if way % 2 == 1 && image.last().is_some_and(|last| last.kind == 0) {
        count(&mut image);
    }
    bytes(&image)
}

/// How many kinds of records there are.
const KINDS: u64 = WORDS.len() as u64;

/// One record gets another kind, and as many words as that has.
fn of_other_kind(image: &[Record], way: u64) -> Vec<u8> {
    let mut image = image.to_vec();
    let (record, kind) = (&mut image[(way / KINDS) as usize], way % KINDS);
    record.kind = kind as u8;
    record.words.resize(WORDS[kind as usize], 0);
    bytes(&image)
}

fn of_no_kind(image: &[Record], way: u64) -> Vec<u8> {
    let mut image = image.to_vec();
    let others = 256 - KINDS;
    image[(way / others) as usize].kind = (KINDS + way % others) as u8;
    bytes(&image)
}

/// One record loses the parts that may be missing: a peer its snapshot too, whose keys stay.
fn stripped(image: &[Record], way: u64) -> Vec<u8> {
    let mut image = image.to_vec();
    let record = &mut image[way as usize];
    let parts = match record.kind {
        SETTINGS => 9..13,
        KEY => 20..22,
        HOT => 3..5,
        SHADOW => 2..4,
        PEER => 1..12,
        _ => 0..0,
    };
    record.words[parts].fill(0);
    bytes(&image)
}

/// Up to 32 bytes follow: zeros, or the image's own.
fn with_bytes_behind(image: &[Record], way: u64) -> Vec<u8> {
    let mut bytes = bytes(image);
    let more = way as usize / 2 + 1;
    let behind: Vec<u8> = if way % 2 == 0 { vec![0; more] } else { bytes.iter().copied().take(more).collect() };
    bytes.extend(behind);
    bytes
}
