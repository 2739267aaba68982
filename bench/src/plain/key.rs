//! Keys, stamps and ledger items as the bytes of a state's text. Comparing the bytes gives the same
//! order as comparing what they mean.

use super::fields::{day, day_first};

/// A tag and the key after it, padded with zeros at the end.
pub type Key = [u8; 24];

/// The day, minute and reference of a file, and the number of a record in it.
pub type Stamp = [u8; 15];

/// The day, minute and reference of a file, its update indicator, and the reference of the last
/// file.
pub type Item = [u8; 19];

pub const FILE_STAMP: usize = 11;

pub const TIPLOC: u8 = 1;
pub const ASSOCIATION: u8 = 2;
pub const SCHEDULE: u8 = 3;

/// The number of bytes of a key with this tag, including the tag.
pub fn width(tag: u8) -> usize {
    match tag {
        TIPLOC => 8,
        ASSOCIATION => 24,
        _ => 10,
    }
}

fn joined<const N: usize>(parts: &[&[u8]]) -> [u8; N] {
    let mut bytes = [0; N];
    let mut at = 0;
    for part in parts {
        bytes[at..at + part.len()].copy_from_slice(part);
        at += part.len();
    }
    bytes
}

pub fn tiploc(code: &[u8]) -> Key {
    joined(&[&[TIPLOC], code])
}

/// The key of an association's line: the UIDs of the base train and the associated train, the first
/// day, the location, the base train's suffix and the STP indicator.
pub fn association(line: &[u8]) -> Key {
    let first = day(&line[15..]).to_be_bytes();
    joined(&[&[ASSOCIATION], &line[3..15], &first, &line[37..45], &line[79..80]])
}

/// The key of a basic schedule: the UID, the first day and the STP indicator.
pub fn schedule(line: &[u8]) -> Key {
    joined(&[&[SCHEDULE], &line[3..9], &day(&line[9..]).to_be_bytes(), &line[79..80]])
}

/// The ledger item of a header.
pub fn item(line: &[u8]) -> Item {
    let minute = line[28..32].iter().fold(0, |minute, digit| minute * 10 + u16::from(digit - b'0'));
    let minute = minute / 100 * 60 + minute % 100;
    joined(&[&day_first(&line[22..]).to_be_bytes(), &minute.to_be_bytes(), &line[32..39], &line[46..47], &line[39..46]])
}

pub fn stamp(item: &Item, record: u32) -> Stamp {
    joined(&[&item[..FILE_STAMP], &record.to_be_bytes()])
}

pub fn is_full(item: &Item) -> bool {
    item[FILE_STAMP] == b'F'
}
