//! Changes one byte of an extract, and compares the program's answer with the plain reader's.

use crate::judge::{judge_text, line_of, Cause, LIMIT};
use crate::measure::{run, Input};
use crate::random::Random;
use std::collections::BTreeMap;
use std::fmt;
use std::fs::{self, OpenOptions};
use std::io::{Error, Result};
use std::os::unix::fs::FileExt;

pub struct Flip {
    pub offset: usize,
    /// Both numbers count from 1. The line end is column 81.
    pub record: u64,
    pub column: usize,
    pub old: u8,
    pub new: u8,
}

impl fmt::Display for Flip {
    fn fmt(&self, out: &mut fmt::Formatter) -> fmt::Result {
        let Flip { offset, record, column, old, new } = self;
        write!(out, "record {record} column {column}: byte 0x{old:02X} becomes 0x{new:02X}, at offset {offset}")
    }
}

const IDENTITIES: [&[u8; 2]; 12] = [b"HD", b"TI", b"TA", b"TD", b"AA", b"BS", b"BX", b"LO", b"LI", b"CR", b"LT", b"ZZ"];
/// Columns that decide something in some kind of record. The line end is column 81.
const DECIDING: [usize; 36] = [
    1, 1, 2, 2, 2, 3, 3, 10, 11, 12, 13, 14, 15, 16, 17, 18, 19, 20, 21, 22, 23, 24, 25, 26, 27, 28, 29, 30, 31, 38, 47, 73, 80,
    80, 81, 81,
];
/// Bytes that have a meaning in some column.
const TELLING: &[u8] = b"  00112345999ABCDFHILNNOOPPRSTUXZ";

impl Flip {
    /// Draws a byte and its new value, in one of four ways that are equally likely. The first way
    /// draws from all bytes. The second draws a kind of record, and then a byte of such a record.
    /// The third is like the second, but draws only from the columns that decide something in some
    /// kind of record. The fourth draws from the times of a call at which midnight passes between
    /// arrival and departure, or from the same columns of one of the next two records.
    pub fn draw(text: &[u8], random: &mut Random) -> Flip {
        let mut offset = random.below(text.len());
        let identity = *random.pick(&IDENTITIES);
        let (start, column) = match random.below(4) {
            0 => (Some(offset), 1),
            1 => (next_record(text, offset, |line| line.starts_with(identity)), 1 + random.below(81)),
            2 => (next_record(text, offset, |line| line.starts_with(identity)), *random.pick(&DECIDING)),
            _ => (next_record(text, offset, is_over_midnight), 81 * random.below(3) + 11 + random.below(15)),
        };
        if let Some(start) = start {
            offset = (start + column - 1).min(text.len() - 1);
        }
        let before = &text[..offset];
        let record = 1 + before.iter().filter(|&&byte| byte == b'\n').count() as u64;
        let column = 1 + offset - start_of_line(before);
        let old = text[offset];
        let new = loop {
            let new = match random.below(4) {
                0 => random.below(256) as u8,
                1 | 2 if column <= 2 => other_kind(text, offset, column, random),
                _ => *random.pick(TELLING),
            };
            if new != old {
                break new;
            }
        };
        Flip { offset, record, column, old, new }
    }
}

fn start_of_line(before: &[u8]) -> usize {
    before.iter().rposition(|&byte| byte == b'\n').map_or(0, |at| at + 1)
}

/// A byte for column 1 or 2 that, together with the record's other letter, makes another identity.
/// If there is no such byte, this is the byte of any identity in this column.
fn other_kind(text: &[u8], offset: usize, column: usize, random: &mut Random) -> u8 {
    let other = text.get(if column == 1 { offset + 1 } else { offset - 1 });
    let alike: Vec<u8> =
        IDENTITIES.iter().filter(|identity| Some(&identity[2 - column]) == other).map(|identity| identity[column - 1]).collect();
    if alike.is_empty() {
        return random.pick(&IDENTITIES)[column - 1];
    }
    *random.pick(&alike)
}

/// The start of the first wanted record from an offset on. If there is none, the search continues
/// at the beginning of the text.
fn next_record(text: &[u8], offset: usize, wanted: impl Fn(&[u8]) -> bool) -> Option<usize> {
    let from = |mut start: usize| loop {
        let line = &text[start..];
        if wanted(line) {
            return Some(start);
        }
        start += 1 + line.iter().position(|&byte| byte == b'\n')?;
    };
    from(start_of_line(&text[..offset])).or_else(|| from(0))
}

/// Whether a call departs at an earlier time of day than it arrives.
fn is_over_midnight(line: &[u8]) -> bool {
    line.starts_with(b"LI") && line.len() > 80 && line[15] != b' ' && line[15..20] < line[10..15]
}

/// Flips one byte of a file.
pub fn flip_file(path: &str, seed: u64) -> Result<Flip> {
    let text = fs::read(path)?;
    if text.is_empty() {
        return Err(Error::other("an empty file has no byte to flip"));
    }
    let flip = Flip::draw(&text, &mut Random::of(&[seed, 4]));
    OpenOptions::new().write(true).open(path)?.write_all_at(&[flip.new], flip.offset as u64)?;
    Ok(flip)
}

#[derive(Default)]
struct Tally {
    accepted: usize,
    here: usize,
    elsewhere: usize,
    causes: BTreeMap<&'static str, usize>,
    unlike: usize,
}

/// Gives the program the file unchanged, and then with one flip at a time. Returns whether each
/// answer was the plain reader's. At the end the file is unchanged.
pub fn compare(program: &str, path: &str, seed: u64, flips: usize) -> Result<bool> {
    let mut text = fs::read(path)?;
    let file = OpenOptions::new().write(true).open(path)?;
    let answer = judge_text(&text, LIMIT);
    let same = agrees(program, path, &line_of(&answer), answer.is_ok(), "the extract as it is")?;
    if answer.is_err() || !same {
        println!("the extract isn't accepted: {}", line_of(&answer).trim_end());
        return Ok(false);
    }
    println!("{path}: {}", line_of(&answer).trim_end());
    let mut random = Random::of(&[seed, 4]);
    let mut tally = Tally::default();
    for _ in 0..flips {
        let flip = Flip::draw(&text, &mut random);
        text[flip.offset] = flip.new;
        file.write_all_at(&[flip.new], flip.offset as u64)?;
        let answer = judge_text(&text, LIMIT);
        let same = agrees(program, path, &line_of(&answer), answer.is_ok(), &flip.to_string());
        text[flip.offset] = flip.old;
        file.write_all_at(&[flip.old], flip.offset as u64)?;
        tally.unlike += usize::from(!same?);
        match answer {
            Ok(_) => tally.accepted += 1,
            Err(fault) => {
                *tally.causes.entry(name(fault.cause)).or_default() += 1;
                if fault.record == flip.record {
                    tally.here += 1;
                } else {
                    tally.elsewhere += 1;
                }
            }
        }
    }
    print_tally(&tally, flips);
    Ok(tally.unlike == 0)
}

/// Whether the program prints this line: on standard output with status 0 if the file is accepted,
/// otherwise on standard error with status 1.
fn agrees(program: &str, path: &str, line: &str, accepted: bool, what: &str) -> Result<bool> {
    let spent = run(&[program, "check", path], Input::None)?;
    let wanted = if accepted { (0, line, "") } else { (1, "", line) };
    let got = (spent.status, &*spent.output, &*spent.errors);
    if got != wanted {
        println!("different: {what}\n  wanted {wanted:?}\n  got    {got:?}");
    }
    Ok(got == wanted)
}

fn name(cause: Cause) -> &'static str {
    match cause {
        Cause::Length => "Length",
        Cause::Byte(_) => "Byte",
        Cause::Kind => "Kind",
        Cause::Place => "Place",
        Cause::Field(_) => "Field",
        Cause::Midnights => "Midnights",
        Cause::NoEnd => "NoEnd",
        Cause::After => "After",
        Cause::TooMany => "TooMany",
    }
}

fn print_tally(tally: &Tally, flips: usize) {
    let Tally { accepted, here, elsewhere, causes, unlike } = tally;
    println!("{flips} flips: {unlike} answers differ from the plain reader's");
    println!("  accepted, because the flipped text is a file too: {accepted}");
    println!("  refused at the flipped record: {here}");
    println!("  refused at a later record: {elsewhere}");
    let causes: Vec<String> = causes.iter().map(|(name, count)| format!("{name} {count}")).collect();
    println!("  causes: {}", causes.join(", "));
}
