//! Files and states of hostile shapes. The program accepts all of them. They would take long if the
//! program's work grew with the square of the number of rows.

use crate::plan::EXTRACT;
use crate::records::{Out, Record};
use crate::shapes::letters;
use std::io::Result;

/// The place at which all trains meet, the day of the docker (2059-12-30), and the next day.
pub const PLACE: &str = "MEETING";
pub const DATE: &str = "2059-12-30";
pub const HORIZON: &str = "2059-12-31";
const DAY: i32 = 36_523;

/// The number of first days that a key may have. All are before the docker's day, so each schedule
/// runs on that day.
const FIRSTS: usize = 36_000;
const STPS: &[u8; 3] = b"PNO";

/// A shape that can be made with any number of rows.
pub struct Shape {
    pub name: &'static str,
    /// The number of rows that is tried first, and the greatest number.
    pub least: usize,
    pub most: usize,
    pub makes: Makes,
}

pub enum Makes {
    /// Writes the units of a file, or the units of a newer file.
    File(fn(&mut Out, usize, bool) -> Result<()>),
    /// A ledger with an entry for each of its items. The newer state has items between these.
    Ledger,
}

const MOST: usize = 1 << 18;

pub const SHAPES: &[Shape] = &[
    file("schedules of one UID", one_uid),
    file("schedules of one UID, from two states in turn", two_states),
    file("associations of one group", one_group),
    file("associations of two suffixes in turn", two_suffixes),
    file("base trains of one associated train", many_bases),
    file("base trains of one associated train, with a schedule of the associated train for each of them", partner_of_schedules),
    file("associated trains of one base train, with a line for each of them before the call of the base train", behind_lines),
    file("associated trains of one base train, with an earlier call of the base train for each of them", behind_calls),
    file("associated trains of one base train, with a schedule of the base train for each of them", base_of_schedules),
    file("changes of one key", one_key),
    file("TIPLOCs renamed in a ring", ring),
    file("calls of one schedule at one place", one_place),
    file("calls of one schedule, each at a place of its own", many_places),
    file("calls at places that meet in one slot of the memo", one_slot),
    file("trains at one place and time", one_time),
    file("trains in falling order of UID", falling),
    file("trains with the lowest and the highest UIDs in turn", both_ends),
    Shape { name: "files in a ledger", least: 2048, most: MOST * 4, makes: Makes::Ledger },
];

const fn file(name: &'static str, write: fn(&mut Out, usize, bool) -> Result<()>) -> Shape {
    Shape { name, least: 1024, most: MOST, makes: Makes::File(write) }
}

impl Shape {
    /// Writes a file of this many rows, or one that is a day newer.
    pub fn write(&self, rows: usize, newer: bool, path: &str) -> Result<()> {
        let mut out = Out::create(path)?;
        let mut head = Record::new(b"HD");
        let day = EXTRACT + i32::from(newer);
        head.at(3, b"TPS.UDFROC1.PD").yymmdd(17, day).ddmmyy(23, day).at(29, b"2100").at(33, b"DFROC1A");
        head.at(40, b"DFROC1Z").at(47, if newer { b"U" } else { b"F" }).at(48, b"A");
        out.put(&head)?;
        if let Makes::File(units) = self.makes {
            units(&mut out, rows, newer)?;
        }
        out.put(&Record::new(b"ZZ"))?;
        out.flush()
    }
}

// ---------------------------------------------------------------- records

fn uid(kind: u8, number: usize) -> [u8; 6] {
    let [a, b, c, d, e] = letters(number);
    [kind, a, b, c, d, e]
}

/// A basic schedule from this first day on. Some end on the docker's day, so that they lapse when a
/// later horizon is set.
fn basic(uid: &[u8; 6], first: usize, stp: u8) -> Record {
    let mut record = Record::new(b"BS");
    record.at(3, b"N").at(4, uid).yymmdd(10, first as i32).at(16, b"999999").days(22, 0x7F).at(33, b"1A00").at(80, &[stp]);
    if first % 2 == 1 {
        record.yymmdd(16, DAY);
    }
    record
}

/// The origin or the terminus of a journey.
fn end(identity: &[u8; 2], place: &[u8], time: usize) -> Record {
    let mut record = Record::new(identity);
    record.at(3, place).time(11, time as i32).public(16, None);
    record
}

fn call(place: &[u8], suffix: u8, time: usize) -> Record {
    let mut record = Record::new(b"LI");
    record.at(3, place).at(10, &[suffix]).time(21, time as i32).public(26, None).public(30, None);
    record
}

/// A schedule whose train leaves the place.
fn leaves(out: &mut Out, uid: &[u8; 6], first: usize, stp: u8) -> Result<()> {
    out.put(&basic(uid, first, stp))?;
    out.put(&end(b"LO", PLACE.as_bytes(), 1200))?;
    out.put(&end(b"LT", b"BEYOND", 1300))
}

/// The first day and the STP indicator of the key with this number. A UID or a group has room for a
/// limited number of keys, and when it is full, the next one begins. The last number says how many
/// are full.
fn of_one(number: usize) -> (usize, u8, usize) {
    (number / 3 % FIRSTS, STPS[number % 3], number / 3 / FIRSTS)
}

fn link(base: &[u8; 6], other: &[u8; 6], first: usize, suffix: u8, stp: u8) -> Record {
    let mut record = Record::new(b"AA");
    record.at(3, b"N").at(4, base).at(10, other).yymmdd(16, first as i32).at(22, b"999999").days(28, 0x7F);
    record.at(35, b"NPS").at(38, PLACE.as_bytes()).at(45, &[suffix]).at(80, &[stp]);
    record
}

fn place(identity: &[u8; 2], number: usize, new: Option<usize>) -> Record {
    let mut record = Record::new(identity);
    record.at(3, &letters::<7>(number)).at(19, b"A PLACE");
    if let Some(new) = new {
        record.at(73, &letters::<7>(new));
    }
    record
}

// ---------------------------------------------------------------- schedules

fn one_uid(out: &mut Out, rows: usize, _: bool) -> Result<()> {
    (0..rows).try_for_each(|number| {
        let (first, stp, before) = of_one(number);
        leaves(out, &uid(b'A', before), first, stp)
    })
}

/// Every second row is in the newer file.
fn two_states(out: &mut Out, rows: usize, newer: bool) -> Result<()> {
    (0..rows).try_for_each(|number| {
        let (first, stp, before) = of_one(2 * number + usize::from(newer));
        leaves(out, &uid(b'A', before), first, stp)
    })
}

/// One key that is put, revised and deleted in turn, and that is put at the end.
fn one_key(out: &mut Out, rows: usize, _: bool) -> Result<()> {
    for number in 0..rows {
        let left = (rows - 1 - number) % 3;
        let mut record = basic(&uid(b'A', 0), 0, b'P');
        record.at(3, [b"R", b"D", b"N"][left]);
        out.put(&record)?;
        if left != 1 {
            out.put(&end(b"LO", PLACE.as_bytes(), 1200))?;
            out.put(&end(b"LT", b"BEYOND", 1300))?;
        }
    }
    Ok(())
}

fn one_time(out: &mut Out, rows: usize, _: bool) -> Result<()> {
    (0..rows).try_for_each(|number| leaves(out, &uid(b'A', number), 0, b'P'))
}

fn falling(out: &mut Out, rows: usize, _: bool) -> Result<()> {
    (0..rows).rev().try_for_each(|number| leaves(out, &uid(b'A', number), 0, b'P'))
}

fn both_ends(out: &mut Out, rows: usize, _: bool) -> Result<()> {
    (0..rows).try_for_each(|number| {
        let number = if number % 2 == 0 { number / 2 } else { rows - 1 - number / 2 };
        leaves(out, &uid(b'A', number), 0, b'P')
    })
}

// ---------------------------------------------------------------- calls and places

/// A schedule with this many calls. The place of each call depends on its number.
fn calls(out: &mut Out, rows: usize, place: impl Fn(usize) -> [u8; 7]) -> Result<()> {
    out.put(&basic(&uid(b'A', 0), 0, b'P'))?;
    out.put(&end(b"LO", PLACE.as_bytes(), 1200))?;
    (0..rows).try_for_each(|number| out.put(&call(&place(number), b' ', 1200)))?;
    out.put(&end(b"LT", b"BEYOND", 1300))
}

fn one_place(out: &mut Out, rows: usize, _: bool) -> Result<()> {
    calls(out, rows, |_| *b"MEETING")
}

fn many_places(out: &mut Out, rows: usize, _: bool) -> Result<()> {
    calls(out, rows, letters::<7>)
}

/// Places that share one slot of the memo in which `cif_change` remembers where it last found a
/// place. The highest sixteen bits of a product determine the slot.
fn one_slot(out: &mut Out, rows: usize, _: bool) -> Result<()> {
    let slot = |code: &[u8; 7]| {
        let [a, b, c, d, e, f, g] = *code;
        u64::from_le_bytes([a, b, c, d, e, f, g, 0]).wrapping_mul(0x9E37_79B9_7F4A_7C15) >> 48
    };
    let others = (0..).map(letters::<7>).filter(|code| slot(code) == slot(b"MEETING"));
    let met: Vec<[u8; 7]> = std::iter::once(*b"MEETING").chain(others).take(64).collect();
    calls(out, rows, |number| met[number % met.len()])
}

/// Each TIPLOC is renamed to the next one, and the last to the first.
fn ring(out: &mut Out, rows: usize, _: bool) -> Result<()> {
    (0..rows).try_for_each(|number| out.put(&place(b"TA", number, Some((number + 1) % rows))))
}

// ---------------------------------------------------------------- associations

fn one_group(out: &mut Out, rows: usize, _: bool) -> Result<()> {
    for number in 0..rows {
        let (first, stp, before) = of_one(number);
        out.put(&link(&uid(b'A', before), &uid(b'B', 0), first, b' ', stp))?;
    }
    leaves(out, &uid(b'A', 0), 0, b'P')?;
    leaves(out, &uid(b'B', 0), 0, b'P')
}

/// One pair of trains. The base train calls twice.
fn two_suffixes(out: &mut Out, rows: usize, _: bool) -> Result<()> {
    for number in 0..rows {
        let (first, stp, before) = of_one(number / 6 * 3 + number % 3);
        out.put(&link(&uid(b'A', before), &uid(b'B', 0), first, b"12"[number / 3 % 2], stp))?;
    }
    out.put(&basic(&uid(b'A', 0), 0, b'P'))?;
    out.put(&end(b"LO", b"BEFORE", 1100))?;
    out.put(&call(PLACE.as_bytes(), b'1', 1200))?;
    out.put(&call(PLACE.as_bytes(), b'2', 1210))?;
    out.put(&end(b"LT", b"BEYOND", 1300))?;
    leaves(out, &uid(b'B', 0), 0, b'P')
}

fn many_bases(out: &mut Out, rows: usize, _: bool) -> Result<()> {
    (0..rows).try_for_each(|number| out.put(&link(&uid(b'A', number), &uid(b'B', 0), 0, b' ', b'P')))?;
    (0..rows).try_for_each(|number| leaves(out, &uid(b'A', number), 0, b'P'))?;
    leaves(out, &uid(b'B', 0), 0, b'P')
}

fn partner_of_schedules(out: &mut Out, rows: usize, newer: bool) -> Result<()> {
    many_bases(out, rows, newer)?;
    (0..rows).try_for_each(|number| {
        let (first, stp, before) = of_one(number);
        leaves(out, &uid(b'B', before), first, stp)
    })
}

fn partners(out: &mut Out, rows: usize, suffix: u8) -> Result<()> {
    (0..rows).try_for_each(|number| out.put(&link(&uid(b'A', 0), &uid(b'B', number), 0, suffix, b'P')))
}

/// A base train that makes other calls before it calls at the place. It has as many of these calls
/// as partners.
fn behind(out: &mut Out, rows: usize, other: &Record) -> Result<()> {
    partners(out, rows, b'2')?;
    out.put(&basic(&uid(b'A', 0), 0, b'P'))?;
    out.put(&end(b"LO", b"BEFORE", 1200))?;
    (0..rows).try_for_each(|_| out.put(other))?;
    out.put(&call(PLACE.as_bytes(), b'2', 1200))?;
    out.put(&end(b"LT", b"BEYOND", 1300))
}

fn behind_lines(out: &mut Out, rows: usize, _: bool) -> Result<()> {
    behind(out, rows, &call(b"BETWEEN", b' ', 1200))
}

fn behind_calls(out: &mut Out, rows: usize, _: bool) -> Result<()> {
    behind(out, rows, &call(PLACE.as_bytes(), b'1', 1200))
}

fn base_of_schedules(out: &mut Out, rows: usize, newer: bool) -> Result<()> {
    partners(out, rows, b' ')?;
    one_uid(out, rows, newer)
}

// ---------------------------------------------------------------- ledgers

/// The text of a state that knows this many files, each of which deleted a TIPLOC. If `between` is
/// set, the moments of its files lie between the moments of the other state's files.
pub fn ledger(files: usize, between: bool) -> Vec<u8> {
    let count = (files as u64).to_be_bytes();
    // Two files per minute, from 1984 on.
    let stamp = |number: usize| {
        let moment = 9_000 * 1440 + number;
        let letter = if between { b'B' } else { b'A' };
        [&((moment / 1440) as u16).to_be_bytes()[..], &((moment % 1440) as u16).to_be_bytes(), &b"DFROC1"[..], &[letter]].concat()
    };
    let mut text = [b"DKS2\0\0", &count[..]].concat();
    for number in 0..files {
        text.extend([&stamp(number)[..], b"UDFROC1Z"].concat());
    }
    text.extend(count);
    for number in 0..files {
        text.extend([&[1][..], &letters::<7>(number), &stamp(number), &2u32.to_be_bytes(), &[0]].concat());
    }
    text
}
