//! Memory for files of different shapes: extracts with only one kind of change, and one of national
//! shape.

use crate::make;
use crate::measure::{machine, run, Input, Spent};
use crate::plan::EXTRACT;
use crate::records::{Out, Record};
use std::fs;
use std::io::{Error, Result};

/// About how many records there are per schedule in a file of national shape.
const NATIONAL: usize = 18;

/// A name of `WIDTH` letters. Different numbers give different names.
pub fn letters<const WIDTH: usize>(mut number: usize) -> [u8; WIDTH] {
    let mut name = [b'A'; WIDTH];
    for letter in name.iter_mut().rev() {
        *letter += (number % 26) as u8;
        number /= 26;
    }
    name
}

fn basic(transaction: u8, number: usize, stp: u8) -> Record {
    let mut record = Record::new(b"BS");
    record.at(3, &[transaction]).at(4, &letters::<6>(number)).yymmdd(10, EXTRACT).at(80, &[stp]);
    if transaction != b'D' {
        record.yymmdd(16, EXTRACT + 180).days(22, 0x1F);
    }
    record
}

fn rename(number: usize) -> Record {
    let mut record = Record::new(b"TA");
    record.at(3, &letters::<7>(2 * number)).at(10, b"00123456").at(18, b"A").at(19, b"A PLACE");
    record.at(45, b"12345").at(50, b"0000").at(73, &letters::<7>(2 * number + 1));
    record
}

/// A call of the schedule that has all calls of the file: the first, the last, or one between them.
fn call(number: usize, calls: usize) -> Record {
    let mut record = Record::new(if number == 0 { b"LO" } else { b"LI" });
    if number + 1 == calls {
        record = Record::new(b"LT");
    }
    record.at(3, &letters::<7>(number % 3000));
    // All calls are on one day.
    let time = (number * 2880 / calls) as i32;
    if number == 0 || number + 1 == calls {
        record.time(11, time).public(16, None);
    } else {
        record.time(21, time).public(26, None).public(30, None);
    }
    record
}

/// Writes a file of this shape, with this many records.
fn write(shape: &str, records: usize, seed: u64, path: &str) -> Result<()> {
    if shape == "national" {
        return make::full(records / NATIONAL, seed, path);
    }
    let mut out = Out::create(path)?;
    let mut head = Record::new(b"HD");
    head.at(3, b"TPS.UDFROC1.PD").yymmdd(17, EXTRACT).ddmmyy(23, EXTRACT).at(29, b"2100").at(33, b"DFROC1A");
    head.at(40, b"DFROC1Z").at(47, b"FA").ddmmyy(49, EXTRACT).ddmmyy(55, EXTRACT + 365);
    out.put(&head)?;
    if shape == "calls" {
        out.put(&basic(b'N', 0, b'P'))?;
    }
    for number in 0..records {
        out.put(&match shape {
            "deletions" => basic(b'D', number, b'P'),
            "cancellations" => basic(b'N', number, b'C'),
            "renames" => rename(number),
            _ => call(number, records),
        })?;
    }
    out.put(&Record::new(b"ZZ"))?;
    out.flush()
}

/// Runs a command that has to succeed.
fn done(words: &[&str]) -> Result<Spent> {
    let spent = run(words, Input::None)?;
    match (spent.status, &*spent.errors) {
        (0, "") => Ok(spent),
        (status, errors) => Err(Error::other(format!("{words:?} ended with {status}: {errors}"))),
    }
}

/// Prints a table of the memory that `check` and `take` need for a file of each shape, with this
/// many records.
pub fn table(program: &str, records: usize, seed: u64, folder: &str) -> Result<()> {
    let plain = std::env::current_exe()?;
    let plain = plain.to_str().ok_or_else(|| Error::other("this program's path isn't text"))?;
    let [file, own, other] = ["shape.cif", "own.state", "other.state"].map(|name| format!("{folder}/{name}"));
    let mut lines = Vec::new();
    let shapes = [
        ("national", "national"),
        ("deletions", "only deletions of schedules"),
        ("cancellations", "only cancellations"),
        ("renames", "only renamed timing points"),
        ("calls", "one schedule with all the calls"),
    ];
    for (shape, name) in shapes {
        write(shape, records, seed, &file)?;
        let check = done(&[program, "check", &file])?;
        let mut took = Vec::new();
        for (words, state) in [(&[program][..], &own), (&[plain, "plain"][..], &other)] {
            done(&[words, &["new", state]].concat())?;
            took.push(done(&[words, &["take", state, &file]].concat())?);
        }
        if run(&["cmp", &own, &other], Input::None)?.status != 0 {
            return Err(Error::other(format!("{name}: the plain program gives other bytes")));
        }
        let bytes = |path: &str| fs::metadata(path).map(|about| about.len() as f64);
        let (size, state) = (bytes(&file)?, bytes(&own)?);
        let [ours, plains] = [took[0].memory as f64, took[1].memory as f64];
        lines.push(format!(
            "| {name} | {:.1} | {:.1} | {:.1} | {:.2} | {:.0} | {:.2} | {:.2} | {:.2} |",
            size / 1e6,
            state / 1e6,
            check.memory as f64 / 1e6,
            took[0].seconds,
            ours / 1e6,
            ours / size,
            ours / state,
            ours / plains,
        ));
    }
    println!("\n{}\n", machine());
    println!("| Shape | File, MB | State, MB | `check`, MB | `take`, s | `take`, MB | × the file | × the state | × plain |");
    println!("|---|---|---|---|---|---|---|---|---|");
    println!("{}", lines.join("\n"));
    Ok(())
}
