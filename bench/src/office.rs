//! The commands that an office uses, and the files and states with which they start.

use crate::measure::{run, Input, Spent};
use std::collections::HashMap;
use std::fs::{self, File};
use std::io::{copy, BufRead, BufReader, Error, Result, Seek, SeekFrom, Write};

/// A command. Words in capitals stand for a path, the place or the date.
pub struct Command {
    pub name: &'static str,
    pub words: &'static str,
    /// The state that STATE holds before the command, if the command writes STATE.
    pub before: Option<&'static str>,
    pub reads: &'static str,
    /// The states whose texts are compared with the memory that the command needs.
    pub holds: &'static str,
}

const fn reading(name: &'static str, words: &'static str, reads: &'static str) -> Command {
    Command { name, words, before: None, reads, holds: "FULL" }
}

const fn writing(
    name: &'static str,
    words: &'static str,
    before: &'static str,
    reads: &'static str,
    holds: &'static str,
) -> Command {
    Command { name, words, before: Some(before), reads, holds }
}

const COMMANDS: [Command; 11] = [
    reading("`check FILE`", "check FILE", "FILE"),
    reading("`day FILE TIPLOC DATE`", "day FILE TIPLOC DATE", "FILE"),
    writing("`take` of the extract, by an office that knows nothing", "take STATE FILE", "EMPTY", "FILE", "FULL"),
    writing("`take` of the update", "take STATE UPDATE", "FULL", "FULL UPDATE", "FULL OTHER"),
    writing("`merge` of the update's state", "merge STATE OTHER", "FULL", "FULL OTHER", "FULL OTHER"),
    writing("`merge` of the full state into the update's", "merge STATE FULL", "OTHER", "OTHER FULL", "FULL OTHER"),
    writing("`merge` with nothing new", "merge STATE FULL", "FULL", "FULL FULL", "FULL"),
    writing("`horizon` of that day", "horizon STATE DATE", "FULL", "FULL", "FULL"),
    writing("`migrate`", "migrate STATE", "OLD", "OLD", "FULL"),
    reading("`print STATE TIPLOC DATE`", "print FULL TIPLOC DATE", "FULL"),
    reading("`files STATE`", "files FULL", "FULL"),
];

/// The commands whose names contain one of the words, or all commands if there are no words.
pub fn chosen<'a>(words: &'a [&'a str]) -> impl Iterator<Item = &'static Command> + 'a {
    COMMANDS.iter().filter(|it| words.is_empty() || words.iter().any(|word| it.name.contains(word)))
}

/// The paths of the states with which the commands start.
pub struct States {
    pub empty: String,
    pub full: String,
    pub update: String,
    /// The full state in the older format.
    pub old: String,
    /// The STATE that a command writes.
    pub own: String,
}

/// The files and the docker of the commands.
pub struct Inputs<'a> {
    pub extract: &'a str,
    update: &'a str,
    pub states: States,
    pub place: String,
    pub date: String,
}

impl<'a> Inputs<'a> {
    /// Makes the states in the folder, with this program.
    pub fn make(program: &str, extract: &'a str, update: &'a str, folder: &str) -> Result<Inputs<'a>> {
        let states = make_states(program, extract, update, folder)?;
        let (place, date) = busiest(extract)?;
        Ok(Inputs { extract, update, states, place, date })
    }

    /// What a word of a command stands for.
    pub fn meaning<'b>(&'b self, word: &'b str) -> &'b str {
        match word {
            "STATE" => &self.states.own,
            "EMPTY" => &self.states.empty,
            "FULL" => &self.states.full,
            "OTHER" => &self.states.update,
            "OLD" => &self.states.old,
            "FILE" => self.extract,
            "UPDATE" => self.update,
            "TIPLOC" => &self.place,
            "DATE" => &self.date,
            word => word,
        }
    }

    pub fn meanings(&self, words: &str) -> Vec<String> {
        words.split(' ').map(|word| self.meaning(word).to_string()).collect()
    }
}

/// Makes the states with which the commands start.
fn make_states(program: &str, extract: &str, update: &str, folder: &str) -> Result<States> {
    let path = |name: &str| format!("{folder}/{name}.state");
    let states = States { empty: path("empty"), full: path("full"), update: path("update"), old: path("old"), own: path("own") };
    done(&[program, "new", &states.empty])?;
    for (state, file) in [(&states.full, extract), (&states.update, update)] {
        done(&[program, "new", state])?;
        done(&[program, "take", state, file])?;
    }
    // The older format has another mark and no horizon.
    let mut full = File::open(&states.full)?;
    full.seek(SeekFrom::Start(6))?;
    let mut old = File::create(&states.old)?;
    old.write_all(b"DKS1")?;
    copy(&mut full, &mut old)?;
    Ok(states)
}

/// Runs a command that has to succeed, and returns its costs and its output.
pub fn done(words: &[&str]) -> Result<Spent> {
    let spent = run(words, Input::None)?;
    match (spent.status, &*spent.errors) {
        (0, "") => Ok(spent),
        (status, errors) => Err(Error::other(format!("{words:?} ended with {status}: {errors}"))),
    }
}

/// The total size of some files.
pub fn size_of(paths: &[String]) -> Result<u64> {
    paths.iter().map(|path| fs::metadata(path).map(|about| about.len())).sum()
}

/// The timing point that most location records name, and the header's day as `YYYY-MM-DD`.
fn busiest(extract: &str) -> Result<(String, String)> {
    let mut counts: HashMap<[u8; 7], usize> = HashMap::new();
    let mut date = String::new();
    for line in BufReader::new(File::open(extract)?).split(b'\n') {
        let line = line?;
        match line.get(..2) {
            Some(b"HD") => date = String::from_utf8_lossy(&line[22..28]).into_owned(),
            Some(b"LO" | b"LI" | b"LT") => *counts.entry(line[2..9].try_into().map_err(Error::other)?).or_default() += 1,
            _ => {}
        }
    }
    let place =
        counts.iter().max_by_key(|&(place, count)| (count, place)).ok_or_else(|| Error::other("the extract has no location"))?.0;
    let place = String::from_utf8_lossy(place).trim_end().to_string();
    Ok((place, format!("20{}-{}-{}", &date[4..6], &date[2..4], &date[..2])))
}
