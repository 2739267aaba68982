//! The program written plainly, without proofs: for the same words it gives the same bytes. It
//! reads each source once. If that is enough, it keeps nothing from a source, or only an excerpt;
//! otherwise it keeps the entries in one arena. Its answers and its times are compared with the
//! program's. It doesn't check words, and doesn't read standard input.

mod docker;
mod excerpt;
mod extract;
mod fields;
mod keeper;
mod key;
mod source;
mod state;
mod text;

use crate::judge::{judge_stream, line_of, Fault, LIMIT};
use excerpt::Excerpt;
use keeper::Nothing;
use state::State;
use std::fs::{self, File};
use std::io::{self, BufWriter, Read};
use text::{Format, StateFault};

/// The answer of a command: its status, its standard output, its standard error, and the new STATE.
#[derive(Debug, Default, PartialEq, Eq)]
pub struct Answer {
    pub status: u8,
    pub output: String,
    pub errors: String,
    pub state: Option<Vec<u8>>,
}

/// Why a command isn't done: a device failed, or this line is written to standard error.
pub enum Stop {
    Device(io::Error),
    Refused(String),
}

impl From<io::Error> for Stop {
    fn from(error: io::Error) -> Stop {
        Stop::Device(error)
    }
}

impl From<Fault> for Stop {
    fn from(fault: Fault) -> Stop {
        Stop::Refused(line_of(&Err(fault)))
    }
}

impl From<StateFault> for Stop {
    fn from(fault: StateFault) -> Stop {
        Stop::Refused(format!("docker: state refused: offset {}: {:?}\n", fault.at, fault.cause))
    }
}

/// What a command prints, or the new STATE.
enum Done {
    Printed(String),
    Kept(State),
}

/// Does what the words ask for. The files are in the order of the words.
fn perform<R: Read>(words: &[&str], files: Vec<R>) -> Result<Done, Stop> {
    let mut files = files.into_iter();
    let mut file = || files.next().expect("a file for each path");
    let day = |date: &str| fields::iso_number(date).expect("a date");
    Ok(match words {
        ["check", _] => Done::Printed(check(file())?),
        ["new", _] => Done::Kept(State::default()),
        ["day", _, place, date] => {
            let mut excerpt = Excerpt::of_file(code(place), day(date));
            extract::read(file(), &mut excerpt)?;
            Done::Printed(docker::docker(&excerpt.finish()))
        }
        ["print", _, place, date] => Done::Printed(print(file(), code(place), day(date))?),
        ["files", _] => Done::Printed(docker::files(&text::read(file(), Format::Dks2, &mut Nothing)?.1)),
        ["take", ..] => Done::Kept(take(file(), file())?),
        ["merge", ..] => {
            let mut state = own(file(), Format::Dks2)?;
            state.join(|table| text::read(file(), Format::Dks2, table))?;
            Done::Kept(state)
        }
        ["horizon", _, date] => {
            let mut state = own(file(), Format::Dks2)?;
            state.raise(day(date));
            Done::Kept(state)
        }
        ["migrate", _] => Done::Kept(own(file(), Format::Dks1)?),
        _ => return Err(Stop::Device(io::Error::other("no such command"))),
    })
}

/// A timing point's code in seven columns.
fn code(place: &str) -> [u8; 7] {
    let mut code = [b' '; 7];
    code[..place.len()].copy_from_slice(place.as_bytes());
    code
}

fn check(mut file: impl Read) -> Result<String, Stop> {
    let counts = judge_stream(&mut file, LIMIT)??;
    Ok(line_of(&Ok(counts)))
}

/// Reads the state whose text is in a file.
fn own(file: impl Read, format: Format) -> Result<State, Stop> {
    let mut state = State::default();
    (state.horizon, state.ledger) = text::read(file, format, &mut state.table)?;
    Ok(state)
}

fn take(state: impl Read, file: impl Read) -> Result<State, Stop> {
    let mut state = own(state, Format::Dks2)?;
    state.join(|table| {
        let item = extract::read(file, table)?;
        table.sort();
        Ok::<_, Stop>((0, vec![item]))
    })?;
    Ok(state)
}

/// The docker of a state. Refuses a day before the third day after the horizon.
fn print(file: impl Read, place: [u8; 7], day: u16) -> Result<String, Stop> {
    let mut excerpt = Excerpt::of_state(place, day);
    let (horizon, _) = text::read(file, Format::Dks2, &mut excerpt)?;
    if horizon > 0 && day < horizon + 3 {
        return Err(Stop::Refused("docker: day refused: before horizon plus three days\n".to_string()));
    }
    Ok(docker::docker(&excerpt.finish()))
}

/// The answer of a command, given the bytes of its files in the order of its words.
pub fn answer(words: &[&str], files: &[Vec<u8>]) -> Answer {
    match perform(words, files.iter().map(Vec::as_slice).collect()) {
        Ok(Done::Printed(output)) => Answer { output, ..Answer::default() },
        Ok(Done::Kept(state)) => {
            let mut text = Vec::new();
            state.write(&mut text).expect("memory takes each byte");
            Answer { state: Some(text), ..Answer::default() }
        }
        Err(Stop::Refused(errors)) => Answer { status: 1, errors, ..Answer::default() },
        Err(Stop::Device(error)) => Answer { status: 4, errors: format!("{error}\n"), ..Answer::default() },
    }
}

/// The paths of the files that a command reads.
fn paths<'a>(words: &[&'a str]) -> Vec<&'a str> {
    match words {
        ["take" | "merge", first, second] => vec![first, second],
        ["new", _] => Vec::new(),
        [_, path, ..] => vec![path],
        _ => Vec::new(),
    }
}

/// Does what the words ask for, and returns the exit status.
pub fn run(words: &[&str]) -> io::Result<u8> {
    let files = paths(words).iter().map(File::open).collect::<io::Result<Vec<_>>>()?;
    match perform(words, files) {
        Ok(Done::Printed(output)) => print!("{output}"),
        Ok(Done::Kept(state)) => replace(words[1], &state)?,
        Err(Stop::Device(error)) => return Err(error),
        Err(Stop::Refused(line)) => {
            eprint!("{line}");
            return Ok(1);
        }
    }
    Ok(0)
}

/// Writes a state beside its file, flushes it to the disk, and renames it over the file.
fn replace(path: &str, state: &State) -> io::Result<()> {
    let draft = format!("{path}.new");
    let mut out = BufWriter::with_capacity(1 << 16, File::create(&draft)?);
    state.write(&mut out)?;
    out.into_inner()?.sync_all()?;
    fs::rename(&draft, path)
}
