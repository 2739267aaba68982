//! How the time of each command grows with hostile shapes. If twice the rows take far more than
//! twice the time, the work grows with the square of the number of rows.

pub mod shapes;

use crate::measure::{machine, run, Input};
use crate::plain;
use shapes::{ledger, Makes, Shape, DATE, HORIZON, PLACE, SHAPES};
use std::collections::HashSet;
use std::fs;
use std::io::{Error, Result};

/// The greatest ratio that passes.
const RATIO: f64 = 2.6;

/// The processor seconds that the smaller number of rows should take, and the seconds below which
/// no ratio is printed.
const WANTED: f64 = 0.03;
const FLOOR: f64 = 0.02;

/// How often each command is measured. If the ratio is too great, it is measured again, at most
/// `MOST_ROUNDS` times in all, because other work on the machine can double a time.
const ROUNDS: usize = 2;
const MOST_ROUNDS: usize = 6;

/// A command: the state that STATE holds before it, and its words.
struct Command {
    name: &'static str,
    before: Option<&'static str>,
    words: &'static [&'static str],
}

const COMMANDS: &[Command] = &[
    command("`check`", None, &["check", "FILE"]),
    command("`day`", None, &["day", "FILE", PLACE, DATE]),
    command("`take` by an office that knows nothing", Some("EMPTY"), &["take", "STATE", "FILE"]),
    command("`take` of the same file again", Some("FULL"), &["take", "STATE", "FILE"]),
    command("`take` of a newer file", Some("FULL"), &["take", "STATE", "NEWER"]),
    command("`merge` of a newer state", Some("FULL"), &["merge", "STATE", "NEXT"]),
    command("`merge` with nothing new", Some("FULL"), &["merge", "STATE", "FULL"]),
    command("`print`", None, &["print", "FULL", PLACE, DATE]),
    command("`files`", None, &["files", "FULL"]),
    command("`horizon`", Some("FULL"), &["horizon", "STATE", HORIZON]),
    command("`migrate`", Some("OLD"), &["migrate", "STATE"]),
];

const fn command(name: &'static str, before: Option<&'static str>, words: &'static [&'static str]) -> Command {
    Command { name, before, words }
}

/// The files of a shape, in the sizes that were needed.
struct Folder<'a> {
    shape: &'a Shape,
    path: &'a str,
    made: HashSet<usize>,
}

impl Folder<'_> {
    /// The path of the file that a word names. Other words are unchanged.
    fn path(&self, word: &str, rows: usize) -> String {
        match word {
            "STATE" => format!("{}/own.state", self.path),
            "EMPTY" | "FILE" | "NEWER" | "FULL" | "NEXT" | "OLD" => format!("{}/{rows}.{word}", self.path),
            word => word.to_string(),
        }
    }

    /// Makes the files with which the commands start, with this many rows.
    fn make(&mut self, rows: usize) -> Result<()> {
        if !self.made.insert(rows) {
            return Ok(());
        }
        let states = match self.shape.makes {
            Makes::File(_) => [self.taken("FILE", rows)?, self.taken("NEWER", rows)?],
            Makes::Ledger => {
                self.shape.write(rows, true, &self.path("NEWER", rows))?;
                [ledger(rows, false), ledger(rows, true)]
            }
        };
        fs::write(self.path("EMPTY", rows), EMPTY)?;
        fs::write(self.path("OLD", rows), [b"DKS1", &states[0][6..]].concat())?;
        fs::write(self.path("FULL", rows), &states[0])?;
        fs::write(self.path("NEXT", rows), &states[1])
    }

    /// Makes a file, and returns the state that the plain program makes from it.
    fn taken(&self, word: &str, rows: usize) -> Result<Vec<u8>> {
        let path = self.path(word, rows);
        self.shape.write(rows, word == "NEWER", &path)?;
        let answer = plain::answer(&["take", "STATE", "FILE"], &[EMPTY.to_vec(), fs::read(path)?]);
        answer.state.ok_or_else(|| Error::other(format!("{}: {}", self.shape.name, answer.errors)))
    }

    /// The processor seconds of a command on this many rows, and its output.
    fn seconds(&mut self, program: &[&str], command: &Command, rows: usize) -> Result<(f64, String)> {
        self.make(rows)?;
        let own = self.path("STATE", rows);
        if let Some(before) = command.before {
            fs::copy(self.path(before, rows), own)?;
        }
        let words: Vec<String> = command.words.iter().map(|word| self.path(word, rows)).collect();
        let words: Vec<&str> = program.iter().copied().chain(words.iter().map(String::as_str)).collect();
        let spent = run(&words, Input::None)?;
        match (spent.status, &*spent.errors) {
            (0, "") => Ok((spent.processor(), spent.output)),
            (status, errors) => Err(Error::other(format!("{}: {words:?} ended with {status}: {errors}", self.shape.name))),
        }
    }

    /// A number of rows on which a command takes long enough to be measured. If no number that is
    /// tried is large enough, this is the greatest number of rows of the shape.
    fn rows(&mut self, program: &[&str], command: &Command) -> Result<usize> {
        let mut rows = self.shape.least;
        loop {
            let (first, second) = (self.seconds(program, command, rows)?.0, self.seconds(program, command, rows)?.0);
            let seconds = first.min(second);
            if seconds >= WANTED || rows >= self.shape.most {
                return Ok(rows);
            }
            let times = (WANTED / seconds.max(0.001)).clamp(2.0, 8.0) as usize;
            rows = (rows * times.next_power_of_two()).min(self.shape.most);
        }
    }

    /// The shortest processor times in several rounds, with this many rows and with twice as many.
    fn growth(&mut self, program: &[&str], command: &Command, rows: usize) -> Result<[f64; 2]> {
        let mut least = [f64::INFINITY; 2];
        for round in 0..MOST_ROUNDS {
            if round >= ROUNDS && least[1] <= RATIO * least[0] {
                break;
            }
            for (seconds, rows) in least.iter_mut().zip([rows, 2 * rows]) {
                *seconds = seconds.min(self.seconds(program, command, rows)?.0);
            }
        }
        Ok(least)
    }

    /// Whether both programs print the same, and leave the same STATE.
    fn agree(&mut self, programs: [&[&str]; 2], command: &Command, rows: usize) -> Result<()> {
        let mut said = Vec::new();
        for program in programs {
            let (_, output) = self.seconds(program, command, rows)?;
            let left = command.before.map(|_| fs::read(self.path("STATE", rows))).transpose()?;
            said.push((output, left));
        }
        match said[0] == said[1] {
            true => Ok(()),
            false => Err(Error::other(format!("{}, {}: the plain program gives other bytes", self.shape.name, command.name))),
        }
    }

    /// Whether the shape has the files that a command reads.
    fn has(&self, command: &Command) -> bool {
        matches!(self.shape.makes, Makes::File(_)) || !command.words.contains(&"FILE")
    }
}

/// The text of the state of an office that knows nothing.
const EMPTY: &[u8] = b"DKS2\0\0\0\0\0\0\0\0\0\0\0\0\0\0\0\0\0\0";

/// Prints a table for each shape whose name contains one of these words, or for all shapes if there
/// are no words. Returns whether no command's time grows too fast.
pub fn tables(program: &str, path: &str, words: &[&str]) -> Result<bool> {
    let plain = std::env::current_exe()?;
    let plain = plain.to_str().ok_or_else(|| Error::other("this program's path isn't text"))?;
    println!("{}; milliseconds on a processor, the least of {ROUNDS} runs or more", machine());
    let mut over = Vec::new();
    let asked = |shape: &&Shape| words.is_empty() || words.iter().any(|word| shape.name.contains(word));
    for shape in SHAPES.iter().filter(asked) {
        println!("\n{}\n", shape.name);
        println!("| Command | Rows | ms | Twice the rows | Ratio | plain, ms | Twice the rows | Ratio |\n|---|---|---|---|---|---|---|---|");
        let mut folder = Folder { shape, path, made: HashSet::new() };
        for command in COMMANDS.iter().filter(|command| folder.has(command)).collect::<Vec<_>>() {
            if !row(&mut folder, [&[program], &[plain, "plain"]], command)? {
                over.push(format!("{}: {}", shape.name, command.name));
            }
        }
        fs::remove_dir_all(path)?;
        fs::create_dir(path)?;
    }
    println!("\ncommands that took more than {RATIO} times the time for twice the rows: {}", over.len());
    over.iter().for_each(|name| println!("- {name}"));
    Ok(over.is_empty())
}

/// Prints the row of a command. Returns whether the program's time grows slowly enough.
fn row(folder: &mut Folder, programs: [&[&str]; 2], command: &Command) -> Result<bool> {
    let mut rows = folder.rows(programs[0], command)?;
    folder.agree(programs, command, rows)?;
    let mut own = folder.growth(programs[0], command, rows)?;
    while own[0] < FLOOR && rows < folder.shape.most {
        rows *= 2;
        own = folder.growth(programs[0], command, rows)?;
    }
    // If the ratio is too great, the command is measured again with twice the rows. A busy moment
    // of the machine doesn't recur then. Nor does a step in the time, for example when an allocator
    // begins to ask the system for each block.
    if own[1] > RATIO * own[0] {
        rows *= 2;
        own = folder.growth(programs[0], command, rows)?;
    }
    let plain = folder.growth(programs[1], command, rows)?;
    let ms = |seconds: f64| format!("{:.1}", seconds * 1000.0);
    let ratio = |[one, two]: [f64; 2]| match one < FLOOR {
        true => "too short".to_string(),
        false if two > RATIO * one => format!("**{:.2}**", two / one),
        false => format!("{:.2}", two / one),
    };
    println!(
        "| {} | {rows} | {} | {} | {} | {} | {} | {} |",
        command.name,
        ms(own[0]),
        ms(own[1]),
        ratio(own),
        ms(plain[0]),
        ms(plain[1]),
        ratio(plain),
    );
    Ok(own[0] < FLOOR || own[1] <= RATIO * own[0])
}
