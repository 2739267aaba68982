//! Time and memory of an office's commands. They are compared with `wc -l` on the bytes that each
//! command reads, and with a plain program, which has to write the same bytes.

use crate::measure::{load, machine, run, Input, Spent};
use crate::office::{chosen, done, size_of, Command, Inputs};
use crate::statistics::Spread;
use std::fs;
use std::io::Result;

/// A command that is measured: its words, the state with which it starts, the files that it reads,
/// and what its runs took.
struct Job {
    name: &'static str,
    words: Vec<String>,
    before: Option<String>,
    reads: Vec<String>,
    /// The total size of the texts of the states that the command has in memory.
    held: u64,
    counting: Vec<f64>,
    /// The costs of each pair of runs: the program's, then the plain program's.
    pairs: Vec<[Cost; 2]>,
    /// How the two programs' answers differ, if they do.
    difference: Option<String>,
}

impl Job {
    fn new(command: &Command, inputs: &Inputs) -> Result<Job> {
        Ok(Job {
            name: command.name,
            words: inputs.meanings(command.words),
            before: command.before.map(|word| inputs.meaning(word).to_string()),
            reads: inputs.meanings(command.reads),
            held: size_of(&inputs.meanings(command.holds))?,
            counting: Vec::new(),
            pairs: Vec::new(),
            difference: None,
        })
    }
}

/// What one run cost.
struct Cost {
    seconds: f64,
    user: f64,
    system: f64,
    memory: u64,
}

impl Cost {
    fn of(spent: &Spent) -> Cost {
        Cost { seconds: spent.seconds, user: spent.user, system: spent.system, memory: spent.memory }
    }
}

/// The two programs, and how often they run.
pub struct Bench<'a> {
    pub program: &'a str,
    /// The words that start the plain program. The words of a command follow them.
    pub plain: &'a [&'a str],
    pub pairs: usize,
}

impl Bench<'_> {
    /// Prints the tables of the commands whose names contain one of the words, or of all commands if
    /// there are no words. Returns whether both programs gave the same answers. The states are left
    /// in the folder.
    pub fn tables(&self, extract: &str, update: &str, folder: &str, words: &[&str]) -> Result<bool> {
        println!("{}", machine());
        let inputs = Inputs::make(self.program, extract, update, folder)?;
        let mut jobs = chosen(words).map(|command| Job::new(command, &inputs)).collect::<Result<Vec<_>>>()?;
        for pair in 0..self.pairs {
            for job in &mut jobs {
                self.measure(job, &inputs.states.own, pair)?;
            }
        }
        self.print_inputs(&inputs)?;
        print_times(&jobs);
        print_memory(&jobs)?;
        let different: Vec<&Job> = jobs.iter().filter(|job| job.difference.is_some()).collect();
        for job in &different {
            eprintln!("bench: {}: {}", job.name, job.difference.as_deref().unwrap_or_default());
        }
        Ok(different.is_empty())
    }

    /// Runs both programs, which take turns at being first, and compares their answers. This process
    /// itself holds no state in memory, because the measured peak of a process is at least the
    /// memory of the process that started it.
    fn measure(&self, job: &mut Job, state: &str, pair: usize) -> Result<()> {
        if job.difference.is_some() {
            return Ok(());
        }
        let mut counting = 0.0;
        for path in &job.reads {
            counting += run(&["wc", "-l", path], Input::None)?.seconds;
        }
        let words: Vec<&str> = job.words.iter().map(String::as_str).collect();
        let answer = |starts: &[&str], left: &str| -> Result<Spent> {
            if let Some(before) = &job.before {
                fs::copy(before, state)?;
            }
            let spent = run(&[starts, &words].concat(), Input::None)?;
            if job.before.is_some() {
                fs::rename(state, left)?;
            }
            Ok(spent)
        };
        // Where the STATE is put that a program left.
        let [left, plain_left] = [format!("{state}.left"), format!("{state}.plain")];
        let (own, plain) = if pair % 2 == 0 {
            let own = answer(&[self.program], &left)?;
            (own, answer(self.plain, &plain_left)?)
        } else {
            let plain = answer(self.plain, &plain_left)?;
            (answer(&[self.program], &left)?, plain)
        };
        let same_state = job.before.is_none() || run(&["cmp", &left, &plain_left], Input::None)?.status == 0;
        job.difference = difference(&own, &plain, same_state);
        job.counting.push(counting);
        job.pairs.push([Cost::of(&own), Cost::of(&plain)]);
        Ok(())
    }

    fn print_inputs(&self, inputs: &Inputs) -> Result<()> {
        let Inputs { extract, states, place, date, .. } = inputs;
        let megabytes = |path: &str| fs::metadata(path).map(|about| about.len() as f64 / 1e6);
        let lines = done(&[self.program, "print", &states.full, place, date])?.output.lines().count();
        println!("afterwards {}; compared with `{}`", load(), self.plain.join(" "));
        println!(
            "extract {:.1} MB, its state {:.1} MB, the update's {:.1} MB; {place} on {date} has {} lines",
            megabytes(extract)?,
            megabytes(&states.full)?,
            megabytes(&states.update)?,
            lines.saturating_sub(2)
        );
        Ok(())
    }
}

/// How two answers differ to a command that has to succeed.
fn difference(own: &Spent, plain: &Spent, same_state: bool) -> Option<String> {
    for (name, spent) in [("the program", own), ("the plain program", plain)] {
        if (spent.status, &*spent.errors) != (0, "") {
            return Some(format!("{name} ended with {}: {}", spent.status, spent.errors.trim_end()));
        }
    }
    if own.output != plain.output {
        return Some("the two programs print different texts".to_string());
    }
    (!same_state).then(|| "the two programs leave different bytes in STATE".to_string())
}

/// The jobs whose answers were the same, each with its name in the table.
fn compared(jobs: &[Job]) -> impl Iterator<Item = &Job> {
    jobs.iter().filter(|job| job.difference.is_none() && !job.pairs.is_empty())
}

/// The median of a figure, and the spread of its ratios to the plain program's figure.
fn columns(job: &Job, figure: impl Fn(&Cost) -> f64) -> String {
    let pairs: Vec<[f64; 2]> = job.pairs.iter().map(|pair| pair.each_ref().map(&figure)).collect();
    let own: Vec<f64> = pairs.iter().map(|pair| pair[0]).collect();
    let ratio = Spread::of_ratios(&pairs).map_or("none".to_string(), |spread| spread.to_string());
    format!("{:.3} | {ratio}", median(&own))
}

fn median(values: &[f64]) -> f64 {
    Spread::of(values).map_or(f64::NAN, |spread| spread.median)
}

fn print_times(jobs: &[Job]) {
    println!("\n| Command | User, s | × plain | System, s | × plain | Both, s | × plain | Time, s | × plain |");
    println!("|---|---|---|---|---|---|---|---|---|");
    for job in compared(jobs) {
        let figures = [
            columns(job, |cost| cost.user),
            columns(job, |cost| cost.system),
            columns(job, |cost| cost.user + cost.system),
            columns(job, |cost| cost.seconds),
        ];
        println!("| {} | {} |", job.name, figures.join(" | "));
    }
}

fn print_memory(jobs: &[Job]) -> Result<()> {
    println!("\n| Command | MB/s read | × `wc -l` | Peak memory, MB | Plain, MB | × plain | × the states held |");
    println!("|---|---|---|---|---|---|---|");
    for job in compared(jobs) {
        let seconds = median(&job.pairs.iter().map(|pair| pair[0].seconds).collect::<Vec<f64>>());
        let greatest = |which: usize| job.pairs.iter().map(|pair| pair[which].memory).max().unwrap_or(0) as f64;
        let (memory, plain) = (greatest(0), greatest(1));
        println!(
            "| {} | {:.0} | {:.1} | {:.1} | {:.1} | {:.2} | {:.2} |",
            job.name,
            size_of(&job.reads)? as f64 / 1e6 / seconds,
            seconds / median(&job.counting),
            memory / 1e6,
            plain / 1e6,
            memory / plain,
            memory / job.held as f64,
        );
    }
    Ok(())
}
