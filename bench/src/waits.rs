//! Loads for which a program waits. `perf` interrupts the program many times a second, and notes at
//! which instruction the program was. An interrupt comes right after the instruction for which the
//! processor waited. So the samples of a wait for a load are at the next instruction.

use crate::measure::{load, machine, run, Input};
use crate::office::{chosen, done, Inputs};
use std::collections::HashSet;
use std::fs;
use std::io::{Error, Result};

/// How often `perf` takes a sample, per second.
const RATE: &str = "15000";

/// A function is hot if it has this part of the program's samples.
const HOT: f64 = 0.01;

/// A load is listed if it has more than this part of its function's samples.
const LISTED: f64 = 0.05;

/// A function's instructions, with the samples at each of them.
pub struct Function {
    pub name: String,
    pub samples: f64,
    pub code: Vec<Instruction>,
}

pub struct Instruction {
    pub address: String,
    pub text: String,
    /// Which part of the function's samples is at this instruction.
    pub share: f64,
}

/// A load, and which part of its function's samples is right after it.
#[derive(Debug, PartialEq)]
pub struct Wait {
    pub address: String,
    pub load: String,
    pub share: f64,
    /// Whether a jump of the function leads to the next instruction. Then the samples may also belong
    /// to the jump.
    pub is_jumped_to: bool,
}

impl Function {
    /// The loads with more than this part of the function's samples, the greatest part first.
    pub fn waits(&self, least: f64) -> Vec<Wait> {
        let targets: HashSet<&str> = self.code.iter().filter_map(|it| target(&it.text)).collect();
        let mut waits = Vec::new();
        for pair in self.code.windows(2) {
            let [load, next] = pair else { continue };
            if next.share > least && is_load(&load.text) {
                let is_jumped_to = targets.contains(&*next.address);
                waits.push(Wait { address: load.address.clone(), load: load.text.clone(), share: next.share, is_jumped_to });
            }
        }
        waits.sort_by(|one, other| other.share.total_cmp(&one.share));
        waits
    }
}

/// Reads what `perf annotate --stdio` prints.
pub fn functions(annotated: &str) -> Vec<Function> {
    let mut functions: Vec<Function> = Vec::new();
    for line in annotated.lines() {
        if let Some((_, about)) = line.split_once("Disassembly of ") {
            let samples = about.split_once('(').and_then(|(_, text)| text.split(' ').next()?.parse().ok());
            if let Some(samples) = samples {
                functions.push(Function { name: String::new(), samples, code: Vec::new() });
            }
            continue;
        }
        let Some(function) = functions.last_mut() else { continue };
        let parts: Vec<&str> = line.splitn(3, ':').map(str::trim).collect();
        match *parts {
            [share, address, text] if share.parse::<f64>().is_ok() => {
                let share = share.parse().unwrap_or(0.0) / 100.0;
                // The comment names the address that an operand means.
                let text = text.split(" # ").next().unwrap_or(text).split_whitespace().collect::<Vec<_>>().join(" ");
                function.code.push(Instruction { address: address.to_string(), text, share });
            }
            _ if function.name.is_empty() && line.ends_with(">:") => {
                function.name = line.split_once('<').map_or("", |(_, name)| &name[..name.len() - 2]).to_string();
            }
            _ => {}
        }
    }
    functions
}

/// The address to which a jump leads.
fn target(instruction: &str) -> Option<&str> {
    let (name, operands) = instruction.split_once(' ')?;
    name.starts_with('j').then(|| operands.split(' ').next())?
}

/// Whether an instruction loads from memory. The source operands come first, and the target is the
/// last one.
pub fn is_load(instruction: &str) -> bool {
    const PREFIXES: [&str; 6] = ["lock", "rep", "repz", "repnz", "data16", "cs"];
    const NO_LOADS: [&str; 7] = ["lea", "nop", "prefetch", "call", "j", "ret", "xbegin"];
    const STORES: [&str; 7] = ["mov", "vmov", "set", "st", "pextr", "vpextr", "vextract"];
    let words: Vec<&str> = instruction.split(' ').skip_while(|word| PREFIXES.contains(word)).collect();
    let [name, operands @ ..] = &words[..] else { return false };
    let starts = |names: &[&str]| names.iter().any(|it| name.starts_with(it));
    let operands = operands_of(&operands.join(" "));
    let Some((last, sources)) = operands.split_last() else { return false };
    !starts(&NO_LOADS) && (sources.iter().any(|it| is_memory(it)) || is_memory(last) && !starts(&STORES))
}

/// The operands, which are separated by the commas outside parentheses.
fn operands_of(text: &str) -> Vec<String> {
    let mut operands = vec![String::new()];
    let mut depth = 0;
    for letter in text.chars() {
        depth += i32::from(letter == '(') - i32::from(letter == ')');
        match operands.last_mut() {
            Some(operand) if letter != ',' || depth > 0 => operand.push(letter),
            _ => operands.push(String::new()),
        }
    }
    operands.retain(|operand| !operand.is_empty());
    operands
}

/// An address in registers, or an address in a segment, such as `%fs:0x28`.
fn is_memory(operand: &str) -> bool {
    operand.contains('(') || operand.starts_with("%fs:") || operand.starts_with("%gs:")
}

/// The samples of a run.
struct Samples {
    all: f64,
    functions: Vec<Function>,
}

/// Records a run of a command that has to succeed, and reads the samples of its own code. At least
/// half of them have to be in functions whose names are known.
fn record(words: &[&str], folder: &str) -> Result<Samples> {
    let (data, symbols) = (format!("{folder}/samples"), format!("{folder}/symbols"));
    let perf = |words: &[&str]| -> Result<String> {
        let spent = run(&[&["perf", "--buildid-dir", &symbols], words].concat(), Input::None)?;
        match spent.status {
            0 => Ok(spent.output),
            status => Err(Error::other(format!("perf {} ended with {status}: {}", words[0], spent.errors.trim_end()))),
        }
    };
    let start = ["record", "--quiet", "-F", RATE, "-e", "cpu-clock:u", "-o", &data, "--"];
    perf(&[&start[..], words].concat())?;
    let all = samples(&perf(&["report", "--stdio", "--quiet", "-n", "--sort", "dso", "-i", &data])?);
    let functions = functions(&perf(&["annotate", "--stdio", "--stdio-color", "never", "--no-source", "-i", &data])?);
    let named: f64 = functions.iter().map(|function| function.samples).sum();
    if named < all / 2.0 {
        return Err(Error::other(format!("{}: the symbols of most functions are missing", words[0])));
    }
    Ok(Samples { all, functions })
}

/// Reads what `perf report` prints for each program and library: a percentage, the number of samples,
/// and a name.
fn samples(report: &str) -> f64 {
    report.lines().filter_map(|line| line.split_whitespace().nth(1)?.parse::<f64>().ok()).sum()
}

/// Finds out whether this machine's samples show a wait. The planted program has two functions,
/// which store two words in turn and load one. In `spanning` the load spans the two words, and in
/// `fitting` it doesn't.
fn check_planted(planted: &str, folder: &str) -> Result<()> {
    let functions = record(&[planted], folder)?.functions;
    let [spanning, fitting] = ["spanning", "fitting"].map(|name| functions.iter().find(|it| it.name == name));
    let waits = spanning.map_or(Vec::new(), |function| function.waits(LISTED));
    let (Some(first), Some(spanning), Some(fitting)) = (waits.first(), spanning, fitting) else {
        return Err(Error::other("the planted wait isn't found, so the samples of this machine show no waits"));
    };
    println!(
        "planted wait: {:.0} percent of the samples of `spanning` are after `{}`; it took {:.1} times as long as `fitting`",
        first.share * 100.0,
        first.load,
        spanning.samples / fitting.samples
    );
    Ok(())
}

/// Lists the loads for which the commands wait whose names contain one of the words, or all commands
/// if there are no words.
pub fn tables(program: &str, [extract, update]: [&str; 2], folder: &str, planted: &str, words: &[&str]) -> Result<()> {
    println!("{}", machine());
    check_planted(planted, folder)?;
    let inputs = Inputs::make(program, extract, update, folder)?;
    for command in chosen(words) {
        let words = inputs.meanings(command.words);
        let words: Vec<&str> = [program].into_iter().chain(words.iter().map(String::as_str)).collect();
        let start = || command.before.map_or(Ok(0), |before| fs::copy(inputs.meaning(before), &inputs.states.own));
        // The first run finds faults, and loads the files into the page cache.
        start()?;
        done(&words)?;
        start()?;
        print(command.name, &record(&words, folder)?);
    }
    println!("\nafterwards {}", load());
    Ok(())
}

/// Prints the waits of the hot functions, the longest first.
fn print(name: &str, Samples { all, functions }: &Samples) {
    println!("\n{name}: {all} samples\n");
    println!("| Function | Load | Percent of the function | Percent of all samples | Also jumped to |");
    println!("|---|---|---|---|---|");
    let hot = functions.iter().filter(|function| function.samples >= HOT * all);
    let mut rows: Vec<_> =
        hot.flat_map(|function| function.waits(LISTED).into_iter().map(move |wait| (function, wait))).collect();
    let part = |(function, wait): &(&Function, Wait)| wait.share * function.samples / all;
    rows.sort_by(|one, other| part(other).total_cmp(&part(one)));
    for row in rows {
        let (percent, (Function { name, .. }, wait)) = (100.0 * part(&row), &row);
        let jumped = if wait.is_jumped_to { "yes" } else { "" };
        println!("| `{name}` | `{}: {}` | {:.1} | {percent:.1} | {jumped} |", wait.address, wait.load, 100.0 * wait.share);
    }
}
