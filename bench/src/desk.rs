//! Times of the program `desk`, which keeps a state in memory. They are compared with the times of
//! commands that read the state each time, and of calls to the library.

use crate::measure::{machine, run, Input, Spent};
use crate::random::Random;
use crate::state::{said_by, seconds};
use std::collections::HashMap;
use std::fs::{self, File};
use std::io::{BufRead, BufReader, Error, Read, Result, Write};
use std::process::{Child, ChildStdin, ChildStdout, Command, Stdio};
use std::time::Instant;

const ROUNDS: usize = 5;

/// How many of the busiest places have their dockers printed, one after another.
const PLACES: usize = 200;

/// The number of random requests, and the number of requests after which memory is measured for the
/// first time.
const REQUESTS: usize = 10_000;
const EARLY: usize = 100;

/// The programs that are measured.
pub struct Programs<'a> {
    pub docker: &'a str,
    pub desk: &'a str,
    pub state_times: &'a str,
    pub plain: &'a str,
}

/// The files of the programs. STATE is the state of the extract, OTHER is the state of its update,
/// and OWN is a copy of STATE that a command may write.
struct Files<'a> {
    update: &'a str,
    state: String,
    other: String,
    own: String,
}

/// A running desk.
struct Desk {
    process: Child,
    input: Option<ChildStdin>,
    output: BufReader<ChildStdout>,
}

/// An answer: its status, its text, and the seconds from the request to its last byte.
struct Answer {
    status: u8,
    text: Vec<u8>,
    seconds: f64,
}

impl Desk {
    fn start(words: &[&str]) -> Result<Desk> {
        let mut process = Command::new(words[0]).args(&words[1..]).stdin(Stdio::piped()).stdout(Stdio::piped()).spawn()?;
        let input = process.stdin.take();
        let output = process.stdout.take().ok_or_else(|| Error::other("the desk has no output"))?;
        Ok(Desk { process, input, output: BufReader::with_capacity(1 << 16, output) })
    }

    /// Sends a request, and reads its answer by the answer's header.
    fn ask(&mut self, request: &str) -> Result<Answer> {
        let began = Instant::now();
        let input = self.input.as_mut().ok_or_else(|| Error::other("the desk's input is closed"))?;
        input.write_all(format!("{request}\n").as_bytes())?;
        let mut header = String::new();
        self.output.read_line(&mut header)?;
        let bad = || Error::other(format!("{request}: {header:?} is no header"));
        let numbers: Vec<usize> = header
            .trim_end()
            .split(' ')
            .map(|number| number.parse())
            .collect::<std::result::Result<_, _>>()
            .map_err(|_| bad())?;
        let [status, lines, bytes] = numbers[..] else { return Err(bad()) };
        let mut text = vec![0; bytes];
        self.output.read_exact(&mut text)?;
        let seconds = began.elapsed().as_secs_f64();
        if text.iter().filter(|&&byte| byte == b'\n').count() != lines {
            return Err(bad());
        }
        Ok(Answer { status: status as u8, text, seconds })
    }

    /// Sends a request that has to succeed.
    fn ask_done(&mut self, request: &str) -> Result<Answer> {
        let answer = self.ask(request)?;
        match answer.status {
            0 => Ok(answer),
            status => Err(Error::other(format!("{request}: status {status}, {}", String::from_utf8_lossy(&answer.text)))),
        }
    }

    /// The number of bytes of resident memory: now, and at its peak so far.
    fn memory(&self) -> Result<[u64; 2]> {
        let text = fs::read_to_string(format!("/proc/{}/status", self.process.id()))?;
        let of = |name: &str| {
            let line = text.lines().find_map(|line| line.strip_prefix(name))?;
            Some(line.trim().strip_suffix(" kB")?.parse::<u64>().ok()? * 1024)
        };
        of("VmRSS:").zip(of("VmHWM:")).map(|(now, most)| [now, most]).ok_or_else(|| Error::other("the system tells no memory"))
    }

    /// The processor seconds that the process has used so far. It has one thread.
    fn processor(&self) -> Result<f64> {
        let text = fs::read_to_string(format!("/proc/{}/schedstat", self.process.id()))?;
        let nanos = text.split(' ').next().and_then(|number| number.parse::<f64>().ok());
        nanos.map(|nanos| nanos / 1e9).ok_or_else(|| Error::other("the system tells no processor time"))
    }

    /// Ends the input, and waits until the process ends.
    fn end(mut self) -> Result<i32> {
        drop(self.input.take());
        Ok(self.process.wait()?.code().unwrap_or(-1))
    }
}

/// The subjects of requests: the places, some UIDs and the day. The places that the most records
/// name come first.
struct Subjects {
    places: Vec<String>,
    uids: Vec<String>,
    day: String,
}

fn subjects(extract: &str, day: &str) -> Result<Subjects> {
    let mut counts: HashMap<String, usize> = HashMap::new();
    let mut uids = Vec::new();
    for line in BufReader::new(File::open(extract)?).split(b'\n') {
        let line = String::from_utf8(line?).map_err(Error::other)?;
        match line.get(..2) {
            Some("LO" | "LI" | "LT") => *counts.entry(line[2..9].trim_end().to_string()).or_default() += 1,
            Some("BS") if uids.last().map(String::as_str) != line.get(3..9) => uids.push(line[3..9].to_string()),
            _ => {}
        }
    }
    let mut places: Vec<(usize, String)> = counts.into_iter().map(|(place, count)| (count, place)).collect();
    places.sort_by(|one, other| other.0.cmp(&one.0).then_with(|| one.1.cmp(&other.1)));
    Ok(Subjects { places: places.into_iter().map(|(_, place)| place).collect(), uids, day: day.to_string() })
}

/// Random requests: dockers and trains of random places, UIDs and days, the list of files, and
/// requests that are refused. The days are the fortnight from the extract's day on.
fn random_requests(subjects: &Subjects, seed: u64) -> Vec<String> {
    let mut random = Random::of(&[seed, 77]);
    let one = |random: &mut Random| {
        let date = format!("2024-06-{:02}", random.range(9, 22));
        match random.below(100) {
            0..=46 => format!("print {} {date}", random.pick(&subjects.places)),
            47..=93 => format!("train {} {date}", random.pick(&subjects.uids)),
            94..=96 => "files".to_string(),
            97 => format!("print {} 2024-02-30", random.pick(&subjects.places)),
            98 => "print NOWHERE 2024-06-12".to_string(),
            _ => "take x".to_string(),
        }
    };
    (0..REQUESTS).map(|_| one(&mut random)).collect()
}

/// Times by the clock and on the processor, a pair for each round.
#[derive(Default)]
struct Times(Vec<[f64; 2]>);

impl Times {
    /// The least time by the clock, and the least on the processor.
    fn best(&self) -> [f64; 2] {
        [0, 1].map(|at| self.0.iter().map(|pair| pair[at]).fold(f64::INFINITY, f64::min))
    }
}

/// The least of some times.
fn best(times: &[f64]) -> f64 {
    times.iter().copied().fold(f64::INFINITY, f64::min)
}

/// Prints a row of a table: a time, and its ratio to each of some other times.
fn row(what: &str, seconds: f64, beside: &[f64]) {
    let ratios: String = beside.iter().map(|other| format!(" {:.2} |", seconds / other)).collect();
    println!("| {what} | {seconds:.4} |{ratios}");
}

/// Prints the tables for an extract and an update of it, on a day.
pub fn tables(programs: &Programs, extract: &str, update: &str, folder: &str, day: &str, seed: u64) -> Result<()> {
    let path = |name: &str| format!("{folder}/{name}.state");
    let files = Files { update, state: path("full"), other: path("update"), own: path("own") };
    for (state, file) in [(&files.state, extract), (&files.other, update)] {
        done(&[programs.docker, "new", state])?;
        done(&[programs.docker, "take", state, file])?;
    }
    let subjects = subjects(extract, day)?;
    let size = |path: &str| Ok::<_, Error>(fs::metadata(path)?.len() as f64 / 1e6);
    println!("{}", machine());
    println!(
        "\nextract {:.1} MB, its state {:.1} MB, the update's {:.1} MB; {day}\n",
        size(extract)?,
        size(&files.state)?,
        size(&files.other)?
    );
    first_answers(programs, &files, &subjects)?;
    details(programs, &files, &subjects)?;
    random_answers(programs, &files, &subjects, seed)?;
    takes(programs, &files)
}

/// Measures the first answer of a desk. Compares it with the commands that print the same, and with
/// the library's reading of the whole state. Then measures the dockers of the busiest places.
fn first_answers(programs: &Programs, files: &Files, subjects: &Subjects) -> Result<()> {
    let Subjects { places, day, .. } = subjects;
    let place = places.first().ok_or_else(|| Error::other("the extract has no location"))?;
    let (mut first, mut busiest, mut reading) = (Times::default(), Times::default(), Times::default());
    let mut prints = [Times::default(), Times::default()];
    let mut lines = 0;
    for _ in 0..ROUNDS {
        let began = Instant::now();
        let mut desk = Desk::start(&[programs.desk, &files.state])?;
        let answer = desk.ask_done(&format!("print {place} {day}"))?;
        let processor = desk.processor()?;
        first.0.push([began.elapsed().as_secs_f64(), processor]);
        let began = Instant::now();
        lines = 0;
        for place in places.iter().take(PLACES) {
            let text = desk.ask_done(&format!("print {place} {day}"))?.text;
            lines += text.iter().filter(|&&byte| byte == b'\n').count() - 2;
        }
        busiest.0.push([began.elapsed().as_secs_f64(), desk.processor()? - processor]);
        if desk.end()? != 0 {
            return Err(Error::other("a desk didn't end with 0"));
        }
        let words: [&[&str]; 2] = [&[programs.docker], &[programs.plain, "plain"]];
        for (program, times) in words.iter().zip(&mut prints) {
            let spent = done(&[program, &["print", &*files.state, place, day][..]].concat())?;
            if spent.output.as_bytes() != answer.text {
                return Err(Error::other("the desk prints another docker"));
            }
            times.0.push([spent.seconds, spent.processor()]);
        }
        let spent = run(&[programs.state_times, "read", &files.state], Input::None)?;
        reading.0.push([time_of(said_by(&spent)?, "reading the text")?, spent.processor()]);
    }
    println!("The least of {ROUNDS} runs in turn; {place} is the busiest place.\n");
    println!("| What | Time, s | Processor, s | × `docker print` | × the library |\n|---|---|---|---|---|");
    let beside = [prints[0].best()[1], reading.best()[1]];
    let row = |what: &str, times: &Times| {
        let [seconds, processor] = times.best();
        let [print, library] = beside.map(|other| processor / other);
        println!("| {what} | {seconds:.4} | {processor:.4} | {print:.2} | {library:.2} |");
    };
    row("`docker print` of the busiest place, which keeps an excerpt", &prints[0]);
    row("plain program, the same", &prints[1]);
    row("library: reading the whole state", &reading);
    row("desk: from its start to the end of its first answer, the same docker", &first);
    row(&format!("desk: then the dockers of the {} busiest places, {lines} lines", places.len().min(PLACES)), &busiest);
    Ok(())
}

/// The first 56 columns of each line of a detailed docker: the docker.
fn docker_of(detailed: &[u8]) -> Vec<u8> {
    let lines = detailed.split(|&byte| byte == b'\n').filter(|line| !line.is_empty());
    lines.flat_map(|line| line.iter().take(56).copied().chain([b'\n'])).collect()
}

/// Measures the detailed docker of each of the busiest places beside its docker, in turn. Both have
/// to have the same docker.
fn details(programs: &Programs, files: &Files, subjects: &Subjects) -> Result<()> {
    let Subjects { places, day, .. } = subjects;
    let mut desk = Desk::start(&[programs.desk, &files.state])?;
    let mut columns = [Vec::new(), Vec::new(), Vec::new()];
    for place in places.iter().take(PLACES) {
        let mut least = [f64::INFINITY; 2];
        for _ in 0..ROUNDS {
            let plain = desk.ask_done(&format!("print {place} {day}"))?;
            let detailed = desk.ask_done(&format!("detail {place} {day}"))?;
            if docker_of(&detailed.text) != plain.text {
                return Err(Error::other(format!("{place}: the detailed docker has another docker")));
            }
            least = [least[0].min(plain.seconds), least[1].min(detailed.seconds)];
        }
        columns[0].push(least[0] * 1e3);
        columns[1].push(least[1] * 1e3);
        columns[2].push(least[1] / least[0]);
    }
    desk.end()?;
    println!("\nThe {} busiest places, the least of {ROUNDS} requests in turn for each\n", columns[0].len());
    println!("| What | Median | 99 of 100 |\n|---|---|---|");
    for (what, times) in ["`print`, ms", "`detail`, ms", "`detail` × `print` of the same place"].iter().zip(&mut columns) {
        times.sort_by(f64::total_cmp);
        let part = |hundredths: usize| times[(times.len() - 1) * hundredths / 100];
        println!("| {what} | {:.3} | {:.3} |", part(50), part(99));
    }
    Ok(())
}

/// Measures the times of random requests to one desk. Also measures the desk's memory after the
/// first requests, and after all of them.
fn random_answers(programs: &Programs, files: &Files, subjects: &Subjects, seed: u64) -> Result<()> {
    let mut desk = Desk::start(&[programs.desk, &files.state])?;
    desk.ask_done("files")?;
    let (mut times, mut memory) = (Vec::new(), Vec::new());
    let mut slowest = (0.0, String::new());
    for (number, request) in random_requests(subjects, seed).into_iter().enumerate() {
        if number == EARLY {
            memory.push(desk.memory()?);
        }
        let answer = desk.ask(&request)?;
        if answer.status > 2 {
            return Err(Error::other(format!("{request}: status {}", answer.status)));
        }
        times.push(answer.seconds);
        if answer.seconds > slowest.0 {
            slowest = (answer.seconds, format!("{request}, {} bytes", answer.text.len()));
        }
    }
    memory.push(desk.memory()?);
    desk.end()?;
    times.sort_by(f64::total_cmp);
    let millis = |part: usize| times[(times.len() - 1) * part / 1000] * 1e3;
    println!("\n{REQUESTS} random requests, each sent when the answer before it is read (`{}` is the slowest)\n", slowest.1);
    println!("| Median, ms | 99 of 100, ms | 999 of 1,000, ms | Slowest, ms | All, s |\n|---|---|---|---|---|");
    println!(
        "| {:.3} | {:.3} | {:.3} | {:.3} | {:.3} |",
        millis(500),
        millis(990),
        millis(999),
        millis(1000),
        times.iter().sum::<f64>()
    );
    println!("\n| Resident memory, MB | Now | Most so far |\n|---|---|---|");
    for (after, [now, most]) in [EARLY, REQUESTS].iter().zip(memory) {
        println!("| after {after} requests | {:.2} | {:.2} |", now as f64 / 1e6, most as f64 / 1e6);
    }
    Ok(())
}

/// Measures `take` of the update by a desk, and compares it with calls to the library and with the
/// commands. All have to leave the same state.
fn takes(programs: &Programs, files: &Files) -> Result<()> {
    let Files { update, state, other, own } = files;
    let (mut taken, mut joins, mut making) = (Vec::new(), Vec::new(), Vec::new());
    let mut commands = [Vec::new(), Vec::new()];
    let wanted = format!("{own}.wanted");
    for _ in 0..ROUNDS {
        let words: [&[&str]; 2] = [&[programs.docker], &[programs.plain, "plain"]];
        for (program, times) in words.iter().zip(&mut commands) {
            fs::copy(state, &wanted)?;
            times.push(done(&[program, &["take", &*wanted, update][..]].concat())?.seconds);
        }
        fs::copy(state, own)?;
        let mut desk = Desk::start(&[programs.desk, "--write", own])?;
        desk.ask_done("files")?;
        taken.push(desk.ask_done(&format!("take {update}"))?.seconds);
        desk.ask_done("save")?;
        if desk.end()? != 0 || run(&["cmp", own, &wanted], Input::None)?.status != 0 {
            return Err(Error::other("the desk saves another state"));
        }
        let said = run(&[programs.state_times, "join", state, other], Input::None)?;
        joins.push(time_of(said_by(&said)?, "the join")?);
        let said = run(&[programs.state_times, "make", update, "/dev/null"], Input::None)?;
        let said = said_by(&said)?;
        making.push(time_of(said, "reading the extract")? + time_of(said, "state of the extract")?);
    }
    let (join, make) = (best(&joins), best(&making));
    println!("\n| `take` of the update, the best of {ROUNDS} runs in turn | Time, s | × the join | × both |\n|---|---|---|---|");
    let beside = [join, make + join];
    row("library: joining both states", join, &beside);
    row("library: reading the update, making its state, and joining both", make + join, &beside);
    row("desk: `take`", best(&taken), &beside);
    row("`docker take`, which reads and writes STATE", best(&commands[0]), &beside);
    row("plain program, the same", best(&commands[1]), &beside);
    Ok(())
}

fn time_of(said: &str, stage: &str) -> Result<f64> {
    seconds(said, stage).ok_or_else(|| Error::other(format!("no time printed for {stage}")))
}

/// Runs a command that has to succeed.
fn done(words: &[&str]) -> Result<Spent> {
    let spent = run(words, Input::None)?;
    match spent.status {
        0 => Ok(spent),
        status => Err(Error::other(format!("{words:?} ended with {status}: {}", spent.errors))),
    }
}
