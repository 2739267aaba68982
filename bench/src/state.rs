//! Time and memory of calls on states, measured by the program `state_times`.

use crate::measure::{machine, run, Input, Spent};
use std::collections::HashMap;
use std::fs::{self, File};
use std::io::{BufRead, BufReader, Error, Result};

const ROUNDS: usize = 5;

/// A stage: its name in the table, and its name in the program's output on standard error.
struct Stage {
    name: &'static str,
    said: &'static str,
    /// Whether its speed is in bytes of the text, instead of the extract.
    of_text: bool,
    best: f64,
}

/// A run of the program, its stages, and the size of the states that it has in memory.
struct Job<'a> {
    name: &'static str,
    words: Vec<&'a str>,
    stages: Vec<Stage>,
    states: u64,
    memory: u64,
}

fn stage(name: &'static str, said: &'static str, of_text: bool) -> Stage {
    Stage { name, said, of_text, best: f64::INFINITY }
}

/// Prints the table for an extract and an update of it. The texts of their states are left in the
/// folder.
pub fn table(program: &str, extract: &str, update: &str, folder: &str) -> Result<()> {
    let (text, other) = (format!("{folder}/full.state"), format!("{folder}/update.state"));
    said_by(&run(&[program, "make", update, &other], Input::None)?)?;
    said_by(&run(&[program, "make", extract, &text], Input::None)?)?;
    let size = |path: &str| fs::metadata(path).map(|about| about.len());
    let (bytes, state, beside) = (size(extract)?, size(&text)?, size(&other)?);
    let jobs = [
        Job {
            name: "`make`",
            words: vec![program, "make", extract, "/dev/null"],
            stages: vec![
                stage("reading the extract", "reading the extract", false),
                stage("making its state", "state of the extract", false),
                stage("writing the text into memory", "writing the text into memory", true),
            ],
            // The state, and its text in memory.
            states: 2 * state,
            memory: 0,
        },
        Job {
            name: "`read`",
            words: vec![program, "read", &text],
            stages: vec![stage("reading the text back", "reading the text", true)],
            states: state,
            memory: 0,
        },
        Job {
            name: "`join`",
            words: vec![program, "join", &text, &other],
            stages: vec![stage("joining it with the update's state", "the join", true)],
            states: state + beside,
            memory: 0,
        },
    ];
    let date = middle_end(extract)?;
    let (place, uid) = busiest(extract)?;
    let receive = |name, other, what| Job {
        name,
        words: vec![program, "receive", &text, other],
        stages: vec![stage(what, "receiving the text", true)],
        states: state,
        memory: 0,
    };
    let mut jobs = jobs
        .into_iter()
        .chain([
            Job {
                name: "`lapse`",
                words: vec![program, "lapse", &text, &date],
                stages: vec![stage("setting a horizon that half of its schedules end before", "setting the horizon", true)],
                states: state,
                memory: 0,
            },
            receive("`receive`", &text, "receiving the same state, with nothing new"),
            receive("`receive`", &other, "receiving the update's state"),
            Job {
                name: "`walk`",
                words: vec![program, "walk", &text, &place, NOWHERE, &uid],
                stages: vec![
                    stage("walking what calls at its busiest place", "what calls there", true),
                    stage("walking what is linked there", "what is linked there", true),
                    stage("finding that nothing calls at a place", "what calls at the other", true),
                    stage("walking the schedules of the UID that has most", "what is of the UID", true),
                ],
                states: state,
                memory: 0,
            },
        ])
        .collect::<Vec<_>>();
    let mut counting = [f64::INFINITY; 2];
    for _ in 0..ROUNDS {
        for (best, path) in counting.iter_mut().zip([extract, &text]) {
            *best = best.min(run(&["wc", "-l", path], Input::None)?.seconds);
        }
        for job in &mut jobs {
            measure(job)?;
        }
    }
    print(&jobs, [bytes, state], counting);
    Ok(())
}

/// A TIPLOC that no extract has.
const NOWHERE: &str = "ZZZZZZZ";

/// The TIPLOC that most location records of an extract name, and the UID with the most schedules.
fn busiest(extract: &str) -> Result<(String, String)> {
    let (mut places, mut uids) = (HashMap::new(), HashMap::new());
    for line in BufReader::new(File::open(extract)?).split(b'\n') {
        let line = line?;
        match line.get(..2) {
            Some(b"LO" | b"LI" | b"LT") if line.len() >= 9 => *places.entry(line[2..9].to_vec()).or_insert(0u64) += 1,
            Some(b"BS") if line.len() >= 9 => *uids.entry(line[3..9].to_vec()).or_insert(0u64) += 1,
            _ => {}
        }
    }
    let most = |counts: HashMap<Vec<u8>, u64>| {
        let (name, _) = counts.into_iter().max_by(|one, other| one.1.cmp(&other.1).then(other.0.cmp(&one.0)))?;
        Some(String::from_utf8_lossy(&name).trim_end().to_string())
    };
    most(places).zip(most(uids)).ok_or_else(|| Error::other("the extract has no schedule"))
}

/// The day, as `YYYY-MM-DD`, before which half of an extract's schedules end.
fn middle_end(extract: &str) -> Result<String> {
    let mut ends = Vec::new();
    for line in BufReader::new(File::open(extract)?).split(b'\n') {
        let line = line?;
        if line.starts_with(b"BS") && line.len() >= 21 && line[15..21].iter().all(u8::is_ascii_digit) {
            ends.push(String::from_utf8_lossy(&line[15..21]).into_owned());
        }
    }
    ends.sort_unstable();
    let middle = ends.get(ends.len() / 2).ok_or_else(|| Error::other("the extract has no schedule"))?;
    Ok(format!("20{}-{}-{}", &middle[..2], &middle[2..4], &middle[4..6]))
}

/// The program's output on standard error, if its run succeeded.
pub fn said_by(spent: &Spent) -> Result<&str> {
    match spent.status {
        0 => Ok(&spent.errors),
        status => Err(Error::other(format!("state_times ended with {status}: {}", spent.errors))),
    }
}

/// The seconds that the program printed for a stage. A join reads two texts, so the first line with
/// the stage's name counts. A walk is made several times, and the shortest time counts.
pub fn seconds(said: &str, stage: &str) -> Option<f64> {
    let mut told = said.lines().filter_map(|line| line.strip_prefix(stage)?.strip_prefix(": "));
    let first = told.next()?;
    match first.strip_suffix(" ms") {
        Some(millis) => Some(millis.parse::<f64>().ok()? / 1e3),
        None => {
            let nanos = [first].into_iter().chain(told).filter_map(|text| text.strip_suffix(" ns")?.parse::<f64>().ok());
            nanos.reduce(f64::min).map(|least| least / 1e9)
        }
    }
}

fn measure(job: &mut Job) -> Result<()> {
    let spent = run(&job.words, Input::None)?;
    let said = said_by(&spent)?;
    for stage in &mut job.stages {
        let took = seconds(said, stage.said).ok_or_else(|| Error::other(format!("no time printed for {}", stage.said)))?;
        stage.best = stage.best.min(took);
    }
    job.memory = job.memory.max(spent.memory);
    Ok(())
}

fn print(jobs: &[Job], [bytes, state]: [u64; 2], [of_extract, of_text]: [f64; 2]) {
    let megabytes = |bytes: u64| bytes as f64 / 1e6;
    println!("{}", machine());
    println!(
        "\nextract {:.1} MB, text of its state {:.1} MB; best time and greatest memory of {ROUNDS}\n",
        megabytes(bytes),
        megabytes(state)
    );
    println!("| Stage | Time, s | MB/s | × `wc -l` of the same bytes | Peak memory of the run, MB | × the states held |");
    println!("|---|---|---|---|---|---|");
    for job in jobs {
        for (at, stage) in job.stages.iter().enumerate() {
            let (size, counting) = if stage.of_text { (state, of_text) } else { (bytes, of_extract) };
            let memory = match at + 1 == job.stages.len() {
                true => format!("{:.1} | {:.2}", megabytes(job.memory), job.memory as f64 / job.states as f64),
                false => " | ".to_string(),
            };
            // A walk reads only a part of the state.
            if job.name == "`walk`" {
                println!("| {}: {} | {:.7} | | | {memory} |", job.name, stage.name, stage.best);
                continue;
            }
            println!(
                "| {}: {} | {:.3} | {:.0} | {:.2} | {memory} |",
                job.name,
                stage.name,
                stage.best,
                megabytes(size) / stage.best,
                stage.best / counting
            );
        }
    }
}
