//! Mutates files and states, and checks that the program's answers are exactly the plain program's.

use crate::measure::{run, Input, Spent};
use crate::plain::{answer, Answer};
use crate::random::Random;
use std::collections::BTreeMap;
use std::fmt::Display;
use std::io::{Error, Result};
use std::{fs, thread};

/// Bytes that have a meaning in some column or part.
const TELLING: &[u8] = b"  00112345999ABCDFHILNNOOPPRSTUXZ\n\r\x00\x01\x02\x03\xFF";

/// What is mutated: a file to take, a state to merge, or a STATE of the older format to migrate.
#[derive(Clone, Copy, PartialEq, Eq)]
enum Subject {
    File,
    State,
    Older,
}

impl Subject {
    fn command(self) -> &'static str {
        match self {
            Subject::File => "take",
            Subject::State => "merge",
            Subject::Older => "migrate",
        }
    }
}

/// Mutates a text in one way, and returns the name of this way.
fn mutate(text: &mut Vec<u8>, subject: Subject, random: &mut Random) -> &'static str {
    let way = random.below(9);
    if text.is_empty() {
        text.push(*random.pick(TELLING));
        return "inserted";
    }
    let at = random.below(text.len());
    let some = |random: &mut Random, most: usize| 1 + random.below(most);
    match way {
        0 => {
            text[at] = random.below(256) as u8;
            "flipped"
        }
        1 | 2 => {
            text[at] = *random.pick(TELLING);
            "flipped"
        }
        3 => {
            let bytes: Vec<u8> = (0..some(random, 4)).map(|_| *random.pick(TELLING)).collect();
            text.splice(at..at, bytes);
            "inserted"
        }
        4 => {
            let end = text.len().min(at + some(random, 4));
            text.drain(at..end);
            "removed"
        }
        5 => {
            text.truncate(at);
            "cut"
        }
        6 => exchange(text, random),
        7 if subject != Subject::File => change_count(text, random),
        _ => repeat(text, subject, random),
    }
}

/// The offsets at which records start. In a file, each record but the first starts after a line
/// feed. In a state, the lines of bodies are the records.
fn records(text: &[u8]) -> Vec<usize> {
    let begins = |at: &usize| {
        let identity = text.get(*at..*at + 2);
        identity.is_some_and(|two| {
            [b"HD", b"TI", b"TA", b"TD", b"AA", b"BS", b"BX", b"LO", b"LI", b"CR", b"LT", b"ZZ"].iter().any(|known| *known == two)
        })
    };
    (0..text.len()).filter(begins).filter(|at| at + 80 <= text.len()).collect()
}

fn exchange(text: &mut [u8], random: &mut Random) -> &'static str {
    let starts = records(text);
    if starts.len() > 1 {
        let (one, other) = (*random.pick(&starts), *random.pick(&starts));
        if one.abs_diff(other) >= 80 {
            for column in 0..80 {
                text.swap(one + column, other + column);
            }
        }
    }
    "records exchanged"
}

/// Drops a record, or repeats it.
fn repeat(text: &mut Vec<u8>, subject: Subject, random: &mut Random) -> &'static str {
    let starts = records(text);
    if starts.is_empty() {
        return "records repeated or dropped";
    }
    let start = *random.pick(&starts);
    let length = if subject == Subject::File { 81 } else { 80 };
    let end = text.len().min(start + length);
    if random.below(2) == 0 {
        text.drain(start..end);
    } else {
        let record = text[start..end].to_vec();
        text.splice(start..start, record);
    }
    "records repeated or dropped"
}

/// Changes a count: the number of items or of entries, which has eight bytes, or the number of
/// lines, which is the four bytes before a basic schedule.
fn change_count(text: &mut [u8], random: &mut Random) -> &'static str {
    let mut last_bytes: Vec<usize> = vec![11, 13];
    last_bytes.extend((4..text.len().saturating_sub(3)).filter(|&at| &text[at..at + 3] == b"BSN").map(|at| at - 1));
    let items = text.get(13).map_or(0, |&count| usize::from(count));
    last_bytes.push(14 + 19 * items + 7);
    let at = *random.pick(&last_bytes);
    if let Some(byte) = text.get_mut(at) {
        *byte = match random.below(4) {
            0 => byte.wrapping_add(1),
            1 => byte.wrapping_sub(1),
            2 => 0,
            _ => 255,
        };
        if random.below(8) == 0 {
            text[at - 3..at].fill(255);
        }
    }
    "counts changed"
}

/// For one subject, how many texts were mutated in each way, and how many got each answer.
#[derive(Default)]
struct Tally {
    count: usize,
    ways: BTreeMap<&'static str, usize>,
    answers: BTreeMap<String, usize>,
    unlike: usize,
}

impl Tally {
    fn add(&mut self, other: Tally) {
        self.count += other.count;
        self.unlike += other.unlike;
        for (way, count) in other.ways {
            *self.ways.entry(way).or_default() += count;
        }
        for (answer, count) in other.answers {
            *self.answers.entry(answer).or_default() += count;
        }
    }
}

/// For files, for states, and for states of the older format.
type Tallies = [Tally; 3];

/// The state of each file, the state of all files, and the state of all files with a horizon.
fn states_of(files: &[Vec<u8>]) -> Option<Vec<Vec<u8>>> {
    let kept = |words: &[&str], files: &[Vec<u8>]| answer(words, files).state;
    let empty = kept(&["new", "STATE"], &[])?;
    let mut states =
        files.iter().map(|file| kept(&["take", "STATE", "FILE"], &[empty.clone(), file.clone()])).collect::<Option<Vec<_>>>()?;
    let mut whole = empty;
    for state in &states {
        whole = kept(&["merge", "STATE", "OTHER"], &[whole, state.clone()])?;
    }
    states.push(kept(&["horizon", "STATE", "2024-06-12"], &[whole.clone()])?);
    states.push(whole);
    Some(states)
}

/// The texts that are mutated, and the program that is tested.
struct Bench<'a> {
    program: &'a str,
    folder: &'a str,
    seed: u64,
    files: Vec<Vec<u8>>,
    states: Vec<Vec<u8>>,
}

/// Makes this many mutations, half of them of these files and half of their states. Compares the
/// program's answers with the plain program's, and returns whether all are the same. Each mutation
/// depends only on the seed and on its own number, so it is the same on any number of processors.
pub fn compare(program: &str, folder: &str, seed: u64, count: usize, paths: &[&str]) -> Result<bool> {
    let files = paths.iter().map(fs::read).collect::<Result<Vec<_>>>()?;
    let states = states_of(&files).ok_or_else(|| Error::other("a file is refused as it is"))?;
    let bench = &Bench { program, folder, seed, files, states };
    let workers = thread::available_parallelism()?.get();
    let tallies = thread::scope(|scope| {
        let started: Vec<_> = (0..workers).map(|first| scope.spawn(move || bench.work(first, workers, count))).collect();
        let mut tallies = Tallies::default();
        for worker in started {
            let done = worker.join().map_err(|_| Error::other("a worker stopped"))??;
            tallies.iter_mut().zip(done).for_each(|(all, own)| all.add(own));
        }
        Ok::<Tallies, Error>(tallies)
    })?;
    print_tallies(&tallies, seed);
    Ok(tallies.iter().all(|tally| tally.unlike == 0))
}

impl Bench<'_> {
    /// Tries the mutations of one worker, in its own files. The numbers of these mutations are
    /// `workers` apart.
    fn work(&self, first: usize, workers: usize, count: usize) -> Result<Tallies> {
        let mut tallies = Tallies::default();
        let (state, other) = (format!("{}/{first}.state", self.folder), format!("{}/{first}.other", self.folder));
        for number in (first..count).step_by(workers) {
            let mut random = Random::of(&[self.seed, 5, number as u64]);
            let subject = match number % 2 {
                0 => Subject::File,
                _ => *random.pick(&[Subject::State, Subject::State, Subject::Older]),
            };
            let own = random.pick(&self.states).clone();
            let mut text = match subject {
                Subject::File => random.pick(&self.files).clone(),
                Subject::State => random.pick(&self.states).clone(),
                Subject::Older => [b"DKS1", &random.pick(&self.states)[6..]].concat(),
            };
            let tally = &mut tallies[subject as usize];
            tally.count += 1;
            for _ in 0..1 + random.below(2) {
                *tally.ways.entry(mutate(&mut text, subject, &mut random)).or_default() += 1;
            }
            if !self.agrees(subject, [&state, &other], &own, &text, tally)? {
                tally.unlike += 1;
                println!("different: mutation {number} of seed {}", self.seed);
            }
        }
        Ok(tallies)
    }

    /// Whether the program answers like the plain one, and leaves the same STATE.
    fn agrees(&self, subject: Subject, paths: [&str; 2], own: &[u8], text: &[u8], tally: &mut Tally) -> Result<bool> {
        let [state, other] = paths;
        let (words, files) = match subject {
            Subject::Older => (vec!["migrate", state], vec![text.to_vec()]),
            _ => (vec![subject.command(), state, other], vec![own.to_vec(), text.to_vec()]),
        };
        fs::write(state, &files[0])?;
        fs::write(other, text)?;
        let Answer { status, output, errors, state: becomes } = answer(&words, &files);
        let spent = run(&[&[self.program], &*words].concat(), Input::None)?;
        let left = fs::read(state)?;
        let wanted = (i32::from(status), &*output, &*errors);
        let Spent { status, output, errors, .. } = &spent;
        *tally.answers.entry(cause_of(errors)).or_default() += 1;
        let same = (*status, &**output, &**errors) == wanted && left == becomes.unwrap_or_else(|| files[0].clone());
        if !same {
            println!("  {}: wanted {wanted:?}, got {:?}", subject.command(), (status, output, errors));
        }
        Ok(same)
    }
}

/// What a fault's line refuses, and the first word of the cause, as in `file Field`; `accepted` if
/// there is no such line.
fn cause_of(errors: &str) -> String {
    let (kind, cause) = (errors.split(' ').nth(1).unwrap_or("accepted"), errors.rsplit(": ").next().unwrap_or(""));
    format!("{kind} {}", cause.split_whitespace().next().unwrap_or("")).trim_end().to_string()
}

fn print_tallies(tallies: &Tallies, seed: u64) {
    for (name, tally) in ["files", "states", "states of the older format"].iter().zip(tallies) {
        println!("{} mutated {name} of seed {seed}: {} answers differ from the plain program's", tally.count, tally.unlike);
        println!("  ways: {}", listed(&tally.ways));
        println!("  answers: {}", listed(&tally.answers));
    }
}

fn listed<K: Display>(counts: &BTreeMap<K, usize>) -> String {
    counts.iter().map(|(name, count)| format!("{name} {count}")).collect::<Vec<_>>().join(", ")
}
