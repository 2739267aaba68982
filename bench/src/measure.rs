//! Time and memory of programs that read a file.

use std::ffi::{c_int, c_long};
use std::fs;
use std::io::{Error, Read, Result};
use std::process::{Child, Command, Stdio};
use std::time::Instant;

/// The costs and the output of a program.
pub struct Spent {
    pub seconds: f64,
    /// Processor seconds of the program's own code.
    pub user: f64,
    /// Processor seconds of the system on the program's behalf.
    pub system: f64,
    /// Peak resident memory in bytes.
    pub memory: u64,
    /// The exit status, or -1 if a signal ended it.
    pub status: i32,
    pub output: String,
    pub errors: String,
}

impl Spent {
    /// Processor seconds of the program, and of the system on its behalf.
    pub fn processor(&self) -> f64 {
        self.user + self.system
    }
}

#[derive(Clone, Copy)]
pub enum Input<'a> {
    None,
    /// The file, through a pipe from `cat`.
    PipeOf(&'a str),
}

#[repr(C)]
struct Usage {
    /// Seconds and microseconds of the program, then of the system.
    times: [c_long; 4],
    /// In units of 1024 bytes.
    peak_resident: c_long,
    others: [c_long; 13],
}

extern "C" {
    fn wait4(process: c_int, status: *mut c_int, options: c_int, usage: *mut Usage) -> c_int;
}

/// Waits until a program ends. Returns its exit status, the processor seconds of its own code and of
/// the system, and its peak memory.
fn wait(child: &Child) -> Result<(i32, [f64; 2], u64)> {
    let mut usage = Usage { times: [0; 4], peak_resident: 0, others: [0; 13] };
    let mut status = 0;
    // SAFETY: the child belongs to this process and nobody has waited for it yet, and both pointers
    // are valid during the call.
    let process = unsafe { wait4(child.id() as c_int, &mut status, 0, &mut usage) };
    if process < 0 {
        return Err(Error::last_os_error());
    }
    let exit = if status & 0x7F == 0 { status >> 8 & 0xFF } else { -1 };
    let [seconds, millionths, system_seconds, system_millionths] = usage.times.map(|part| part as f64);
    let processor = [seconds + millionths / 1e6, system_seconds + system_millionths / 1e6];
    Ok((exit, processor, usage.peak_resident as u64 * 1024))
}

/// Runs a program to its end.
pub fn run(words: &[&str], input: Input) -> Result<Spent> {
    let began = Instant::now();
    let mut feeder = match input {
        Input::None => None,
        Input::PipeOf(path) => Some(start(&["cat", path], Stdio::null(), Stdio::piped())?),
    };
    let stdin = match feeder.as_mut().and_then(|cat| cat.stdout.take()) {
        Some(pipe) => Stdio::from(pipe),
        None => Stdio::null(),
    };
    // The output of `cat` is thrown away.
    let keeps = words[0] != "cat";
    let mut child = start(words, stdin, if keeps { Stdio::piped() } else { Stdio::null() })?;
    let (mut output, mut errors) = (Vec::new(), Vec::new());
    if let Some(mut pipe) = child.stdout.take() {
        pipe.read_to_end(&mut output)?;
    }
    if let Some(mut pipe) = child.stderr.take() {
        pipe.read_to_end(&mut errors)?;
    }
    let (status, [user, system], memory) = wait(&child)?;
    let seconds = began.elapsed().as_secs_f64();
    if let Some(cat) = feeder {
        wait(&cat)?;
    }
    let text = |bytes: Vec<u8>| String::from_utf8_lossy(&bytes).into_owned();
    Ok(Spent { seconds, user, system, memory, status, output: text(output), errors: text(errors) })
}

fn start(words: &[&str], input: Stdio, output: Stdio) -> Result<Child> {
    Command::new(words[0])
        .args(&words[1..])
        .stdin(input)
        .stdout(output)
        .stderr(Stdio::piped())
        .spawn()
        .map_err(|error| Error::other(format!("{}: {error}", words[0])))
}

// ---------------------------------------------------------------- the table

const ROUNDS: usize = 5;

struct Row<'a> {
    name: &'static str,
    words: Vec<&'a str>,
    input: Input<'a>,
    /// The expected output, if it is known.
    wanted: Option<&'a str>,
    best: f64,
    best_processor: f64,
    memory: u64,
}

/// What is compared from file to file: the number of bytes, and, for `check` of a file and of a
/// pipe, the seconds and the memory.
struct Growth {
    bytes: f64,
    checks: Vec<(f64, f64)>,
}

/// Prints a table for each file, and how the program's time grew from one file to the next.
pub fn tables(program: &str, paths: &[&str]) -> Result<()> {
    println!("{}", machine());
    let mut before: Option<Growth> = None;
    for path in paths {
        let growth = table(program, path)?;
        if let Some(before) = before {
            print_growth(&before, &growth);
        }
        before = Some(growth);
    }
    Ok(())
}

fn table(program: &str, path: &str) -> Result<Growth> {
    let bytes = fs::metadata(path)?.len();
    let own = std::env::current_exe()?;
    let own = own.to_str().ok_or_else(|| Error::other("this program's path isn't text"))?;
    // The first reading also loads the file into the page cache.
    let wanted = run(&[own, "judge", path], Input::None)?;
    if wanted.status != 0 {
        return Err(Error::other(format!("the plain reader refuses the extract: {}", wanted.errors)));
    }
    let line = &*wanted.output;
    let row = |name, words: &[&'static str], input, wanted| Row {
        name,
        words: words.iter().map(|&word| place(word, program, own, path)).collect(),
        input,
        wanted,
        best: f64::INFINITY,
        best_processor: f64::INFINITY,
        memory: 0,
    };
    let mut rows = [
        row("`wc -l FILE`", &["wc", "-l", "FILE"], Input::None, None),
        row("`cat FILE`", &["cat", "FILE"], Input::None, None),
        row("`cat FILE \\| wc -l`", &["wc", "-l"], Input::PipeOf(path), None),
        row("plain reader, `FILE`", &["OWN", "judge", "FILE"], Input::None, Some(line)),
        row("`docker check FILE`", &["DOCKER", "check", "FILE"], Input::None, Some(line)),
        row("`cat FILE \\| docker check stdin`", &["DOCKER", "check", "stdin"], Input::PipeOf(path), Some(line)),
    ];
    for _ in 0..ROUNDS {
        for row in &mut rows {
            measure(row)?;
        }
    }
    print_table(&rows, bytes, line);
    let checks = rows[4..].iter().map(|row| (row.best, row.memory as f64)).collect();
    Ok(Growth { bytes: bytes as f64, checks })
}

fn place<'a>(word: &'static str, program: &'a str, own: &'a str, path: &'a str) -> &'a str {
    match word {
        "FILE" => path,
        "OWN" => own,
        "DOCKER" => program,
        other => other,
    }
}

fn measure(row: &mut Row) -> Result<()> {
    let spent = run(&row.words, row.input)?;
    let wanted = row.wanted.unwrap_or(&spent.output);
    if (spent.status, &*spent.output, &*spent.errors) != (0, wanted, "") {
        let Spent { status, output, errors, .. } = &spent;
        let name = row.name;
        return Err(Error::other(format!("{name} ended with {status}, {output:?}, {errors:?}; wanted 0, {wanted:?}")));
    }
    row.best = row.best.min(spent.seconds);
    row.best_processor = row.best_processor.min(spent.processor());
    row.memory = row.memory.max(spent.memory);
    Ok(())
}

fn print_table(rows: &[Row], bytes: u64, line: &str) {
    let size = bytes as f64 / 1e6;
    println!("\n{size:.1} MB; {}; best time of {ROUNDS} and greatest memory of {ROUNDS}\n", line.trim_end());
    println!("| Command | Time, s | MB/s | × `wc -l` | × `cat` | Processor, s | Peak memory, MB | × the file |");
    println!("|---|---|---|---|---|---|---|---|");
    for row in rows {
        let (seconds, memory) = (row.best, row.memory as f64);
        println!(
            "| {} | {:.3} | {:.0} | {:.2} | {:.2} | {:.3} | {:.1} | {:.2} |",
            row.name,
            seconds,
            size / seconds,
            seconds / rows[0].best,
            seconds / rows[1].best,
            row.best_processor,
            memory / 1e6,
            memory / bytes as f64,
        );
    }
}

fn print_growth(before: &Growth, after: &Growth) {
    println!();
    for (way, old, new) in [("FILE", before.checks[0], after.checks[0]), ("a pipe", before.checks[1], after.checks[1])] {
        println!(
            "`check` of {way}: {:.2} times the bytes took {:.2} times the time and {:.2} times the memory",
            after.bytes / before.bytes,
            new.0 / old.0,
            new.1 / old.1,
        );
    }
}

/// The processors, the memory and the load of the machine.
pub fn machine() -> String {
    let processors = std::thread::available_parallelism().map_or(0, |count| count.get());
    let after = |path: &str, name: &str| {
        let text = fs::read_to_string(path).unwrap_or_default();
        let line = text.lines().find(|line| line.starts_with(name))?;
        Some(line.split(':').nth(1)?.trim().to_string())
    };
    let model = after("/proc/cpuinfo", "model name").map_or(String::new(), |model| format!(" ({model})"));
    let memory = after("/proc/meminfo", "MemTotal").and_then(|text| text.split(' ').next()?.parse::<f64>().ok());
    let memory = memory.map_or("unknown".to_string(), |units| format!("{:.1} GB", units * 1024.0 / 1e9));
    format!("machine: {processors} processors{model}, {memory} of memory, {}", load())
}

/// How many processes ran or wanted to run, on average over the last minute.
pub fn load() -> String {
    let text = fs::read_to_string("/proc/loadavg").unwrap_or_default();
    format!("load {}", text.split(' ').next().filter(|load| !load.is_empty()).unwrap_or("unknown"))
}
