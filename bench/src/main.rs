//! The program of the bench: makes extracts, judges them with a plain reader, flips their bytes,
//! and measures the program on them.

mod commands;
mod desk;
mod flip;
mod growth;
mod judge;
mod make;
mod measure;
mod mutate;
mod network;
mod office;
mod plain;
mod plan;
mod random;
mod records;
mod shapes;
mod state;
mod statistics;
#[cfg(test)]
mod tests;
mod waits;

use std::fs::File;
use std::io::{Error, Result};
use std::process::ExitCode;

const USAGE: &str = "usage: extract full SCHEDULES SEED FILE | extract update SCHEDULES BASE_SEED SEED DAY FILE | \
extract judge FILE | extract flip FILE SEED | extract compare DOCKER FILE SEED FLIPS | extract measure DOCKER FILE.. | extract state STATE_TIMES FILE UPDATE FOLDER | \
extract commands DOCKER FILE UPDATE FOLDER PAIRS PEER WORD.. | extract waits DOCKER FILE UPDATE FOLDER PLANTED WORD.. | extract desk DOCKER DESK STATE_TIMES FILE UPDATE FOLDER DAY SEED | extract shapes DOCKER RECORDS SEED FOLDER | extract growth DOCKER FOLDER WORD.. | extract plain WORD.. | extract mutate DOCKER FOLDER SEED TIMES FILE..";

fn main() -> ExitCode {
    let words: Vec<String> = std::env::args().skip(1).collect();
    let words: Vec<&str> = words.iter().map(String::as_str).collect();
    match job(&words) {
        Some(Ok(status)) => ExitCode::from(status),
        Some(Err(error)) => {
            eprintln!("extract: {error}");
            ExitCode::from(4)
        }
        None => {
            eprintln!("{USAGE}");
            ExitCode::from(2)
        }
    }
}

/// Does the job that the words name, if they name one, and returns its exit status.
fn job(words: &[&str]) -> Option<Result<u8>> {
    let number = |word: &str| word.parse::<u64>().ok();
    let count = |word: &str| number(word).filter(|&count| (1..=10_000_000).contains(&count)).map(|count| count as usize);
    Some(match words {
        ["full", schedules, seed, out] => make::full(count(schedules)?, number(seed)?, out).map(|()| 0),
        ["update", schedules, base, seed, day, out] => {
            let day = number(day).filter(|day| (1..10_000).contains(day))? as i32;
            make::update(count(schedules)?, number(base)?, number(seed)?, day, out).map(|()| 0)
        }
        ["judge", path] => judge_file(path),
        ["flip", path, seed] => flip::flip_file(path, number(seed)?).map(|flip| {
            println!("{flip}");
            0
        }),
        ["compare", program, path, seed, flips] => {
            flip::compare(program, path, number(seed)?, count(flips)?).map(|same| u8::from(!same))
        }
        ["measure", program, paths @ ..] if !paths.is_empty() => measure::tables(program, paths).map(|()| 0),
        ["mutate", program, folder, seed, times, paths @ ..] if !paths.is_empty() => {
            mutate::compare(program, folder, number(seed)?, count(times)?, paths).map(|same| u8::from(!same))
        }
        ["growth", program, folder, words @ ..] => growth::tables(program, folder, words).map(|passes| u8::from(!passes)),
        ["plain", words @ ..] if !words.is_empty() => plain::run(words),
        ["commands", program, path, update, folder, pairs, peer, words @ ..] => {
            command_tables([program, peer], [path, update, folder], count(pairs)?, words).map(|same| u8::from(!same))
        }
        ["waits", program, path, update, folder, planted, words @ ..] => {
            waits::tables(program, [path, update], folder, planted, words).map(|()| 0)
        }
        ["desk", docker, desk, state_times, path, update, folder, day, seed] => {
            desk_tables([docker, desk, state_times], path, update, folder, day, number(seed)?).map(|()| 0)
        }
        ["shapes", program, records, seed, folder] => shapes::table(program, count(records)?, number(seed)?, folder).map(|()| 0),
        ["state", program, path, update, folder] => state::table(program, path, update, folder).map(|()| 0),
        _ => return None,
    })
}

/// Measures the commands. If there is no peer, they are compared with the plain program, which is a
/// part of this program.
fn command_tables([program, peer]: [&str; 2], [path, update, folder]: [&str; 3], pairs: usize, words: &[&str]) -> Result<bool> {
    let own = own_path()?;
    let plain: &[&str] = if peer.is_empty() { &[&own, "plain"] } else { &[peer] };
    commands::Bench { program, plain, pairs }.tables(path, update, folder, words)
}

/// Measures a desk. For comparison it runs the plain program, which is a part of this program.
fn desk_tables(
    [docker, desk, state_times]: [&str; 3],
    path: &str,
    update: &str,
    folder: &str,
    day: &str,
    seed: u64,
) -> Result<()> {
    desk::tables(&desk::Programs { docker, desk, state_times, plain: &own_path()? }, path, update, folder, day, seed)
}

fn own_path() -> Result<String> {
    let path = std::env::current_exe()?.into_os_string();
    path.into_string().map_err(|_| Error::other("this program's path isn't text"))
}

/// Prints what `docker check` would print.
fn judge_file(path: &str) -> Result<u8> {
    let answer = match path {
        "stdin" => judge::judge_stream(&mut std::io::stdin().lock(), judge::LIMIT)?,
        path => judge::judge_stream(&mut File::open(path)?, judge::LIMIT)?,
    };
    let line = judge::line_of(&answer);
    match answer {
        Ok(_) => print!("{line}"),
        Err(_) => eprint!("{line}"),
    }
    Ok(u8::from(answer.is_err()))
}
