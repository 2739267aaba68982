//! Tests of the plain reader on texts whose answers are known, of the shape of extracts, and of the
//! costs of processes. The statistics are tested on values worked out by hand.

use crate::flip::Flip;
use crate::growth::shapes::{ledger, Makes, DATE, PLACE, SHAPES};
use crate::judge::{judge_stream, judge_text, line_of, Answer, Cause, Counts, Fault, LIMIT};
use crate::make;
use crate::measure::{run, Input};
use crate::plain;
use crate::random::Random;
use crate::statistics::Spread;
use crate::waits::{functions, is_load, Wait};
use std::fs;
use std::io::{Read, Result};

// ---------------------------------------------------------------- records

/// A record with these fields, each at its column.
fn record(identity: &str, fields: &[(usize, &str)]) -> String {
    let mut line = format!("{identity:<80}");
    for (column, text) in fields {
        line.replace_range(column - 1..column - 1 + text.len(), text);
    }
    line
}

fn header(indicator: &str) -> String {
    record(
        "HDTPS.UDFROC1.PD240609",
        &[(23, "090624"), (29, "2100"), (33, "DFROC1A"), (40, "DFROC1Z"), (47, indicator), (48, "A")],
    )
}

fn tiploc(code: &str) -> String {
    record("TI", &[(3, code), (19, "ASHFIELD CENTRAL")])
}

fn amended(code: &str, new: &str) -> String {
    record("TA", &[(3, code), (19, "ASHFIELD NEW"), (73, new)])
}

fn association(transaction: &str, last: &str, days: &str) -> String {
    record(
        "AA",
        &[
            (3, transaction),
            (4, "C30001"),
            (10, "C30002"),
            (16, "240610"),
            (22, last),
            (28, days),
            (35, "VVS"),
            (38, "COLWELL"),
            (47, "TP"),
            (80, "P"),
        ],
    )
}

fn basic(transaction: &str, last: &str, days: &str, stp: &str) -> String {
    record("BS", &[(3, transaction), (4, "C10001"), (10, "240610"), (16, last), (22, days), (30, "POO1A10"), (80, stp)])
}

fn permanent() -> String {
    basic("N", "240614", "1111100", "P")
}

fn deletion() -> String {
    basic("D", "", "", "P")
}

fn origin(departure: &str) -> String {
    record("LO", &[(3, "ASHFELD"), (11, departure), (16, "0900"), (20, "1"), (23, "SL")])
}

fn call(arrival: &str, departure: &str, pass: &str) -> String {
    record("LI", &[(3, "COLWELL"), (11, arrival), (16, departure), (21, pass)])
}

fn terminus(arrival: &str) -> String {
    record("LT", &[(3, "BRAYTON"), (11, arrival), (16, "0932"), (20, "2"), (23, "FL")])
}

fn change() -> String {
    record("CR", &[(3, "COLWELL"), (11, "OO"), (13, "5E51")])
}

fn trailer() -> String {
    record("ZZ", &[])
}

fn text(records: &[String]) -> Vec<u8> {
    records.iter().flat_map(|record| format!("{record}\n").into_bytes()).collect()
}

/// Five records with one schedule.
fn small() -> Vec<String> {
    vec![header("U"), permanent(), origin("0900"), terminus("0930"), trailer()]
}

// ---------------------------------------------------------------- answers

/// A source that gives its bytes one by one.
struct Bytewise<'a>(&'a [u8]);

impl Read for Bytewise<'_> {
    fn read(&mut self, into: &mut [u8]) -> Result<usize> {
        let count = self.0.len().min(into.len()).min(1);
        into[..count].copy_from_slice(&self.0[..count]);
        self.0 = &self.0[count..];
        Ok(count)
    }
}

/// The answer for a text. It must not depend on the pieces in which the text comes.
fn judged(text: &[u8], limit: u64) -> Answer {
    let answer = judge_text(text, limit);
    assert_eq!(judge_stream(&mut Bytewise(text), limit).unwrap(), answer);
    answer
}

fn refused(records: &[String], record: u64, cause: Cause) {
    assert_eq!(judged(&text(records), LIMIT), Err(Fault { record, cause }), "{records:#?}");
}

fn accepted(records: &[String], changes: u64) {
    let counts = Counts { records: records.len() as u64, changes };
    assert_eq!(judged(&text(records), LIMIT), Ok(counts), "{records:#?}");
}

#[test]
fn refused_files() {
    refused(&[], 1, Cause::NoEnd);
    refused(&[permanent()], 1, Cause::Place);
    refused(&[header("X")], 1, Cause::Field(47));
    refused(&[header("U"), " ".repeat(79)], 2, Cause::Length);
    refused(&[header("U"), record("TI", &[(3, "ASHFELD"), (20, "\t")])], 2, Cause::Byte(20));
    refused(&[header("U"), record("LN", &[])], 2, Cause::Kind);
    refused(&[header("U"), trailer(), call("", "", "0910")], 3, Cause::After);
    refused(&[header("U"), permanent(), terminus("0930")], 3, Cause::Place);
    refused(&[header("U"), permanent(), trailer()], 3, Cause::Place);
    refused(&[header("U"), permanent(), origin("2400")], 3, Cause::Field(11));
    refused(&[header("U"), permanent()], 3, Cause::NoEnd);
    refused(&small()[..4], 5, Cause::NoEnd);
    assert_eq!(judged(&text(&small()), 3), Err(Fault { record: 4, cause: Cause::TooMany }));
    accepted(&[header("U"), deletion(), origin("2400"), terminus("0930"), trailer()], 1);
}

#[test]
fn midnights() {
    let journey = |last: &str| {
        vec![header("U"), permanent(), origin("2355"), call("", "", "0010"), call("", "", "0005"), terminus(last), trailer()]
    };
    refused(&journey("0001"), 6, Cause::Midnights);
    accepted(&journey("0006"), 1);
    accepted(&journey("0005"), 1);
    accepted(&journey("0005H"), 1);
    // The order is arrival, pass, departure, whatever the columns are: the times fall twice in one
    // record.
    let twice = call("2300", "0001", "0100");
    accepted(&[header("U"), permanent(), origin("2200"), twice.clone(), terminus("0930"), trailer()], 1);
    refused(&[header("U"), permanent(), origin("2350"), twice.clone(), terminus("0930"), trailer()], 4, Cause::Midnights);
    // The times of a deletion's journey don't count, and each schedule is counted by itself.
    accepted(&[header("U"), deletion(), origin("2350"), twice.clone(), terminus("0930"), trailer()], 1);
    let one = [permanent(), origin("2200"), twice, terminus("0930")];
    accepted(&[&[header("U")], &one[..], &one[..], &[trailer()]].concat(), 2);
}

#[test]
fn line_ends() {
    let whole = text(&small());
    let counts = Ok(Counts { records: 5, changes: 1 });
    let with_returns = small().iter().flat_map(|record| format!("{record}\r\n").into_bytes()).collect::<Vec<u8>>();
    assert_eq!(judged(&whole, LIMIT), counts);
    assert_eq!(judged(&with_returns, LIMIT), counts);
    assert_eq!(judged(&whole[..whole.len() - 1], LIMIT), counts);
    assert_eq!(judged(&[&whole[..whole.len() - 1], b"\r"].concat(), LIMIT), counts);
    assert_eq!(judged(&[&whole[..], b"\r"].concat(), LIMIT), Err(Fault { record: 6, cause: Cause::After }));
    assert_eq!(judged(&[&whole[..], b"\n"].concat(), LIMIT), Err(Fault { record: 6, cause: Cause::After }));
    let returns = [&whole[..80], b"\r\r", &whole[80..]].concat();
    assert_eq!(judged(&returns, LIMIT), Err(Fault { record: 1, cause: Cause::Length }));
    let joined = [&whole[..80], b"A", &whole[81..]].concat();
    assert_eq!(judged(&joined, LIMIT), Err(Fault { record: 1, cause: Cause::Length }));
}

#[test]
fn limits() {
    let counts = Ok(Counts { records: 5, changes: 1 });
    assert_eq!(judged(&text(&small()), 5), counts);
    assert_eq!(judged(&text(&small()[..4]), 4), Err(Fault { record: 5, cause: Cause::NoEnd }));
    assert_eq!(judged(b"", 0), Err(Fault { record: 1, cause: Cause::NoEnd }));
    // The record comes after the trailer, and its number is above the limit. The fault that is
    // returned is that the limit is exceeded.
    let longer = [&text(&small())[..], b"x"].concat();
    assert_eq!(judged(&longer, 5), Err(Fault { record: 6, cause: Cause::TooMany }));
}

#[test]
fn order_of_causes() {
    refused(&[header("U"), trailer(), "\t".into()], 3, Cause::After);
    refused(&[header("U"), "\t".into()], 2, Cause::Length);
    refused(&[header("U"), record("LN", &[(80, "\t")])], 2, Cause::Byte(80));
    refused(&[record("LN", &[])], 1, Cause::Kind);
    refused(&[header("U"), header("X")], 2, Cause::Place);
    refused(&[header("U"), permanent(), call("9999", "", "")], 3, Cause::Place);
    refused(&[header("U"), permanent(), origin("2355"), call("2300", "9999", "2200")], 4, Cause::Field(16));
    let field_first = [header("U"), permanent(), origin("2355"), call("2300", "2100", "2200"), call("2000", "", "9999")];
    refused(&field_first[..4], 4, Cause::Midnights);
    refused(&[&field_first[..3], &field_first[4..]].concat(), 4, Cause::Field(21));
}

#[test]
fn places() {
    let extra = record("BX", &[(12, "SE")]);
    let cancelled = basic("N", "240614", "1111100", "C");
    accepted(&[header("F"), trailer()], 0);
    accepted(&[header("F"), cancelled.clone(), deletion(), trailer()], 2);
    accepted(&[header("F"), cancelled.clone(), extra.clone(), trailer()], 1);
    accepted(
        &[header("F"), deletion(), extra.clone(), permanent(), extra.clone(), origin("0900"), terminus("0930"), trailer()],
        2,
    );
    accepted(
        &[header("F"), permanent(), origin("0900"), change(), change(), call("", "", ""), change(), terminus("0930"), trailer()],
        1,
    );
    accepted(&[header("F"), basic("R", "999999", "0000000", "O"), origin("0900"), terminus("0930"), trailer()], 1);
    refused(&[header("F"), permanent(), extra.clone(), extra.clone()], 4, Cause::Place);
    refused(&[header("F"), permanent(), extra.clone(), trailer()], 4, Cause::Place);
    refused(&[header("F"), basic("R", "240614", "1111100", "P"), trailer()], 3, Cause::Place);
    refused(&[header("F"), deletion(), origin("0900"), trailer()], 4, Cause::Place);
    refused(&[header("F"), permanent(), origin("0900"), extra], 4, Cause::Place);
    refused(&[header("F"), cancelled, change()], 3, Cause::Place);
    refused(&[header("F"), header("F")], 2, Cause::Place);
    refused(&[trailer()], 1, Cause::Place);
}

#[test]
fn changes() {
    accepted(&[header("F"), tiploc("ASHFELD"), trailer()], 1);
    accepted(&[header("F"), amended("ASHFELD", ""), trailer()], 1);
    accepted(&[header("F"), amended("ASHFELD", "ASHFELD"), trailer()], 1);
    accepted(&[header("F"), amended("ASHF", "ASHF"), trailer()], 1);
    accepted(&[header("F"), amended("ASHFELD", "ASHFLDN"), trailer()], 2);
    accepted(&[header("F"), record("TD", &[(3, "ASHFELD")]), trailer()], 1);
    accepted(&[header("F"), association("N", "240610", "1000000"), association("D", "", ""), trailer()], 2);
}

#[test]
fn fields() {
    let alone = |line: String, column: usize| refused(&[header("U"), line], 2, Cause::Field(column));
    let with = |line: &str, column: usize, text: &str| record(line, &[(column, text)]);
    for (column, text) in [(23, "310624"), (23, "290223"), (29, "2400"), (29, "2360"), (29, "    "), (47, "D")] {
        refused(&[with(&header("U"), column, text)], 1, Cause::Field(column));
    }
    alone(tiploc(" SHFELD"), 3);
    alone(amended("ASHFELD", " SHFELD"), 73);
    alone(amended(" SHFELD", " SHFELD"), 3);
    alone(record("TD", &[]), 3);
    for (column, text) in
        [(3, "X"), (16, "230229"), (22, "240631"), (22, "      "), (28, "11111 1"), (28, "1111112"), (38, " "), (80, " ")]
    {
        alone(with(&association("N", "240610", "1000000"), column, text), column);
    }
    for (column, text) in [(16, "999999"), (38, " "), (80, "X")] {
        alone(with(&association("D", "", ""), column, text), column);
    }
    for (column, text) in [(3, "n"), (10, "230229"), (10, "999999"), (16, "240631"), (22, "111110X"), (80, "p")] {
        alone(with(&permanent(), column, text), column);
    }
    for (column, text) in [(10, "241301"), (80, " ")] {
        alone(with(&deletion(), column, text), column);
    }
    let third = |line: String, column: usize| refused(&[header("U"), permanent(), line], 3, Cause::Field(column));
    for (column, text) in [(3, " "), (11, "     "), (11, "0900X"), (11, "0960 "), (16, "2400"), (16, "090 ")] {
        third(with(&origin("0900"), column, text), column);
    }
    let fourth =
        |line: String, column: usize| refused(&[header("U"), permanent(), origin("0900"), line], 4, Cause::Field(column));
    for (column, text) in [(3, " "), (11, "0900h"), (16, " 900 "), (21, "09 0 "), (26, "0  0"), (30, "9900")] {
        fourth(with(&call("", "", ""), column, text), column);
    }
    for (column, text) in [(3, " "), (11, "     "), (16, "24  ")] {
        fourth(with(&terminus("0930"), column, text), column);
    }
    // Every fourth year has a leap day.
    for date in ["000229", "240229", "600229", "591231", "600101"] {
        accepted(&[header("U"), with(&deletion(), 10, date), trailer()], 1);
    }
}

#[test]
fn printed_lines() {
    let line = |record, cause| line_of(&Err(Fault { record, cause }));
    assert_eq!(line_of(&judge_text(&text(&small()), LIMIT)), "accepted: 5 records, 1 changes\n");
    assert_eq!(line(3, Cause::Field(11)), "docker: file refused: record 3: Field 11\n");
    assert_eq!(line(2, Cause::Byte(20)), "docker: file refused: record 2: Byte 20\n");
    assert_eq!(line(1, Cause::NoEnd), "docker: file refused: record 1: NoEnd\n");
}

// ---------------------------------------------------------------- extracts

/// The text of an extract made in the temporary folder.
fn made(name: &str, make: impl Fn(&str) -> Result<()>) -> Vec<u8> {
    let path = std::env::temp_dir().join(format!("extract-{}-{name}.cif", std::process::id()));
    make(path.to_str().unwrap()).unwrap();
    let text = fs::read(&path).unwrap();
    fs::remove_file(&path).unwrap();
    text
}

#[test]
fn extracts_are_accepted() {
    for schedules in [1, 2, 30, 700] {
        let full = made("full", |path| make::full(schedules, 7, path));
        assert!(judge_text(&full, LIMIT).is_ok());
        let update = made("update", |path| make::update(schedules, 7, 8, 1, path));
        assert!(judge_text(&update, LIMIT).is_ok());
    }
}

#[test]
fn shape_of_extracts() {
    let full = made("shape", |path| make::full(5000, 1, path));
    assert_eq!(full, made("again", |path| make::full(5000, 1, path)));
    assert_ne!(full, made("other", |path| make::full(5000, 2, path)));
    let lines: Vec<&[u8]> = full.chunks(81).collect();
    let count = |wanted: &dyn Fn(&[u8]) -> bool| lines.iter().filter(|line| wanted(line)).count();
    for identity in ["HD", "TI", "TA", "TD", "AA", "BS", "BX", "LO", "LI", "CR", "LT", "ZZ"] {
        assert!(count(&|line| line.starts_with(identity.as_bytes())) > 0, "no {identity}");
    }
    for identity in ["BS", "AA"] {
        for transaction in *b"NRD" {
            assert!(count(&|line| line.starts_with(identity.as_bytes()) && line[2] == transaction) > 0);
        }
    }
    for stp in *b"PNOC" {
        assert!(count(&|line| line.starts_with(b"BS") && line[79] == stp) > 100);
    }
    assert_eq!(count(&|line| line.starts_with(b"BS") && line[2] != b'D'), 5000);
    let each = lines.len() as f64 / 5000.0;
    assert!((17.6..19.6).contains(&each), "{each} records a schedule");
}

#[test]
fn flips_change_one_byte() {
    let full = made("flips", |path| make::full(30, 1, path));
    let mut random = Random::of(&[1, 4]);
    for _ in 0..2000 {
        let flip = Flip::draw(&full, &mut random);
        assert_ne!(flip.old, flip.new);
        assert_eq!(full[flip.offset], flip.old);
        assert_eq!(((flip.record - 1) * 81) as usize + flip.column - 1, flip.offset);
        assert!((1..=81).contains(&flip.column));
    }
}

// ---------------------------------------------------------------- the plain program

/// The extracts of the example office, for the plain program.
fn example(name: &str) -> Vec<u8> {
    fs::read(format!("{}/../examples/office/{name}", env!("CARGO_MANIFEST_DIR"))).unwrap()
}

fn kept(words: &[&str], files: &[Vec<u8>]) -> Vec<u8> {
    plain::answer(words, files).state.unwrap()
}

#[test]
fn texts_of_states() {
    let empty = kept(&["new", "STATE"], &[]);
    assert_eq!(empty, [b"DKS2".as_slice(), &[0; 18]].concat());
    let one = fs::read(concat!(env!("CARGO_MANIFEST_DIR"), "/../examples/one-schedule.cif")).unwrap();
    assert_eq!(kept(&["take", "STATE", "FILE"], &[empty, one]).len(), 311);
}

#[test]
fn dockers_of_a_morning() {
    let transcript = String::from_utf8(example("transcript")).unwrap();
    let empty = kept(&["new", "STATE"], &[]);
    let mut texts = Vec::new();
    for order in [["full.cif", "monday.cif", "tuesday.cif"], ["tuesday.cif", "full.cif", "monday.cif"]] {
        texts.push(order.iter().fold(empty.clone(), |state, name| kept(&["take", "STATE", "FILE"], &[state, example(name)])));
    }
    assert_eq!(texts[0], texts[1]);
    for place in ["ASHFELD", "BRAYTON", "CORHAM"] {
        let docker = plain::answer(&["print", "STATE", place, "2024-06-12"], &texts[..1]).output;
        assert!(docker.starts_with(&format!("DOCKER {place}")) && transcript.contains(&docker), "{docker}");
    }
    let files = plain::answer(&["files", "STATE"], &texts[..1]).output;
    assert!(files.lines().count() == 3 && transcript.contains(&files), "{files}");
    let near = kept(&["horizon", "STATE", "2024-06-10"], &texts[..1]);
    assert_eq!(plain::answer(&["print", "STATE", "CORHAM", "2024-06-12"], &[near]).status, 1);
}

// ---------------------------------------------------------------- hostile shapes

/// How many lines the docker has, for a shape with this many rows. Its heading and its last line
/// don't count.
fn lines_of(shape: &str, rows: usize) -> usize {
    match shape {
        // Only one of them runs.
        "schedules of one UID" | "schedules of one UID, from two states in turn" | "changes of one key" => 1,
        // The association and both its trains.
        "associations of one group" => 3,
        // A pass and an association for each suffix, and the associated train.
        "associations of two suffixes in turn" => 5,
        // Each base with its association, and the partner.
        "base trains of one associated train"
        | "base trains of one associated train, with a schedule of the associated train for each of them" => 2 * rows + 1,
        "associated trains of one base train, with a line for each of them before the call of the base train"
        | "associated trains of one base train, with a schedule of the base train for each of them" => rows + 1,
        "associated trains of one base train, with an earlier call of the base train for each of them" => 2 * rows + 1,
        "calls of one schedule at one place" => rows + 1,
        "calls of one schedule, each at a place of its own" => 1,
        // The origin and every 64th call.
        "calls at places that meet in one slot of the memo" => 1 + rows.div_ceil(64),
        "trains at one place and time"
        | "trains in falling order of UID"
        | "trains with the lowest and the highest UIDs in turn" => rows,
        _ => 0,
    }
}

#[test]
fn hostile_shapes() {
    for shape in SHAPES.iter().filter(|shape| matches!(shape.makes, Makes::File(_))) {
        for newer in [false, true] {
            let file = made("hostile", |path| shape.write(60, newer, path));
            assert!(judge_text(&file, LIMIT).is_ok(), "{}", shape.name);
            let docker = plain::answer(&["day", "FILE", PLACE, DATE], &[file]).output;
            assert_eq!(docker.lines().count(), 2 + lines_of(shape.name, 60), "{}: {docker}", shape.name);
        }
    }
    let joined = kept(&["merge", "STATE", "OTHER"], &[ledger(60, false), ledger(60, true)]);
    assert_eq!(plain::answer(&["files", "STATE"], &[joined]).output.lines().count(), 120);
}

// ---------------------------------------------------------------- costs of a process

#[test]
fn costs_of_the_program_and_of_the_system() {
    let own = run(&["awk", "BEGIN { while (count < 3000000) count++ }"], Input::None).unwrap();
    assert!(own.user > 4.0 * own.system, "{} s and {} s", own.user, own.system);
    // The system fills the blocks with zeros.
    let words = ["dd", "if=/dev/zero", "of=/dev/null", "bs=1M", "count=2000", "status=none"];
    let system = run(&words, Input::None).unwrap();
    assert!(system.system > 4.0 * system.user, "{} s and {} s", system.user, system.system);
    assert_eq!(system.processor(), system.user + system.system);
}

// ---------------------------------------------------------------- statistics

fn spread(values: &[f64]) -> [f64; 3] {
    let Spread { lower, median, upper } = Spread::of(values).unwrap();
    [lower, median, upper]
}

#[test]
fn spreads_of_values() {
    // The ranks are 1, 2 and 3 of 0 to 4.
    assert_eq!(spread(&[50.0, 10.0, 30.0, 20.0, 40.0]), [20.0, 30.0, 40.0]);
    // One slow run changes none of the three.
    assert_eq!(spread(&[4e9, 10.0, 30.0, 20.0, 40.0]), [20.0, 30.0, 40.0]);
    // The ranks are 0.75, 1.5 and 2.25 of 0 to 3.
    assert_eq!(spread(&[8.0, 1.0, 2.0, 4.0]), [1.75, 3.0, 5.0]);
    // The ranks are 0.25, 0.5 and 0.75 of 0 and 1.
    assert_eq!(spread(&[3.0, 1.0]), [1.5, 2.0, 2.5]);
    assert_eq!(spread(&[7.0]), [7.0, 7.0, 7.0]);
    assert_eq!(Spread::of(&[]), None);
    // Of 25 values, the ranks are 6, 12 and 18.
    let squares: Vec<f64> = (0..25).rev().map(|number| f64::from(number * number)).collect();
    assert_eq!(spread(&squares), [36.0, 144.0, 324.0]);
}

#[test]
fn spreads_of_ratios() {
    // The ratios are 1.5, 0.5, 2, 1 and 3. The medians of the first and of the second values are 4
    // and 2, so the ratio of the medians is 2, and not 1.5.
    let pairs = [[6.0, 4.0], [1.0, 2.0], [4.0, 2.0], [2.0, 2.0], [9.0, 3.0]];
    assert_eq!(Spread::of_ratios(&pairs), Some(Spread { lower: 1.0, median: 1.5, upper: 2.0 }));
    // A pair without a ratio is left out.
    assert_eq!(Spread::of_ratios(&[[3.0, 2.0], [1.0, 0.0]]), Spread::of(&[1.5]));
    assert_eq!(Spread::of_ratios(&[[0.0, 0.0]]), None);
    assert_eq!(Spread { lower: 0.994, median: 1.026, upper: 1.5 }.to_string(), "1.03 (0.99 to 1.50)");
}

// ---------------------------------------------------------------- waits for loads

/// Two functions as `perf annotate` prints them.
const ANNOTATED: &str = "\
 Percent |	Source code & Disassembly of planted for cpu-clock:u (6423 samples, percent: local period)
----------------------------------------------------------------------------------------------------------
         :
         : 3    Disassembly of section .text:
         :
         : 5    00000000000011b0 <spanning>:
         : 6    spanning():
    0.00 :   11ba:   lea    0x2e6f(%rip),%rcx        # 4030 <room>
    0.06 :   11c8:   mov    %rax,(%rcx)
    9.79 :   11cb:   shr    $0x3,%rax
    0.05 :   11cf:   mov    %rax,0x2e62(%rip)        # 4038 <room+0x8>
    5.28 :   11d6:   mov    0x2e57(%rip),%rax        # 4034 <room+0x4>
   70.06 :   11dd:   lea    0x1(%rax,%rax,2),%rax
   14.76 :   11e2:   sub    $0x1,%edx
    0.00 :   11e5:   jne    11c8 <spanning+0x18>
 Percent |	Source code & Disassembly of planted for cpu-clock:u (20 samples, percent: local period)
----------------------------------------------------------------------------------------------------------
         : 5    0000000000001170 <<a::B as c::D>::taken>:
   10.00 :   1170:   movdqu 0x2(%rdi),%xmm0
   30.00 :   1174:   cmpb   $0x41,(%rdi,%rax,1)
    5.00 :   1178:   je     1174 <<a::B as c::D>::taken+0x4>
   55.00 :   117a:   ret
";

#[test]
fn waits_for_loads() {
    let [spanning, taken] = <[_; 2]>::try_from(functions(ANNOTATED)).ok().unwrap();
    let names = [&*spanning.name, &*taken.name];
    assert_eq!((names, spanning.samples, taken.samples), (["spanning", "<a::B as c::D>::taken"], 6423.0, 20.0));
    let wait = |address: &str, load: &str, share, is_jumped_to| Wait {
        address: address.to_string(),
        load: load.to_string(),
        share,
        is_jumped_to,
    };
    // The stores before 11cb and 11d6 are no loads, and neither is the `lea` before 11e2.
    assert_eq!(spanning.waits(0.05), [wait("11d6", "mov 0x2e57(%rip),%rax", 0.7006, false)]);
    // The samples at 1178 are 5 percent, and not more.
    assert_eq!(taken.waits(0.05), [wait("1170", "movdqu 0x2(%rdi),%xmm0", 0.3, true)]);
    let both = [wait("1170", "movdqu 0x2(%rdi),%xmm0", 0.3, true), wait("1174", "cmpb $0x41,(%rdi,%rax,1)", 0.05, false)];
    assert_eq!(taken.waits(0.04), both);
    assert!(functions("").is_empty());
}

#[test]
fn instructions_that_load() {
    let loads = [
        "mov 0x8(%rax,%rbx,4),%ecx",
        "mov %fs:0x28,%rax",
        "movdqu (%rdx),%xmm0",
        "movzbl 0x50(%rbx,%rbp,1),%eax",
        "pshufb 0x10(%rsp),%xmm1",
        "vpshufb (%rsi),%ymm1,%ymm2",
        "cmp $0x3,(%rax)",
        "lock xadd %eax,(%rdx)",
        "addq $0x1,0x8(%rsp)",
        "rep movsq %ds:(%rsi),%es:(%rdi)",
    ];
    let others = [
        "mov %eax,(%rcx)",
        "movb $0x1,0x8(%rax,%rbx,4)",
        "movups %xmm0,0x12(%rsp)",
        "sete 0x8(%rsp)",
        "rep stos %al,%es:(%rdi)",
        "lea 0x1(%rax,%rax,2),%rdi",
        "nopl 0x0(%rax)",
        "prefetcht0 (%rax)",
        "call *0x8(%rax)",
        "jmp *(%rax)",
        "add $0x1,%rdx",
        "ret",
    ];
    assert!(loads.iter().all(|text| is_load(text)), "{loads:?}");
    assert!(!others.iter().any(|text| is_load(text)), "{others:?}");
}
