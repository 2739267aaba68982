//! Makes the docker of an excerpt.

use super::excerpt::{Calls, Event, Excerpt, Link, Train, DAYS, TODAY};
use super::fields::{at, iso, pair};
use super::key::{Item, FILE_STAMP};
use std::cmp::Reverse;
use std::collections::HashMap;

/// A printed line of 56 columns, with its line feed.
type Text = [u8; 57];

struct Line {
    /// The sort key: time, kind, UID, start day, number of the event, associated UID.
    order: (u16, usize, [u8; 6], usize, u64, [u8; 6]),
    text: Text,
}

/// A line of spaces with these texts, each from its column on. Columns count from 1.
fn columns<const N: usize>(texts: &[(usize, &[u8])]) -> [u8; N] {
    let mut line = [b' '; N];
    line[N - 1] = b'\n';
    for (column, text) in texts {
        line[column - 1..column - 1 + text.len()].copy_from_slice(text);
    }
    line
}

/// A number as two digits.
fn two(number: u16) -> [u8; 2] {
    [b'0' + (number / 10) as u8, b'0' + (number % 10) as u8]
}

/// A line with the columns that events and associations share. A half minute is printed as an H.
fn line_at(event: &Event, kind: u8, uid: &[u8], stp: u8) -> Text {
    let (minutes, line) = (event.half_minutes / 2, &event.line);
    let platform = if &line[..2] == b"LI" { 33 } else { 19 };
    columns(&[
        (1, &two(minutes / 60)),
        (3, &two(minutes % 60)),
        (5, if event.half_minutes % 2 == 1 { b"H" } else { b" " }),
        (7, &[kind]),
        (9, &event.identity),
        (14, uid),
        (21, &[stp]),
        (23, &line[9..10]),
        (25, &line[platform..platform + 3]),
    ])
}

/// Puts an event's line, path and public time into its columns.
fn add_own(text: &mut Text, event: &Event) {
    let line = &event.line;
    let mut put = |column: usize, field: &[u8]| text[column - 1..column - 1 + field.len()].copy_from_slice(field);
    let public = match (&line[..2], event.kind) {
        (b"LO", _) => {
            put(29, &line[22..25]);
            &line[15..19]
        }
        (b"LT", _) => {
            put(33, &line[22..25]);
            &line[15..19]
        }
        (_, kind) => {
            put(29, &line[36..39]);
            put(33, &line[39..42]);
            match kind {
                b'A' => &line[25..29],
                b'D' => &line[29..33],
                _ => b"    ",
            }
        }
    };
    if public != b"0000" {
        put(37, public);
    }
}

fn kind_rank(kind: u8) -> usize {
    b"APJVND".iter().position(|&letter| letter == kind).unwrap_or(6)
}

/// The row that is chosen on the day with this index. Of the rows that run, it has the lowest STP
/// indicator. If several have this indicator, it has the latest first day. The result is none if
/// the chosen row is a cancellation.
fn chosen<T>(rows: &[T], index: usize, choice: impl Fn(&T) -> (u8, u8, u16)) -> Option<&T> {
    let running = rows.iter().filter(|row| choice(row).0 >> index & 1 == 1);
    let best = running.min_by_key(|row| {
        let (_, stp, first) = choice(row);
        (stp, Reverse(first))
    });
    best.filter(|row| choice(row).1 != b'C')
}

/// The train of a UID on each of the days, if it runs.
type Running<'a> = [Option<&'a Train>; DAYS];

fn running(rows: &[Train]) -> Running<'_> {
    std::array::from_fn(|index| chosen(rows, index, |train| (train.runs, train.stp, train.first)))
}

/// The trains by UID. The result of each lookup is kept.
struct Trains<'a> {
    rows: &'a [Train],
    known: HashMap<[u8; 6], Running<'a>>,
}

impl<'a> Trains<'a> {
    fn of(&mut self, uid: [u8; 6]) -> &Running<'a> {
        let rows = self.rows;
        self.known.entry(uid).or_insert_with(|| {
            let from = &rows[rows.partition_point(|train| train.uid < uid)..];
            running(&from[..from.iter().take_while(|train| train.uid == uid).count()])
        })
    }
}

/// The text of a docker.
pub fn docker(excerpt: &Excerpt) -> String {
    let mut lines = Vec::new();
    for rows in excerpt.trains.chunk_by(|one, other| one.uid == other.uid) {
        if rows.iter().any(|train| train.calls.is_some()) {
            add_events(&mut lines, &running(rows));
        }
    }
    let mut trains = Trains { rows: &excerpt.trains, known: HashMap::new() };
    // The UIDs of the base train and the associated train, and the base train's suffix. In the key,
    // the first day comes between the UIDs and the suffix.
    let group = |link: &Link| (at::<12>(&link.key, 1), link.key[22]);
    let mut links: Vec<&Link> = excerpt.links.iter().collect();
    links.sort_by_key(|link| group(link));
    for rows in links.chunk_by(|one, other| group(one) == group(other)) {
        lines.extend((1..=TODAY).filter_map(|index| link_line(&mut trains, rows, index)));
    }
    lines.sort_by(|one, other| one.order.cmp(&other.order));
    let description = excerpt.description.unwrap_or([b' '; 26]);
    let heading: Text = columns(&[(1, b"DOCKER"), (8, &excerpt.place), (16, iso(excerpt.day).as_bytes()), (27, &description)]);
    let mut printed = heading.to_vec();
    lines.iter().for_each(|line| printed.extend_from_slice(&line.text));
    printed.extend_from_slice(&columns::<57>(&[(1, b"END")]));
    String::from_utf8_lossy(&printed).into_owned()
}

fn add_events(lines: &mut Vec<Line>, running: &Running) {
    for (index, train) in running.iter().enumerate().take(TODAY + 1) {
        let Some((train, Calls { origin: Some(origin), terminus, events, .. })) =
            train.and_then(|train| Some((train, train.calls.as_deref()?)))
        else {
            continue;
        };
        for event in events.iter().filter(|event| index + usize::from(event.falls) == TODAY) {
            let mut text = line_at(event, event.kind, &train.uid, train.stp);
            add_own(&mut text, event);
            text[41..48].copy_from_slice(origin);
            text[49..56].copy_from_slice(terminus);
            let order = (event.half_minutes, kind_rank(event.kind), train.uid, index, event.number, [0; 6]);
            lines.push(Line { order, text });
        }
    }
}

/// The line of a group of associations, for a base train that starts on the day with this index.
fn link_line(trains: &mut Trains, rows: &[&Link], index: usize) -> Option<Line> {
    let link = chosen(rows, index, |link| (link.runs, link.key[23], pair(&link.key, 13)))?;
    let kind = match &link.category {
        b"JJ" => b'J',
        b"VV" => b'V',
        b"NP" => b'N',
        _ => return None,
    };
    let partner_index = match link.indicator {
        b'S' | b' ' => index,
        b'N' => index + 1,
        b'P' => index - 1,
        _ => return None,
    };
    let (base, other, suffix) = (at(&link.key, 1), at(&link.key, 7), link.key[22]);
    let calls = trains.of(base)[index]?.calls.as_deref()?;
    let event = calls.firsts.iter().map(|&first| &calls.events[first]).find(|event| event.line[9] == suffix)?;
    if index + usize::from(event.falls) != TODAY {
        return None;
    }
    let identity = trains.of(other)[partner_index].map_or(*b"????", |train| train.identity);
    let mut text = line_at(event, kind, &base, link.key[23]);
    text[41..47].copy_from_slice(&other);
    text[49..53].copy_from_slice(&identity);
    let order = (event.half_minutes, kind_rank(kind), base, index, event.number, other);
    Some(Line { order, text })
}

/// The list of files: a line for each file that counts.
pub fn files(ledger: &[Item]) -> String {
    let line = |item: &Item| -> [u8; 34] {
        let (day, minute) = (pair(item, 0), pair(item, 2));
        columns(&[
            (1, iso(day).as_bytes()),
            (12, &two(minute / 60)),
            (14, &two(minute % 60)),
            (17, &item[4..FILE_STAMP]),
            (25, &item[FILE_STAMP..12]),
            (27, &item[12..]),
        ])
    };
    let printed: Vec<u8> = ledger.iter().flat_map(line).collect();
    String::from_utf8_lossy(&printed).into_owned()
}
