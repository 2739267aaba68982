//! The trains and the associations from which the docker of one place and day is made. They are
//! collected from changes or entries while these are read.

use super::fields::{at, pair, LAST_DAY};
use super::keeper::{Act, Keeper};
use super::key::{Key, Stamp, ASSOCIATION, SCHEDULE, TIPLOC};
use crate::judge::judged_time;
use std::collections::HashSet;

/// The number of days that count: from three days before the docker's day to the day after it.
/// Trains on a docker start on that day or on the two days before. An associated train starts at
/// most one day before or after its base train.
pub const DAYS: usize = 5;

/// The index of the docker's day among these days.
pub const TODAY: usize = 3;

/// An event at the place: its record, its kind and time, the train's identity there, and how often
/// the times have fallen before it.
pub struct Event {
    pub number: u64,
    pub kind: u8,
    pub half_minutes: u16,
    pub falls: u16,
    pub identity: [u8; 4],
    pub line: [u8; 80],
}

/// The events of a train at the place, and the train's origin and destination.
#[derive(Default)]
pub struct Calls {
    pub origin: Option<[u8; 7]>,
    pub terminus: [u8; 7],
    pub events: Vec<Event>,
    /// The index of the first event of each suffix.
    pub firsts: Vec<usize>,
}

/// A schedule, the days on which it runs, and its calls at the place. A deleted schedule runs on no
/// day.
pub struct Train {
    pub uid: [u8; 6],
    pub first: u16,
    pub stp: u8,
    pub runs: u8,
    pub identity: [u8; 4],
    pub calls: Option<Box<Calls>>,
}

/// An association at the place, and the days on which it runs.
pub struct Link {
    pub key: Key,
    pub runs: u8,
    pub category: [u8; 2],
    pub indicator: u8,
}

pub struct Excerpt {
    pub place: [u8; 7],
    pub day: u16,
    pub description: Option<[u8; 26]>,
    pub links: Vec<Link>,
    pub trains: Vec<Train>,
    /// Only for a state, whose keys come in order: the UIDs that associations name. Associations
    /// come before the schedules.
    partners: Option<HashSet<[u8; 6]>>,
    /// The walk over the schedule whose lines are being read.
    walk: Option<Walk>,
}

impl Excerpt {
    /// Starts an excerpt of a file, in which a key may come more than once.
    pub fn of_file(place: [u8; 7], day: u16) -> Excerpt {
        Excerpt { place, day, description: None, links: Vec::new(), trains: Vec::new(), partners: None, walk: None }
    }

    /// Starts an excerpt of a state.
    pub fn of_state(place: [u8; 7], day: u16) -> Excerpt {
        Excerpt { partners: Some(HashSet::new()), ..Excerpt::of_file(place, day) }
    }

    /// Puts the associations and the trains in order, and keeps only the row of the last change of
    /// each key.
    pub fn finish(mut self) -> Excerpt {
        self.close();
        self.links.sort_by(|one, other| one.key.cmp(&other.key));
        self.links.dedup_by(|later, earlier| replaces(later, earlier, |link| link.key));
        self.trains.sort_by(|one, other| one.key().cmp(&other.key()));
        self.trains.dedup_by(|later, earlier| replaces(later, earlier, Train::key));
        self
    }

    fn close(&mut self) {
        let walked = self.walk.take().and_then(Walk::finish);
        if let Some(train) = self.trains.last_mut().filter(|_| walked.is_some()) {
            train.calls = walked.map(Box::new);
        }
    }

    /// The days on which a row runs, as bits. They follow from its first day, its last day and its
    /// days run.
    fn runs(&self, first: u16, last: u16, marks: &[u8]) -> u8 {
        let mut runs = 0;
        for index in 0..DAYS as u16 {
            let day = (self.day + index).wrapping_sub(TODAY as u16);
            if day <= LAST_DAY && first <= day && day <= last && marks[usize::from((day + 4) % 7)] == b'1' {
                runs |= 1 << index;
            }
        }
        runs
    }

    fn link(&mut self, key: &Key, act: Act) {
        let link = match act {
            Act::Put(end, line) => {
                let runs = self.runs(pair(key, 13), end, &line[27..34]);
                Link { key: *key, runs, category: at(line, 34), indicator: line[36] }
            }
            _ => Link { key: *key, runs: 0, category: *b"  ", indicator: b' ' },
        };
        if let Some(partners) = &mut self.partners {
            partners.insert(at(key, 7));
        }
        self.links.push(link);
    }

    fn train(&mut self, key: &Key, act: Act) {
        let (uid, first) = (at(key, 1), pair(key, 7));
        self.forget_before(&uid);
        let mut train = Train { uid, first, stp: key[9], runs: 0, identity: *b"    ", calls: None };
        if let Act::Put(end, line) = act {
            train.runs = self.runs(first, end, &line[21..28]);
            train.identity = at(line, 32);
        }
        if self.partners.is_some() && train.runs == 0 {
            return;
        }
        // The lines are needed if the schedule starts on the docker's day or on one of the two days
        // before.
        if train.runs & 0b1110 > 0 {
            self.walk = Some(Walk::new(train.identity));
        }
        self.trains.push(train);
    }

    /// If keys come in order, drops the trains of the last UID when another UID comes, unless the
    /// docker needs them.
    fn forget_before(&mut self, uid: &[u8; 6]) {
        let (Some(partners), Some(last)) = (&self.partners, self.trains.last()) else { return };
        if last.uid == *uid || partners.contains(&last.uid) {
            return;
        }
        let before = self.trains.iter().rposition(|train| train.uid != last.uid).map_or(0, |at| at + 1);
        if self.trains[before..].iter().all(|train| train.calls.is_none()) {
            self.trains.truncate(before);
        }
    }
}

/// Whether two rows have the same key. If so, the later one replaces the earlier one.
fn replaces<T, K: PartialEq>(later: &mut T, earlier: &mut T, key: impl Fn(&T) -> K) -> bool {
    let same = key(later) == key(earlier);
    if same {
        std::mem::swap(later, earlier);
    }
    same
}

impl Train {
    fn key(&self) -> ([u8; 6], u16, u8) {
        (self.uid, self.first, self.stp)
    }
}

impl Keeper for Excerpt {
    fn change(&mut self, key: &Key, _: &Stamp, act: Act) {
        self.close();
        match key[0] {
            TIPLOC if key[1..8] == self.place => {
                self.description = match act {
                    Act::Put(_, body) => Some(at(body, 9)),
                    _ => None,
                }
            }
            ASSOCIATION if key[15..22] == self.place => self.link(key, act),
            SCHEDULE => self.train(key, act),
            _ => {}
        }
    }

    fn line(&mut self, line: &[u8]) {
        if let Some(walk) = &mut self.walk {
            walk.line(line, &self.place);
        }
    }
}

/// A walk over the lines of a schedule.
struct Walk {
    number: u64,
    last: u16,
    falls: u16,
    identity: [u8; 4],
    calls: Calls,
}

impl Walk {
    fn new(identity: [u8; 4]) -> Walk {
        Walk { number: 0, last: 0, falls: 0, identity, calls: Calls::default() }
    }

    fn line(&mut self, line: &[u8], place: &[u8; 7]) {
        // The columns of the times, each with its kind, in the order arrival, pass, departure.
        let times: &[(usize, u8)] = match &line[..2] {
            b"LI" => &[(11, b'A'), (21, b'P'), (16, b'D')],
            b"LO" => &[(11, b'D')],
            b"LT" => &[(11, b'A')],
            b"CR" => {
                self.identity = at(line, 12);
                return;
            }
            _ => return,
        };
        self.calls.origin.get_or_insert_with(|| at(line, 2));
        self.calls.terminus = at(line, 2);
        let here = line[2..9] == *place;
        for &(column, kind) in times {
            let Some(half_minutes) = judged_time(&line[column - 1..]) else { continue };
            self.number += 1;
            self.falls += u16::from(half_minutes < self.last);
            self.last = half_minutes;
            if here {
                self.add(kind, line);
            }
        }
    }

    fn add(&mut self, kind: u8, line: &[u8]) {
        let Calls { events, firsts, .. } = &mut self.calls;
        if !firsts.iter().any(|&first| events[first].line[9] == line[9]) {
            firsts.push(events.len());
        }
        events.push(Event {
            number: self.number,
            kind,
            half_minutes: self.last,
            falls: self.falls,
            identity: self.identity,
            line: at(line, 0),
        });
    }

    /// The calls at the place; `None` if there are none.
    fn finish(self) -> Option<Calls> {
        (!self.calls.events.is_empty()).then_some(self.calls)
    }
}
