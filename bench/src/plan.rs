//! The plan of each UID's schedules. A plan depends only on the seed and on the number of the UID,
//! so an update can be made without the full extract before it.

use crate::network::Network;
use crate::random::Random;

/// 2024-06-09, a Sunday. The moment of the full extract is 21:00 on this day.
pub const EXTRACT: i32 = 23536;
/// The timetable runs from 2024-06-02 to 2024-12-14. The one before began on 2023-12-10.
const BEGIN: i32 = 23529;
const END: i32 = 23724;
const BEFORE: i32 = 23354;

#[derive(Clone)]
pub struct Schedule {
    pub first: i32,
    pub last: i32,
    /// Monday is bit 0.
    pub days: u8,
    pub stp: u8,
    /// Distinguishes the times of this schedule from the times of the UID's other schedules.
    pub variant: u64,
}

impl Schedule {
    pub fn has_journey(&self) -> bool {
        self.stp != b'C'
    }
}

fn runs(days: u8, day: i32) -> bool {
    days >> ((day + 4) % 7) & 1 == 1
}

/// The first day and the last day of a range on which the schedule runs.
fn trim(days: u8, first: i32, last: i32) -> Option<(i32, i32)> {
    let first = (first..=last).find(|&day| runs(days, day))?;
    let last = (first..=last).rev().find(|&day| runs(days, day))?;
    Some((first, last))
}

/// Days run; Monday is bit 0.
const DAYS: [(u32, u8); 16] = [
    (44, 0b0011111),
    (16, 0b0100000),
    (14, 0b1000000),
    (6, 0b0111111),
    (3, 0b1111111),
    (2, 0b0001111),
    (3, 0b0010000),
    (2, 0b1100000),
    (1, 0b0000001),
    (1, 0b0000010),
    (1, 0b0000100),
    (1, 0b0001000),
    (2, 0b0011110),
    (1, 0b0001110),
    (2, 0b0010101),
    (1, 0b1111000),
];

pub struct Plans {
    seed: u64,
    /// The number of UIDs in the full extract.
    pub uids: usize,
    /// How many schedules of the last UID are in the full extract.
    last: usize,
}

impl Plans {
    pub fn new(seed: u64, schedules: usize) -> Plans {
        let mut plans = Plans { seed, uids: usize::MAX, last: 0 };
        let (mut uid, mut left) = (0, schedules);
        loop {
            let count = plans.of(uid).len();
            if count >= left {
                plans.last = left;
                plans.uids = uid + 1;
                return plans;
            }
            left -= count;
            uid += 1;
        }
    }

    pub fn random(&self, uid: usize, names: u64) -> Random {
        Random::of(&[self.seed, 2, uid as u64, names])
    }

    /// Whether the UID belongs to the permanent timetable.
    fn permanent(random: &mut Random) -> bool {
        random.chance(78.4)
    }

    /// The schedules of a UID in the order of their first days.
    pub fn of(&self, uid: usize) -> Vec<Schedule> {
        let random = &mut self.random(uid, 0);
        let mut plan = if Self::permanent(random) { permanent(random) } else { short_term(random) };
        plan.sort_by_key(|s| s.first);
        if uid + 1 == self.uids {
            plan.truncate(self.last);
        }
        plan
    }

    /// An overlay or a cancellation that the plan of its UID doesn't have.
    pub fn change(plan: &[Schedule], stp: u8, random: &mut Random) -> Option<Schedule> {
        let base = plan.iter().find(|s| matches!(s.stp, b'P' | b'N'))?;
        overlay(plan, base, stp, random)
    }

    /// The schedules of a new train in the short-term plan.
    pub fn new_short_term(random: &mut Random) -> Vec<Schedule> {
        short_term(random)
    }
}

/// The permanent schedules of one UID, with their overlays and cancellations.
fn permanent(random: &mut Random) -> Vec<Schedule> {
    let mut plan: Vec<Schedule> = Vec::new();
    let days = random.weigh(&DAYS);
    let whole = random.chance(40.0);
    let mut from = if whole {
        if random.chance(12.0) {
            BEFORE
        } else {
            BEGIN + random.range(0, 9)
        }
    } else {
        BEGIN - 20 + random.range(0, 195)
    };
    for _ in 0..random.weigh(&[(76, 1), (19, 2), (5, 3)]) {
        let to = if whole && random.chance(80.0) { END } else { from + random.range(6, 55) };
        if let Some((first, last)) = trim(days, from, to.min(END)) {
            plan.push(Schedule { first, last, days, stp: b'P', variant: plan.len() as u64 });
        }
        from = to + 1 + if random.chance(30.0) { random.range(1, 3) * 7 } else { 0 };
    }
    if plan.is_empty() {
        // If no schedule that was drawn runs within the timetable, the only schedule is for a
        // single day: the timetable's last.
        let days = 1 << ((END + 4) % 7);
        plan.push(Schedule { first: END, last: END, days, stp: b'P', variant: 0 });
    }
    let bases = plan.len();
    let counts = [(800, 0), (125, 1), (42, 2), (20, 3), (9, 4), (4, 6)];
    for stp in *b"OC" {
        for _ in 0..random.weigh(&counts) {
            let base = plan[random.below(bases)].clone();
            if let Some(mut change) = overlay(&plan, &base, stp, random) {
                change.variant = 10 + plan.len() as u64;
                plan.push(change);
            }
        }
    }
    plan
}

/// An overlay or a cancellation for some days of a schedule, under a key that isn't used yet.
fn overlay(plan: &[Schedule], base: &Schedule, stp: u8, random: &mut Random) -> Option<Schedule> {
    let from = random.range(base.first, base.last);
    let to = from + random.weigh(&[(50, 0), (14, 1), (16, 4), (12, 11), (6, 25), (2, 60)]);
    let taken = |day: i32| plan.iter().any(|s| s.stp == stp && s.first == day);
    let first = (from..=base.last).find(|&day| runs(base.days, day) && !taken(day))?;
    let last = to.clamp(first, base.last);
    // If the change covers less than a week, its days run include only weekdays that it covers.
    let week = (first..=last).take(7).fold(0, |days, day| days | 1u8 << ((day + 4) % 7));
    let days = base.days & week;
    let (first, last) = trim(days, first, last)?;
    Some(Schedule { first, last, days, stp, variant: 20 + first as u64 })
}

/// The schedules of a train in the short-term plan.
fn short_term(random: &mut Random) -> Vec<Schedule> {
    let mut plan: Vec<Schedule> = Vec::new();
    let mut from = EXTRACT - 3 + random.range(0, 90);
    for at in 0..random.weigh(&[(84, 1), (12, 2), (4, 3)]) {
        let (to, days) =
            if random.chance(60.0) { (from, 1 << ((from + 4) % 7)) } else { (from + random.range(2, 27), random.weigh(&DAYS)) };
        if let Some((first, last)) = trim(days, from, to.max(from + 6)) {
            plan.push(Schedule { first, last, days, stp: b'N', variant: at });
            from = last + 1;
        }
    }
    plan
}

// ---------------------------------------------------------------- routes

pub struct Route {
    /// Places and suffixes.
    pub stops: Vec<(u32, u8)>,
    pub freight: bool,
    /// Half minutes.
    pub departure: i32,
    pub identity: [u8; 4],
    pub operator: [u8; 2],
}

/// The route on which the trains of a UID run.
pub fn route(network: &Network, random: &mut Random) -> Route {
    let freight = random.chance(18.0);
    let line = random.pick(&network.lines);
    // A gamma distribution with shape 2.
    let drawn = -(random.unit().max(1e-9).ln() + random.unit().max(1e-9).ln()) * 9.0;
    let length = (2 + drawn as usize).min(60).min(line.len());
    let start = random.below(line.len() - length + 1);
    let mut stops: Vec<(u32, u8)> = line[start..start + length].iter().map(|&place| (place, b' ')).collect();
    if random.chance(50.0) {
        stops.reverse();
    }
    // Some trains run out and part of the way back. A place that such a train meets again has the
    // suffix 2.
    if length > 6 && length < 40 && random.chance(1.5) {
        let back = random.range(2, length as i32 / 2) as usize;
        for at in 2..2 + back {
            stops.push((stops[length - at].0, b'2'));
        }
    }
    // The number of trains by hour of departure.
    let hour = if freight {
        random.below(24) as i32
    } else {
        random.weigh(&[
            (1, 0),
            (1, 3),
            (3, 4),
            (16, 5),
            (30, 6),
            (38, 7),
            (36, 8),
            (30, 9),
            (27, 10),
            (27, 11),
            (27, 12),
            (27, 13),
            (28, 14),
            (31, 15),
            (35, 16),
            (37, 17),
            (34, 18),
            (28, 19),
            (23, 20),
            (20, 21),
            (16, 22),
            (10, 23),
        ])
    };
    let departure = hour * 120 + random.range(0, 119);
    let class = if freight { *random.pick(b"4467") } else { *random.pick(b"1122225559") };
    let number = random.below(100) as u8;
    Route {
        stops,
        freight,
        departure,
        identity: [class, b'A' + random.below(26) as u8, b'0' + number / 10, b'0' + number % 10],
        operator: *random.pick(&[*b"AW", *b"CC", *b"EM", *b"GW", *b"LE", *b"NT", *b"SE", *b"SN", *b"SW", *b"TP", *b"VT", *b"XC"]),
    }
}
