//! Makes extracts: a full extract, and updates to it.

use crate::network::{self, Network};
use crate::plan::{route, Plans, Route, Schedule, EXTRACT};
use crate::random::Random;
use crate::records::{Out, Record};
use std::collections::BTreeSet;
use std::io::Result;

fn uid(number: usize) -> [u8; 6] {
    let letter = b"CDFGHJLNOPQRSTUVWXY"[number / 90_000 % 19];
    let digits = 10_000 + number % 90_000;
    let digit = |place: usize| b'0' + (digits / place % 10) as u8;
    [letter, digit(10_000), digit(1000), digit(100), digit(10), digit(1)]
}

struct Extract {
    network: Network,
    plans: Plans,
    out: Out,
    counts: [usize; 256],
    deletions: usize,
    associations: usize,
    locations: usize,
    journeys: usize,
}

impl Extract {
    fn new(seed: u64, schedules: usize, out: &str) -> Result<Extract> {
        Ok(Extract {
            network: Network::new(seed, schedules),
            plans: Plans::new(seed, schedules),
            out: Out::create(out)?,
            counts: [0; 256],
            deletions: 0,
            associations: 0,
            locations: 0,
            journeys: 0,
        })
    }

    fn head(&mut self, day: i32, reference: &[u8; 7], last: &[u8; 7], indicator: u8) -> Result<()> {
        let mut record = Record::new(b"HD");
        record.at(3, b"TPS.UDFROC1.PD").yymmdd(17, day);
        record.ddmmyy(23, day).at(29, b"2100").at(33, reference).at(40, last);
        record.at(47, &[indicator, b'A']).ddmmyy(49, day).ddmmyy(55, day + 365);
        self.out.put(&record)
    }

    fn place(&mut self, identity: &[u8; 2], code: &[u8; 7], name: &str, new: &[u8]) -> Result<()> {
        let mut random = Random::of(&[u64::from_le_bytes([&code[..], &[0]].concat().try_into().unwrap())]);
        let number = |random: &mut Random, width| format!("{:0width$}", random.below(10usize.pow(width as u32)));
        let mut record = Record::new(identity);
        record.at(3, code).at(10, b"00").at(12, number(&mut random, 6).as_bytes());
        record.at(18, &[b'A' + random.below(26) as u8]).at(19, name.as_bytes());
        record.at(45, number(&mut random, 5).as_bytes()).at(50, b"0000");
        if random.chance(30.0) {
            record.at(54, &code[..3]).at(57, &name.as_bytes()[..name.len().min(16)]);
        }
        record.at(73, new);
        self.out.put(&record)
    }

    // ------------------------------------------------------------ associations

    /// The association whose base train has this UID, if there is one, with its partner, its place
    /// and its category.
    fn association(&self, base: usize) -> Option<Association> {
        let mut random = self.plans.random(base, 1);
        let schedule = self.plans.of(base).into_iter().find(|schedule| schedule.stp == b'P')?;
        if !random.chance(26.0) {
            return None;
        }
        let stops = route(&self.network, &mut self.plans.random(base, 2)).stops;
        let category = random.weigh(&[(60, *b"NP"), (20, *b"JJ"), (20, *b"VV")]);
        // The next working begins where the base ends.
        let at = if category == *b"NP" { stops.len() - 1 } else { random.below(stops.len()) };
        Some(Association {
            base,
            partner: (base + 1 + random.below(40)) % self.plans.uids,
            schedule,
            place: stops[at].0,
            suffix: stops[at].1,
            category,
            indicator: random.weigh(&[(86, b'S'), (10, b'N'), (4, b'P')]),
        })
    }

    fn put_association(&mut self, transaction: u8, association: &Association) -> Result<()> {
        let mut record = Record::new(b"AA");
        record.at(3, &[transaction]).at(4, &uid(association.base)).at(10, &uid(association.partner));
        record.yymmdd(16, association.schedule.first);
        if transaction != b'D' {
            record.yymmdd(22, association.schedule.last).days(28, association.schedule.days);
            record.at(35, &association.category).at(37, &[association.indicator]).at(48, b"P");
        }
        record.at(38, self.network.code(association.place)).at(45, &[association.suffix]);
        record.at(47, b"T").at(80, &[association.schedule.stp]);
        self.associations += 1;
        self.out.put(&record)
    }

    // ------------------------------------------------------------ schedules

    fn basic(&mut self, transaction: u8, number: usize, schedule: &Schedule, route: &Route) -> Result<()> {
        let mut record = Record::new(b"BS");
        record.at(3, &[transaction]).at(4, &uid(number)).yymmdd(10, schedule.first).at(80, &[schedule.stp]);
        if transaction == b'D' {
            self.deletions += 1;
            return self.out.put(&record);
        }
        self.counts[usize::from(schedule.stp)] += 1;
        record.yymmdd(16, schedule.last).days(22, schedule.days);
        if schedule.stp == b'C' {
            record.at(30, b" ");
            return self.out.put(&record);
        }
        let mut random = self.plans.random(number, 3);
        if random.chance(8.0) {
            record.at(29, b"X");
        }
        let status = match (schedule.stp, route.freight) {
            (b'N', false) => b"1",
            (b'N', true) => b"2",
            (_, false) => b"P",
            _ => b"F",
        };
        let category = if route.freight { b"  " } else { random.weigh(&[(70, b"OO"), (20, b"XX"), (10, b"EE")]) };
        record.at(30, status).at(31, category).at(33, &route.identity).at(41, b"1");
        let service = 10_000_000 + random.below(20_000_000);
        record.at(42, service.to_string().as_bytes());
        if route.freight {
            record.at(51, b"D  ").at(54, b"1600").at(58, b"060");
        } else {
            record.at(51, random.weigh(&[(60, b"EMU"), (40, b"DMU")]));
            record.at(54, random.weigh(&[(30, b"375 "), (30, b"A   "), (20, b"170 "), (20, b"E   ")]));
            record.at(58, random.weigh(&[(30, b"075"), (40, b"100"), (30, b"125")]));
            record.at(61, b"D").at(67, &[*random.pick(b"BS")]).at(69, &[*random.pick(b" SA")]);
        }
        self.out.put(&record)?;

        let mut extra = Record::new(b"BX");
        extra.at(12, if route.freight { b"ZZ" } else { &route.operator }).at(14, b"Y");
        self.out.put(&extra)
    }

    /// A schedule. A different `revision` gives the same schedule different times.
    fn schedule(&mut self, transaction: u8, number: usize, schedule: &Schedule, revision: u64) -> Result<()> {
        let route = route(&self.network, &mut self.plans.random(number, 2));
        self.basic(transaction, number, schedule, &route)?;
        if transaction == b'D' || !schedule.has_journey() {
            return Ok(());
        }
        self.journey(number, schedule, &route, revision)
    }

    /// The records from LO to LT. They pass midnight at most twice.
    fn journey(&mut self, number: usize, schedule: &Schedule, route: &Route, revision: u64) -> Result<()> {
        let mut random = self.plans.random(number, 4 + schedule.variant * 1000 + revision);
        let change_at = if random.chance(1.2) { random.below(route.stops.len()) } else { 0 };
        // Overlays and revisions leave some minutes earlier or later than the base schedule.
        let mut time = route.departure;
        if schedule.variant > 0 || revision > 0 {
            time = (time + random.range(-16, 16)).max(0);
        }
        let stopping = if route.freight { 4 } else { random.range(25, 75) as u64 };
        let end = route.stops.len() - 1;
        // Some freight trains wait at two places for most of a day each.
        let stays_at = if route.freight && end > 4 && random.chance(3.0) { [end / 3, 2 * end / 3] } else { [0, 0] };
        self.journeys += 1;
        self.locations += end + 1;
        for (at, &(place, suffix)) in route.stops.iter().enumerate() {
            let bits = random.next();
            let code = *self.network.code(place);
            // Each use has its own bits of the random number.
            let some = |shift: u32, of_64: u64| bits >> shift & 63 < of_64;
            let platform = [b"1  ", b"2  ", b"3  ", b"4  ", b"5  ", b"6  ", b"7A ", b"11 "][(bits >> 6 & 7) as usize];
            let track = [b"SL ", b"FL ", b"UM ", b"DM "][(bits >> 9 & 3) as usize];
            let public = |time: i32| (!route.freight).then_some(time);
            if at == 0 {
                let mut record = Record::new(b"LO");
                record.at(3, &code).at(10, &[suffix]).time(11, time).public(16, public(time));
                if !route.freight || some(12, 8) {
                    record.at(20, platform);
                }
                if some(18, 20) {
                    record.at(23, track);
                }
                record.at(30, b"TB");
                self.out.put(&record)?;
                continue;
            }
            // A train takes 1 to 6 minutes from one place to the next. The time is counted in half
            // minutes. Up to 3.5 minutes depend on the two places, and up to 1.5 minutes are
            // random.
            let road = u64::from(place) * 7 + u64::from(route.stops[at - 1].0) * 3;
            time += 2 + (road % 8) as i32 + (bits >> 60 & 3) as i32;
            let stays = stays_at.contains(&at);
            if at == change_at {
                let mut record = Record::new(b"CR");
                let [class, letter, a, b] = route.identity;
                record.at(3, &code).at(10, &[suffix]).at(11, b"OO");
                record.at(13, &[class, b'A' + (letter - b'A' + 7) % 26, a, b]).at(21, b"1");
                self.out.put(&record)?;
            }
            if at == end {
                let mut record = Record::new(b"LT");
                record.at(3, &code).at(10, &[suffix]).time(11, time).public(16, public(time + 2));
                if !route.freight || some(12, 8) {
                    record.at(20, platform);
                }
                if some(18, 16) {
                    record.at(23, track);
                }
                record.at(26, b"TF");
                self.out.put(&record)?;
                continue;
            }
            let mut record = Record::new(b"LI");
            record.at(3, &code).at(10, &[suffix]);
            if stays || (bits >> 24) % 100 < stopping {
                let arrival = time;
                time += 1 + (bits >> 31 & 3) as i32 + if stays { 2000 } else { 0 };
                record.time(11, arrival).time(16, time);
                if some(34, 60) {
                    record.public(26, public(arrival + 1)).public(30, public(time));
                } else {
                    record.public(26, None).public(30, None);
                }
                if some(12, 50) {
                    record.at(34, platform);
                }
                record.at(43, if route.freight { b"OP" } else { [b"T ", b"T ", b"T ", b"D "][(bits >> 40 & 3) as usize] });
            } else {
                record.time(21, time).public(26, None).public(30, None);
                if some(12, 6) {
                    record.at(34, platform);
                }
            }
            if some(18, 14) {
                record.at(37, track);
            }
            if some(46, 8) {
                record.at(40, track);
            }
            if some(52, 3) {
                record.at(55, [b"1 ", b"H ", b"1H", b"2 "][(bits >> 58 & 3) as usize]);
            }
            self.out.put(&record)?;
        }
        Ok(())
    }

    fn finish(mut self) -> Result<()> {
        self.out.put(&Record::new(b"ZZ"))?;
        self.out.flush()?;
        let schedules = self.counts.iter().sum::<usize>().max(1);
        let share = |stp: u8| 100.0 * self.counts[usize::from(stp)] as f64 / schedules as f64;
        let [permanent, new, overlay, cancelled] = [b'P', b'N', b'O', b'C'].map(share);
        println!(
            "{} records, {} bytes; {schedules} schedules (P {permanent:.1}%, N {new:.1}%, O {overlay:.1}%, C {cancelled:.1}%), \
             {:.1} locations a journey; {} deletions; {} associations",
            self.out.records,
            self.out.records * 81,
            self.locations as f64 / self.journeys.max(1) as f64,
            self.deletions,
            self.associations,
        );
        Ok(())
    }
}

struct Association {
    base: usize,
    partner: usize,
    /// The dates, days and STP indicator of a schedule.
    schedule: Schedule,
    place: u32,
    suffix: u8,
    category: [u8; 2],
    indicator: u8,
}

/// A full extract.
pub fn full(schedules: usize, seed: u64, out: &str) -> Result<()> {
    let mut extract = Extract::new(seed, schedules, out)?;
    extract.head(EXTRACT, b"DFROC1A", b"DFROC1Z", b'F')?;
    for at in 0..extract.network.sorted.len() {
        let place = extract.network.sorted[at] as usize;
        let (code, name) = (extract.network.places[place].code, extract.network.places[place].name.clone());
        extract.place(b"TI", &code, &name, b"")?;
    }
    extract.changed_places(&mut Random::of(&[seed, 3]))?;
    for base in 0..extract.plans.uids {
        extract.associations_of(base)?;
    }
    for number in 0..extract.plans.uids {
        for (at, schedule) in extract.plans.of(number).iter().enumerate() {
            extract.schedule_of_full(number, at, schedule)?;
        }
    }
    extract.finish()
}

/// An update, `day` days after the full extract with the seed `base`.
pub fn update(schedules: usize, base: u64, seed: u64, day: i32, out: &str) -> Result<()> {
    let mut extract = Extract::new(base, schedules, out)?;
    // The reference of the full extract has the letter A.
    let reference = |day: i32| {
        let mut reference = *b"DFROC1A";
        reference[6] += (day % 26) as u8;
        reference
    };
    extract.head(EXTRACT + day, &reference(day), &reference(day - 1), b'U')?;
    let mut random = Random::of(&[base, seed, day as u64]);
    let places = extract.network.places.len();
    for _ in 0..1 + places / 500 {
        let place = network::place(&mut random);
        extract.place(b"TI", &place.code, &place.name, b"")?;
    }
    extract.changed_places(&mut random)?;

    // Two in a hundred associations and schedules are changed, in the order of their UIDs.
    let uids = extract.plans.uids;
    for base in some(&mut random, 1 + schedules / 8 / 10, uids) {
        extract.changed_association(base, &mut random)?;
    }
    // UIDs after the last UID of the full extract are new trains.
    for number in some(&mut random, 1 + schedules / 50, uids + uids / 100 + 1) {
        extract.changed_schedule(number, seed, &mut random)?;
    }
    extract.finish()
}

fn some(random: &mut Random, count: usize, below: usize) -> BTreeSet<usize> {
    (0..count).map(|_| random.below(below)).collect()
}

impl Extract {
    /// Changed, renamed and deleted places. The first four places stay unchanged.
    fn changed_places(&mut self, random: &mut Random) -> Result<()> {
        let places = self.network.places.len();
        for at in 0..1 + places / 300 {
            let place = 4 + random.below(places - 4);
            let (code, name) = (self.network.places[place].code, &self.network.places[place].name);
            let name = format!("{:.22} NEW", name);
            let new = match at % 4 {
                0 => network::place(random).code,
                1 => code,
                _ => *b"       ",
            };
            self.place(b"TA", &code, &name, &new)?;
        }
        for _ in 0..1 + places / 1000 {
            let code = self.network.places[4 + random.below(places - 4)].code;
            self.out.put(Record::new(b"TD").at(3, &code))?;
        }
        Ok(())
    }

    /// The associations of a base train in the full extract, if it has any.
    fn associations_of(&mut self, base: usize) -> Result<()> {
        let Some(mut association) = self.association(base) else {
            return Ok(());
        };
        let mut random = self.plans.random(base, 5);
        let transaction = random.weigh(&[(97, b'N'), (2, b'R'), (1, b'D')]);
        self.put_association(transaction, &association)?;
        // Some associations don't apply on certain days, because of a cancellation or an overlay.
        if random.chance(12.0) {
            let stp = *random.pick(b"CCO");
            if let Some(change) = Plans::change(std::slice::from_ref(&association.schedule), stp, &mut random) {
                association.schedule = change;
                self.put_association(b'N', &association)?;
            }
        }
        Ok(())
    }

    /// A schedule of the full extract. Most are new, some are revised, and some are deleted and
    /// then new again.
    fn schedule_of_full(&mut self, number: usize, at: usize, schedule: &Schedule) -> Result<()> {
        let mut random = self.plans.random(number, 900 + at as u64);
        if random.chance(0.5) {
            self.schedule(b'D', number, schedule, 0)?;
            // One in ten deletions has a journey all the same.
            if schedule.has_journey() && random.chance(10.0) {
                let route = route(&self.network, &mut self.plans.random(number, 2));
                self.journey(number, schedule, &route, 0)?;
            }
        }
        let transaction = if random.chance(2.0) { b'R' } else { b'N' };
        self.schedule(transaction, number, schedule, 0)
    }

    fn changed_association(&mut self, base: usize, random: &mut Random) -> Result<()> {
        let Some(mut association) = self.association(base) else {
            return Ok(());
        };
        match random.below(10) {
            0..=2 => self.put_association(b'D', &association),
            3..=5 => {
                association.category = *random.pick(&[*b"NP", *b"JJ", *b"VV"]);
                self.put_association(b'R', &association)
            }
            _ => {
                association.partner = (base + 41 + random.below(40)) % self.plans.uids;
                self.put_association(b'N', &association)
            }
        }
    }

    fn changed_schedule(&mut self, number: usize, seed: u64, random: &mut Random) -> Result<()> {
        if number >= self.plans.uids {
            for schedule in Plans::new_short_term(random) {
                self.schedule(b'N', number, &schedule, seed)?;
            }
            return Ok(());
        }
        let plan = self.plans.of(number);
        let old = random.pick(&plan).clone();
        match random.below(100) {
            0..=29 => self.schedule(b'R', number, &old, seed),
            30..=54 => self.schedule(b'D', number, &old, 0),
            _ => {
                let stp = *random.pick(b"OOOCC");
                match Plans::change(&plan, stp, random) {
                    Some(change) => self.schedule(b'N', number, &change, seed),
                    None => self.schedule(b'R', number, &old, seed),
                }
            }
        }
    }
}
