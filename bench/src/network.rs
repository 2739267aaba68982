//! Places and the lines on which trains run.

use crate::random::Random;
use std::collections::HashSet;

pub struct Place {
    pub code: [u8; 7],
    pub name: String,
}

pub struct Network {
    pub places: Vec<Place>,
    /// Places in the order of their codes.
    pub sorted: Vec<u32>,
    /// Distinct places, in the order in which trains pass them.
    pub lines: Vec<Vec<u32>>,
}

const FIRST: [(&str, &str); 4] =
    [("ASHFELD", "ASHFIELD CENTRAL"), ("BRAYTON", "BRAYTON"), ("COLWELL", "COLWELL JUNCTION"), ("DUNMERE", "DUNMERE")];
const HEADS: [&str; 24] = [
    "ASH", "BAR", "BRAD", "CHAT", "COL", "DON", "EAST", "FARN", "GRAN", "HAR", "KINGS", "LANG", "MAL", "NEW", "NOR", "OAK",
    "PEN", "RAD", "SAND", "STAN", "THORN", "WAL", "WEST", "YAR",
];
const TAILS: [&str; 24] = [
    "BOROUGH", "BRIDGE", "BURY", "BY", "CASTER", "COMBE", "DEN", "FIELD", "FORD", "GATE", "HAM", "HURST", "LEIGH", "LEY", "MERE",
    "MINSTER", "MOUTH", "PORT", "STEAD", "STOKE", "THORPE", "TON", "WELL", "WORTH",
];
const ENDS: [&str; 16] = [
    "",
    "",
    "",
    " JN",
    " NORTH JN",
    " SOUTH JN",
    " CENTRAL",
    " PARK",
    " ROAD",
    " SIDINGS",
    " DN LOOP",
    " UP LOOP",
    " FRT TERMINAL",
    " TOWN",
    " SIGNAL 47",
    " T&RSMD",
];

impl Network {
    pub fn new(seed: u64, schedules: usize) -> Network {
        let count = (schedules * 11_000 / 500_000).max(50);
        let mut random = Random::of(&[seed, 1]);
        let mut codes = HashSet::new();
        let mut places: Vec<Place> = Vec::with_capacity(count);
        for (code, name) in FIRST {
            let code = padded(code);
            codes.insert(code);
            places.push(Place { code, name: name.into() });
        }
        while places.len() < count {
            let place = place(&mut random);
            if codes.insert(place.code) {
                places.push(place);
            }
        }
        let mut sorted: Vec<u32> = (0..count as u32).collect();
        sorted.sort_unstable_by_key(|&at| places[at as usize].code);

        // One place in forty is a hub. Hub k is used about k^-0.3 times as often as the first.
        let hubs = (count / 40).max(8);
        let locals = count - hubs;
        let hub = |random: &mut Random| (random.unit().powf(1.0 / 0.7) * hubs as f64) as u32;
        let lines = (0..(count / 30).max(3)).map(|at| {
            let length = random.range(64, 80) as usize;
            let mut line = Vec::new();
            let mut local = at * 30 % locals;
            for _ in 0..length {
                let next = if random.chance(13.0) {
                    hub(&mut random)
                } else {
                    local = (local + 1) % locals;
                    (hubs + local) as u32
                };
                if !line.contains(&next) {
                    line.push(next);
                }
            }
            line
        });
        let lines = lines.collect();
        Network { places, sorted, lines }
    }

    pub fn code(&self, place: u32) -> &[u8; 7] {
        &self.places[place as usize].code
    }
}

pub fn padded(text: &str) -> [u8; 7] {
    let mut code = [b' '; 7];
    code[..text.len()].copy_from_slice(text.as_bytes());
    code
}

/// A place with a code of 4 to 7 letters. The code is made from the name in the same way as
/// planners make codes.
pub fn place(random: &mut Random) -> Place {
    let (head, tail, end) = (random.pick(&HEADS), random.pick(&TAILS), random.pick(&ENDS));
    let name = format!("{head}{tail}{end}");
    let mut code: Vec<u8> = head.bytes().take(4).collect();
    code.extend(tail.bytes().filter(|b| !b"AEIOU".contains(b)).take(2));
    if end.len() > 1 {
        code.push(end.as_bytes()[1]);
    }
    let length = random.range(4, 7) as usize;
    while code.len() < length {
        code.push(b'A' + random.below(26) as u8);
    }
    let last = code.len().min(7) - 1;
    code.truncate(7);
    code[last] = *random.pick(b"ABCDEFGHIJKLMNOPQRSTUVWXYZ0123456789");
    if random.chance(60.0) {
        code[last - 1] = b'A' + random.below(26) as u8;
    }
    let mut bytes = [b' '; 7];
    bytes[..code.len()].copy_from_slice(&code);
    Place { code: bytes, name }
}
