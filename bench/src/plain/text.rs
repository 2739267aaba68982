//! Reads the text of a state, part by part.

use super::fields::{end, pair, LAST_DAY, NO_END};
use super::keeper::{Act, Keeper};
use super::key::{self, association, is_full, width, Item, Key, Stamp, ASSOCIATION, FILE_STAMP, TIPLOC};
use super::source::Source;
use super::state::{DELETED, LAPSED, PUT};
use super::Stop;
use crate::judge::ScheduleJudge;
use std::io::Read;

#[derive(Clone, Copy, Debug, PartialEq, Eq)]
pub enum StateCause {
    Mark,
    Horizon,
    Item,
    Order,
    Floor,
    Tag,
    Stamp,
    Body,
    Short,
    Tail,
    Long,
}

#[derive(Clone, Copy, Debug, PartialEq, Eq)]
pub struct StateFault {
    pub at: u64,
    pub cause: StateCause,
}

/// The format of a text: today's, with a horizon, or the older one without.
#[derive(Clone, Copy, PartialEq, Eq)]
pub enum Format {
    Dks1,
    Dks2,
}

/// The greatest number of bytes that a text may have.
const LIMIT: u64 = 1 << 40;

struct Reader<R> {
    source: Source<R>,
    format: Format,
    horizon: u16,
    ledger: Vec<Item>,
    /// Where the item that is being read begins.
    item: u64,
}

/// Reads a text to its end or its fault, gives its entries to a keeper, and returns its horizon and
/// its ledger.
pub fn read(from: impl Read, format: Format, keeper: &mut impl Keeper) -> Result<(u16, Vec<Item>), Stop> {
    let mut reader = Reader { source: Source::new(from), format, horizon: 0, ledger: Vec::new(), item: 0 };
    reader.front()?;
    for _ in 0..reader.count()? {
        reader.ledger_item()?;
    }
    let mut last = [0; 24];
    for _ in 0..reader.count()? {
        reader.entry(&mut last, keeper)?;
    }
    if reader.source.has(1)? {
        return Err(StateFault { at: reader.source.used, cause: StateCause::Tail }.into());
    }
    Ok((reader.horizon, reader.ledger))
}

impl<R: Read> Reader<R> {
    /// The next part, of this many bytes.
    #[inline]
    fn part(&mut self, length: usize) -> Result<&[u8], Stop> {
        let within = LIMIT - self.source.used;
        if length as u64 > within && self.source.has(within as usize + 1)? {
            return Err(StateFault { at: LIMIT, cause: StateCause::Long }.into());
        }
        if !self.source.has(length)? {
            return Err(self.fault(StateCause::Short));
        }
        Ok(self.source.take(length))
    }

    fn bytes<const N: usize>(&mut self) -> Result<[u8; N], Stop> {
        let mut bytes = [0; N];
        bytes.copy_from_slice(self.part(N)?);
        Ok(bytes)
    }

    /// The number of ledger items or of entries that follow. The number is an item of the text
    /// itself.
    fn count(&mut self) -> Result<u64, Stop> {
        self.item = self.source.used;
        Ok(u64::from_be_bytes(self.bytes()?))
    }

    fn fault(&self, cause: StateCause) -> Stop {
        StateFault { at: self.item, cause }.into()
    }

    fn check(&self, good: bool, cause: StateCause) -> Result<(), Stop> {
        if good {
            Ok(())
        } else {
            Err(self.fault(cause))
        }
    }

    fn front(&mut self) -> Result<(), Stop> {
        let mark = if self.format == Format::Dks1 { b"DKS1" } else { b"DKS2" };
        let told = self.bytes()?;
        self.check(told == *mark, StateCause::Mark)?;
        if self.format == Format::Dks2 {
            self.item = self.source.used;
            self.horizon = u16::from_be_bytes(self.bytes()?);
            self.check(self.horizon <= LAST_DAY, StateCause::Horizon)?;
        }
        Ok(())
    }

    fn ledger_item(&mut self) -> Result<(), Stop> {
        self.item = self.source.used;
        let item: Item = self.bytes()?;
        let good = pair(&item, 0) <= LAST_DAY
            && pair(&item, 2) <= 1439
            && printable(&item[4..])
            && matches!(item[FILE_STAMP], b'F' | b'U');
        self.check(good, StateCause::Item)?;
        self.check(self.ledger.last().is_none_or(|last| *last < item), StateCause::Order)?;
        let raises = is_full(&item) && self.ledger.first().is_some_and(|first| item[..FILE_STAMP] > first[..FILE_STAMP]);
        self.check(!raises, StateCause::Floor)?;
        self.ledger.push(item);
        Ok(())
    }

    /// Reads an entry. Its key has to be above the last key, and becomes the last key.
    fn entry(&mut self, last: &mut Key, keeper: &mut impl Keeper) -> Result<(), Stop> {
        self.item = self.source.used;
        let key = self.key()?;
        self.check(*last < key, StateCause::Order)?;
        *last = key;
        let stamp: Stamp = self.bytes()?;
        let known = self.ledger.binary_search_by(|item| item[..FILE_STAMP].cmp(&stamp[..FILE_STAMP])).is_ok();
        let record = u32::from_be_bytes([stamp[11], stamp[12], stamp[13], stamp[14]]);
        self.check(known && (2..=4_294_967_294).contains(&record), StateCause::Stamp)?;
        match (self.bytes()?, self.format) {
            ([DELETED], _) => keeper.change(&key, &stamp, Act::Delete),
            ([LAPSED], Format::Dks2) => keeper.change(&key, &stamp, Act::Lapse),
            ([PUT], _) => self.body(&key, &stamp, keeper)?,
            _ => return Err(self.fault(StateCause::Body)),
        }
        Ok(())
    }

    fn key(&mut self) -> Result<Key, Stop> {
        let mut key = [0; 24];
        [key[0]] = self.bytes()?;
        self.check((TIPLOC..=3).contains(&key[0]), StateCause::Tag)?;
        let width = width(key[0]);
        key[1..width].copy_from_slice(self.part(width - 1)?);
        let good = match key[0] {
            TIPLOC => printable(&key[1..8]) && key[1] != b' ',
            ASSOCIATION => {
                let texts = printable(&key[1..13]) && printable(&key[15..23]);
                texts && pair(&key, 13) <= LAST_DAY && key[15] != b' ' && is_stp(key[23])
            }
            _ => printable(&key[1..7]) && pair(&key, 7) <= LAST_DAY && is_stp(key[9]),
        };
        self.check(good, StateCause::Body)?;
        Ok(key)
    }

    fn body(&mut self, key: &Key, stamp: &Stamp, keeper: &mut impl Keeper) -> Result<(), Stop> {
        match key[0] {
            TIPLOC => {
                let body: [u8; 63] = self.bytes()?;
                self.check(printable(&body), StateCause::Body)?;
                keeper.change(key, stamp, Act::Put(NO_END, &body));
            }
            ASSOCIATION => {
                let line: [u8; 80] = self.bytes()?;
                let good = printable(&line)
                    && line.starts_with(b"AAN")
                    && ScheduleJudge::association_is_good(line)
                    && association(&line) == *key;
                self.check(good && end(&line[21..]) >= self.horizon, StateCause::Body)?;
                keeper.change(key, stamp, Act::Put(end(&line[21..]), &line));
            }
            _ => self.schedule(key, stamp, keeper)?,
        }
        Ok(())
    }

    fn schedule(&mut self, key: &Key, stamp: &Stamp, keeper: &mut impl Keeper) -> Result<(), Stop> {
        let count = u32::from_be_bytes(self.bytes()?);
        self.check((1..=4_294_967_294).contains(&count), StateCause::Body)?;
        let (horizon, fault) = (self.horizon, StateFault { at: self.item, cause: StateCause::Body });
        let mut judge = ScheduleJudge::new();
        for number in 1..=count {
            let line = self.part(80)?;
            if !judge.line(line) || number == count && !judge.complete() {
                return Err(fault.into());
            }
            if number > 1 {
                keeper.line(line);
                continue;
            }
            if line[2] != b'N' || key::schedule(line) != *key || end(&line[15..]) < horizon {
                return Err(fault.into());
            }
            keeper.change(key, stamp, Act::Put(end(&line[15..]), line));
        }
        Ok(())
    }
}

fn printable(bytes: &[u8]) -> bool {
    bytes.iter().all(|byte| (0x20..=0x7E).contains(byte))
}

fn is_stp(letter: u8) -> bool {
    matches!(letter, b'P' | b'N' | b'O' | b'C')
}
