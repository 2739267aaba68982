//! The changes of a file.

use super::fields::{end, NO_END};
use super::keeper::{Act, Keeper};
use super::key::{self, Item, Key};
use super::source::Source;
use super::Stop;
use crate::judge::{Judge, LIMIT};
use std::io::Read;

/// Passes to a keeper the changes of records that were already judged.
struct Changes<'a, K> {
    item: Item,
    record: u32,
    /// Whether the lines being read belong to a schedule that was put.
    open: bool,
    keeper: &'a mut K,
}

impl<K: Keeper> Changes<'_, K> {
    fn change(&mut self, key: &Key, act: Act) {
        self.keeper.change(key, &key::stamp(&self.item, self.record), act);
    }

    fn record(&mut self, line: &[u8]) {
        self.record += 1;
        match &line[..2] {
            b"LI" | b"LO" | b"LT" | b"BX" | b"CR" => {
                if self.open {
                    self.keeper.line(line);
                }
            }
            b"BS" => {
                self.open = line[2] != b'D';
                self.change_or_delete(&key::schedule(line), line, 15);
            }
            _ => {
                self.open = false;
                self.single(line);
            }
        }
    }

    /// Takes a record that is a whole unit, or the header or the trailer.
    fn single(&mut self, line: &[u8]) {
        match &line[..2] {
            b"HD" => self.item = key::item(line),
            b"TI" | b"TA" => {
                let mut code = &line[2..9];
                if &line[..2] == b"TA" && &line[72..79] != b"       " && &line[72..79] != code {
                    self.change(&key::tiploc(code), Act::Delete);
                    code = &line[72..79];
                }
                self.change(&key::tiploc(code), Act::Put(NO_END, &line[9..72]));
            }
            b"TD" => self.change(&key::tiploc(&line[2..9]), Act::Delete),
            b"AA" => self.change_or_delete(&key::association(line), line, 21),
            _ => {}
        }
    }

    /// Makes the change of a line whose end date begins at this index. A line that is put is kept
    /// with the transaction of a new record.
    fn change_or_delete(&mut self, key: &Key, line: &[u8], end_at: usize) {
        if line[2] == b'D' {
            return self.change(key, Act::Delete);
        }
        let mut kept = [0; 80];
        kept.copy_from_slice(line);
        kept[2] = b'N';
        self.change(key, Act::Put(end(&line[end_at..]), &kept));
    }
}

/// Reads a file until its end or its first fault, and returns its ledger item.
pub fn read(from: impl Read, keeper: &mut impl Keeper) -> Result<Item, Stop> {
    let mut source = Source::new(from);
    let mut judge = Judge::new(LIMIT);
    let mut changes = Changes { item: [0; 19], record: 0, open: false, keeper };
    while let Some(line) = source.line()? {
        judge.record(line)?;
        changes.record(&line[..80]);
    }
    judge.finish()?;
    Ok(changes.item)
}
