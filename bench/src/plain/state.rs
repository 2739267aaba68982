//! What an office knows from the newest full extract on: a ledger item for each file, and the
//! greatest entry for each key.

use super::keeper::{Act, Keeper};
use super::key::{is_full, width, Item, Key, Stamp, FILE_STAMP, SCHEDULE};
use std::cmp::Ordering;
use std::io::{Result, Write};
use std::mem::take;

pub const DELETED: u8 = 0;
pub const PUT: u8 = 1;
pub const LAPSED: u8 = 2;

/// How many bytes of an entry come before its body: its stamp and its op.
const HEAD: usize = 16;

/// A key, the position of its entry in the arena, and the last day of what it puts.
#[derive(Clone, Copy)]
struct Row {
    key: Key,
    at: usize,
    length: usize,
    end: u16,
}

/// The entries in one arena, each with its stamp, op and body, and a row for each entry.
#[derive(Default)]
pub struct Table {
    arena: Vec<u8>,
    rows: Vec<Row>,
}

impl Keeper for Table {
    fn change(&mut self, key: &Key, stamp: &Stamp, act: Act) {
        let (op, end, body): (u8, u16, &[u8]) = match act {
            Act::Delete => (DELETED, 0, &[]),
            Act::Lapse => (LAPSED, 0, &[]),
            Act::Put(end, body) => (PUT, end, body),
        };
        let at = self.arena.len();
        self.arena.extend_from_slice(stamp);
        self.arena.push(op);
        self.arena.extend_from_slice(body);
        self.rows.push(Row { key: *key, at, length: HEAD + body.len(), end });
    }

    fn line(&mut self, line: &[u8]) {
        self.arena.extend_from_slice(line);
        if let Some(row) = self.rows.last_mut() {
            row.length += line.len();
        }
    }
}

impl Table {
    /// Sorts the changes of a file, and keeps only the last change of each key, which is the
    /// greatest.
    pub fn sort(&mut self) {
        self.rows.sort_by(|one, other| one.key.cmp(&other.key));
        self.rows.dedup_by(|later, earlier| {
            let same = later.key == earlier.key;
            if same {
                *earlier = *later;
            }
            same
        });
    }

    fn entry(&self, row: &Row) -> &[u8] {
        &self.arena[row.at..row.at + row.length]
    }

    /// The order of two entries with one key: by stamp, op, last day and body.
    fn order(&self, one: &Row, other: &Row) -> Ordering {
        let parts = |row: &Row| {
            let (head, body) = self.entry(row).split_at(HEAD);
            let rank = [DELETED, LAPSED, PUT].iter().position(|&op| op == head[HEAD - 1]);
            (&head[..HEAD - 1], rank, row.end, body)
        };
        let (one, other) = (parts(one), parts(other));
        one.cmp(&other)
    }

    /// The rows of two ascending lists. If both have a key, the greater row is taken.
    fn union(&self, own: Vec<Row>, others: Vec<Row>) -> Vec<Row> {
        let mut rows = Vec::with_capacity(own.len() + others.len());
        let mut others = others.into_iter().peekable();
        for mut row in own {
            while let Some(before) = others.next_if(|other| other.key < row.key) {
                rows.push(before);
            }
            if let Some(other) = others.next_if(|other| other.key == row.key) {
                if self.order(&row, &other).is_lt() {
                    row = other;
                }
            }
            rows.push(row);
        }
        rows.extend(others);
        rows
    }
}

#[derive(Default)]
pub struct State {
    pub horizon: u16,
    pub ledger: Vec<Item>,
    pub table: Table,
}

impl State {
    /// Joins this state with another one. `read` reads the other state's entries into the same
    /// arena, and returns the other state's horizon and ledger.
    pub fn join<E>(
        &mut self,
        read: impl FnOnce(&mut Table) -> std::result::Result<(u16, Vec<Item>), E>,
    ) -> std::result::Result<(), E> {
        let own = take(&mut self.table.rows);
        let (horizon, items) = read(&mut self.table)?;
        let others = take(&mut self.table.rows);
        self.table.rows = self.table.union(own, others);
        self.ledger.extend(items);
        self.ledger.sort();
        self.ledger.dedup();
        let floor = self.ledger.iter().filter(|item| is_full(item)).map(|item| item[..FILE_STAMP].to_vec()).max();
        if let Some(floor) = floor {
            let Table { arena, rows } = &mut self.table;
            self.ledger.retain(|item| item[..FILE_STAMP] >= *floor);
            rows.retain(|row| arena[row.at..row.at + FILE_STAMP] >= *floor);
        }
        self.raise(horizon);
        Ok(())
    }

    /// Raises the state's horizon to this one if this one is later. Entries that end before the
    /// horizon lapse.
    pub fn raise(&mut self, horizon: u16) {
        self.horizon = self.horizon.max(horizon);
        let Table { arena, rows } = &mut self.table;
        for row in rows {
            let op = &mut arena[row.at + HEAD - 1];
            if *op == PUT && row.end < self.horizon {
                *op = LAPSED;
                row.length = HEAD;
            }
        }
    }

    /// Writes the text.
    pub fn write(&self, out: &mut impl Write) -> Result<()> {
        out.write_all(b"DKS2")?;
        out.write_all(&self.horizon.to_be_bytes())?;
        out.write_all(&(self.ledger.len() as u64).to_be_bytes())?;
        for item in &self.ledger {
            out.write_all(item)?;
        }
        out.write_all(&(self.table.rows.len() as u64).to_be_bytes())?;
        for row in &self.table.rows {
            let tag = row.key[0];
            let (head, body) = self.table.entry(row).split_at(HEAD);
            out.write_all(&row.key[..width(tag)])?;
            out.write_all(head)?;
            if tag == SCHEDULE && !body.is_empty() {
                out.write_all(&((body.len() / 80) as u32).to_be_bytes())?;
            }
            out.write_all(body)?;
        }
        Ok(())
    }
}
