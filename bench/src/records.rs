//! Records of 80 columns and a line feed.

use std::fs::File;
use std::io::{Result, Write};

pub struct Out {
    file: File,
    buffer: Vec<u8>,
    pub records: u64,
}

const ROOM: usize = 1 << 20;

impl Out {
    pub fn create(path: &str) -> Result<Out> {
        Ok(Out { file: File::create(path)?, buffer: Vec::with_capacity(ROOM + 4096), records: 0 })
    }

    pub fn put(&mut self, record: &Record) -> Result<()> {
        self.buffer.extend_from_slice(&record.0);
        self.records += 1;
        if self.buffer.len() >= ROOM {
            self.flush()
        } else {
            Ok(())
        }
    }

    pub fn flush(&mut self) -> Result<()> {
        self.file.write_all(&self.buffer)?;
        self.buffer.clear();
        Ok(())
    }
}

/// One record. Columns count from 1.
pub struct Record([u8; 81]);

impl Record {
    #[inline]
    pub fn new(identity: &[u8; 2]) -> Record {
        let mut bytes = [b' '; 81];
        bytes[..2].copy_from_slice(identity);
        bytes[80] = b'\n';
        Record(bytes)
    }

    #[inline]
    pub fn at(&mut self, column: usize, text: &[u8]) -> &mut Record {
        self.0[column - 1..][..text.len()].copy_from_slice(text);
        self
    }

    /// A scheduled time, given in half minutes from the midnight of any day.
    #[inline]
    pub fn time(&mut self, column: usize, half_minutes: i32) -> &mut Record {
        let [a, b, c, d] = clock(half_minutes);
        let half = if half_minutes % 2 == 0 { b' ' } else { b'H' };
        self.at(column, &[a, b, c, d, half])
    }

    #[inline]
    pub fn public(&mut self, column: usize, half_minutes: Option<i32>) -> &mut Record {
        self.at(column, &half_minutes.map_or(*b"0000", clock))
    }

    pub fn yymmdd(&mut self, column: usize, day: i32) -> &mut Record {
        let [y, m, d] = date(day);
        self.at(column, &[two(y), two(m), two(d)].concat())
    }

    pub fn ddmmyy(&mut self, column: usize, day: i32) -> &mut Record {
        let [y, m, d] = date(day);
        self.at(column, &[two(d), two(m), two(y)].concat())
    }

    pub fn days(&mut self, column: usize, days: u8) -> &mut Record {
        for at in 0..7 {
            self.0[column - 1 + at] = b'0' + (days >> at & 1);
        }
        self
    }
}

pub fn two(n: i32) -> [u8; 2] {
    [b'0' + (n / 10 % 10) as u8, b'0' + (n % 10) as u8]
}

fn clock(half_minutes: i32) -> [u8; 4] {
    let minute = half_minutes.rem_euclid(2880) / 2;
    let ([a, b], [c, d]) = (two(minute / 60), two(minute % 60));
    [a, b, c, d]
}

/// The two-digit year, the month and the day of a day number.
fn date(day: i32) -> [i32; 3] {
    let (mut day, mut year) = (day % 36525, 1960);
    loop {
        let length = if year % 4 == 0 { 366 } else { 365 };
        if day < length {
            break;
        }
        day -= length;
        year += 1;
    }
    let mut month = 0;
    let lengths = [31, if year % 4 == 0 { 29 } else { 28 }, 31, 30, 31, 30, 31, 31, 30, 31, 30, 31];
    while day >= lengths[month] {
        day -= lengths[month];
        month += 1;
    }
    [year % 100, month as i32 + 1, day + 1]
}
