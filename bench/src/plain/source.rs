//! Reads bytes piece by piece. A reader takes them line by line or part by part.

use crate::judge::end_of_line;
use std::io::{Read, Result};

const ROOM: usize = 1 << 18;

/// The greatest number of bytes of a line that are looked at. A record has 80, and perhaps a
/// carriage return.
const LONGEST: usize = 82;

pub struct Source<R> {
    from: R,
    buffer: Vec<u8>,
    begin: usize,
    end: usize,
    /// How many bytes have been taken so far.
    pub used: u64,
}

impl<R: Read> Source<R> {
    pub fn new(from: R) -> Source<R> {
        Source { from, buffer: vec![0; ROOM], begin: 0, end: 0, used: 0 }
    }

    /// Whether this many bytes are left. If so, they are in the buffer after the call.
    #[inline]
    pub fn has(&mut self, length: usize) -> Result<bool> {
        if self.end - self.begin < length {
            self.fill(length)?;
        }
        Ok(self.end - self.begin >= length)
    }

    /// Reads until this many bytes are in the buffer, or until the end.
    fn fill(&mut self, length: usize) -> Result<()> {
        self.buffer.copy_within(self.begin..self.end, 0);
        self.end -= self.begin;
        self.begin = 0;
        while self.end < length {
            match self.from.read(&mut self.buffer[self.end..])? {
                0 => break,
                gained => self.end += gained,
            }
        }
        Ok(())
    }

    /// The next bytes, which must already be in the buffer.
    #[inline]
    pub fn take(&mut self, length: usize) -> &[u8] {
        let begin = self.begin;
        self.begin += length;
        self.used += length as u64;
        &self.buffer[begin..begin + length]
    }

    /// The next line without its line feed. A line that is too long for a record is cut, but
    /// remains too long.
    pub fn line(&mut self) -> Result<Option<&[u8]>> {
        self.has(LONGEST)?;
        let ahead = &self.buffer[self.begin..self.end.min(self.begin + LONGEST)];
        if ahead.is_empty() {
            return Ok(None);
        }
        let length = end_of_line(ahead).unwrap_or(ahead.len());
        let begin = self.begin;
        self.begin = self.end.min(begin + length + 1);
        Ok(Some(&self.buffer[begin..begin + length]))
    }
}
