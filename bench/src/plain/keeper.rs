//! The interface through which files and states are read.

use super::key::{Key, Stamp};

/// A change of a file, or an entry of a state, without its key.
#[derive(Clone, Copy)]
pub enum Act<'a> {
    Delete,
    Lapse,
    /// The last day of what is put, and its bytes. For a schedule, the bytes are its first line.
    Put(u16, &'a [u8]),
}

/// Receives the changes of a file or the entries of a state while they are read, and keeps what it
/// needs of them.
pub trait Keeper {
    fn change(&mut self, key: &Key, stamp: &Stamp, act: Act);

    /// The next line of the last schedule that was put.
    fn line(&mut self, line: &[u8]);
}

/// Keeps nothing.
pub struct Nothing;

impl Keeper for Nothing {
    fn change(&mut self, _: &Key, _: &Stamp, _: Act) {}

    fn line(&mut self, _: &[u8]) {}
}
