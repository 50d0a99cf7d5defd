//! Rows of a range, from both ends.
use crate::{error, Handle};
use blink_sys::*;
use std::fmt;
use std::iter::FusedIterator;

/// The rows of a range of keys, by [`Handle::range`].
pub struct Range<'a> {
    handle: &'a Handle,
    /// The rows that are left are of these keys.
    low: u64,
    high: u64,
    is_done: bool,
    front: Ahead,
    back: Ahead,
}

/// Which way rows are read.
#[derive(Clone, Copy)]
enum Way {
    Up,
    Down,
}

/// Rows that were read and not told yet.
struct Ahead {
    way: Way,
    rows: Vec<blink_row>,
    at: usize,
    /// The key from which the library lists further rows, if there may be any.
    next: Option<u64>,
}

impl Ahead {
    fn new(way: Way, next: u64) -> Ahead {
        Ahead { way, rows: Vec::new(), at: 0, next: Some(next) }
    }

    /// Reads further rows up to the key `last`, itself included: few at first, since many ranges are left early. Whether there
    /// may be any.
    fn read(&mut self, handle: &Handle, last: u64) -> bool {
        let from = match self.next {
            Some(from) => from,
            None => return false,
        };
        let room = if self.rows.is_empty() { 32 } else { 128 };
        let (mut count, mut next, mut more) = (0, 0, false);
        self.rows.resize(room, blink_row::default());
        let scan = match self.way {
            Way::Up => blink_scan_to,
            Way::Down => blink_scan_down_to,
        };
        let rows = self.rows.as_mut_ptr();
        // SAFETY: the seat is the handle's alone, and each other pointer is of a vector or a variable that is there.
        let code = handle.call(|seat| unsafe { scan(seat, from, last, rows, room, &mut count, &mut next, &mut more) });
        if code != BLINK_OK {
            error::unexpected(code);
        }
        self.rows.truncate(count);
        self.at = 0;
        self.next = Some(next).filter(|_| more);
        true
    }

    fn take(&mut self) -> Option<blink_row> {
        let row = self.rows.get(self.at).copied();
        self.at += row.is_some() as usize;
        row
    }
}

impl<'a> Range<'a> {
    pub(crate) fn new(handle: &'a Handle, low: u64, high: u64) -> Range<'a> {
        let (front, back) = (Ahead::new(Way::Up, low), Ahead::new(Way::Down, high));
        Range { handle, low, high, is_done: low > high, front, back }
    }

    fn told(&mut self, row: blink_row) -> Option<(u64, u64)> {
        self.is_done = self.low == self.high;
        Some((row.key, row.value))
    }
}

impl Iterator for Range<'_> {
    type Item = (u64, u64);

    fn next(&mut self) -> Option<(u64, u64)> {
        while !self.is_done {
            match self.front.take() {
                Some(row) if row.key <= self.high => {
                    self.low = row.key;
                    let told = self.told(row);
                    self.low = self.low.saturating_add(1);
                    return told;
                }
                Some(_) => self.is_done = true,
                None => self.is_done = !self.front.read(self.handle, self.high),
            }
        }
        None
    }
}

impl DoubleEndedIterator for Range<'_> {
    fn next_back(&mut self) -> Option<(u64, u64)> {
        while !self.is_done {
            match self.back.take() {
                Some(row) if row.key >= self.low => {
                    self.high = row.key;
                    let told = self.told(row);
                    self.high = self.high.saturating_sub(1);
                    return told;
                }
                Some(_) => self.is_done = true,
                None => self.is_done = !self.back.read(self.handle, self.low),
            }
        }
        None
    }
}

impl FusedIterator for Range<'_> {}

impl fmt::Debug for Range<'_> {
    fn fmt(&self, f: &mut fmt::Formatter<'_>) -> fmt::Result {
        f.debug_struct("Range")
            .field("low", &self.low)
            .field("high", &self.high)
            .field("is_done", &self.is_done)
            .finish_non_exhaustive()
    }
}
