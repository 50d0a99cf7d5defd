//! An ordered map from `u64` to `u64` that threads share, over the proved library `libblink`. This crate is tested and not
//! proved.
//!
//! ```
//! let map = blink::Map::growing(4)?; // 4 handles at once
//! std::thread::scope(|scope| {
//!     for thread in 0..4 {
//!         let handle = map.handle().unwrap();
//!         scope.spawn(move || (0..100).try_for_each(|n| handle.insert(n * 4 + thread, n).map(drop)).unwrap());
//!     }
//! });
//! let handle = map.handle().unwrap();
//! assert_eq!(handle.get(7), Some(1));
//! assert_eq!(handle.range(10..13).rev().collect::<Vec<_>>(), [(12, 3), (11, 2), (10, 2)]);
//! # Ok::<(), blink::OpenError>(())
//! ```
//!
//! A map grows by two as rows come, and shrinks by two where less than an eighth of its pages is used, while the calls of other
//! handles wait: a call takes long then, once for each doubling. One that is made with a number of pages keeps it.
//!
//! What the header asks of a caller is kept by types: a [`Handle`] owns its place, may go to another thread, and is not shared by
//! two (`Send`, not `Sync`), and no call of it calls back. So its calls take `&self`, and a range may be listed while the same
//! handle changes rows.
//!
//! There is one order of all calls, which keeps the order of calls that did not overlap. It is proved for the calls of one seat
//! and for seats that have met; between others, as a map's handles are, it is tested. In the child of a `fork` of a program with
//! threads no call may be made.
#![deny(missing_docs)]
#![deny(unsafe_op_in_unsafe_fn)]

mod error;
mod files;
mod range;
mod seats;

pub use blink_sys::blink_stats as Stats;
pub use error::{CloseError, ExchangeError, NoRoom, NoRoomAfter, OpenError, ResizeError, SnapshotError};
pub use range::Range;

use blink_sys::*;
use seats::{Seats, FIRST_PAGES, MOST_PAGES};
use std::cell::Cell;
use std::ffi::CStr;
use std::fmt;
use std::io;
use std::ops::{Bound, RangeBounds};
use std::path::Path;
use std::sync::Arc;

/// The most rows of one leaf.
const LEAF_ROWS: usize = 14;
/// So many times a snapshot reads leaves again that others have changed.
const ROUNDS: u32 = 64;
/// No code of the library: of a call that enters no row.
const NOTHING: i32 = -1;


/// A map. Clones of it share its rows, and so do its handles, which may outlive it.
#[derive(Clone)]
pub struct Map {
    seats: Arc<Seats>,
}

/// One thread's place at a map. It goes back to the map when it is dropped.
pub struct Handle {
    place: usize,
    /// How many rows it has entered and taken away. The cells make a handle one that is not `Sync`.
    entered: Cell<u64>,
    taken: Cell<u64>,
    seats: Arc<Seats>,
}

/// The version of the library that is linked, as "0.1.0".
pub fn library_version() -> &'static str {
    // SAFETY: the library has a text that ends with a zero and is never freed.
    unsafe { CStr::from_ptr(blink_version()) }.to_str().unwrap_or("")
}

impl Map {
    /// A map without rows, with 1 to 64 handles, that grows by two as rows come.
    ///
    /// # Errors
    ///
    /// Where the handles are not 1 to 64, or there is no memory.
    pub fn growing(handles: usize) -> Result<Map, OpenError> {
        Map::of(handles, true, |seats, count| unsafe { blink_open(FIRST_PAGES, seats, count) })
    }

    /// One of 4 to 2^28 pages (plan one for each six rows), which only [`Map::resize`] changes.
    ///
    /// # Errors
    ///
    /// Where a number is out of range, or there is no memory.
    pub fn new(pages: u32, handles: usize) -> Result<Map, OpenError> {
        Map::of(handles, false, |seats, count| match pages {
            0 => BLINK_BAD_PAGES,
            _ => unsafe { blink_open(pages, seats, count) },
        })
    }

    /// A map that begins with the rows and the pages of an image, as [`Map::close_image`] and `blink dump` make it, and grows.
    ///
    /// # Errors
    ///
    /// Where the bytes are no sound image, the handles not 1 to 64, or there is no memory.
    pub fn from_image(image: &[u8], handles: usize) -> Result<Map, OpenError> {
        Map::of(handles, true, |seats, count| unsafe {
            blink_open_image(image.as_ptr(), image.len(), seats, count)
        })
    }

    /// A map of so many handles, which the call opens: it gets an array of closed seats.
    fn of(handles: usize, grows: bool, open: impl FnOnce(*mut blink_seat, usize) -> i32) -> Result<Map, OpenError> {
        if !(1..=64).contains(&handles) {
            return Err(OpenError::Handles);
        }
        let seats = Seats::open(handles, grows, open).map_err(OpenError::of)?;
        Ok(Map { seats: Arc::new(seats) })
    }

    /// A map that begins with the rows of the image in a file, as [`Map::save`] and `blink dump` make it.
    ///
    /// # Errors
    ///
    /// Where the file cannot be read; where the map cannot be opened the [`OpenError`] is the source of this one.
    pub fn open(path: impl AsRef<Path>, handles: usize) -> io::Result<Map> {
        Map::from_image(&std::fs::read(path)?, handles).map_err(|why| io::Error::new(io::ErrorKind::InvalidData, why))
    }

    /// Writes an image of the map's rows to a file while others work, through a handle that is free: to a new file first, which takes
    /// its place. Each key is as the map stood at one moment of it; it is no snapshot.
    ///
    /// # Errors
    ///
    /// Where no handle is free, there is no memory, or the file cannot be written, which then is as it was.
    pub fn save(&self, path: impl AsRef<Path>) -> io::Result<()> {
        let handle = self.handle().ok_or_else(|| io::Error::new(io::ErrorKind::Other, "no handle of the map is free"))?;
        files::replace(path.as_ref(), &handle.image()?)
    }

    /// A handle, if one is free.
    pub fn handle(&self) -> Option<Handle> {
        let place = self.seats.lock().free.pop()?;
        Some(Handle { place, entered: Cell::new(0), taken: Cell::new(0), seats: self.seats.clone() })
    }

    /// How many pages the map has.
    pub fn pages(&self) -> u32 {
        self.seats.pages()
    }

    /// Gives the map so many pages, as many as it has or more, while the calls of all handles wait.
    ///
    /// # Errors
    ///
    /// Where the number is not within these limits, there is no memory, or the map is closed; the map is as it was then, but for
    /// [`ResizeError::Lost`], which has its image.
    pub fn resize(&self, pages: u32) -> Result<(), ResizeError> {
        let mut held = self.seats.lock();
        match self.seats.resize(&mut held, pages) {
            BLINK_OK => Ok(()),
            BLINK_SEATS_LOST => Err(ResizeError::Lost(held.rescued.clone())),
            BLINK_BAD_PAGES => Err(ResizeError::Pages),
            BLINK_CLOSED => Err(ResizeError::Closed),
            _ => Err(ResizeError::Memory),
        }
    }

    /// The image of a map that was lost as it grew: there was no memory to open it again, and each call of it panics. Of any other
    /// map nothing.
    pub fn rescued(&self) -> Vec<u8> {
        self.seats.lock().rescued.clone()
    }

    /// Closes the map, if all handles are back: its image. Clones of the map have no handle any more then.
    ///
    /// # Errors
    ///
    /// Where a handle is out, the map was closed by a clone, or there is no memory; the error has the map, as it was.
    pub fn close_image(self) -> Result<Vec<u8>, CloseError> {
        let mut held = self.seats.lock();
        if held.is_closed || held.free.len() != self.seats.count() {
            drop(held);
            return Err(CloseError::HandlesOut(self));
        }
        // SAFETY: the function takes any number.
        let mut bytes = vec![0; unsafe { blink_image_length(self.seats.pages()) } as usize];
        let mut length = 0;
        // SAFETY: the seats are all those of one map, no handle has any of them, and each pointer is of a vector or a variable that
        // is there, with the length of the vector beside it.
        let code = self.seats.with_seats(|seats, count| unsafe {
            blink_close_image(seats, count, bytes.as_mut_ptr(), bytes.len(), &mut length)
        });
        if code != BLINK_OK {
            drop(held);
            return Err(CloseError::Refused(self, error::text(code)));
        }
        held.close();
        bytes.truncate(length as usize);
        Ok(bytes)
    }
}

impl fmt::Debug for Map {
    fn fmt(&self, f: &mut fmt::Formatter<'_>) -> fmt::Result {
        f.debug_struct("Map")
            .field("pages", &self.seats.pages())
            .field("handles", &self.seats.count())
            .finish_non_exhaustive()
    }
}

/// The least and the greatest key of a range, if there may be any.
fn bounds_of(range: impl RangeBounds<u64>) -> Option<(u64, u64)> {
    let low = match range.start_bound() {
        Bound::Included(&key) => key,
        Bound::Excluded(&key) => key.checked_add(1)?,
        Bound::Unbounded => 0,
    };
    let high = match range.end_bound() {
        Bound::Included(&key) => key,
        Bound::Excluded(&key) => key.checked_sub(1)?,
        Bound::Unbounded => u64::MAX,
    };
    Some((low, high))
}

impl Handle {
    /// Makes a call of the library by the handle's seat. It is not to panic, nor to make another call of a handle.
    fn call<T>(&self, call: impl FnOnce(*mut blink_seat) -> T) -> T {
        self.seats.call(self.place, call)
    }

    /// The same of a write, of which that code says that it has entered a row. Behind each 64th row the map grows where it is short
    /// of pages; where the write found no room, it is made again once the map has grown.
    fn enter(&self, is_new: i32, mut write: impl FnMut(*mut blink_seat) -> i32) -> i32 {
        loop {
            let pages = self.seats.pages();
            let code = self.call(&mut write);
            if code == is_new {
                self.entered.set(self.entered.get() + 1);
                if self.entered.get() % 64 == 0 && self.is_short(pages) {
                    self.seats.grow(pages);
                }
            }
            if code != BLINK_NO_ROOM || !self.seats.grow(pages) {
                return code;
            }
        }
    }

    /// Behind each 64th row that is taken away the map shrinks, if less than an eighth of its pages is used.
    fn note_taken(&self) {
        self.taken.set(self.taken.get() + 1);
        let pages = self.seats.pages();
        if self.taken.get() % 64 != 0 || !self.seats.grows() || pages < 2 * FIRST_PAGES {
            return;
        }
        let mut is_sparse = false;
        let code = self.call(|seat| unsafe { blink_is_sparse(seat, &mut is_sparse) });
        if code == BLINK_OK && is_sparse {
            self.seats.shrink(pages);
        }
    }

    /// Whether a map of so many pages is to grow.
    fn is_short(&self, pages: u32) -> bool {
        let mut is_short = false;
        // SAFETY: here and below, the seat is this handle's alone, and each other pointer is of a local variable.
        self.seats.grows() && pages < MOST_PAGES && self.call(|seat| unsafe { blink_is_short(seat, &mut is_short) }) == BLINK_OK && is_short
    }

    /// The key's value.
    pub fn get(&self, key: u64) -> Option<u64> {
        let mut value = 0;
        match self.call(|seat| unsafe { blink_find(seat, key, &mut value) }) {
            BLINK_OK => Some(value),
            BLINK_ABSENT => None,
            code => error::unexpected(code),
        }
    }

    /// Whether the key is there.
    pub fn contains_key(&self, key: u64) -> bool {
        self.get(key).is_some()
    }

    /// The values of many keys, in their order; each is a search of its own, and the pages of eight at a time are fetched side by
    /// side.
    pub fn get_many(&self, keys: &[u64]) -> Vec<Option<u64>> {
        let (mut values, mut found) = (vec![0; keys.len()], vec![false; keys.len()]);
        // SAFETY: the seat is this handle's alone, and each other pointer is of a vector with a place for each key.
        let code = self.call(|seat| unsafe {
            blink_find_many(seat, keys.as_ptr(), keys.len(), values.as_mut_ptr(), found.as_mut_ptr())
        });
        if code != BLINK_OK {
            error::unexpected(code);
        }
        values.into_iter().zip(found).map(|(value, is_there)| is_there.then_some(value)).collect()
    }

    /// Puts the value at the key where it has none: `None`, or the value that is there and stays.
    ///
    /// # Errors
    ///
    /// Where no page or frame was free; nothing has changed then, here and below.
    pub fn insert(&self, key: u64, value: u64) -> Result<Option<u64>, NoRoom> {
        let mut there = 0;
        match self.enter(BLINK_OK, |seat| unsafe { blink_insert(seat, key, value, &mut there) }) {
            BLINK_OK => Ok(None),
            BLINK_PRESENT => Ok(Some(there)),
            BLINK_NO_ROOM => Err(NoRoom),
            code => error::unexpected(code),
        }
    }

    /// Puts the value at the key, whatever is there: the value that was there.
    ///
    /// # Errors
    ///
    /// Where no page or frame was free.
    pub fn put(&self, key: u64, value: u64) -> Result<Option<u64>, NoRoom> {
        let mut old = 0;
        match self.enter(BLINK_OK, |seat| unsafe { blink_put(seat, key, value, &mut old) }) {
            BLINK_OK => Ok(None),
            BLINK_PRESENT => Ok(Some(old)),
            BLINK_NO_ROOM => Err(NoRoom),
            code => error::unexpected(code),
        }
    }

    /// Puts the rows in their order, whatever is there.
    ///
    /// # Errors
    ///
    /// Where no page or frame was free: the error says how many rows were put before.
    pub fn put_many(&self, rows: impl IntoIterator<Item = (u64, u64)>) -> Result<(), NoRoomAfter> {
        for (put, (key, value)) in rows.into_iter().enumerate() {
            self.put(key, value).map_err(|NoRoom| NoRoomAfter { put })?;
        }
        Ok(())
    }

    /// Takes all rows away, one by one: how many. Rows that others put meanwhile may stay.
    ///
    /// # Errors
    ///
    /// Where no frame was free; the rows before are gone then.
    pub fn clear(&self) -> Result<u64, NoRoom> {
        let mut taken = 0;
        for (key, _) in self {
            taken += u64::from(self.remove(key)?.is_some());
        }
        Ok(taken)
    }

    /// Takes the key away: the value that it had.
    ///
    /// # Errors
    ///
    /// Where no frame was free.
    pub fn remove(&self, key: u64) -> Result<Option<u64>, NoRoom> {
        let mut gone = 0;
        match self.enter(NOTHING, |seat| unsafe { blink_delete(seat, key, &mut gone) }) {
            BLINK_OK => {
                self.note_taken();
                Ok(Some(gone))
            }
            BLINK_ABSENT => Ok(None),
            BLINK_NO_ROOM => Err(NoRoom),
            code => error::unexpected(code),
        }
    }

    /// Puts the new value at a key that has the old one.
    ///
    /// # Errors
    ///
    /// Where the key has another value, is not there, or no frame was free.
    pub fn compare_exchange(&self, key: u64, old: u64, new: u64) -> Result<(), ExchangeError> {
        let mut there = 0;
        match self.enter(NOTHING, |seat| unsafe { blink_change(seat, key, old, new, &mut there) }) {
            BLINK_OK => Ok(()),
            BLINK_ABSENT => Err(ExchangeError::Absent),
            BLINK_PRESENT => Err(ExchangeError::Differs(there)),
            BLINK_NO_ROOM => Err(ExchangeError::NoRoom),
            code => error::unexpected(code),
        }
    }

    /// Puts at a key that is there what the function makes of its value: the value before, or `None` where the key is not there.
    /// The function is called again where others write in between. Where it panics nothing has changed.
    ///
    /// # Errors
    ///
    /// Where no frame was free.
    pub fn update(&self, key: u64, mut make: impl FnMut(u64) -> u64) -> Result<Option<u64>, NoRoom> {
        let mut found = self.get(key);
        while let Some(old) = found {
            match self.compare_exchange(key, old, make(old)) {
                Ok(()) => return Ok(found),
                Err(ExchangeError::Differs(there)) => found = Some(there),
                Err(ExchangeError::Absent) => return Ok(None),
                Err(ExchangeError::NoRoom) => return Err(NoRoom),
            }
        }
        Ok(None)
    }

    /// Adds to the key's value, modulo 2^64: the sum. A key that is not there counts as 0, and is inserted.
    ///
    /// # Errors
    ///
    /// Where no page or frame was free.
    pub fn add(&self, key: u64, delta: u64) -> Result<u64, NoRoom> {
        let mut now = 0;
        match self.enter(BLINK_OK, |seat| unsafe { blink_add(seat, key, delta, &mut now) }) {
            BLINK_OK | BLINK_PRESENT => Ok(now),
            BLINK_NO_ROOM => Err(NoRoom),
            code => error::unexpected(code),
        }
    }

    /// The rows of a range by rising keys, or by falling ones from its end. Each leaf is read at one moment; the whole is no
    /// snapshot.
    pub fn range(&self, range: impl RangeBounds<u64>) -> Range<'_> {
        let (low, high) = bounds_of(range).unwrap_or((1, 0));
        Range::new(self, low, high)
    }

    /// All rows of a range as the map had them at one moment.
    ///
    /// # Errors
    ///
    /// Where others changed them each time that they were read, 65 times; or there is no memory.
    pub fn snapshot(&self, range: impl RangeBounds<u64>) -> Result<Vec<(u64, u64)>, SnapshotError> {
        let (low, high) = match bounds_of(range) {
            Some(bounds) => bounds,
            None => return Ok(Vec::new()),
        };
        let mut rows = vec![blink_row::default(); 256];
        loop {
            let mut count = 0;
            // SAFETY: the seat is this handle's alone, and each other pointer is of a vector, with its length, or a variable.
            let code = self.call(|seat| unsafe {
                blink_range(seat, low, high, ROUNDS, rows.as_mut_ptr(), rows.len(), &mut count)
            });
            match code {
                BLINK_OK => {
                    rows.truncate(count as usize);
                    return Ok(rows.into_iter().map(|row| (row.key, row.value)).collect());
                }
                // Some more, since others may insert.
                BLINK_FEW_ROWS => rows.resize(count as usize * 9 / 8, blink_row::default()),
                BLINK_UNSTEADY => return Err(SnapshotError::Unsteady),
                BLINK_NO_MEMORY => return Err(SnapshotError::Memory),
                code => error::unexpected(code),
            }
        }
    }

    /// All rows, as [`Handle::range`].
    pub fn iter(&self) -> Range<'_> {
        self.range(..)
    }

    /// The row of the least key.
    pub fn first(&self) -> Option<(u64, u64)> {
        self.row(|seat, row| unsafe { blink_first(seat, row) })
    }

    /// The row of the greatest key.
    pub fn last(&self) -> Option<(u64, u64)> {
        self.row(|seat, row| unsafe { blink_last(seat, row) })
    }

    /// The row of the least key above this one.
    pub fn next(&self, key: u64) -> Option<(u64, u64)> {
        self.row(|seat, row| unsafe { blink_next(seat, key, row) })
    }

    /// The row of the greatest key below this one.
    pub fn previous(&self, key: u64) -> Option<(u64, u64)> {
        self.row(|seat, row| unsafe { blink_previous(seat, key, row) })
    }

    /// The row that a call of one row answers, if there is one.
    fn row(&self, call: impl FnOnce(*mut blink_seat, *mut blink_row) -> i32) -> Option<(u64, u64)> {
        let mut row = blink_row::default();
        match self.call(|seat| call(seat, &mut row)) {
            BLINK_OK => Some((row.key, row.value)),
            BLINK_ABSENT => None,
            code => error::unexpected(code),
        }
    }

    /// How many rows of a range there are. It goes along them, and is exact where nobody writes meanwhile.
    pub fn count(&self, range: impl RangeBounds<u64>) -> u64 {
        let (mut rows, (low, high)) = (0, bounds_of(range).unwrap_or((1, 0)));
        match self.call(|seat| unsafe { blink_count(seat, low, high, &mut rows) }) {
            BLINK_OK => rows,
            code => error::unexpected(code),
        }
    }

    /// An image of the map's rows while others work, for [`Map::from_image`] or a file: each key as the map stood at one moment of
    /// it. It is no snapshot.
    ///
    /// # Errors
    ///
    /// Where there is no memory.
    pub fn image(&self) -> io::Result<Vec<u8>> {
        loop {
            // SAFETY: the function takes any number.
            let mut bytes = vec![0; unsafe { blink_image_length(self.seats.pages()) } as usize];
            // Some more, since others may insert; and a leaf's, by which the scan reads.
            let mut rows = vec![blink_row::default(); self.count(..) as usize * 9 / 8 + LEAF_ROWS];
            let mut length = 0;
            // SAFETY: the seat is this handle's alone, and each other pointer is of a vector, with its length behind it, or a variable.
            let code = self.call(|seat| unsafe {
                let (row, byte) = (rows.as_mut_ptr(), bytes.as_mut_ptr());
                blink_save(seat, LEAF_ROWS as u32, row, rows.len(), byte, bytes.len(), &mut length)
            });
            match code {
                BLINK_OK => {
                    bytes.truncate(length as usize);
                    return Ok(bytes);
                }
                // Others have entered rows, or the map has grown.
                BLINK_FEW_ROWS | BLINK_FEW_BYTES => {}
                code => return Err(io::Error::new(io::ErrorKind::OutOfMemory, error::text(code))),
            }
        }
    }

    /// Does so many pieces of upkeep at most: whether nothing is left to do. No program need call it.
    pub fn upkeep(&self, most: u32) -> bool {
        self.call(|seat| unsafe { blink_upkeep(seat, most) }) == BLINK_OK
    }

    /// How many pages and frames the map has, in use and free, by a look at each, and what upkeep this handle has left to do: exact
    /// where no other handle is in a call.
    pub fn stats(&self) -> Stats {
        let mut stats = Stats::default();
        match self.call(|seat| unsafe { blink_stat(seat, true, &mut stats) }) {
            BLINK_OK => stats,
            code => error::unexpected(code),
        }
    }
}

impl Drop for Handle {
    fn drop(&mut self) {
        self.seats.lock().give(self.place);
    }
}

impl fmt::Debug for Handle {
    fn fmt(&self, f: &mut fmt::Formatter<'_>) -> fmt::Result {
        f.debug_struct("Handle").field("pages", &self.seats.pages()).finish_non_exhaustive()
    }
}

impl<'a> IntoIterator for &'a Handle {
    type Item = (u64, u64);
    type IntoIter = Range<'a>;

    fn into_iter(self) -> Range<'a> {
        self.iter()
    }
}
