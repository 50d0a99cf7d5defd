//! The seats of a map, of which each handle has one: calls that go side by side, and a growth that waits for all of them.
use blink_sys::*;
use std::cell::UnsafeCell;
use std::sync::atomic::{AtomicBool, AtomicU32, Ordering};
use std::sync::{Mutex, MutexGuard, PoisonError};
use std::thread;

/// With so many pages a map begins that grows, and it has no fewer where it shrinks.
pub(crate) const FIRST_PAGES: u32 = 1024;
/// So many a map may have.
pub(crate) const MOST_PAGES: u32 = 1 << 28;

/// A handle's place: its seat, and whether the handle is in a call. Each call writes it, so it has a line of memory of its own.
#[repr(align(64))]
struct Place {
    seat: UnsafeCell<blink_seat>,
    is_in_call: AtomicBool,
}

/// What the lock guards.
pub(crate) struct Held {
    /// The places that no handle has.
    pub(crate) free: Vec<usize>,
    pub(crate) is_closed: bool,
    /// The image of a map that is lost.
    pub(crate) rescued: Vec<u8>,
}

/// A map's places. Who holds the lock may stop all calls, and may change the seats then.
pub(crate) struct Seats {
    places: Vec<Place>,
    held: Mutex<Held>,
    is_stopped: AtomicBool,
    pages: AtomicU32,
    grows: bool,
}

// SAFETY: a seat is used by the one handle that has its place, while it is in a call; or by who holds the lock, while no call is made.
// It may go from one thread to another, since what both do is ordered by these words.
unsafe impl Send for Seats {}
unsafe impl Sync for Seats {}

/// A call, which ends when this is dropped.
struct InCall<'a>(&'a Place);

impl Drop for InCall<'_> {
    fn drop(&mut self) {
        self.0.is_in_call.store(false, Ordering::Release);
    }
}

impl Held {
    /// A place comes back from its handle.
    pub(crate) fn give(&mut self, place: usize) {
        if !self.is_closed {
            self.free.push(place);
        }
    }

    /// No handle is given out any more.
    pub(crate) fn close(&mut self) {
        self.free.clear();
        self.is_closed = true;
    }
}

impl Seats {
    /// So many places of a map, whose seats the call opens, and that grows and shrinks or does not; or the call's code.
    pub(crate) fn open(count: usize, grows: bool, open: impl FnOnce(*mut blink_seat, usize) -> i32) -> Result<Seats, i32> {
        let closed = || Place {
            seat: UnsafeCell::new(blink_seat { at: std::ptr::null_mut() }),
            is_in_call: AtomicBool::new(false),
        };
        let seats = Seats {
            places: (0..count).map(|_| closed()).collect(),
            held: Mutex::new(Held { free: (0..count).rev().collect(), is_closed: false, rescued: Vec::new() }),
            is_stopped: AtomicBool::new(false),
            pages: AtomicU32::new(0),
            grows,
        };
        let code = seats.with_seats(open);
        if code != BLINK_OK {
            return Err(code);
        }
        let mut stats = blink_stats::default();
        // SAFETY: the pointers are of an open seat and of a local variable.
        seats.call(0, |seat| unsafe { blink_stat(seat, false, &mut stats) });
        seats.pages.store(stats.pages as u32, Ordering::SeqCst);
        Ok(seats)
    }

    pub(crate) fn lock(&self) -> MutexGuard<'_, Held> {
        self.held.lock().unwrap_or_else(PoisonError::into_inner)
    }

    pub(crate) fn count(&self) -> usize {
        self.places.len()
    }

    pub(crate) fn pages(&self) -> u32 {
        self.pages.load(Ordering::SeqCst)
    }

    /// Whether the map grows and shrinks as rows come and go.
    pub(crate) fn grows(&self) -> bool {
        self.grows
    }

    /// Makes a call by the seat of a place, whose handle is in no other call. While the map is resized it waits.
    pub(crate) fn call<T>(&self, place: usize, call: impl FnOnce(*mut blink_seat) -> T) -> T {
        let place = &self.places[place];
        loop {
            place.is_in_call.store(true, Ordering::SeqCst);
            let in_call = InCall(place);
            if !self.is_stopped.load(Ordering::SeqCst) {
                return call(place.seat.get());
            }
            drop(in_call);
            drop(self.lock());
        }
    }

    /// A call of all seats, which takes an array of them. By who holds the lock or is alone, while no call is made.
    pub(crate) fn with_seats(&self, call: impl FnOnce(*mut blink_seat, usize) -> i32) -> i32 {
        // SAFETY: nobody else uses a seat now.
        let seat = |place: &Place| unsafe { (*place.seat.get()).at };
        let mut seats: Vec<blink_seat> = self.places.iter().map(|place| blink_seat { at: seat(place) }).collect();
        let code = call(seats.as_mut_ptr(), seats.len());
        for (place, left) in self.places.iter().zip(seats) {
            // SAFETY: as above.
            unsafe { *place.seat.get() = left };
        }
        code
    }

    /// Waits until no call is made, and lets none begin. By who holds the lock.
    fn stop(&self) {
        self.is_stopped.store(true, Ordering::SeqCst);
        for place in &self.places {
            while place.is_in_call.load(Ordering::SeqCst) {
                thread::yield_now();
            }
        }
    }

    /// Gives the map so many pages while no call is made. The code is that of `blink_resize`.
    pub(crate) fn resize(&self, held: &mut Held, pages: u32) -> i32 {
        if held.is_closed {
            return BLINK_CLOSED;
        }
        // SAFETY: the function takes any number.
        let mut bytes = match zeros(unsafe { blink_image_length(self.pages()) } as usize) {
            Some(bytes) => bytes,
            None => return BLINK_NO_MEMORY,
        };
        self.stop();
        let mut length = 0;
        // SAFETY: these are all seats of one map, none is in a call, and the other pointers are of a vector and a variable.
        let code = self.with_seats(|seats, count| unsafe {
            blink_resize(seats, count, pages, bytes.as_mut_ptr(), bytes.len(), &mut length)
        });
        if code == BLINK_OK {
            self.pages.store(pages, Ordering::SeqCst);
        } else if code == BLINK_SEATS_LOST {
            bytes.truncate(length as usize);
            held.rescued = bytes;
            held.close();
        }
        self.is_stopped.store(false, Ordering::SeqCst);
        code
    }

    /// Gives a map of so many pages twice as many, unless it has another number by then: whether a write that found no room may find it
    /// now.
    pub(crate) fn grow(&self, from: u32) -> bool {
        let mut held = self.lock();
        if self.pages() != from {
            return !held.is_closed;
        }
        self.grows && from < MOST_PAGES && self.resize(&mut held, (2 * from).min(MOST_PAGES)) == BLINK_OK
    }

    /// Gives a map of so many pages half as many, unless another one has done it by then, or there is no memory for it.
    pub(crate) fn shrink(&self, from: u32) {
        let held = self.lock();
        if self.pages() != from || held.is_closed {
            return;
        }
        self.stop();
        self.lay_out(from / 2);
        self.is_stopped.store(false, Ordering::SeqCst);
    }

    /// Gives the map so many pages, in which its rows are laid out anew, if there is memory for it. By who has stopped all calls.
    fn lay_out(&self, pages: u32) -> Option<()> {
        let mut count = 0;
        // SAFETY: nobody else uses a seat now, and the other pointer is of a variable.
        let code = unsafe { blink_count(self.places.first()?.seat.get(), 0, u64::MAX, &mut count) };
        if code != BLINK_OK {
            return None;
        }
        let mut rows: Vec<blink_row> = zeros(count as usize + 1)?;
        // SAFETY: the function takes any number.
        let mut bytes = zeros(unsafe { blink_image_length(pages) } as usize)?;
        // SAFETY: these are all seats of one map, none is in a call, and the other pointers are of vectors, with their lengths behind them.
        let code = self.with_seats(|seats, count| unsafe {
            let (row, most, byte, room) = (rows.as_mut_ptr(), rows.len(), bytes.as_mut_ptr(), bytes.len());
            blink_shrink(seats, count, pages, row, most, byte, room)
        });
        if code == BLINK_OK {
            self.pages.store(pages, Ordering::SeqCst);
        }
        Some(())
    }
}

/// So many zeros, if there is memory for them.
fn zeros<T: Clone + Default>(count: usize) -> Option<Vec<T>> {
    let mut zeros = Vec::new();
    zeros.try_reserve_exact(count).ok()?;
    zeros.resize(count, T::default());
    Some(zeros)
}

impl Drop for Seats {
    fn drop(&mut self) {
        for place in &mut self.places {
            // SAFETY: nobody has the map any more; a seat that is closed may be closed again.
            unsafe { blink_close(place.seat.get_mut()) };
        }
    }
}
