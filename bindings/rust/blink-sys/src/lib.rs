//! The functions of `blink.h`, as the library exports them, with its codes and types. What each call does, which codes it
//! answers and the rules that its caller has to keep stand in that header; the crate `blink` keeps them by types.
#![deny(missing_docs)]
#![allow(non_camel_case_types)]

use std::os::raw::{c_char, c_void};

/// One thread's place at a map: a pointer that the library owns, or null.
#[repr(C)]
#[derive(Debug)]
pub struct blink_seat {
    /// What the library owns.
    pub at: *mut c_void,
}

/// A key and its value.
#[repr(C)]
#[derive(Clone, Copy, Debug, Default, PartialEq, Eq)]
pub struct blink_row {
    /// The key.
    pub key: u64,
    /// Its value.
    pub value: u64,
}

/// Makes the new value for [`blink_update`] of the old one, with the context of the caller. It is not to unwind.
pub type blink_update_fn = extern "C" fn(value: u64, context: *mut c_void) -> u64;

/// How far a part of the rows goes. All zeros before the first part.
#[repr(C)]
#[derive(Clone, Copy, Debug, Default)]
pub struct blink_part {
    /// How many rows were written.
    pub count: u64,
    /// The key from which the rows go on, itself included, if they do.
    pub next: u64,
    /// Whether they go on.
    pub more: bool,
    /// Opaque; it is passed back unchanged.
    pub near: u32,
}

/// How full a map is, and what one of its seats has left to do.
#[repr(C)]
#[derive(Clone, Copy, Debug, Default)]
pub struct blink_stats {
    /// How many pages the map has.
    pub pages: u64,
    /// How many of them are free.
    pub free_pages: u64,
    /// How many of them are in use.
    pub used_pages: u64,
    /// How many frames the map has.
    pub frames: u64,
    /// How many of them are free.
    pub free_frames: u64,
    /// How many pieces of upkeep of the seat wait.
    pub waiting: u64,
    /// How many were dropped.
    pub dropped: u64,
}

/// Done.
pub const BLINK_OK: i32 = 0;
/// The key is not there.
pub const BLINK_ABSENT: i32 = 1;
/// The key was there.
pub const BLINK_PRESENT: i32 = 2;
/// No free page or frame; nothing has changed.
pub const BLINK_NO_ROOM: i32 = 3;
/// Not done: let another thread run and call again.
pub const BLINK_AGAIN: i32 = 4;
/// The number of pages is not 4 to 2^28.
pub const BLINK_BAD_PAGES: i32 = 5;
/// The number of seats is not 1 to 64.
pub const BLINK_BAD_SEATS: i32 = 6;
/// malloc refused; nothing has changed.
pub const BLINK_NO_MEMORY: i32 = 7;
/// The bytes are no sound image.
pub const BLINK_BAD_IMAGE: i32 = 8;
/// The seat is closed.
pub const BLINK_CLOSED: i32 = 9;
/// There is too little room for rows.
pub const BLINK_FEW_ROWS: i32 = 10;
/// A seat of the map is not among these.
pub const BLINK_SEATS_OPEN: i32 = 11;
/// Too few bytes of room for the image.
pub const BLINK_FEW_BYTES: i32 = 12;
/// The seats are of two maps.
pub const BLINK_OTHER_MAP: i32 = 13;
/// All seats are closed, and there is no image.
pub const BLINK_SEATS_LOST: i32 = 14;
/// The keys of the rows do not rise.
pub const BLINK_BAD_ROWS: i32 = 15;
/// Pages are to have less than 1 row or more than 14; or so few that the tree would have more than 12 levels.
pub const BLINK_BAD_FILL: i32 = 16;
/// A place has an open seat: close it first; nothing was done.
pub const BLINK_IN_USE: i32 = 17;
/// Others changed the rows of a range each time that they were read.
pub const BLINK_UNSTEADY: i32 = 18;
/// The most rows of one leaf.
pub const BLINK_LEAF_ROWS: usize = 14;

#[allow(missing_docs)] // The header has them.
extern "C" {
    pub fn blink_open(pages: u32, seats: *mut blink_seat, count: usize) -> i32;
    pub fn blink_open_image(bytes: *const u8, length: usize, seats: *mut blink_seat, count: usize) -> i32;
    pub fn blink_open_larger(
        bytes: *const u8,
        length: usize,
        pages: u32,
        seats: *mut blink_seat,
        count: usize,
    ) -> i32;
    pub fn blink_close(seat: *mut blink_seat) -> i32;
    pub fn blink_image_length(pages: u32) -> u64;
    pub fn blink_close_image(
        seats: *mut blink_seat,
        count: usize,
        bytes: *mut u8,
        room: usize,
        length: *mut u64,
    ) -> i32;
    pub fn blink_is_short(seat: *mut blink_seat, is_short: *mut bool) -> i32;
    pub fn blink_is_sparse(seat: *mut blink_seat, is_sparse: *mut bool) -> i32;
    pub fn blink_shrink(
        seats: *mut blink_seat,
        count: usize,
        pages: u32,
        rows: *mut blink_row,
        most: usize,
        bytes: *mut u8,
        room: usize,
    ) -> i32;
    pub fn blink_resize(
        seats: *mut blink_seat,
        count: usize,
        pages: u32,
        bytes: *mut u8,
        room: usize,
        length: *mut u64,
    ) -> i32;
    pub fn blink_image_of(
        rows: *const blink_row,
        count: usize,
        pages: u32,
        fill: u32,
        bytes: *mut u8,
        room: usize,
        length: *mut u64,
    ) -> i32;
    pub fn blink_save(
        seat: *mut blink_seat,
        fill: u32,
        rows: *mut blink_row,
        most: usize,
        bytes: *mut u8,
        room: usize,
        length: *mut u64,
    ) -> i32;
    pub fn blink_find(seat: *mut blink_seat, key: u64, value: *mut u64) -> i32;
    pub fn blink_find_many(
        seat: *mut blink_seat,
        keys: *const u64,
        count: usize,
        values: *mut u64,
        found: *mut bool,
    ) -> i32;
    pub fn blink_fetch(seat: *mut blink_seat, keys: *const u64, count: usize) -> i32;
    pub fn blink_insert(seat: *mut blink_seat, key: u64, value: u64, there: *mut u64) -> i32;
    pub fn blink_put(seat: *mut blink_seat, key: u64, value: u64, old: *mut u64) -> i32;
    pub fn blink_delete(seat: *mut blink_seat, key: u64, gone: *mut u64) -> i32;
    pub fn blink_change(seat: *mut blink_seat, key: u64, old_value: u64, new_value: u64, there: *mut u64) -> i32;
    pub fn blink_update(
        seat: *mut blink_seat,
        key: u64,
        make: blink_update_fn,
        context: *mut c_void,
        old: *mut u64,
        now: *mut u64,
    ) -> i32;
    pub fn blink_add(seat: *mut blink_seat, key: u64, delta: u64, now: *mut u64) -> i32;
    pub fn blink_scan(
        seat: *mut blink_seat,
        from: u64,
        rows: *mut blink_row,
        room: usize,
        count: *mut usize,
        next: *mut u64,
        more: *mut bool,
    ) -> i32;
    pub fn blink_scan_to(
        seat: *mut blink_seat,
        from: u64,
        last: u64,
        rows: *mut blink_row,
        room: usize,
        count: *mut usize,
        next: *mut u64,
        more: *mut bool,
    ) -> i32;
    pub fn blink_scan_down(
        seat: *mut blink_seat,
        from: u64,
        rows: *mut blink_row,
        room: usize,
        count: *mut usize,
        next: *mut u64,
        more: *mut bool,
    ) -> i32;
    pub fn blink_scan_down_to(
        seat: *mut blink_seat,
        from: u64,
        last: u64,
        rows: *mut blink_row,
        room: usize,
        count: *mut usize,
        next: *mut u64,
        more: *mut bool,
    ) -> i32;
    pub fn blink_rows(
        seat: *mut blink_seat,
        from: u64,
        rows: *mut blink_row,
        room: usize,
        part: *mut blink_part,
    ) -> i32;
    pub fn blink_rows_down(
        seat: *mut blink_seat,
        from: u64,
        rows: *mut blink_row,
        room: usize,
        part: *mut blink_part,
    ) -> i32;
    pub fn blink_range(
        seat: *mut blink_seat,
        from: u64,
        last: u64,
        rounds: u32,
        rows: *mut blink_row,
        room: usize,
        count: *mut u64,
    ) -> i32;
    pub fn blink_first(seat: *mut blink_seat, row: *mut blink_row) -> i32;
    pub fn blink_last(seat: *mut blink_seat, row: *mut blink_row) -> i32;
    pub fn blink_next(seat: *mut blink_seat, key: u64, row: *mut blink_row) -> i32;
    pub fn blink_previous(seat: *mut blink_seat, key: u64, row: *mut blink_row) -> i32;
    pub fn blink_count(seat: *mut blink_seat, from: u64, last: u64, count: *mut u64) -> i32;
    pub fn blink_upkeep(seat: *mut blink_seat, most: u32) -> i32;
    pub fn blink_upkeep_all(seat: *mut blink_seat) -> i32;
    pub fn blink_stat(seat: *mut blink_seat, look: bool, stats: *mut blink_stats) -> i32;
    pub fn blink_meet(one: *mut blink_seat, two: *mut blink_seat) -> i32;
    pub fn blink_same_map(one: *mut blink_seat, two: *mut blink_seat) -> i32;
    pub fn blink_text(code: i32) -> *const c_char;
    pub fn blink_version() -> *const c_char;
    pub fn blink_try_close(seat: *mut blink_seat) -> i32;
    pub fn blink_try_find(seat: *mut blink_seat, key: u64, value: *mut u64) -> i32;
    pub fn blink_try_insert(seat: *mut blink_seat, key: u64, value: u64, there: *mut u64) -> i32;
    pub fn blink_try_put(seat: *mut blink_seat, key: u64, value: u64, old: *mut u64) -> i32;
    pub fn blink_try_delete(seat: *mut blink_seat, key: u64, gone: *mut u64) -> i32;
    pub fn blink_try_change(seat: *mut blink_seat, key: u64, old_value: u64, new_value: u64, there: *mut u64) -> i32;
    pub fn blink_try_rows(
        seat: *mut blink_seat,
        from: u64,
        rows: *mut blink_row,
        room: usize,
        part: *mut blink_part,
    ) -> i32;
    pub fn blink_try_rows_down(
        seat: *mut blink_seat,
        from: u64,
        rows: *mut blink_row,
        room: usize,
        part: *mut blink_part,
    ) -> i32;
    pub fn blink_try_scan(
        seat: *mut blink_seat,
        from: u64,
        last: u64,
        rows: *mut blink_row,
        room: usize,
        part: *mut blink_part,
    ) -> i32;
    pub fn blink_try_scan_down(
        seat: *mut blink_seat,
        from: u64,
        last: u64,
        rows: *mut blink_row,
        room: usize,
        part: *mut blink_part,
    ) -> i32;
    pub fn blink_try_range(
        seat: *mut blink_seat,
        from: u64,
        last: u64,
        rounds: u32,
        rows: *mut blink_row,
        room: usize,
        count: *mut u64,
    ) -> i32;
    pub fn blink_try_upkeep(seat: *mut blink_seat, most: u32) -> i32;
    pub fn blink_try_meet(one: *mut blink_seat, two: *mut blink_seat) -> i32;
    pub fn blink_place(seat: *mut blink_seat, place: *mut *const u32) -> i32;
    pub fn blink_try_close_image(
        seats: *mut blink_seat,
        count: usize,
        bytes: *mut u8,
        room: usize,
        length: *mut u64,
    ) -> i32;
}
