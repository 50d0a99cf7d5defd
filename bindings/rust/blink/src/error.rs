//! What may be refused, and why.
use crate::Map;
use blink_sys::*;
use std::error::Error;
use std::ffi::CStr;
use std::fmt;

/// What a code of the library means.
pub(crate) fn text(code: i32) -> &'static str {
    // SAFETY: the library has a text that ends with a zero and is never freed.
    unsafe { CStr::from_ptr(blink_text(code)) }.to_str().unwrap_or("")
}

/// Ends the thread: a handle's seat is open, and no call of it has another code.
pub(crate) fn unexpected(code: i32) -> ! {
    panic!("blink: {} ({})", text(code), code)
}

/// Why a map was not opened.
#[derive(Clone, Copy, Debug, PartialEq, Eq)]
#[non_exhaustive]
pub enum OpenError {
    /// The number of pages is not 4 to 2^28.
    Pages,
    /// The number of handles is not 1 to 64.
    Handles,
    /// The bytes are no sound image.
    Image,
    /// There is no memory.
    Memory,
}

impl OpenError {
    pub(crate) fn of(code: i32) -> OpenError {
        match code {
            BLINK_BAD_PAGES => OpenError::Pages,
            BLINK_BAD_SEATS => OpenError::Handles,
            BLINK_BAD_IMAGE => OpenError::Image,
            _ => OpenError::Memory,
        }
    }
}

impl fmt::Display for OpenError {
    fn fmt(&self, f: &mut fmt::Formatter<'_>) -> fmt::Result {
        f.write_str(match self {
            OpenError::Pages => "the number of pages is not 4 to 2^28",
            OpenError::Handles => "the number of handles is not 1 to 64",
            OpenError::Image => "the bytes are no sound image",
            OpenError::Memory => "there is no memory",
        })
    }
}

impl Error for OpenError {}

/// No page or frame was free, and nothing has changed.
#[derive(Clone, Copy, Debug, PartialEq, Eq)]
pub struct NoRoom;

impl fmt::Display for NoRoom {
    fn fmt(&self, f: &mut fmt::Formatter<'_>) -> fmt::Result {
        f.write_str("no room")
    }
}

impl Error for NoRoom {}

/// No page or frame was free behind so many rows, which were put.
#[derive(Clone, Copy, Debug, PartialEq, Eq)]
pub struct NoRoomAfter {
    /// How many rows were put.
    pub put: usize,
}

impl fmt::Display for NoRoomAfter {
    fn fmt(&self, f: &mut fmt::Formatter<'_>) -> fmt::Result {
        write!(f, "no room; {} rows were put", self.put)
    }
}

impl Error for NoRoomAfter {}

/// Why [`Map::resize`] has given a map no more pages.
#[derive(Clone, Debug, PartialEq, Eq)]
#[non_exhaustive]
pub enum ResizeError {
    /// The map is closed.
    Closed,
    /// The number of pages is less than the map has, or more than 2^28.
    Pages,
    /// There is no memory.
    Memory,
    /// There was no memory even for a map of the old size: it is closed, and this is its image.
    Lost(Vec<u8>),
}

impl fmt::Display for ResizeError {
    fn fmt(&self, f: &mut fmt::Formatter<'_>) -> fmt::Result {
        f.write_str(match self {
            ResizeError::Closed => "the map is closed",
            ResizeError::Pages => "the number of pages is less than the map has, or more than 2^28",
            ResizeError::Memory => "there is no memory",
            ResizeError::Lost(_) => "there was no memory to open the map again",
        })
    }
}

impl Error for ResizeError {}

/// Why [`Handle::snapshot`](crate::Handle::snapshot) has no rows.
#[derive(Clone, Copy, Debug, PartialEq, Eq)]
#[non_exhaustive]
pub enum SnapshotError {
    /// Others changed the rows each time that they were read.
    Unsteady,
    /// There is no memory.
    Memory,
}

impl fmt::Display for SnapshotError {
    fn fmt(&self, f: &mut fmt::Formatter<'_>) -> fmt::Result {
        f.write_str(match self {
            SnapshotError::Unsteady => "others changed the rows each time they were read",
            SnapshotError::Memory => "there is no memory",
        })
    }
}

impl Error for SnapshotError {}

/// What keeps [`Handle::compare_exchange`](crate::Handle::compare_exchange) from its change.
#[derive(Clone, Copy, Debug, PartialEq, Eq)]
pub enum ExchangeError {
    /// The key has this other value.
    Differs(u64),
    /// The key is not there.
    Absent,
    /// No page or frame was free.
    NoRoom,
}

impl fmt::Display for ExchangeError {
    fn fmt(&self, f: &mut fmt::Formatter<'_>) -> fmt::Result {
        match self {
            ExchangeError::Differs(value) => write!(f, "the key has the value {}", value),
            ExchangeError::Absent => f.write_str("the key is not there"),
            ExchangeError::NoRoom => f.write_str("no room"),
        }
    }
}

impl Error for ExchangeError {}

/// Why a map was not closed. It has the map, as it was.
#[derive(Debug)]
pub enum CloseError {
    /// Some handles are out, or a clone of the map has closed it.
    HandlesOut(Map),
    /// The library refused, for the reason that the text names.
    Refused(Map, &'static str),
}

impl CloseError {
    /// The map.
    pub fn into_map(self) -> Map {
        match self {
            CloseError::HandlesOut(map) | CloseError::Refused(map, _) => map,
        }
    }
}

impl fmt::Display for CloseError {
    fn fmt(&self, f: &mut fmt::Formatter<'_>) -> fmt::Result {
        match self {
            CloseError::HandlesOut(_) => f.write_str("some handles of the map are out, or it is closed"),
            CloseError::Refused(_, why) => f.write_str(why),
        }
    }
}

impl Error for CloseError {}
