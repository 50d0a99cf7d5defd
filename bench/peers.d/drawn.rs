//! What the loads of the peers in Rust draw: rows that look random, and scans of about 100 rows.

/// About so many rows are in a scan.
pub const WIDTH: u64 = 100;

/// A number that looks random, another one for each: the key of a row, and what is drawn next.
pub fn scattered(number: u64) -> u64 {
    let first = number.wrapping_add(1).wrapping_mul(0x9e37_79b9_7f4a_7c15);
    let second = (first ^ (first >> 30)).wrapping_mul(0xbf58_476d_1ce4_e5b9);
    let third = (second ^ (second >> 27)).wrapping_mul(0x94d0_49bb_1331_11eb);
    third ^ (third >> 31)
}

/// One of the rows.
pub fn row_of(drawn: u64, rows: u64) -> u64 {
    (drawn >> 8).checked_rem(rows).unwrap_or(0)
}

/// How far the ends of a scan of about 100 rows are apart.
pub fn width(rows: u64) -> u64 {
    u64::MAX / WIDTH / (rows / WIDTH + 1) * WIDTH
}
