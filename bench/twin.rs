//! A plain Rust program that answers request lines as `blink serve` does, for comparison, and a generator of such lines.
//! `twin lines N K M` writes N mixed lines of keys 1 to K with a sync each M, `twin finds N K` as many that find but for the insertions
//! of K keys, `twin scans N K` as many that scan 100 rows each; `twin serve` answers standard input.

use std::collections::BTreeMap;
use std::env;
use std::io::{self, BufRead, BufReader, BufWriter, Write};

enum Request {
    Find(u64),
    Insert(u64, u64),
    Delete(u64),
    Scan(u64, u64),
    Sync,
}

/// A number without leading zeros.
fn number(text: &str) -> Option<u64> {
    let value: u64 = text.parse().ok()?;
    let digits = text.bytes().all(|byte| byte.is_ascii_digit());
    (digits && (text.len() == 1 || !text.starts_with('0'))).then_some(value)
}

fn parse(line: &[u8]) -> Option<Request> {
    let line = std::str::from_utf8(line).ok()?;
    if line == "sync" {
        return Some(Request::Sync);
    }
    if let Some(rest) = line.strip_prefix("find ") {
        return number(rest).map(Request::Find);
    }
    if let Some(rest) = line.strip_prefix("delete ") {
        return number(rest).map(Request::Delete);
    }
    if let Some(rest) = line.strip_prefix("scan ") {
        let (low, high) = rest.split_once(' ')?;
        return Some(Request::Scan(number(low)?, number(high)?));
    }
    let (key, value) = line.strip_prefix("insert ")?.split_once(' ')?;
    Some(Request::Insert(number(key)?, number(value)?))
}

fn serve() -> io::Result<()> {
    let mut reader = BufReader::with_capacity(1 << 16, io::stdin().lock());
    let mut writer = io::stdout().lock();
    let mut rows = BTreeMap::new();
    let mut line = Vec::new();
    let mut text = Vec::new();
    let mut count = 0u64;
    loop {
        line.clear();
        if reader.read_until(b'\n', &mut line)? == 0 {
            break;
        }
        count += 1;
        let whole = line.last() == Some(&b'\n');
        if whole {
            line.pop();
        }
        match parse(&line).filter(|_| whole) {
            None => writeln!(text, "{count} malformed")?,
            Some(Request::Find(key)) => match rows.get(&key) {
                Some(value) => writeln!(text, "{count} found {value}")?,
                None => writeln!(text, "{count} absent")?,
            },
            Some(Request::Insert(key, value)) => match rows.get(&key) {
                Some(there) => writeln!(text, "{count} present {there}")?,
                None => {
                    rows.insert(key, value);
                    writeln!(text, "{count} inserted")?;
                }
            },
            Some(Request::Delete(key)) => match rows.remove(&key) {
                Some(value) => writeln!(text, "{count} deleted {value}")?,
                None => writeln!(text, "{count} absent")?,
            },
            Some(Request::Scan(low, high)) => {
                write!(text, "{count} rows")?;
                for (key, value) in rows.range(low..high.max(low)) {
                    write!(text, " {key}={value}")?;
                }
                writeln!(text)?;
            }
            Some(Request::Sync) => {
                writeln!(text, "{count} synced")?;
                writer.write_all(&text)?;
                writer.flush()?;
                text.clear();
            }
        }
    }
    writer.write_all(&text)?;
    writer.flush()
}

/// The next state of a linear congruential generator.
fn step(state: u64) -> u64 {
    state.wrapping_mul(6364136223846793005).wrapping_add(1442695040888963407)
}

/// An insertion of each key from 1 on and a sync, then finds of these keys, and a sync each 100,000 lines.
fn write_finds(count: u64, keys: u64) -> io::Result<()> {
    let mut writer = BufWriter::new(io::stdout().lock());
    let mut state = 1u64;
    for line in 1..=count {
        state = step(state);
        match line {
            _ if line <= keys => writeln!(writer, "insert {line} {}", state >> 20)?,
            _ if line == keys + 1 || line % 100_000 == 0 => writeln!(writer, "sync")?,
            _ => writeln!(writer, "find {}", (state >> 33) % keys + 1)?,
        }
    }
    writer.flush()
}

/// An insertion of each key from 1 on and a sync, then scans of 100 of these rows, and a sync each 10,000 lines.
fn write_scans(count: u64, keys: u64) -> io::Result<()> {
    let mut writer = BufWriter::new(io::stdout().lock());
    let mut state = 1u64;
    for line in 1..=count {
        state = step(state);
        let low = (state >> 33) % keys.saturating_sub(100).max(1) + 1;
        match line {
            _ if line <= keys => writeln!(writer, "insert {line} {}", state >> 20)?,
            _ if line == keys + 1 || line % 10_000 == 0 => writeln!(writer, "sync")?,
            _ => writeln!(writer, "scan {low} {}", low + 100)?,
        }
    }
    writer.flush()
}

/// Finds, inserts and deletes in turn, and a sync each so many lines.
fn write_lines(count: u64, keys: u64, section: u64) -> io::Result<()> {
    let mut writer = BufWriter::new(io::stdout().lock());
    let mut state = 1u64;
    for line in 1..=count {
        state = step(state);
        let key = (state >> 33) % keys + 1;
        match (state >> 60) % 4 {
            _ if line % section == 0 => writeln!(writer, "sync")?,
            0 | 1 => writeln!(writer, "find {key}")?,
            2 => writeln!(writer, "insert {key} {}", state >> 20)?,
            _ => writeln!(writer, "delete {key}")?,
        }
    }
    writer.flush()
}

/// The number that the word spells, or 1.
fn positive(word: &str) -> u64 {
    word.parse().unwrap_or(1).max(1)
}

fn main() -> io::Result<()> {
    let words: Vec<String> = env::args().skip(1).collect();
    match words.iter().map(String::as_str).collect::<Vec<_>>().as_slice() {
        ["serve"] => serve(),
        ["lines", count, keys, section] => write_lines(positive(count), positive(keys), positive(section)),
        ["finds", count, keys] => write_finds(positive(count), positive(keys)),
        ["scans", count, keys] => write_scans(positive(count), positive(keys)),
        _ => {
            eprintln!("usage: twin serve | twin lines N K M | twin finds N K | twin scans N K");
            std::process::exit(2);
        }
    }
}
