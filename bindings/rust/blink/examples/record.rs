//! Records calls of maps for the checker of `checks/linearizable`: `record SECONDS PAGES THREADS KEYS CALLS SEED`.
//!
//! One map after the other is opened, for so many seconds, and one at least. In each of the three rounds of a map so many threads
//! make so many calls each, through handles, on few keys: searches, insertions, puts, deletions, changes, updates, which are told as
//! changes, and ranges of some keys, up and down, which tell of each key that they pass. Meanwhile the map gets some more pages each few
//! milliseconds. Behind a round it is closed to its image and opened from that: from then on it shrinks by itself, and gets many more pages each
//! time that it has, so that there is more to shrink. The next map has other keys. A line is printed for each call: the thread, the nanoseconds
//! right before the call and right behind it, the key, what was asked and what was answered; and behind each round the line `round`.
use blink::{ExchangeError, Handle, Map, NoRoom, ResizeError};
use std::io::{self, BufWriter, Write};
use std::sync::atomic::{AtomicBool, AtomicU64, Ordering};
use std::time::{Duration, Instant};

const ROUNDS: usize = 3;
/// How many keys a range spans at most.
const SPAN: u64 = 24;

/// So many pages the map gets more at a time, and after so many milliseconds.
const MORE_PAGES: u32 = 16;
const PAUSE: Duration = Duration::from_millis(3);

/// A map that shrinks by itself keeps so many at least; one with fewer than twice as many gets so many.
const LEAST_PAGES: u32 = 1024;
const MANY_PAGES: u32 = 4096;

/// How often a map was given more pages, and how often it was found with fewer.
static RESIZES: AtomicU64 = AtomicU64::new(0);
static SHRINKS: AtomicU64 = AtomicU64::new(0);

/// A line without its thread.
type Line = (u64, u64, u64, String);

/// What is drawn, and what a change is tried with.
struct Worker {
    drawn: u64,
    stamp: u64,
    seen: Option<(u64, u64)>,
}

impl Worker {
    fn draw(&mut self, limit: u64) -> u64 {
        self.drawn ^= self.drawn << 13;
        self.drawn ^= self.drawn >> 7;
        self.drawn ^= self.drawn << 17;
        (self.drawn.wrapping_mul(0x2545_F491_4F6C_DD1D) >> 33) % limit
    }

    fn stamped(&mut self) -> u64 {
        self.stamp += 1;
        self.stamp
    }

    /// What is asked of the key, and what is answered.
    fn call(&mut self, handle: &Handle, key: u64) -> (u64, String) {
        let value = self.stamped();
        let drawn = self.draw(100);
        match (drawn, self.seen) {
            (0..=39, _) => {
                let found = handle.get(key);
                self.seen = found.map(|found| (key, found)).or(self.seen);
                (key, format!("Find {}", found.map_or("Absent".to_string(), |found| format!("Found({})", found))))
            }
            (40..=59, _) => {
                let there = handle.insert(key, value);
                let told = match there {
                    Ok(None) => "Inserted".to_string(),
                    Ok(Some(there)) => format!("Present({})", there),
                    Err(NoRoom) => "NoRoom".to_string(),
                };
                (key, format!("Insert({}) {}", value, told))
            }
            (60..=67, _) => {
                let told = match handle.put(key, value) {
                    Ok(None) => "Inserted".to_string(),
                    Ok(Some(old)) => format!("Replaced({})", old),
                    Err(NoRoom) => "NoRoom".to_string(),
                };
                (key, format!("Put({}) {}", value, told))
            }
            (68..=71, _) => {
                let (mut stamp, asked) = (self.stamp, key);
                let updated = handle.update(asked, |_| {
                    stamp += 1;
                    stamp
                });
                self.stamp = stamp;
                match updated {
                    Ok(Some(old)) => (key, format!("Change({}, {}) Changed", old, stamp)),
                    Ok(None) => (key, format!("Change({}, {}) Absent", value, stamp)),
                    Err(NoRoom) => (key, format!("Put({}) NoRoom", stamp)),
                }
            }
            (72..=89, _) | (_, None) => {
                let told = match handle.remove(key) {
                    Ok(Some(gone)) => format!("Deleted({})", gone),
                    Ok(None) => "Absent".to_string(),
                    Err(NoRoom) => "NoRoom".to_string(),
                };
                (key, format!("Delete {}", told))
            }
            (_, Some((key, old))) => {
                let told = match handle.compare_exchange(key, old, value) {
                    Ok(()) => "Changed".to_string(),
                    Err(ExchangeError::Differs(there)) => format!("Differs({})", there),
                    Err(ExchangeError::Absent) => "Absent".to_string(),
                    Err(ExchangeError::NoRoom) => "NoRoom".to_string(),
                };
                (key, format!("Change({}, {}) {}", old, value, told))
            }
        }
    }

    /// The rows of a few keys, by rising or falling keys: a search of each key that is passed.
    fn list(&mut self, handle: &Handle, first: u64, last: u64, start: Instant, lines: &mut Vec<Line>) {
        let begin = start.elapsed().as_nanos() as u64;
        let rows: Vec<(u64, u64)> = if self.draw(2) == 0 {
            handle.range(first..=last).collect()
        } else {
            handle.range(first..=last).rev().collect()
        };
        let end = start.elapsed().as_nanos() as u64;
        for key in first..=last {
            let row = rows.iter().find(|row| row.0 == key);
            lines.push((
                begin,
                end,
                key,
                format!("Find {}", row.map_or("Absent".to_string(), |row| format!("Found({})", row.1))),
            ));
        }
    }

    fn work(&mut self, handle: &Handle, keys: std::ops::Range<u64>, calls: usize, start: Instant) -> Vec<Line> {
        let mut lines = Vec::with_capacity(calls + SPAN as usize);
        // What was seen in an earlier map is none of these keys.
        self.seen = self.seen.filter(|seen| keys.contains(&seen.0));
        while lines.len() < calls {
            let key = keys.start + self.draw(keys.end - keys.start);
            if self.draw(100) < 6 {
                let last = (key + self.draw(SPAN)).min(keys.end - 1);
                self.list(handle, key, last, start, &mut lines);
                continue;
            }
            let begin = start.elapsed().as_nanos() as u64;
            let (key, told) = self.call(handle, key);
            lines.push((begin, start.elapsed().as_nanos() as u64, key, told));
        }
        lines
    }
}

/// Gives the map more pages, now and then, until the others have ended; many more where it shrinks by itself, and has shrunk.
fn resize(map: &Map, shrinks: bool, is_over: &AtomicBool) {
    let mut last = map.pages();
    while !is_over.load(Ordering::SeqCst) {
        std::thread::sleep(PAUSE);
        let pages = map.pages();
        SHRINKS.fetch_add((pages < last) as u64, Ordering::SeqCst);
        last = if shrinks && pages < 2 * LEAST_PAGES { MANY_PAGES } else { pages + MORE_PAGES };
        match map.resize(last) {
            Ok(()) => RESIZES.fetch_add(1, Ordering::SeqCst),
            // It has grown by itself meanwhile.
            Err(ResizeError::Pages) => 0,
            Err(why) => panic!("{}", why),
        };
    }
}

fn round(
    map: &Map,
    shrinks: bool,
    workers: &mut [Worker],
    keys: &std::ops::Range<u64>,
    calls: usize,
    start: Instant,
) -> Vec<Vec<Line>> {
    let is_over = AtomicBool::new(false);
    std::thread::scope(|scope| {
        scope.spawn(|| resize(map, shrinks, &is_over));
        let threads: Vec<_> = workers
            .iter_mut()
            .map(|worker| {
                let handle = map.handle().expect("a handle for each thread");
                let keys = keys.clone();
                scope.spawn(move || worker.work(&handle, keys, calls, start))
            })
            .collect();
        let joined: Vec<_> = threads.into_iter().map(|thread| thread.join()).collect();
        is_over.store(true, Ordering::SeqCst);
        joined.into_iter().map(|lines| lines.expect("no thread panics")).collect()
    })
}

fn main() -> Result<(), Box<dyn std::error::Error>> {
    let words: Vec<u64> = std::env::args().skip(1).map(|word| word.parse()).collect::<Result<_, _>>()?;
    let (seconds, pages, threads, keys, calls, seed) = match words[..] {
        [seconds, pages, threads, keys, calls, seed] => (seconds, pages as u32, threads, keys, calls as usize, seed),
        _ => return Err("usage: record SECONDS PAGES THREADS KEYS CALLS SEED".into()),
    };
    let (start, mut first, mut maps) = (Instant::now(), 0, 0);
    let mut out = BufWriter::new(io::stdout().lock());
    let mut workers: Vec<Worker> = (0..threads)
        .map(|t| Worker {
            drawn: (seed + 1).wrapping_mul(0x9E37_79B9_7F4A_7C15).wrapping_add(t * 7919),
            stamp: t << 40,
            seen: None,
        })
        .collect();
    while maps == 0 || start.elapsed() < Duration::from_secs(seconds) {
        let mut map = Map::new(pages, threads as usize)?;
        for number in 0..ROUNDS {
            for (thread, lines) in
                round(&map, number > 0, &mut workers, &(first..first + keys), calls, start).iter().enumerate()
            {
                lines.iter().try_for_each(|(begin, end, key, told)| {
                    writeln!(out, "{} {} {} {} {}", thread, begin, end, key, told)
                })?;
            }
            writeln!(out, "round")?;
            if number + 1 < ROUNDS {
                map = Map::from_image(&map.close_image()?, threads as usize)?;
            }
        }
        first += keys;
        maps += 1;
    }
    out.flush()?;
    eprintln!("{} maps, {} resizes, {} shrinks", maps, RESIZES.load(Ordering::SeqCst), SHRINKS.load(Ordering::SeqCst));
    Ok(())
}
