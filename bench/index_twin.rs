//! The load of `bench_map index` on a plain Rust `RwLock<BTreeMap>`, for comparison. `index_twin ROWS THREADS FINDS MIXED SCANS`
//! prints what `bench_map index` prints. `index_twin large ROWS THREADS CALLS rising|random` does the load of `bench_map`, and prints what that
//! prints of rows, finds and scans; with 0 for CALLS nine of ten rows are deleted in place of the searches, and those that are left are counted.
//! Behind each part it waits for a line then, so that its memory can be looked at.

#[path = "peers.d/drawn.rs"]
mod drawn;

use drawn::{WIDTH, row_of, scattered, width};
use std::collections::BTreeMap;
use std::env;
use std::io;
use std::sync::RwLock;
use std::sync::atomic::{AtomicU64, Ordering};
use std::thread;
use std::time::Instant;

/// Of so many rows one stays.
const KEPT: u64 = 10;

type Map = RwLock<BTreeMap<u64, u64>>;

fn insert(map: &Map, key: u64, value: u64) -> bool {
    let mut map = map.write().unwrap();
    match map.get(&key) {
        Some(_) => false,
        None => {
            map.insert(key, value);
            true
        }
    }
}

fn find(map: &Map, key: u64) -> Option<u64> {
    map.read().unwrap().get(&key).copied()
}

fn fill(map: &Map, place: u64, rows: u64, threads: u64) -> u64 {
    let mut done = 0;
    for row in 0..rows {
        if row % threads == place && insert(map, scattered(row), row) {
            done += 1;
        }
    }
    done
}

fn search(map: &Map, place: u64, rows: u64, finds: u64) -> u64 {
    let mut done = 0;
    let mut seed = scattered(place);
    for _ in 0..finds {
        seed = scattered(seed);
        if find(map, scattered(row_of(seed, rows))).is_some() {
            done += 1;
        }
    }
    done
}

fn mix(map: &Map, place: u64, rows: u64, mixed: u64) -> u64 {
    let mut done = 0;
    let mut seed = scattered(place);
    for round in 0..mixed {
        if round % 4 != 3 {
            seed = scattered(seed);
        }
        let row = row_of(seed, rows);
        match round % 4 {
            2 => {
                map.write().unwrap().remove(&scattered(row));
            }
            3 => {
                insert(map, scattered(row), row);
            }
            _ => {
                std::hint::black_box(find(map, scattered(row)));
            }
        }
        done += 1;
    }
    done
}

fn scan(map: &Map, place: u64, rows: u64, scans: u64) -> u64 {
    let width = width(rows);
    let mut listed = Vec::new();
    let mut done = 0;
    let mut seed = scattered(place);
    for _ in 0..scans {
        seed = scattered(seed);
        listed.clear();
        let from = scattered(row_of(seed, rows));
        let end = from.saturating_add(width);
        listed.extend(map.read().unwrap().range(from..end).map(|(key, value)| (*key, *value)));
        done += listed.len() as u64;
    }
    done
}

fn run(threads: u64, work: impl Fn(u64) -> u64 + Sync) -> u64 {
    let done = AtomicU64::new(0);
    thread::scope(|scope| {
        for place in 0..threads {
            let (work, done) = (&work, &done);
            scope.spawn(move || done.fetch_add(work(place), Ordering::SeqCst));
        }
    });
    done.into_inner()
}

/// The load of `bench_map`.
struct Large {
    rows: u64,
    threads: u64,
    calls: u64,
    rises: bool,
}

impl Large {
    fn read(words: &[String]) -> Option<Large> {
        let [kind, rows, threads, calls, order] = words else {
            return None;
        };
        let (rows, threads, calls) = (rows.parse().ok()?, threads.parse::<u64>().ok()?.max(1), calls.parse().ok()?);
        (kind == "large").then_some(Large { rows, threads, calls, rises: order == "rising" })
    }

    fn key(&self, row: u64) -> u64 {
        if self.rises { row } else { scattered(row) }
    }

    fn timed(&self, part: &str, calls: u64, work: impl Fn(u64) -> u64 + Sync) {
        let start = Instant::now();
        let done = run(self.threads, work);
        println!("{part} {calls} {done} {} 0", start.elapsed().as_micros());
    }

    /// Deletes all rows but one of ten.
    fn thin_out(&self, map: &Map) {
        let wait = || io::stdin().read_line(&mut String::new());
        let _ = wait();
        self.timed("gone", self.rows, |place| {
            let rows = (place..self.rows).step_by(self.threads as usize);
            rows.filter(|row| row % KEPT == 0 || map.write().unwrap().remove(&self.key(*row)) == Some(*row)).count() as u64
        });
        let _ = wait();
        println!("left {} {} 0 0", self.rows.div_ceil(KEPT), map.read().unwrap().len());
    }

    fn run(&self) {
        let map = RwLock::new(BTreeMap::new());
        let turns = self.calls / self.threads;
        let width = if self.rises { WIDTH } else { width(self.rows) };
        self.timed("rows", self.rows, |place| {
            let rows = (place..self.rows).step_by(self.threads as usize);
            rows.filter(|row| insert(&map, self.key(*row), *row)).count() as u64
        });
        if self.calls == 0 {
            self.thin_out(&map);
            return;
        }
        self.timed("finds", self.calls, |place| {
            let mut seed = scattered(place);
            let draw = (0..turns).map(|_| {
                seed = scattered(seed);
                self.key(row_of(seed, self.rows))
            });
            draw.filter(|key| find(&map, *key).is_some()).count() as u64
        });
        self.timed("scans", self.calls / WIDTH, |place| {
            let (mut done, mut seed, mut listed) = (0, scattered(place), Vec::new());
            for _ in 0..turns / WIDTH {
                seed = scattered(seed);
                let from = self.key(row_of(seed, self.rows));
                listed.clear();
                listed.extend(map.read().unwrap().range(from..from.saturating_add(width)).map(|(key, value)| (*key, *value)));
                done += listed.len() as u64;
            }
            done
        });
    }
}

fn main() {
    if let Some(large) = Large::read(&env::args().skip(1).collect::<Vec<_>>()) {
        large.run();
        return;
    }
    let words: Vec<u64> = env::args().skip(1).filter_map(|word| word.parse().ok()).collect();
    let [rows, threads, finds, mixed, scans] = words[..] else {
        eprintln!("usage: index_twin ROWS THREADS FINDS MIXED SCANS");
        std::process::exit(2);
    };
    let map = RwLock::new(BTreeMap::new());
    let inserted = run(threads, |place| fill(&map, place, rows, threads));
    let found = run(threads, |place| search(&map, place, rows, finds));
    let mixed = run(threads, |place| mix(&map, place, rows, mixed));
    let listed = run(threads, |place| scan(&map, place, rows, scans));
    println!("rows {inserted}, found {found}, mixed {mixed}, listed {listed}");
}
