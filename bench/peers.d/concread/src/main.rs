//! The load of `bench_map index` on concread's `BptreeMap`, a B+-tree of versions: readers see a snapshot, one writer at a time copies the nodes on
//! its way. `concread_load ROWS THREADS FINDS MIXED SCANS` prints what `bench_map index` prints.

#[path = "../../drawn.rs"]
mod drawn;

use concread::bptree::BptreeMap;
use drawn::{row_of, scattered, width};
use std::env;
use std::sync::atomic::{AtomicU64, Ordering};
use std::thread;

type Map = BptreeMap<u64, u64>;

fn insert(map: &Map, key: u64, value: u64) -> bool {
    let mut write = map.write();
    let is_new = write.get(&key).is_none();
    if is_new {
        write.insert(key, value);
        write.commit();
    }
    is_new
}

fn delete(map: &Map, key: u64) {
    let mut write = map.write();
    write.remove(&key);
    write.commit();
}

fn find(map: &Map, key: u64) -> Option<u64> {
    map.read().get(&key).copied()
}

fn fill(map: &Map, place: u64, rows: u64, threads: u64) -> u64 {
    (place..rows).step_by(threads as usize).filter(|row| insert(map, scattered(*row), *row)).count() as u64
}

fn search(map: &Map, place: u64, rows: u64, finds: u64) -> u64 {
    let (mut done, mut seed) = (0, scattered(place));
    for _ in 0..finds {
        seed = scattered(seed);
        done += find(map, scattered(row_of(seed, rows))).is_some() as u64;
    }
    done
}

fn mix(map: &Map, place: u64, rows: u64, mixed: u64) -> u64 {
    let mut seed = scattered(place);
    for round in 0..mixed {
        if round % 4 != 3 {
            seed = scattered(seed);
        }
        let row = row_of(seed, rows);
        match round % 4 {
            2 => delete(map, scattered(row)),
            3 => drop(insert(map, scattered(row), row)),
            _ => drop(std::hint::black_box(find(map, scattered(row)))),
        }
    }
    mixed
}

fn scan(map: &Map, place: u64, rows: u64, scans: u64) -> u64 {
    let (mut done, mut seed, mut listed) = (0, scattered(place), Vec::new());
    for _ in 0..scans {
        seed = scattered(seed);
        listed.clear();
        let from = scattered(row_of(seed, rows));
        let end = from.saturating_add(width(rows));
        listed.extend(map.read().range(from..end).map(|(key, value)| (*key, *value)));
        done += listed.len() as u64;
    }
    done
}

fn run(threads: u64, work: impl Fn(u64) -> u64 + Sync) -> u64 {
    let done = AtomicU64::new(0);
    thread::scope(|scope| {
        for place in 0..threads {
            let (work, done) = (&work, &done);
            scope.spawn(move || done.fetch_add(work(place), Ordering::SeqCst));
        }
    });
    done.into_inner()
}

fn main() {
    let words: Vec<u64> = env::args().skip(1).filter_map(|word| word.parse().ok()).collect();
    let [rows, threads, finds, mixed, scans] = words[..] else {
        eprintln!("usage: concread_load ROWS THREADS FINDS MIXED SCANS");
        std::process::exit(2);
    };
    let map = Map::new();
    let inserted = run(threads, |place| fill(&map, place, rows, threads));
    let found = run(threads, |place| search(&map, place, rows, finds));
    let mixed = run(threads, |place| mix(&map, place, rows, mixed));
    let listed = run(threads, |place| scan(&map, place, rows, scans));
    println!("rows {inserted}, found {found}, mixed {mixed}, listed {listed}");
}
