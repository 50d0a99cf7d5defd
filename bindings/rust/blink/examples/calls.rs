//! What a call costs, for `bench/calls`: `calls ROWS ROUNDS`. A line for each operation: its name, and the nanoseconds of one.
use std::collections::BTreeMap;
use std::time::Instant;

fn key_of(n: u64) -> u64 {
    n.wrapping_mul(0x9E37_79B9_7F4A_7C15)
}

fn timed(best: &mut BTreeMap<&'static str, f64>, name: &'static str, rows: u64, work: impl FnOnce() -> bool) {
    let begin = Instant::now();
    assert!(work(), "{} is not answered as it should be", name);
    let each = begin.elapsed().as_nanos() as f64 / rows as f64;
    let least = best.entry(name).or_insert(each);
    *least = least.min(each);
}

fn main() -> Result<(), Box<dyn std::error::Error>> {
    let words: Vec<u64> = std::env::args().skip(1).map(|word| word.parse()).collect::<Result<_, _>>()?;
    let (rows, rounds) = (words[0], words[1]);
    let mut best = BTreeMap::new();
    for _ in 0..rounds {
        let map = blink::Map::new(65536, 1)?;
        let handle = map.handle().ok_or("no handle")?;
        let keys: Vec<u64> = (0..rows).map(|n| key_of(n * 7919 % rows)).collect();
        timed(&mut best, "insert", rows, || (0..rows).all(|n| handle.insert(key_of(n), n) == Ok(None)));
        timed(&mut best, "find", rows, || keys.iter().all(|key| handle.get(*key).is_some()));
        timed(&mut best, "put", rows, || keys.iter().all(|key| matches!(handle.put(*key, 5), Ok(Some(_)))));
        timed(&mut best, "find_many", rows, || handle.get_many(&keys).iter().all(|found| *found == Some(5)));
        timed(&mut best, "row up", rows, || handle.iter().filter(|row| row.1 == 5).count() as u64 == rows);
        timed(&mut best, "row down", rows, || handle.iter().rev().filter(|row| row.1 == 5).count() as u64 == rows);
    }
    best.iter().for_each(|(name, each)| println!("{}\t{:.0}", name, each));
    Ok(())
}
