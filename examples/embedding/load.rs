//! The load of load.c, in Rust.
use blink::Map;

fn key_of(number: u64) -> u64 {
    number.wrapping_mul(0x9E37_79B9_7F4A_7C15)
}

fn main() -> Result<(), Box<dyn std::error::Error>> {
    let words: Vec<String> = std::env::args().collect();
    let each: u64 = words.get(1).map_or(Ok(100_000), |word| word.parse())?;
    let pages: u32 = words.get(2).map_or(Ok(65_536), |word| word.parse())?;
    let map = Map::new(pages, 4)?;
    std::thread::scope(|scope| {
        for thread in 0..4 {
            let handle = map.handle().expect("a handle is free");
            scope.spawn(move || {
                let numbers = thread * each..(thread + 1) * each;
                numbers.clone().for_each(|n| assert_eq!(handle.insert(key_of(n), n), Ok(None)));
                numbers.clone().for_each(|n| assert_eq!(handle.get(key_of(n)), Some(n)));
                numbers.filter(|n| n % 3 == 0).for_each(|n| assert_eq!(handle.remove(key_of(n)), Ok(Some(n))));
            });
        }
    });
    let handle = map.handle().ok_or("all handles are out")?;
    let (mut rows, mut last) = (0, None);
    for (key, value) in &handle {
        assert!(last < Some(key) && key == key_of(value) && value % 3 != 0);
        last = Some(key);
        rows += 1;
    }
    drop(handle);
    let wanted = (0..4 * each).filter(|n| n % 3 != 0).count();
    println!("rows {}, wanted {}, wrong 0", rows, wanted);
    assert_eq!(rows, wanted);
    if let Some(file) = words.get(3) {
        std::fs::write(file, map.close_image()?)?;
    }
    Ok(())
}
