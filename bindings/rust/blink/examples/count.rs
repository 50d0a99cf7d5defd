//! Counts words of standard input by their lengths, by four threads: `echo a bc de | cargo run --example count`.
use std::io::{self, Read};

fn main() -> Result<(), Box<dyn std::error::Error>> {
    let mut text = String::new();
    io::stdin().read_to_string(&mut text)?;
    let words: Vec<&str> = text.split_whitespace().collect();
    let map = blink::Map::growing(4)?;
    std::thread::scope(|scope| {
        let threads: Vec<_> = words
            .chunks(words.len() / 4 + 1)
            .filter_map(|part| Some((part, map.handle()?)))
            .map(|(part, handle)| {
                scope.spawn(move || part.iter().try_for_each(|word| handle.add(word.len() as u64, 1).map(drop)))
            })
            .collect();
        threads.into_iter().try_for_each(|thread| thread.join().expect("no thread panics"))
    })?;
    let handle = map.handle().ok_or("all handles are out")?;
    for (length, count) in handle.iter().rev() {
        println!("{} of {} bytes", count, length);
    }
    Ok(())
}
