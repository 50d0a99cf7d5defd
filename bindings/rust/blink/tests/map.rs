use blink::{CloseError, ExchangeError, Handle, Map, NoRoom, NoRoomAfter, OpenError, ResizeError};
use std::collections::BTreeMap;
use std::ops::Bound;
use std::sync::atomic::{AtomicBool, Ordering};

type Model = BTreeMap<u64, u64>;

fn draw(x: &mut u64) -> u64 {
    *x ^= *x << 13;
    *x ^= *x >> 7;
    *x ^= *x << 17;
    *x
}

/// The rows of a range are those of the model, from both ends and from either by turns.
fn same_range(handle: &Handle, model: &Model, from: u64, to: u64, x: &mut u64) {
    let rows: Vec<(u64, u64)> = model.range(from..=to).map(|(k, v)| (*k, *v)).collect();
    assert!(handle.range(from..=to).eq(rows.iter().copied()));
    assert_eq!(handle.snapshot(from..=to).unwrap(), rows);
    assert!(handle.range(from..=to).rev().eq(rows.iter().rev().copied()));
    assert!(handle.range(from..to).eq(model.range(from..to).map(|(k, v)| (*k, *v))));
    let (mut range, mut left) = (handle.range(from..=to), &rows[..]);
    loop {
        let told = if draw(x) % 2 == 0 { (range.next(), left.first()) } else { (range.next_back(), left.last()) };
        assert_eq!(told.0.as_ref(), told.1);
        left = match told {
            (None, _) => break,
            (Some(row), _) if left[0] == row => &left[1..],
            _ => &left[..left.len() - 1],
        };
    }
    assert_eq!((range.next(), range.next_back()), (None, None));
}

fn step(handle: &Handle, model: &mut Model, x: &mut u64) {
    let (what, v) = (draw(x) % 11, draw(x));
    let k = if draw(x) % 2 == 0 { draw(x) % 500 } else { draw(x) | 1 << 63 };
    let old = model.get(&k).copied();
    match what {
        0 | 1 => {
            assert_eq!(handle.insert(k, v), Ok(old));
            model.entry(k).or_insert(v);
        }
        2 => assert_eq!(handle.put(k, v), Ok(model.insert(k, v))),
        3 => assert_eq!(handle.remove(k), Ok(model.remove(&k))),
        4 => assert_eq!((handle.get(k), handle.contains_key(k)), (old, old.is_some())),
        5 => match old {
            None => assert_eq!(handle.compare_exchange(k, v, v), Err(ExchangeError::Absent)),
            Some(there) if v % 2 == 0 => {
                assert_eq!(handle.compare_exchange(k, there, v), Ok(()));
                model.insert(k, v);
            }
            Some(there) => {
                assert_eq!(handle.compare_exchange(k, there.wrapping_add(1), v), Err(ExchangeError::Differs(there)))
            }
        },
        6 => {
            assert_eq!(handle.update(k, |v| v ^ 5), Ok(old));
            model.entry(k).and_modify(|v| *v ^= 5);
        }
        7 => {
            let keys: Vec<u64> = (0..draw(x) % 40).map(|n| if n % 3 == 0 { k } else { draw(x) % 500 }).collect();
            let wanted: Vec<Option<u64>> = keys.iter().map(|k| model.get(k).copied()).collect();
            assert_eq!(handle.get_many(&keys), wanted);
        }
        8 => {
            assert_eq!(handle.add(k, v), Ok(old.unwrap_or(0).wrapping_add(v)));
            model.entry(k).and_modify(|sum| *sum = sum.wrapping_add(v)).or_insert(v);
        }
        9 => {
            let told = |row: Option<(&u64, &u64)>| row.map(|(k, v)| (*k, *v));
            assert_eq!(handle.first(), told(model.iter().next()));
            assert_eq!(handle.next(k), told(model.range((Bound::Excluded(k), Bound::Unbounded)).next()));
            assert_eq!(handle.previous(k), told(model.range(..k).next_back()));
            assert_eq!(handle.count(k..), model.range(k..).count() as u64);
            assert_eq!(handle.count(..k), model.range(..k).count() as u64);
        }
        _ => {
            let (from, to) = (k.saturating_sub(draw(x) % 100), k.saturating_add(draw(x) % 100));
            same_range(handle, model, from, to, x);
            assert_eq!(handle.last(), model.iter().next_back().map(|(k, v)| (*k, *v)));
        }
    }
}

#[test]
fn like_a_btree_map() {
    for seed in 1..6 {
        let (map, mut model, mut x) = (Map::new(4096, 1).unwrap(), BTreeMap::new(), seed * 7919);
        let handle = map.handle().unwrap();
        assert!(map.handle().is_none());
        (0..8000).for_each(|_| step(&handle, &mut model, &mut x));
        same_range(&handle, &model, 0, u64::MAX, &mut x);
        assert_eq!(handle.first(), model.iter().next().map(|(k, v)| (*k, *v)));
        drop(handle);
        let image = map.close_image().unwrap();
        let again = Map::from_image(&image, 2).unwrap();
        assert_eq!(again.pages(), 4096);
        same_range(&again.handle().unwrap(), &model, 0, u64::MAX, &mut x);
    }
}

#[test]
fn edges() {
    let map = Map::new(16, 2).unwrap();
    let handle = map.handle().unwrap();
    assert_eq!((handle.first(), handle.last(), handle.iter().next_back()), (None, None, None));
    handle.insert(0, 1).unwrap();
    handle.insert(u64::MAX, 2).unwrap();
    assert_eq!(handle.range(..).collect::<Vec<_>>(), [(0, 1), (u64::MAX, 2)]);
    assert_eq!(handle.range(..).rev().collect::<Vec<_>>(), [(u64::MAX, 2), (0, 1)]);
    assert_eq!(handle.snapshot(..), Ok(vec![(0, 1), (u64::MAX, 2)]));
    assert_eq!((handle.snapshot(5..5), handle.snapshot(..u64::MAX)), (Ok(vec![]), Ok(vec![(0, 1)])));
    assert_eq!(handle.range(..u64::MAX).count(), 1);
    assert_eq!(handle.range(..=u64::MAX).count(), 2);
    assert_eq!((handle.range(5..5).count(), handle.range(0..0).count()), (0, 0));
    assert_eq!(handle.range((Bound::Excluded(0), Bound::Excluded(u64::MAX))).rev().count(), 0);
    assert_eq!(handle.range((Bound::Excluded(u64::MAX), Bound::Unbounded)).count(), 0);
    assert_eq!((handle.next(u64::MAX), handle.previous(0)), (None, None));
    assert_eq!((handle.next(0), handle.previous(u64::MAX)), (Some((u64::MAX, 2)), Some((0, 1))));
    assert_eq!((handle.count(..), handle.count(..u64::MAX), handle.count(0..0), handle.count(1..)), (2, 1, 0, 1));
    assert_eq!((handle.add(5, 5), handle.add(5, u64::MAX), handle.remove(5)), (Ok(5), Ok(4), Ok(Some(4))));
    assert!(handle.upkeep(10));
    // The anchor and one leaf; two frames for each page, and eight for each handle.
    let stats = handle.stats();
    assert_eq!((stats.pages, stats.used_pages, stats.free_pages, stats.frames), (16, 2, 14, 48));
    assert_eq!((stats.waiting, stats.dropped), (0, 0));
    let refused = map.close_image().unwrap_err();
    assert_eq!(refused.to_string(), "some handles of the map are out, or it is closed");
    drop(handle);
    let map = refused.into_map();
    let other = map.clone();
    assert_eq!(map.close_image().unwrap().len(), 32 + 256 * 16);
    assert!(other.handle().is_none());
    assert!(matches!(other.close_image(), Err(CloseError::HandlesOut(_))));
}

// The anchor and a leaf are in use, and four pages are stored.
#[test]
fn the_image_of_a_large_map_is_short() {
    let map = Map::new(65_537, 1).unwrap();
    map.handle().unwrap().insert(5, 50).unwrap();
    let image = map.close_image().unwrap();
    assert_eq!(image.len(), 32 + 256 * 4);
    let again = Map::from_image(&image, 1).unwrap();
    assert_eq!((again.pages(), again.handle().unwrap().get(5)), (65_537, Some(50)));
}

#[test]
fn is_resized() {
    let map = Map::new(16, 2).unwrap();
    let handle = map.handle().unwrap();
    (0..80).for_each(|k| assert_eq!(handle.insert(k, k + 1), Ok(None)));
    let mut range = handle.iter();
    assert_eq!(range.next(), Some((0, 1)));
    assert_eq!((map.resize(15), map.resize((1 << 28) + 1)), (Err(ResizeError::Pages), Err(ResizeError::Pages)));
    assert_eq!((map.resize(1024), map.pages(), map.rescued()), (Ok(()), 1024, vec![]));
    (80..6000).for_each(|k| assert_eq!(handle.insert(k, k + 1), Ok(None)));
    let other = map.handle().unwrap();
    assert_eq!((other.count(..), other.get(7), other.get(5999)), (6000, Some(8), Some(6000)));
    // A range that was begun before goes on.
    assert!(range.eq((1..6000).map(|k| (k, k + 1))));
}

/// A map without a number of pages grows while four threads enter rows and a fifth lists them, and so does one that begins with an image.
#[test]
fn grows() {
    let (map, rows) = (Map::growing(6).unwrap(), 10_000u64);
    let (first, is_over) = (map.pages(), AtomicBool::new(false));
    map.handle().unwrap().insert(0, 0).unwrap();
    std::thread::scope(|scope| {
        let handle = map.handle().unwrap();
        let lister = scope.spawn(|| {
            let (handle, mut last) = (handle, 0);
            while !is_over.load(Ordering::SeqCst) {
                let keys: Vec<u64> = handle.iter().map(|row| row.0).collect();
                assert!(keys.windows(2).all(|two| two[0] < two[1]) && keys.len() >= last);
                last = keys.len();
            }
        });
        let writers: Vec<_> = (0..4).map(|t| (t, map.handle().unwrap())).collect();
        let writers: Vec<_> = writers.into_iter().map(|(t, handle)| scope.spawn(move || enters(&handle, t, rows))).collect();
        writers.into_iter().for_each(|writer| writer.join().unwrap());
        is_over.store(true, Ordering::SeqCst);
        lister.join().unwrap();
    });
    let handle = map.handle().unwrap();
    assert_eq!((handle.count(..), handle.get(0)), (4 * rows + 1, Some(4 * rows)));
    drop(handle);
    let pages = map.pages();
    assert!(pages > first);
    let again = Map::from_image(&map.close_image().unwrap(), 1).unwrap();
    let handle = again.handle().unwrap();
    assert_eq!(again.pages(), pages);
    (4 * rows + 1..).take_while(|_| again.pages() == pages).for_each(|k| assert_eq!(handle.insert(k, k), Ok(None)));
    assert_eq!(handle.get(1), Some(0));
}

/// A map that grows shrinks again once most rows have gone, and one with a number of pages does not. At the edge it does not flap.
#[test]
fn shrinks() {
    let (map, fixed) = (Map::growing(2).unwrap(), Map::new(8192, 1).unwrap());
    let (handle, other, stays) = (map.handle().unwrap(), map.handle().unwrap(), fixed.handle().unwrap());
    for k in 0..40_000 {
        assert_eq!((handle.put(k, k + 1), stays.put(k, k + 1)), (Ok(None), Ok(None)));
    }
    assert!(map.pages() >= 4096);
    for k in 0..39_900 {
        assert_eq!((handle.remove(k), stays.remove(k)), (Ok(Some(k + 1)), Ok(Some(k + 1))));
    }
    assert_eq!((map.pages(), fixed.pages()), (1024, 8192));
    assert_eq!((other.count(..), other.first(), other.get(39_999)), (100, Some((39_900, 39_901)), Some(40_000)));
    // A window of rows moves on: the number of pages stays where it is once it has been found.
    (40_000..50_000).for_each(|k| assert_eq!(other.insert(k, k), Ok(None)));
    let found = map.pages();
    for k in 50_000..150_000 {
        assert_eq!((other.insert(k, k), handle.remove(k - 10_000), map.pages()), (Ok(None), Ok(Some(k - 10_000)), found));
    }
}

/// Inserts the thread's rows, counts a row up that all have, and looks back.
fn enters(handle: &Handle, thread: u64, rows: u64) {
    for n in 0..rows {
        let key = n * 4 + thread + 1;
        match n % 3 {
            0 => assert_eq!(handle.insert(key, n), Ok(None)),
            1 => assert_eq!(handle.put(key, n), Ok(None)),
            _ => assert_eq!(handle.add(key, n), Ok(n)),
        }
        assert!(handle.update(0, |v| v + 1).unwrap().is_some());
        assert_eq!(handle.get(key - 4 * (n / 2)), Some(n - n / 2));
        if n % 1000 == 999 {
            assert_eq!(handle.snapshot(key..=key).unwrap().len(), 1);
        }
    }
}

#[test]
fn refusals() {
    assert_eq!(Map::new(3, 1).err(), Some(OpenError::Pages));
    assert_eq!(Map::new((1 << 28) + 1, 1).err(), Some(OpenError::Pages));
    assert_eq!(Map::new(16, 0).err(), Some(OpenError::Handles));
    assert_eq!(Map::new(16, 65).err(), Some(OpenError::Handles));
    assert_eq!(Map::from_image(b"", 1).err(), Some(OpenError::Image));
    assert_eq!(Map::from_image(b"", 65).err(), Some(OpenError::Handles));
    assert_eq!(OpenError::Image.to_string(), "the bytes are no sound image");
    let map = Map::new(8, 1).unwrap();
    let handle = map.handle().unwrap();
    let refused = (0..1000).find(|&k| handle.insert(k, k) == Err(NoRoom)).unwrap();
    assert_eq!((handle.add(refused, 1), handle.get(refused)), (Err(NoRoom), None));
    assert!(handle.iter().eq((0..refused).map(|k| (k, k))));
    // Where all have gone there is room again.
    for k in 0..refused {
        assert_eq!(handle.remove(k), Ok(Some(k)));
    }
    assert_eq!(handle.iter().count(), 0);
    assert_eq!(handle.insert(5, 5), Ok(None));
}

/// A counter by compare-and-set, and rows that come and go, by four threads; a fifth lists them, both ways, all the while.
#[test]
fn threads() {
    let (map, times) = (Map::new(8192, 5).unwrap(), 5000);
    map.handle().unwrap().insert(1 << 40, 0).unwrap();
    std::thread::scope(|scope| {
        for t in 0..4u64 {
            let handle = map.handle().unwrap();
            scope.spawn(move || {
                for n in 0..times {
                    assert!(handle.update(1 << 40, |v| v + 1).unwrap().is_some());
                    assert!(handle.add(1 << 40, 1).unwrap() > n);
                    assert_eq!(handle.insert(n * 4 + t, n), Ok(None));
                    assert_eq!(handle.get(n * 4 + t), Some(n));
                    if n >= 100 {
                        assert_eq!(handle.remove((n - 100) * 4 + t), Ok(Some(n - 100)));
                    }
                }
            });
        }
        let handle = map.handle().unwrap();
        scope.spawn(move || (0..100).for_each(|_| lists(&handle)));
    });
    let handle = map.handle().unwrap();
    assert_eq!(handle.get(1 << 40), Some(2 * 4 * times));
    assert_eq!(handle.iter().count() as u64, 4 * 100 + 1);
}

fn lists(handle: &Handle) {
    let mut last = None;
    for (key, value) in handle {
        assert!(last < Some(key) && (key == 1 << 40 || key / 4 == value));
        last = Some(key);
    }
    assert_eq!(last, Some(1 << 40));
    let mut last = u64::MAX;
    for (key, value) in handle.iter().rev() {
        assert!(key < last && (key == 1 << 40 || key / 4 == value));
        last = key;
    }
}

/// A function that panics leaves the value as it was, and the handle for further calls.
#[test]
fn a_function_that_panics() {
    let map = Map::new(16, 1).unwrap();
    let handle = map.handle().unwrap();
    handle.insert(1, 10).unwrap();
    let call = || handle.update(1, |_| std::panic::resume_unwind(Box::new("no value")));
    let thrown = std::panic::catch_unwind(std::panic::AssertUnwindSafe(call)).unwrap_err();
    assert_eq!(thrown.downcast_ref(), Some(&"no value"));
    assert_eq!(
        (handle.update(1, |v| v + 1), handle.get(1), handle.update(2, |v| v)),
        (Ok(Some(10)), Some(11), Ok(None))
    );
}

/// A handle may go to another thread in the middle of a program, and may outlive the map.
#[test]
fn handles_move() {
    fn is_sent<T: Send>() {}
    fn is_shared<T: Send + Sync>() {}
    is_sent::<Handle>();
    is_shared::<Map>();
    let map = Map::new(64, 1).unwrap();
    let handle = map.handle().unwrap();
    handle.insert(1, 10).unwrap();
    drop(map);
    std::thread::spawn(move || assert_eq!(handle.get(1), Some(10))).join().unwrap();
    assert!(!blink::library_version().is_empty());
}

#[test]
fn many_rows_and_none() {
    let map = Map::new(64, 1).unwrap();
    let handle = map.handle().unwrap();
    handle.put_many((0..100).map(|n| (n * 3, n))).unwrap();
    handle.put_many([(3, 7), (5, 8)]).unwrap();
    assert_eq!((handle.count(..), handle.get(3), handle.get(5)), (101, Some(7), Some(8)));
    assert_eq!(handle.clear(), Ok(101));
    assert_eq!((handle.first(), handle.clear()), (None, Ok(0)));
    let small = Map::new(4, 1).unwrap();
    let NoRoomAfter { put } = small.handle().unwrap().put_many((0..1000).map(|n| (n, n))).unwrap_err();
    assert_eq!(small.handle().unwrap().count(..), put as u64);
}

#[test]
fn saved_and_opened() {
    let folder = std::env::temp_dir().join(format!("blink-map-{}", std::process::id()));
    std::fs::create_dir(&folder).unwrap();
    let path = folder.join("rows.image");
    let map = Map::new(64, 2).unwrap();
    let handle = map.handle().unwrap();
    handle.put_many([(1, 10), (u64::MAX, 20)]).unwrap();
    map.save(&path).unwrap();
    handle.put(2, 30).unwrap();
    map.save(&path).unwrap();
    let again = Map::open(&path, 1).unwrap();
    let rows: Vec<(u64, u64)> = again.handle().unwrap().iter().collect();
    assert_eq!((rows, again.pages()), (vec![(1, 10), (2, 30), (u64::MAX, 20)], 64));
    assert_eq!(std::fs::read_dir(&folder).unwrap().count(), 1);
    let _second = map.handle().unwrap();
    assert!(map.save(&path).unwrap_err().to_string().contains("no handle"));
    assert!(Map::open(folder.join("none"), 1).is_err());
    std::fs::write(&path, b"no image").unwrap();
    assert_eq!(Map::open(&path, 1).unwrap_err().to_string(), OpenError::Image.to_string());
    std::fs::remove_dir_all(&folder).unwrap();
}
