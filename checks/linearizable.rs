//! Decides whether recorded calls of a map are linearizable, for `checks/linearizable`. It knows nothing of the index or its proof.
//!
//!   linearizable < LINES          lines of `bench_map record`: THREAD BEGIN END KEY ASKED REPLY, and `round` behind each round; the
//!                                 reply is `Unknown` of a call that was given up, whose end is when it was settled
//!   linearizable plant FAULT      plants a fault once in 10,000 calls of a map under a lock, and says whether it is seen:
//!                                 `none`, `stale` (a search of an old copy), `twice` (an insertion in two steps), `lost` (a
//!                                 deletion that is answered and not done), `blind` (a put in two steps)
//!
//! A call looks at one key, so that calls are linearizable where those of each key are (Herlihy and Wing 1990). Those of one key
//! are searched for an order that their times allow (Wing and Gong 1993), and no state is visited twice (Lowe 2017). Each thread
//! waits for its answer, so a state is how many calls of each thread have been placed, and the value that the key has then.

use std::collections::{BTreeMap, HashMap, HashSet};
use std::io::BufRead;
use std::sync::Mutex;
use std::time::Instant;

type Value = Option<u64>;

#[derive(Clone, Copy, Debug, PartialEq)]
enum Asked {
    Find,
    Insert(u64),
    Put(u64),
    Delete,
    Change(u64, u64),
}

#[derive(Clone, Copy, Debug, PartialEq)]
enum Reply {
    Found(u64),
    Absent,
    Inserted,
    Present(u64),
    Replaced(u64),
    Deleted(u64),
    Changed,
    Differs(u64),
    NoRoom,
    /// Of a call that was given up: it has taken effect by its end, or it never does.
    Unknown,
}

#[derive(Clone, Copy, Debug)]
struct Call {
    thread: usize,
    begin: u64,
    end: u64,
    key: u64,
    asked: Asked,
    reply: Reply,
}

/// What the key has after the call, where the reply fits what it had.
fn step(had: Value, asked: Asked, reply: Reply) -> Option<Value> {
    match (asked, reply, had) {
        (Asked::Find, Reply::Absent, None) => Some(had),
        (Asked::Find, Reply::Found(v), Some(w)) if v == w => Some(had),
        (Asked::Insert(v), Reply::Inserted, None) => Some(Some(v)),
        (Asked::Insert(_), Reply::Present(v), Some(w)) if v == w => Some(had),
        (Asked::Insert(_), Reply::NoRoom, None) => Some(had),
        (Asked::Put(v), Reply::Inserted, None) => Some(Some(v)),
        (Asked::Put(v), Reply::Replaced(w), Some(old)) if w == old => Some(Some(v)),
        (Asked::Put(_), Reply::NoRoom, _) => Some(had),
        (Asked::Delete, Reply::Absent, None) => Some(had),
        (Asked::Delete, Reply::Deleted(v), Some(w)) if v == w => Some(None),
        (Asked::Delete, Reply::NoRoom, Some(_)) => Some(had),
        (Asked::Change(..), Reply::Absent, None) => Some(had),
        (Asked::Change(old, new), Reply::Changed, Some(w)) if old == w => Some(Some(new)),
        (Asked::Change(old, _), Reply::Differs(v), Some(w)) if v == w && v != old => Some(had),
        (Asked::Change(old, _), Reply::NoRoom, Some(w)) if old == w => Some(had),
        _ => None,
    }
}

/// What the key may have after the call.
fn steps(had: Value, asked: Asked, reply: Reply) -> [Option<Value>; 2] {
    if reply != Reply::Unknown {
        return [step(had, asked, reply), None];
    }
    let done = match (asked, had) {
        (Asked::Insert(v), None) | (Asked::Put(v), _) => Some(v),
        (Asked::Delete, _) => None,
        (Asked::Change(old, new), Some(w)) if old == w => Some(new),
        _ => had,
    };
    [Some(had), (done != had).then_some(done)]
}

/// The calls of one key, in order of each thread; the key may have any of these values at first. The values that it may have at
/// the end, of which there are none where no order fits.
fn ends(threads: &[Vec<Call>], firsts: &[Value]) -> Vec<Value> {
    let mut seen: HashSet<(Vec<u32>, Value)> = HashSet::new();
    let mut open: Vec<(Vec<u32>, Value)> = Vec::new();
    let mut last: HashSet<Value> = HashSet::new();
    for first in firsts {
        open.push((vec![0; threads.len()], *first));
    }
    while let Some((placed, had)) = open.pop() {
        let next = |thread: usize| threads[thread].get(placed[thread] as usize);
        // One that began behind the end of another one that is left cannot be next.
        let least = match (0..threads.len()).filter_map(|t| next(t).map(|call| call.end)).min() {
            Some(least) => least,
            None => {
                last.insert(had);
                continue;
            }
        };
        for thread in 0..threads.len() {
            let call = next(thread).filter(|call| call.begin <= least);
            for has in call.into_iter().flat_map(|call| steps(had, call.asked, call.reply)).flatten() {
                let mut more = placed.clone();
                more[thread] += 1;
                if seen.insert((more.clone(), has)) {
                    open.push((more, has));
                }
            }
        }
    }
    let mut last: Vec<Value> = last.into_iter().collect();
    last.sort();
    last
}

/// What has been checked so far.
#[derive(Default)]
struct Checked {
    firsts: HashMap<u64, Vec<Value>>,
    calls: u64,
    overlapping: u64,
    rounds: u64,
    replies: BTreeMap<String, u64>,
}

impl Checked {
    /// A round, behind which no call goes on. The key whose calls have no order, if there is one.
    fn round(&mut self, calls: Vec<Call>) -> Option<(u64, Vec<Call>)> {
        self.rounds += 1;
        let mut keys: HashMap<u64, Vec<Call>> = HashMap::new();
        for call in calls {
            let word = format!("{:?}", call.reply);
            *self.replies.entry(word.split('(').next().unwrap().to_lowercase()).or_default() += 1;
            self.calls += 1;
            keys.entry(call.key).or_default().push(call);
        }
        for (key, mut calls) in keys {
            calls.sort_by_key(|call| call.begin);
            self.overlapping += calls.windows(2).filter(|two| two[1].begin <= two[0].end).count() as u64;
            let most = calls.iter().map(|call| call.thread).max().unwrap_or(0);
            let mut threads: Vec<Vec<Call>> = vec![Vec::new(); most + 1];
            for call in &calls {
                threads[call.thread].push(*call);
            }
            threads.retain(|calls| !calls.is_empty());
            for calls in &threads {
                assert!(calls.windows(2).all(|two| two[0].end <= two[1].begin), "a thread makes two calls at a time");
            }
            let firsts = self.firsts.get(&key).cloned().unwrap_or(vec![None]);
            let last = ends(&threads, &firsts);
            if last.is_empty() {
                return Some((key, calls));
            }
            self.firsts.insert(key, last);
        }
        None
    }

    fn print(&self) {
        let replies: Vec<String> = self.replies.iter().map(|(word, count)| format!("{word} {count}")).collect();
        println!("{} calls in {} rounds, {} begun before the one before on their key had ended; {}", self.calls, self.rounds, self.overlapping, replies.join(", "));
    }
}

/// The numbers of `Word(1, 2)`, behind its word.
fn parts(text: &str) -> (&str, Vec<u64>) {
    let (word, rest) = text.split_once('(').unwrap_or((text, ""));
    (word, rest.trim_end_matches(')').split(',').filter_map(|number| number.trim().parse().ok()).collect())
}

fn asked(text: &str) -> Option<Asked> {
    match parts(text) {
        ("Find", _) => Some(Asked::Find),
        ("Insert", n) => Some(Asked::Insert(*n.first()?)),
        ("Put", n) => Some(Asked::Put(*n.first()?)),
        ("Delete", _) => Some(Asked::Delete),
        ("Change", n) => Some(Asked::Change(*n.first()?, *n.get(1)?)),
        _ => None,
    }
}

fn reply(text: &str) -> Option<Reply> {
    match parts(text) {
        ("Found", n) => Some(Reply::Found(*n.first()?)),
        ("Absent", _) => Some(Reply::Absent),
        ("Inserted", _) => Some(Reply::Inserted),
        ("Present", n) => Some(Reply::Present(*n.first()?)),
        ("Replaced", n) => Some(Reply::Replaced(*n.first()?)),
        ("Deleted", n) => Some(Reply::Deleted(*n.first()?)),
        ("Changed", _) => Some(Reply::Changed),
        ("Differs", n) => Some(Reply::Differs(*n.first()?)),
        ("NoRoom", _) => Some(Reply::NoRoom),
        ("Unknown", _) => Some(Reply::Unknown),
        _ => None,
    }
}

fn call(line: &str) -> Option<Call> {
    // `Change(1, 2)` is the one word with a space in it.
    let line = line.replace(", ", ",");
    let words: Vec<&str> = line.split(' ').collect();
    match words.as_slice() {
        [thread, begin, end, key, question, answer] => Some(Call {
            thread: thread.parse().ok()?,
            begin: begin.parse().ok()?,
            end: end.parse().ok()?,
            key: key.parse().ok()?,
            asked: asked(question)?,
            reply: reply(answer)?,
        }),
        _ => None,
    }
}

fn read() -> Result<Checked, String> {
    let (mut checked, mut calls) = (Checked::default(), Vec::new());
    for line in std::io::stdin().lock().lines() {
        let line = line.map_err(|error| error.to_string())?;
        if line == "round" {
            if let Some((key, calls)) = checked.round(std::mem::take(&mut calls)) {
                for call in &calls {
                    eprintln!("{call:?}");
                }
                return Err(format!("no order fits the {} calls of key {key} in round {}", calls.len(), checked.rounds));
            }
        } else {
            calls.push(call(&line).ok_or(format!("no call: {line}"))?);
        }
    }
    if !calls.is_empty() || checked.calls == 0 {
        return Err("the lines end in the middle of a round, or there are none".to_string());
    }
    Ok(checked)
}

/// A map under a lock, with a fault at each 10,000th call of a thread.
struct Planted {
    map: Mutex<BTreeMap<u64, u64>>,
    fault: String,
}

impl Planted {
    fn answer(&self, key: u64, asked: Asked, number: u64, old: &mut BTreeMap<u64, u64>) -> Reply {
        let is_due = number % 10_000 == 9_999;
        if is_due && self.fault == "stale" && asked == Asked::Find {
            let reply = old.get(&key).map_or(Reply::Absent, |value| Reply::Found(*value));
            *old = self.map.lock().unwrap().clone();
            return reply;
        }
        if is_due && self.fault == "twice" {
            if let Asked::Insert(value) = asked {
                if let Some(there) = self.map.lock().unwrap().get(&key) {
                    return Reply::Present(*there);
                }
                std::thread::yield_now();
                self.map.lock().unwrap().insert(key, value);
                return Reply::Inserted;
            }
        }
        let mut map = self.map.lock().unwrap();
        match asked {
            Asked::Find => map.get(&key).map_or(Reply::Absent, |value| Reply::Found(*value)),
            Asked::Insert(value) => match map.get(&key) {
                Some(there) => Reply::Present(*there),
                None => {
                    map.insert(key, value);
                    Reply::Inserted
                }
            },
            Asked::Put(value) if is_due && self.fault == "blind" => {
                // It tells what it saw before another one could write.
                let there = map.get(&key).copied();
                drop(map);
                std::thread::yield_now();
                self.map.lock().unwrap().insert(key, value);
                there.map_or(Reply::Inserted, Reply::Replaced)
            }
            Asked::Put(value) => map.insert(key, value).map_or(Reply::Inserted, Reply::Replaced),
            Asked::Delete if is_due && self.fault == "lost" => map.get(&key).map_or(Reply::Absent, |value| Reply::Deleted(*value)),
            Asked::Delete => map.remove(&key).map_or(Reply::Absent, Reply::Deleted),
            Asked::Change(from, to) => match map.get(&key) {
                None => Reply::Absent,
                Some(there) if *there == from => {
                    map.insert(key, to);
                    Reply::Changed
                }
                Some(there) => Reply::Differs(*there),
            },
        }
    }
}

fn after(drawn: u64) -> u64 {
    drawn.wrapping_mul(6_364_136_223_846_793_005).wrapping_add(1_442_695_040_888_963_407)
}

/// Four threads make calls of a map with that fault. Whether one round had no order.
fn plant(fault: &str, rounds: u64) -> (Checked, bool) {
    let planted = Planted { map: Mutex::new(BTreeMap::new()), fault: fault.to_string() };
    let (start, mut checked) = (Instant::now(), Checked::default());
    let now = || start.elapsed().as_nanos() as u64;
    let mut states: Vec<(u64, u64, BTreeMap<u64, u64>)> = (0..4).map(|thread| (thread, 0, BTreeMap::new())).collect();
    for _ in 0..rounds {
        let lists: Vec<Vec<Call>> = std::thread::scope(|scope| {
            let (planted, now) = (&planted, &now);
            let threads: Vec<_> = states.iter_mut().enumerate().map(|(thread, state)| scope.spawn(move || {
                (0..20_000).map(|_| {
                    state.0 = after(state.0);
                    state.1 += 1;
                    let (key, stamp) = ((state.0 >> 24) % 8, (thread as u64) << 40 | state.1);
                    // The call at which the fault is due is one that can have it.
                    let kind = if state.1 % 10_000 == 9_999 { ["stale", "twice", "lost", "blind"].iter().position(|f| *f == planted.fault).unwrap_or(0) as u64 } else { (state.0 >> 40) % 5 };
                    let asked = [Asked::Find, Asked::Insert(stamp), Asked::Delete, Asked::Put(stamp), Asked::Change(stamp.saturating_sub(4), stamp)][kind as usize];
                    let begin = now();
                    let reply = planted.answer(key, asked, state.1, &mut state.2);
                    Call { thread, begin, end: now(), key, asked, reply }
                }).collect()
            })).collect();
            threads.into_iter().map(|thread| thread.join().unwrap()).collect()
        });
        if checked.round(lists.concat()).is_some() {
            return (checked, true);
        }
    }
    (checked, false)
}

fn main() {
    let words: Vec<String> = std::env::args().skip(1).collect();
    if let [word, fault] = words.as_slice() {
        assert!(word == "plant" && ["none", "stale", "twice", "lost", "blind"].contains(&fault.as_str()), "usage: linearizable [plant FAULT]");
        let (checked, seen) = plant(fault, if fault == "none" { 10 } else { 200 });
        let calls = checked.calls;
        println!("{fault}: {} within {calls} calls", if seen { "seen" } else { "not seen" });
        std::process::exit((seen != (fault != "none")) as i32);
    }
    match read() {
        Ok(checked) => checked.print(),
        Err(why) => {
            eprintln!("linearizable: {why}");
            std::process::exit(1);
        }
    }
}

#[cfg(test)]
mod tests {
    use super::*;

    /// Each call by a thread of its own.
    fn fits(calls: &[(Asked, Reply, u64, u64)]) -> bool {
        let threads: Vec<Vec<Call>> = calls.iter().enumerate().map(|(thread, (asked, reply, begin, end))| vec![Call { thread, begin: *begin, end: *end, key: 1, asked: *asked, reply: *reply }]).collect();
        !ends(&threads, &[None]).is_empty()
    }

    #[test]
    fn one_behind_the_other() {
        assert!(fits(&[(Asked::Insert(5), Reply::Inserted, 0, 1), (Asked::Change(5, 6), Reply::Changed, 2, 3), (Asked::Delete, Reply::Deleted(6), 4, 5), (Asked::Find, Reply::Absent, 6, 7)]));
    }

    #[test]
    fn those_that_overlap_go_either_way() {
        assert!(fits(&[(Asked::Insert(5), Reply::Inserted, 0, 10), (Asked::Find, Reply::Absent, 1, 2), (Asked::Find, Reply::Found(5), 3, 4)]));
    }

    #[test]
    fn what_was_seen_stays_seen() {
        assert!(!fits(&[(Asked::Insert(5), Reply::Inserted, 0, 10), (Asked::Find, Reply::Found(5), 1, 2), (Asked::Find, Reply::Absent, 3, 4)]));
    }

    #[test]
    fn of_two_insertions_one_wins() {
        assert!(!fits(&[(Asked::Insert(5), Reply::Inserted, 0, 10), (Asked::Insert(6), Reply::Inserted, 0, 10)]));
    }

    #[test]
    fn a_put_tells_what_it_replaced() {
        assert!(fits(&[(Asked::Put(5), Reply::Inserted, 0, 1), (Asked::Put(6), Reply::Replaced(5), 2, 3), (Asked::Find, Reply::Found(6), 4, 5)]));
        assert!(!fits(&[(Asked::Put(5), Reply::Inserted, 0, 10), (Asked::Put(6), Reply::Inserted, 0, 10)]));
        assert!(!fits(&[(Asked::Put(5), Reply::Inserted, 0, 1), (Asked::Put(6), Reply::Replaced(5), 2, 9), (Asked::Put(7), Reply::Replaced(5), 2, 9)]));
    }

    #[test]
    fn of_two_changes_one_wins() {
        assert!(!fits(&[(Asked::Insert(5), Reply::Inserted, 0, 1), (Asked::Change(5, 6), Reply::Changed, 2, 9), (Asked::Change(5, 7), Reply::Changed, 2, 9)]));
    }

    #[test]
    fn what_was_given_up_may_be_done_until_its_end() {
        let given_up = (Asked::Insert(5), Reply::Unknown, 0, 4);
        assert!(fits(&[given_up, (Asked::Find, Reply::Absent, 1, 2), (Asked::Find, Reply::Found(5), 3, 5)]));
        assert!(fits(&[given_up, (Asked::Find, Reply::Absent, 1, 2), (Asked::Find, Reply::Absent, 5, 6)]));
        assert!(!fits(&[given_up, (Asked::Find, Reply::Absent, 5, 6), (Asked::Find, Reply::Found(5), 7, 8)]));
        assert!(!fits(&[given_up, (Asked::Find, Reply::Found(5), 1, 2), (Asked::Find, Reply::Absent, 5, 6)]));
    }

    /// All orders of a few calls, held against the search.
    #[test]
    fn as_all_orders_say() {
        fn any_order(calls: &[(Asked, Reply, u64, u64)], placed: &mut Vec<usize>, had: Value) -> bool {
            placed.len() == calls.len() || (0..calls.len()).any(|i| {
                if placed.contains(&i) || (0..calls.len()).any(|j| j != i && !placed.contains(&j) && calls[j].3 < calls[i].2) {
                    return false;
                }
                step(had, calls[i].0, calls[i].1).map_or(false, |has| {
                    placed.push(i);
                    let fits = any_order(calls, placed, has);
                    placed.pop();
                    fits
                })
            })
        }
        let mut drawn = 1;
        let mut draw = |limit: u64| {
            drawn = after(drawn);
            (drawn >> 33) % limit
        };
        let mut counts = [0, 0];
        for _ in 0..200_000 {
            let calls: Vec<_> = (0..4).map(|_| {
                let (begin, value) = (draw(8), draw(2));
                let (asked, reply) = match draw(10) {
                    0 => (Asked::Find, Reply::Absent),
                    1 => (Asked::Find, Reply::Found(value)),
                    2 | 3 => (Asked::Insert(value), Reply::Inserted),
                    4 => (Asked::Insert(1 - value), Reply::Present(value)),
                    5 => (Asked::Delete, Reply::Deleted(value)),
                    6 => (Asked::Change(value, 1 - value), Reply::Changed),
                    7 => (Asked::Put(value), Reply::Inserted),
                    8 => (Asked::Put(1 - value), Reply::Replaced(value)),
                    _ => (Asked::Change(value, value), Reply::Differs(1 - value)),
                };
                (asked, reply, begin, begin + draw(5))
            }).collect();
            let fits = fits(&calls);
            assert_eq!(fits, any_order(&calls, &mut Vec::new(), None), "{calls:?}");
            counts[fits as usize] += 1;
        }
        assert!(counts.iter().all(|count| *count > 1_000), "{counts:?}");
    }
}
