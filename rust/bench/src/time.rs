//! Two ways to time a turn.
use std::time::{Duration, Instant};

const ENOUGH: Duration = Duration::from_millis(20);

/// Processor time, as the store's programs read it.
fn processor() -> Duration {
    unsafe extern "C" {
        fn clock() -> i64;
    }
    Duration::from_micros(unsafe { clock() } as u64)
}

/// Turns that leave things as they were, doubled until they take 0.02 seconds of processor time.
pub fn repeated(mut turns: impl FnMut(usize)) -> u128 {
    let mut n = 1;
    loop {
        let start = processor();
        turns(n);
        let spent = processor() - start;
        if spent >= ENOUGH {
            return spent.as_nanos() / n as u128;
        }
        n *= 2;
    }
}

/// Turns that must be undone: each says how long it took by the clock on the wall, and the median counts.
pub fn single(mut turn: impl FnMut() -> Duration) -> u128 {
    let start = Instant::now();
    let mut all = Vec::new();
    let mut spent = Duration::ZERO;
    while all.len() < 5 || (spent < ENOUGH && start.elapsed() < 10 * ENOUGH) {
        let one = turn();
        spent += one;
        all.push(one);
    }
    all.sort();
    all[all.len() / 2].as_nanos()
}

/// What a piece of work takes.
pub fn took<T>(work: impl FnOnce() -> T) -> Duration {
    let start = Instant::now();
    let kept = work();
    let spent = start.elapsed();
    drop(kept);
    spent
}

pub fn line(work: &str, counts: (u16, u16), ns: u128) {
    println!("{work} {} {} {ns}", counts.0, counts.1);
}
