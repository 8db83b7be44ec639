//! The store's program, driven through its standard input and output.
use std::io::{BufReader, Write};
use std::process::{Command, Stdio};

use crate::call::List;
use crate::compare::{Tally, compare};

/// A list on which both sides part, the call at which they do, and what was seen.
pub struct Divergence {
    pub list: List,
    pub at: usize,
    pub why: String,
}

/// All lists on both sides. The lists are written by a thread of their own, so that neither side waits for the other.
pub fn run(program: &str, lists: impl Iterator<Item = List> + Clone + Send + 'static) -> (Tally, Vec<Divergence>) {
    let mut child = Command::new(program).stdin(Stdio::piped()).stdout(Stdio::piped()).spawn().unwrap_or_else(|e| panic!("{program}: {e}"));
    let mut to = std::io::BufWriter::with_capacity(1 << 16, child.stdin.take().unwrap());
    let mut from = BufReader::with_capacity(1 << 16, child.stdout.take().unwrap());
    let written = lists.clone();
    let writer = std::thread::spawn(move || {
        for list in written {
            if to.write_all(list.text().as_bytes()).is_err() {
                return;
            }
        }
    });
    let mut tally = Tally::default();
    let mut found = Vec::new();
    for list in lists {
        if let Some((at, why)) = compare(&list, &mut from, &mut tally) {
            if found.len() < 20 {
                found.push(Divergence { list, at, why });
            }
        }
    }
    drop(from);
    writer.join().unwrap();
    child.wait().unwrap();
    (tally, found)
}

/// The list with every call left out that can be, as long as both sides still part.
pub fn shrunk(program: &str, d: Divergence) -> Divergence {
    let mut best = d;
    best.list.calls.truncate(best.at + 1);
    let mut i = best.list.calls.len();
    while i > 0 {
        i -= 1;
        let mut less = best.list.clone();
        less.calls.remove(i);
        if let Some(found) = run(program, std::iter::once(less)).1.into_iter().next() {
            best = found;
            best.list.calls.truncate(best.at + 1);
            i = i.min(best.list.calls.len());
        }
    }
    best
}

/// What a comparison found, told; whether both sides agree.
pub fn report(program: &str, what: &str, (tally, found): (Tally, Vec<Divergence>)) -> bool {
    println!("{what}: {}", tally.text());
    for d in found.into_iter().take(3) {
        let d = shrunk(program, d);
        println!("\nthe sides part at the last call of\n{}{}", d.list.text(), d.why);
    }
    tally.diverged == 0
}
