//! For each of the ten differences a smallest input: the Rust does what 01 says that it does, and the store what 01 wants.
use std::io::{BufReader, Write};
use std::process::{Command, Stdio};

use crate::call::{Call, List, hex};
use crate::compare::Said;
use crate::machine::{self, PAGE};
use crate::mend::{Struck, mend};
use crate::rust_side::Rust;

const P: u32 = PAGE as u32;

/// What a side gave to a list: the answer to each call, nothing where it did not finish; and the ranges of each object at the end.
struct Gave {
    answers: Vec<Option<Vec<u8>>>,
    ranges: Vec<Vec<(usize, usize, usize)>>,
}

impl Gave {
    fn last(&self) -> Option<&Vec<u8>> {
        self.answers.last()?.as_ref()
    }
    fn text(&self) -> String {
        let last = self.last().map_or("not finished".to_string(), |a| hex(a));
        format!("{last}, ranges {:?}", self.ranges)
    }
}

/// The Rust as it is, nothing mended, but for the long list: there 6 and 7 between calls. It ends at a call that it does not finish.
fn rust(list: &List) -> Gave {
    let mut r = Rust::new(list.frames);
    let mut answers = Vec::new();
    for c in &list.calls {
        answers.push(r.call(c));
        if answers.last().unwrap().is_none() {
            break;
        }
        if list.calls.len() > 20 {
            mend(&r, &mut Struck::new());
            r.frames.collect();
        }
    }
    let ranges = r.view().0.objects.iter().map(|o| o.ranges.iter().map(|r| (r.start, r.length, r.offset)).collect()).collect();
    Gave { answers, ranges }
}

fn store(program: &str, list: &List) -> Gave {
    let mut child = Command::new(program).stdin(Stdio::piped()).stdout(Stdio::piped()).spawn().unwrap();
    let mut to = child.stdin.take().unwrap();
    let text = list.text();
    let writer = std::thread::spawn(move || to.write_all(text.as_bytes()).unwrap());
    let mut from = BufReader::new(child.stdout.take().unwrap());
    let mut said = Said::read(&mut from).unwrap();
    let mut answers = Vec::new();
    for _ in &list.calls {
        said = Said::read(&mut from).unwrap();
        answers.push(Some(said.answer.clone()));
    }
    writer.join().unwrap();
    child.wait().unwrap();
    let ranges = said.view.objects.iter().map(|o| o.ranges.iter().map(|r| (r.start, r.length, r.offset)).collect()).collect();
    Gave { answers, ranges }
}

/// The inputs, the last call showing the difference. That of 7 has a second range behind, so that 2 does not strike.
pub fn lists() -> Vec<List> {
    let two = [Call::New(0), Call::New(1)];
    let with = |frames, calls: &[Call]| List { frames, calls: calls.to_vec() };
    vec![
        with(16, &[Call::New(0), Call::Write(0, 0, vec![1, 2, 3]), Call::Zero(0, 1, 1), Call::Read(0, 0, 3)]),
        with(16, &[Call::New(0), Call::Add(0, 0), Call::Add(0, 1), Call::Add(0, 2), Call::Zero(0, P, P)]),
        with(16, &[&two[..], &[Call::Write(0, 0, vec![1]), Call::Copy(0, 0, 1, 0, P), Call::Zero(1, 0, 1)]].concat()),
        with(16, &[&two[..], &[Call::Write(0, 0, vec![1]), Call::Copy(0, 0, 1, 0, 2 * P)]].concat()),
        with(16, &[&two[..], &[Call::Write(0, P, vec![7]), Call::Copy(0, P - 1, 1, 0, 2), Call::Read(1, 0, 2)]].concat()),
        with(16, &[&two[..], &[Call::Add(0, 0), Call::Add(0, 1), Call::Copy(0, 0, 1, 0, 2 * P), Call::Add(1, 1), Call::LookUp(1, 1)]].concat()),
        with(
            16,
            &[Call::New(0), Call::Add(0, 0), Call::Write(0, P, vec![9]), Call::Add(0, 18), Call::Zero(0, P, 18 * P), Call::Add(0, 2), Call::Read(0, P, 1)],
        ),
        with(2, &[&two[..], &[Call::Write(0, 0, vec![5, 6]), Call::Copy(0, 0, 1, P - 1, 2)]].concat()),
        limit(),
        with(16, &[&two[..], &[Call::Write(0, 0, vec![1, 2]), Call::Copy(0, 0, 1, 0, P), Call::Write(1, 1, vec![3]), Call::Read(1, 0, 2)]].concat()),
    ]
}

/// Difference 9 needs a range that stands at index 1,048,575: pages 16 apart are added, what is behind is zeroed, and the last page is moved to the
/// beginning of another object when the end of one is reached.
pub fn limit() -> List {
    let mut calls = vec![Call::New(0), Call::Add(0, 0)];
    let (mut o, mut page, mut index) = (0u8, 0u32, 0u32);
    while index < 1_048_575 {
        let step = 16.min(1_048_575 - index);
        if page + step > 262_143 {
            let other = 1 - o;
            calls.extend([Call::New(other), Call::Shadow(o, page * P, other, 0, P), Call::Drop(o)]);
            (o, page) = (other, 0);
            continue;
        }
        let first = page;
        // as many steps as frames allow, then all but the last page goes
        for _ in 0..14 {
            let step = 16.min(1_048_575 - index);
            if step > 0 && page + step <= 262_143 {
                page += step;
                index += step;
                calls.push(Call::Add(o, page));
            }
        }
        calls.push(Call::Zero(o, first * P, (page - first) * P));
    }
    calls.push(Call::Add(o, page + 1));
    List { frames: 16, calls }
}

/// Difference 10 by the frame's own function: a frame marked zeroed, written through a slice, then copied.
fn frame_copy() -> (u8, u8) {
    let (a, b) = (machine::frame(0), machine::frame(1));
    a.zero();
    machine::bytes(0)[0] = 7;
    machine::bytes(1)[0] = 5;
    b.copy_contents_from(a, 0, 0, PAGE);
    let seen = (machine::bytes(0)[0], machine::bytes(1)[0]);
    for (n, f) in [a, b].into_iter().enumerate() {
        machine::bytes(n).fill(0);
        f.set_not_zero();
    }
    seen
}

/// Whether the Rust departs as 01 says, and the store answers as 01 wants.
fn judged(n: usize, rust: &Gave, store: &Gave) -> (bool, bool) {
    let read = |g: &Gave, bytes: &[u8]| g.last().is_some_and(|a| a[0] == 0 && a[1..] == *bytes);
    let finished = |g: &Gave| g.last().is_some();
    match n {
        1 => (read(rust, &[1, 0, 0]), read(store, &[1, 0, 3])),
        2 => (rust.ranges == [[(2, 1, 2)]], store.ranges == [[(0, 1, 0), (2, 1, 2)]]),
        3 => (!finished(rust), store.last() == Some(&vec![0]) && store.ranges == [[(0, 1, 0)], [(0, 1, 0)]]),
        4 => (!finished(rust), store.last() == Some(&vec![0]) && store.ranges == [[(0, 1, 0)], [(0, 1, 0)]]),
        5 => (read(rust, &[0, 0]), read(store, &[0, 7])),
        6 => (!finished(rust) && rust.ranges[1] == [(0, 1, 0), (1, 1, 1)], read(store, &[1]) && store.ranges[1] == [(0, 1, 0), (1, 1, 0)]),
        7 => (read(rust, &[9]), read(store, &[0])),
        8 => (rust.last() == Some(&vec![0]) && rust.ranges[1] == [(0, 1, 0)], store.last() == Some(&vec![8]) && store.ranges[1].is_empty()),
        9 => (rust.ranges[0].len() == 1 && rust.ranges[0][0].2 + rust.ranges[0][0].1 == 1_048_577, store.ranges[0].len() == 2 && store.ranges[0][1].2 == 0),
        _ => (frame_copy() == (7, 0), read(store, &[1, 3])),
    }
}

pub fn show(program: &str) -> bool {
    let mut right = true;
    for (i, list) in lists().iter().enumerate() {
        let (r, s) = (rust(list), store(program, list));
        let (departs, wanted) = judged(i + 1, &r, &s);
        right &= departs && wanted;
        let calls = if list.calls.len() < 20 { list.calls.iter().map(Call::line).collect::<Vec<_>>().join(" ") } else { format!("{} calls", list.calls.len()) };
        println!("{:2} {} frames: {calls}\n   the Rust: {}{}", i + 1, list.frames, r.text(), if departs { "" } else { "  NOT AS 01 SAYS" });
        println!("   the store: {}{}", s.text(), if wanted { "" } else { "  NOT AS 01 WANTS" });
        if i == 9 {
            println!("   the Rust's frame function: a frame marked zeroed and then written with {:?} is copied as {:?}", frame_copy().0, frame_copy().1);
        }
    }
    right
}
