//! The Rust's answers to a fixed list, for a program of the repository to be held to where the Rust is not at hand. Nothing here asks the store: a call
//! that no difference touches is the Rust's as it stands; of one that a difference touches it is the mended one's, made of the Rust's own functions.
use std::collections::{BTreeMap, BTreeSet};
use std::fmt::Write as _;

use crate::call::{Call, List};
use crate::compare::Said;
use crate::differences;
use crate::judge::refusal;
use crate::lists::{over, random_small, starts, stock};
use crate::mend::{Struck, mend, mended};
use crate::rust_side::Rust;
use crate::view::{ObjectView, View};

/// The Rust alone under a list.
pub struct Alone {
    rust: Rust,
    last: View,
}

impl Alone {
    pub fn new(frames: usize) -> Self {
        Self { rust: Rust::new(frames), last: View::default() }
    }

    /// What 01 wants after a call, and the differences that it took.
    pub fn step(&mut self, call: &Call) -> (Said, Struck) {
        let k = refusal(&self.rust, call);
        if k > 0 {
            return (Said { answer: vec![k], view: self.last.clone() }, Struck::new());
        }
        let saved = self.rust.save();
        let plain = self.rust.call(call);
        let mut struck = Struck::new();
        mend(&self.rust, &mut struck);
        self.rust.frames.collect();
        let mut answer = plain.clone();
        if matches!(call, Call::Write(..) | Call::Add(..) | Call::Copy(..) | Call::Zero(..)) {
            let view = self.rust.view().0;
            self.rust.restore(&saved);
            let (a, s) = mended(&mut self.rust, call);
            assert!(!s.is_empty() || (a == plain && self.rust.view().0 == view), "no difference touches {}", call.line());
            (answer, struck) = (a, s);
        }
        self.normal();
        (Said { answer: answer.expect("the Rust does not finish"), view: self.last.clone() }, struck)
    }

    /// The state with the offset of a page copied on write made 0: the first holder of a new backing begins at its offset here.
    fn normal(&mut self) {
        let (mut view, backings) = self.rust.view();
        let mut shifts: BTreeMap<usize, usize> = backings.iter().filter_map(|(n, b)| Some((*n, self.rust.shift(b)?))).collect();
        for r in view.objects.iter_mut().flat_map(|o| &mut o.ranges) {
            let shift = *shifts.entry(r.backing).or_insert(r.offset);
            r.offset -= shift;
        }
        let all: Vec<_> = backings.into_iter().map(|(n, b)| (b, shifts[&n])).collect();
        self.rust.know(&all);
        self.last = view;
    }
}

/// What a call shows: its code, its refusal or the differences it took, whether ranges and present pages became more or fewer, and how many pages adding covered.
type Tag = (u8, u8, Struck, i64, i64, i64);

fn size(v: &View) -> [i64; 3] {
    let of = |o: &ObjectView| [o.ranges.len(), o.pages.len(), o.ranges.iter().map(|r| r.length).sum()].map(|n: usize| n as i64);
    v.objects.iter().map(of).fold([0; 3], |a, b| std::array::from_fn(|i| a[i] + b[i]))
}

fn tags(list: &List) -> Vec<Tag> {
    let mut alone = Alone::new(list.frames);
    let mut out = Vec::new();
    for c in &list.calls {
        let before = size(&alone.last);
        let (said, struck) = alone.step(c);
        let after = size(&alone.last);
        let more: [i64; 3] = std::array::from_fn(|i| after[i] - before[i]);
        let covered = if matches!(c, Call::Add(..)) { more[2].min(17) } else { 0 };
        out.push((c.bytes()[0], said.answer[0], struck, more[0].signum(), more[1].signum(), covered));
    }
    out
}

/// The differences' own lists but the long one; lists of the stock, and random lists, as far as they show something new; and a copy over private pages.
fn chosen() -> Vec<List> {
    let mut all: Vec<List> = differences::lists().into_iter().filter(|l| l.calls.len() < 20).collect();
    let mut seen: BTreeSet<Tag> = all.iter().flat_map(tags).collect();
    let more = starts().into_iter().flat_map(|s| stock().into_iter().map(move |c| List { frames: 12, calls: [s.clone(), vec![c]].concat() }));
    for mut list in more.chain((0..3000).map(random_small)) {
        let shown = tags(&list);
        let new: BTreeSet<Tag> = shown.iter().filter(|t| !seen.contains(t)).cloned().collect();
        let wanted = if list.calls.len() < 10 { 1 } else { 2 };
        if new.len() < wanted {
            continue;
        }
        let mut left = new;
        let end = shown.iter().position(|t| {
            left.remove(t);
            seen.insert(t.clone());
            left.is_empty()
        });
        list.calls.truncate(end.unwrap() + 1);
        all.push(list);
    }
    all.push(over());
    all
}

/// The sample that the repository keeps.
pub fn record() -> (String, String) {
    answers_to(chosen())
}

/// Lists, and the answers to them.
pub fn answers_to(all: impl IntoIterator<Item = List>) -> (String, String) {
    let (mut lists, mut answers) = (String::new(), Vec::new());
    for list in all {
        lists += &list.text();
        Said { answer: vec![0], view: View::default() }.write(&mut answers);
        let mut alone = Alone::new(list.frames);
        for c in &list.calls {
            alone.step(c).0.write(&mut answers);
        }
    }
    let mut text = String::new();
    write!(text, "{}", String::from_utf8(answers).unwrap()).unwrap();
    (lists, text)
}
