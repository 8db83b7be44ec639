//! One call after another on both sides, and what both leave compared.
use std::collections::BTreeMap;
use std::io::{BufRead, Write};
use std::panic::{AssertUnwindSafe, catch_unwind};

use kernel::obj::range::probe::Backing;

use crate::call::{Call, List, hex, unhex};
use crate::judge::refusal;
use crate::mend::{Struck, in_parts, mend};
use crate::rust_side::{Rust, Saved};
use crate::view::View;

/// What the store said after one call.
#[derive(Clone, Debug, Default)]
pub struct Said {
    pub answer: Vec<u8>,
    pub view: View,
}

impl Said {
    /// The answer in one line, then the view's lines, then a full stop.
    pub fn read(from: &mut impl BufRead) -> Option<Said> {
        let mut line = String::new();
        from.read_line(&mut line).ok().filter(|n| *n > 0)?;
        let mut said = Said { answer: unhex(line.trim_end())?, view: View::default() };
        loop {
            line.clear();
            from.read_line(&mut line).ok().filter(|n| *n > 0)?;
            match line.trim_end() {
                "." => {
                    said.view.sort();
                    return Some(said);
                }
                l => said.view.line(l)?,
            }
        }
    }

    pub fn write(&self, to: &mut impl Write) {
        write!(to, "{}\n{}.\n", hex(&self.answer), self.view.text()).unwrap();
    }
}

/// How often what came.
#[derive(Default, Clone)]
pub struct Tally {
    pub lists: u64,
    pub calls: u64,
    pub codes: [u64; 11],
    pub refused: [u64; 10],
    /// calls that the Rust did as the store did, after mending 6 and 7 behind them
    pub same: u64,
    /// calls that the Rust did not finish
    pub unfinished: u64,
    /// mends by difference, of calls that differed and of 6 and 7 behind a call
    pub struck: [u64; 11],
    pub diverged: u64,
}

impl Tally {
    pub fn text(&self) -> String {
        let shown = |names: &[u64]| names.iter().enumerate().filter(|(_, n)| **n > 0).map(|(i, n)| format!(" {i}:{n}")).collect::<String>();
        format!(
            "{} lists, {} calls (by code{}), {} the same on both sides, refused{}, not finished by the Rust {}, differences mended{}, diverged {}",
            self.lists,
            self.calls,
            shown(&self.codes),
            self.same,
            shown(&self.refused),
            self.unfinished,
            shown(&self.struck),
            self.diverged
        )
    }
}

/// Whether the Rust's state is the store's, the offset up to one shift for each backing: the shifts then. Only a backing that is new may bring a shift
/// of its own: that of a page copied on write, whose offset here is 0.
pub fn agree(rust: &Rust, said: &View) -> Result<Vec<(Backing, usize)>, String> {
    let (mut ours, backings) = rust.view();
    let mut shifts: BTreeMap<usize, usize> = backings.iter().filter_map(|(n, b)| Some((*n, rust.shift(b)?))).collect();
    for (o, s) in ours.objects.iter_mut().zip(&said.objects) {
        for (r, q) in o.ranges.iter_mut().zip(&s.ranges) {
            let shift = *shifts.entry(r.backing).or_insert(if q.offset == 0 { r.offset } else { 0 });
            r.offset = r.offset.wrapping_sub(shift);
        }
    }
    if ours == *said {
        return Ok(backings.into_iter().map(|(n, b)| (b, shifts[&n])).collect());
    }
    Err(format!("the Rust:\n{}the store:\n{}", ours.text(), said.text()))
}

/// A list under comparison.
pub struct Running {
    rust: Rust,
    last: View,
}

impl Running {
    pub fn new(frames: usize) -> Self {
        Self { rust: Rust::new(frames), last: View::default() }
    }

    /// One call, and what the store said of it.
    pub fn step(&mut self, call: &Call, said: &Said, tally: &mut Tally) -> Result<(), String> {
        tally.calls += 1;
        tally.codes[call.bytes()[0] as usize] += 1;
        let k = refusal(&self.rust, call);
        if k > 0 {
            tally.refused[k as usize] += 1;
            if said.answer != [k] || said.view != self.last {
                return Err(format!("refusal {k} expected, the store said {}\n{}", hex(&said.answer), said.view.text()));
            }
            return Ok(());
        }
        let saved = self.rust.save();
        let answer = self.rust.call(call);
        let mut struck = Struck::new();
        let mut told = match &answer {
            None => Err(String::from("the Rust did not finish\n")),
            Some(answer) => {
                mend(&self.rust, &mut struck);
                self.rust.frames.collect();
                self.judged(answer, said)
            }
        };
        if told.is_ok() {
            tally.same += 1;
        } else {
            tally.unfinished += answer.is_none() as u64;
            let did = answer.map(|a| (a, self.rust.view().0));
            self.rust.restore(&saved);
            if let Some((answer, s)) = self.explained(call, &saved, did) {
                told = self.judged(&answer, said);
                struck = s;
            }
        }
        for i in struck {
            tally.struck[i as usize] += 1;
        }
        self.last = said.view.clone();
        told
    }

    /// The call with the differences mended that strike in it; nothing where none strikes. Where only 6 and 7 do, they must be what made the Rust differ: made in
    /// the same parts without mends between them, the call is what the Rust did.
    fn explained(&mut self, call: &Call, saved: &Saved, did: Option<(Vec<u8>, View)>) -> Option<(Vec<u8>, Struck)> {
        let run = |rust: &mut Rust, between| catch_unwind(AssertUnwindSafe(|| in_parts(rust, call, between))).ok();
        let (answer, struck) = run(&mut self.rust, true)?;
        if struck.iter().all(|i| matches!(i, 6 | 7)) {
            self.rust.restore(saved);
            let plain = run(&mut self.rust, false).and_then(|r| r.0);
            mend(&self.rust, &mut Struck::new());
            self.rust.frames.collect();
            let plain = plain.map(|a| (a, self.rust.view().0));
            if plain != did {
                return None;
            }
            self.rust.restore(saved);
            run(&mut self.rust, true)?;
        }
        Some((answer?, struck)).filter(|x| !x.1.is_empty())
    }

    fn judged(&mut self, answer: &[u8], said: &Said) -> Result<(), String> {
        if answer != said.answer {
            return Err(format!("the Rust answers {}, the store {}\n", hex(answer), hex(&said.answer)));
        }
        let shifts = agree(&self.rust, &said.view)?;
        self.rust.know(&shifts);
        Ok(())
    }
}

/// A list on both sides, the store's words read from its program. The first divergence ends the comparison of the list; the words are still read.
pub fn compare(list: &List, store: &mut impl BufRead, tally: &mut Tally) -> Option<(usize, String)> {
    tally.lists += 1;
    let mut running = Running::new(list.frames);
    let mut found = None;
    let created = Said::read(store).expect("the store's program said nothing");
    if created.answer != [0] || created.view != View::default() {
        found = Some((0, format!("creation: {}", hex(&created.answer))));
    }
    for (i, call) in list.calls.iter().enumerate() {
        let said = Said::read(store).expect("the store's program stopped");
        if found.is_some() {
            continue;
        }
        if let Err(why) = running.step(call, &said, tally) {
            tally.diverged += 1;
            found = Some((i, why));
        }
    }
    found
}
