//! Document 01's table of refusals, read on the state of the Rust, which has none of its own.
use crate::call::Call;
use crate::machine::PAGE;
use crate::rust_side::Rust;

pub const SIZE: usize = 1 << 30;
pub const PAGES: usize = SIZE / PAGE;
const SLOTS: usize = 512;

/// A span of bytes, and the pages that it touches.
#[derive(Clone, Copy)]
pub struct Span {
    pub at: usize,
    pub n: usize,
}

impl Span {
    pub fn new(at: u32, n: u32) -> Self {
        Self { at: at as usize, n: n as usize }
    }
    pub fn end(&self) -> usize {
        self.at + self.n
    }
    pub fn touched(&self) -> std::ops::Range<usize> {
        if self.n == 0 { 0..0 } else { self.at / PAGE..(self.end() - 1) / PAGE + 1 }
    }
    /// The pages that lie wholly in it.
    pub fn whole(&self) -> std::ops::Range<usize> {
        let (a, e) = (self.at.div_ceil(PAGE), self.end() / PAGE);
        if a < e { a..e } else { 0..0 }
    }
    pub fn partly(&self) -> Vec<usize> {
        self.touched().filter(|p| !self.whole().contains(p)).collect()
    }
    /// "A span inside one page with both ends off the page's edges"; length 0 off the edges is one.
    pub fn inside_one_page(&self) -> bool {
        self.at % PAGE != 0 && self.end() % PAGE != 0 && self.at / PAGE == self.end() / PAGE
    }
}

/// The first pages that could be counted decide: there are at most 1,024 frames.
fn few(pages: std::ops::Range<usize>) -> impl Iterator<Item = usize> {
    pages.take(1100)
}

/// Frames and slots that a call needs, counted at entry.
fn needs(r: &Rust, call: &Call) -> (usize, usize) {
    let absent_or_shared = |o: &u8, p: usize| r.look(*o, p) != 1;
    match call {
        Call::Add(..) => (1, 2),
        Call::Write(o, at, data) => {
            let k = few(Span::new(*at, data.len() as u32).touched()).filter(|p| absent_or_shared(o, *p)).count();
            (k, 2 * k)
        }
        Call::Copy(_, from, d, to, n) if *from as usize % PAGE != *to as usize % PAGE => {
            let k = few(Span::new(*to, *n).touched()).filter(|p| absent_or_shared(d, *p)).count();
            (k, 2 * k)
        }
        Call::Copy(s, from, d, to, n) => {
            let (src, dest) = (Span::new(*from, *n), Span::new(*to, *n));
            let whole = !dest.whole().is_empty();
            let k = dest.partly().into_iter().filter(|p| whole || absent_or_shared(d, *p)).count();
            (k, 2 * k + 2 * r.ranges(*s, src.whole()).len())
        }
        Call::Shadow(s, from, _, _, n) => (0, 2 * r.ranges(*s, Span::new(*from, *n).whole()).len()),
        Call::Zero(o, at, n) => {
            let span = Span::new(*at, *n);
            let whole = !span.whole().is_empty();
            let k = span.partly().into_iter().filter(|p| whole || r.look(*o, *p) == 2).count();
            (k, 2 * k + whole as usize)
        }
        _ => (0, 0),
    }
}

fn names(call: &Call) -> Vec<u8> {
    match call {
        Call::New(o) | Call::Drop(o) | Call::Write(o, ..) | Call::Read(o, ..) | Call::Add(o, _) | Call::LookUp(o, _) | Call::Zero(o, ..) => vec![*o],
        Call::Copy(s, _, d, ..) | Call::Shadow(s, _, d, ..) => vec![*s, *d],
        Call::Counts => vec![],
    }
}

fn past_end(call: &Call) -> bool {
    let past = |at: &u32, n: usize| *at as usize + n > SIZE;
    match call {
        Call::Write(_, at, data) => past(at, data.len()),
        Call::Read(_, at, n) => past(at, *n as usize),
        Call::Add(_, p) | Call::LookUp(_, p) => *p as usize >= PAGES,
        Call::Copy(_, from, _, to, n) | Call::Shadow(_, from, _, to, n) => past(from, *n as usize) || past(to, *n as usize),
        Call::Zero(_, at, n) => past(at, *n as usize),
        _ => false,
    }
}

/// "The lowest number that applies is given, and never otherwise." 1 and 2 cannot come here: the store is as the calls left it, and so is its pool.
pub fn refusal(r: &Rust, call: &Call) -> u8 {
    let live = |o: &u8| r.objects.contains_key(o);
    let new = matches!(call, Call::New(_));
    if names(call).iter().any(|o| *o > 31 || (!new && !live(o))) {
        return 3;
    }
    if let Call::New(o) = call {
        return if live(o) { 4 } else { 0 };
    }
    if let Call::Copy(s, _, d, ..) | Call::Shadow(s, _, d, ..) = call
        && s == d
    {
        return 5;
    }
    if past_end(call) {
        return 6;
    }
    if let Call::Shadow(_, from, _, _, n) = call
        && (*from as usize % PAGE != 0 || *n as usize % PAGE != 0)
    {
        return 7;
    }
    let (frames, slots) = needs(r, call);
    if r.frames.free.len() < frames {
        return 8;
    }
    if SLOTS - (r.counts().1 as usize) < slots {
        return 9;
    }
    0
}
