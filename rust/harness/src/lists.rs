//! Lists of calls: every list of up to three calls of a stock, from some starting points, and random ones from fixed seeds.
use crate::call::{Call, List};
use crate::judge::PAGES;
use crate::machine::PAGE;

const P: u32 = PAGE as u32;

/// Starting points: two objects without pages; pages 0 to 2 in one range; that range shared whole; shared at another place, with pages behind it; one page
/// shared; two ranges side by side, one of them shared.
pub fn starts() -> Vec<Vec<Call>> {
    let new = vec![Call::New(0), Call::New(1)];
    let filled = [new.clone(), vec![Call::Write(0, 4090, (1..=20).collect()), Call::Write(0, 2 * P, vec![7; 8])]].concat();
    let shared = [filled.clone(), vec![Call::Copy(0, 0, 1, 0, 3 * P)]].concat();
    let moved = [filled.clone(), vec![Call::Add(1, 3), Call::Shadow(0, P, 1, 0, 2 * P)]].concat();
    let single = [new.clone(), vec![Call::Write(0, 100, vec![5; 9]), Call::Shadow(0, 0, 1, P, P)]].concat();
    let beside = [new.clone(), vec![Call::Write(0, 4090, (1..=20).collect()), Call::Write(1, 0, vec![3; 3]), Call::Shadow(1, 0, 0, 2 * P, P)]].concat();
    vec![new, filled, shared, moved, single, beside]
}

/// Calls that reach every branch of adding, copying and zeroing.
pub fn stock() -> Vec<Call> {
    let data = |k: u8, n: u8| (0..n).map(|i| k.wrapping_add(i.wrapping_mul(7))).collect::<Vec<u8>>();
    vec![
        Call::Add(0, 1),
        Call::Add(0, 4),
        Call::Add(0, 18),
        Call::Add(0, 19),
        Call::Add(1, 0),
        Call::Add(1, 1),
        Call::Add(1, 2),
        Call::Write(0, 10, data(0x31, 3)),
        Call::Write(1, P - 2, data(0x51, 5)),
        Call::Write(1, 2 * P + 5, data(0x71, 2)),
        Call::Copy(0, 0, 1, 0, P),
        Call::Copy(0, 0, 1, 0, 4 * P),
        Call::Copy(0, P, 1, 2 * P, 2 * P),
        Call::Copy(1, 0, 0, P, 2 * P),
        Call::Copy(0, 100, 1, 100, 2 * P),
        Call::Copy(0, 100, 1, P + 100, 50),
        Call::Copy(1, 4000, 0, 4000, 96 + P),
        Call::Copy(0, 4000, 1, 0, P),
        Call::Copy(1, 1, 0, 2 * P - 3, 3 * P + 1),
        Call::Shadow(0, 0, 1, P, 3 * P),
        Call::Shadow(1, P, 0, 0, P),
        Call::Zero(0, P, P),
        Call::Zero(0, P, 2 * P),
        Call::Zero(0, 100, 50),
        Call::Zero(1, 0, 2 * P),
        Call::Zero(1, 4000, 2 * P),
        Call::Zero(1, 2 * P, P + 10),
        Call::Zero(0, 0, 4 * P),
        Call::Drop(0),
        Call::New(0),
        Call::Read(1, P - 4, 8),
        Call::LookUp(1, 1),
        Call::Counts,
    ]
}

/// Every list of one to three calls of the stock from each starting point.
pub fn exhaustive(depth: usize) -> impl Iterator<Item = List> + Clone + Send {
    let stock = stock();
    let n = stock.len();
    starts().into_iter().flat_map(move |start| {
        let stock = stock.clone();
        (0..n.pow(depth as u32)).map(move |mut k| {
            let mut calls = start.clone();
            for _ in 0..depth {
                calls.push(stock[k % n].clone());
                k /= n;
            }
            List { frames: 12, calls }
        })
    })
}

/// Ranges too far apart to join, until no slot is left; then calls that need none, one, two or more.
pub fn slots() -> List {
    let mut calls = vec![Call::New(0), Call::New(1)];
    calls.extend((0..512).map(|k| Call::Add(0, 18 * k)));
    let more = [
        Call::Counts,
        Call::Write(0, 5, vec![1, 2]),
        Call::Write(1, 0, vec![1]),
        Call::Copy(0, 0, 1, 0, P),
        Call::Shadow(0, 0, 1, 0, 20 * P),
        Call::Copy(0, 7, 1, 9, 3),
        Call::Zero(0, 18 * P + 1, 9),
        Call::Zero(0, 18 * P, P),
        Call::Zero(0, 36 * P, 36 * P),
        Call::Copy(0, 0, 1, 0, P),
        Call::Write(1, 0, vec![9]),
        Call::Add(1, 1),
        Call::Add(1, 30),
        Call::Zero(0, 0, 1 << 30),
        Call::Copy(1, 0, 0, 0, 1 << 30),
        Call::Counts,
    ];
    calls.extend(more);
    List { frames: 1024, calls }
}

/// A copy at unequal places over pages that are present and private. Each takes bytes of two source pages that hold different ones; the last source page is absent.
pub fn over() -> List {
    let calls = vec![
        Call::New(0),
        Call::New(1),
        Call::Write(0, P - 6, (1..=20).collect()),
        Call::Write(0, 2 * P - 6, (21..=40).collect()),
        Call::Write(1, P - 1, vec![1, 2]),
        Call::Write(1, 2 * P + 1000, vec![3]),
        Call::Copy(0, 4000, 1, 100, 3 * P - 100),
    ];
    List { frames: 8, calls }
}

/// Random numbers from a seed (splitmix64).
pub struct Random(u64);

impl Random {
    pub fn new(seed: u64) -> Self {
        Self(seed)
    }
    pub fn next(&mut self) -> u64 {
        self.0 = self.0.wrapping_add(0x9E3779B97F4A7C15);
        let mut z = self.0;
        z = (z ^ (z >> 30)).wrapping_mul(0xBF58476D1CE4E5B9);
        z = (z ^ (z >> 27)).wrapping_mul(0x94D049BB133111EB);
        z ^ (z >> 31)
    }
    pub fn below(&mut self, n: u64) -> u64 {
        self.next() % n
    }
    pub fn one_in(&mut self, n: u64) -> bool {
        self.below(n) == 0
    }
    fn pick<T: Copy>(&mut self, of: &[T]) -> T {
        of[self.below(of.len() as u64) as usize]
    }
}

/// What a list leans to.
struct Lean {
    objects: u64,
    /// the first page of the few that the list touches, and how many
    base: u32,
    pages: u64,
    /// out of ten: how many copies and zeroings keep to whole pages
    whole: u64,
}

fn leaning(r: &mut Random) -> Lean {
    let pages = r.pick(&[4, 8, 12, 40]);
    let base = r.pick(&[0, 0, 0, 0, 1000, PAGES as u32 - pages as u32]);
    Lean { objects: r.pick(&[2, 3, 3, 4, 6]), base, pages, whole: r.pick(&[2, 5, 8]) }
}

impl Lean {
    fn object(&self, r: &mut Random) -> u8 {
        if r.one_in(200) { r.pick(&[31, 32, 255]) } else { r.below(self.objects) as u8 }
    }

    fn page(&self, r: &mut Random) -> u32 {
        match r.below(40) {
            0 => r.pick(&[PAGES as u32 - 1, PAGES as u32, PAGES as u32 - 2]),
            1..4 => self.base + r.below(self.pages + 17) as u32,
            _ => self.base + r.below(self.pages) as u32,
        }
    }

    fn place(&self, r: &mut Random) -> u32 {
        r.pick(&[0, 0, 1, 100, 2048, 4000, 4095])
    }

    fn offset(&self, r: &mut Random, whole: bool) -> u32 {
        let at = self.page(r) * P;
        if whole { at } else { at + self.place(r) }
    }

    fn length(&self, r: &mut Random, whole: bool) -> u32 {
        let pages = 1 + r.below(4.min(self.pages)) as u32;
        if r.one_in(60) {
            return r.pick(&[0, 1 << 30, (1 << 30) - P, u32::MAX, 200 * P]);
        }
        if whole { pages * P } else { r.pick(&[0, 1, 50, 96, P - 100, P - 1, P, P + 1, pages * P, pages * P + 100, pages * P - 96]) }
    }

    fn copy(&self, r: &mut Random) -> Call {
        let (s, mut d) = (self.object(r), self.object(r));
        if s == d && !r.one_in(20) {
            d = d.wrapping_add(1) % self.objects as u8;
        }
        if r.one_in(6) {
            // unequal places, over an edge of a source page
            let (from, to) = (self.page(r) * P + r.pick(&[1, 100, 2048, 4000, 4095]), self.page(r) * P + r.pick(&[0, 7, 101, 2047, 4090]));
            return Call::Copy(s, from, d, to, r.pick(&[2, 60, 100, P, P + 1, 2 * P]));
        }
        let whole = r.below(10) < self.whole;
        let from = self.offset(r, whole);
        let n = self.length(r, whole);
        // equal places in a page three times of four
        let to = if r.one_in(4) { self.offset(r, whole) } else { self.page(r) * P + from % P };
        if r.one_in(5) { Call::Shadow(s, from, d, to, n) } else { Call::Copy(s, from, d, to, n) }
    }

    fn data(&self, r: &mut Random) -> Vec<u8> {
        let n = r.pick(&[0, 1, 2, 8, 8, 30, 100, 250]);
        (0..n).map(|_| r.below(256) as u8).collect()
    }

    fn call(&self, r: &mut Random) -> Call {
        match r.below(100) {
            0..2 => Call::New(self.object(r)),
            2..4 => Call::Drop(self.object(r)),
            4..24 => {
                let at = if r.one_in(3) { (self.page(r) * P).saturating_sub(4) } else { self.offset(r, false) };
                Call::Write(self.object(r), at, self.data(r))
            }
            24..28 => Call::Read(self.object(r), self.offset(r, false), r.pick(&[0, 1, 20, 200])),
            28..46 => Call::Add(self.object(r), self.page(r)),
            46..50 => Call::LookUp(self.object(r), self.page(r)),
            50..76 => self.copy(r),
            76..98 => {
                let whole = r.below(10) < self.whole;
                Call::Zero(self.object(r), self.offset(r, whole), self.length(r, whole))
            }
            _ => Call::Counts,
        }
    }
}

/// A random list: its objects made first.
pub fn random(seed: u64) -> List {
    let mut r = Random::new(seed);
    let lean = leaning(&mut r);
    let frames = r.pick(&[2, 6, 12, 16, 24, 24, 40, 64]);
    let n = 20 + r.below(100);
    filled(&mut r, lean, frames, n)
}

/// A short one over few pages.
pub fn random_small(seed: u64) -> List {
    let mut r = Random::new(seed);
    let lean = Lean { objects: 2, base: 0, pages: 4, whole: 5 };
    filled(&mut r, lean, 8, 14)
}

fn filled(r: &mut Random, lean: Lean, frames: usize, n: u64) -> List {
    let mut calls: Vec<Call> = (0..lean.objects as u8).map(Call::New).collect();
    for _ in 0..n {
        let call = lean.call(r);
        let again = match call {
            Call::Drop(o) if !r.one_in(4) => Some(Call::New(o)),
            _ => None,
        };
        calls.push(call);
        calls.extend(again);
    }
    List { frames, calls }
}
