//! The fills of crates/fills, by the same calls.
use crate::call::Call;
use crate::rust_side::Rust;

pub struct Fill {
    pub rust: Rust,
    pub frames: usize,
    pub ranges: usize,
    /// ranges with pages of their own
    pub own: usize,
    /// where record 0 ends
    pub end: usize,
}

/// The length of part i where n are parted into m.
pub fn part(i: usize, n: usize, m: usize) -> usize {
    n / m + (i < n % m) as usize
}

pub fn object_of(i: usize) -> u8 {
    (i % 8) as u8
}

pub fn page_of(i: usize) -> usize {
    i / 8 * 192
}

pub fn start_of(j: usize) -> usize {
    j * 64
}

fn bytes(pages: usize) -> u32 {
    (pages * 4096) as u32
}

impl Fill {
    fn empty() -> Self {
        let mut rust = Rust::new(1024);
        for o in 0..31 {
            rust.call(&Call::New(o)).unwrap();
        }
        Self { rust, frames: 0, ranges: 0, own: 0, end: 0 }
    }

    fn add(&mut self, object: u8, page: usize) {
        self.rust.call(&Call::Add(object, page as u32)).unwrap();
    }

    fn run_added(&mut self, object: u8, page: usize, n: usize, every: usize) {
        for q in (0..n).filter(|q| q % every == 0 || q + 1 == n) {
            self.add(object, page + q);
        }
    }

    fn copy(&mut self, i: usize, object: u8, page: usize) {
        let n = part(i, self.frames, self.own);
        self.rust.call(&Call::Copy(object_of(i), bytes(page_of(i)), object, bytes(page), bytes(n))).unwrap();
    }

    pub fn filled(frames: usize, ranges: usize) -> Self {
        let own = if ranges <= frames { ranges } else { frames / 3 };
        let mut f = Self { frames, ranges, own, ..Self::empty() };
        for i in 0..own {
            f.run_added(object_of(i), page_of(i), part(i, frames, own), 1);
        }
        for k in 0..ranges - own {
            f.copy(1 + k % (own - 1), 8 + object_of(k), page_of(k));
        }
        f
    }

    pub fn full(&mut self) {
        let crowded = self.ranges == 508;
        if crowded {
            self.copy(1, 17, 0);
            self.copy(1, 17, 192);
            self.rust.call(&Call::Write(17, 4096, vec![1])).unwrap();
        }
        if self.frames == 1018 {
            let n = part(0, self.frames, self.own);
            self.run_added(0, n, 6 - crowded as usize, 1);
        }
    }

    pub fn record(pages: usize, m: usize, every: usize) -> Self {
        let end = start_of(m - 1) + part(m - 1, pages, m);
        let mut f = Self { own: m, end, ..Self::empty() };
        for j in 0..m {
            f.run_added(0, start_of(j), part(j, pages, m), every);
        }
        f
    }

    fn adjoin(&mut self, object: u8, n: usize, m: usize) {
        let mut at = n;
        for left in (0..m).rev() {
            let k = part(left, n, m);
            at -= k;
            self.run_added(object, at, k, 1);
        }
    }

    pub fn adjoining(n: usize, m: usize) -> Self {
        let mut f = Self { end: n, ..Self::empty() };
        f.adjoin(0, n, m);
        f
    }

    pub fn two_adjoining(n: usize, m: usize) -> Self {
        let mut f = Self::adjoining(n, m);
        f.adjoin(1, n, m);
        f
    }
}
