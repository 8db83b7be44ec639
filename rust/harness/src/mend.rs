//! The ten differences. A call is made of the Rust's own functions, part by part as 01 orders them, and where 01 overrules the Rust the part is mended;
//! each mend says which difference it was. 6 and 7 are also mended between calls, so that a list can go on.
use std::collections::{BTreeMap, BTreeSet};

use kernel::memory::tracker::FrameAllocator;
use kernel::obj::{
    PageNumber,
    copy::{self, probe::copy_bytes},
    pagevec::probe as vec_probe,
    range::{GetPageFlags, PageStatus, probe as range_probe, probe::Backing},
};

use crate::call::Call;
use crate::judge::Span;
use crate::machine::{self, PAGE};
use crate::rust_side::{Rust, identity, source_tree};

/// The differences that struck.
pub type Struck = BTreeSet<u8>;

/// No range is extended past this offset + length.
const LIMIT: usize = 1_048_576;

/// A call under way.
pub struct Mended<'a> {
    pub rust: &'a mut Rust,
    pub a: FrameAllocator,
    pub struck: Struck,
    /// whether 6 and 7 are mended between the parts of a call
    pub between: bool,
}

/// Difference 6: a page added inside a shared range keeps the old offset. It becomes 0.
pub fn difference_6(r: &Rust) -> bool {
    let mut struck = false;
    for o in r.objects.values() {
        let mut t = o.lock_page_tree();
        let wrong: Vec<PageNumber> = range_probe::walk(&t).filter(|r| range_probe::is_single(r) && r.offset != 0).map(|r| r.start).collect();
        for p in wrong {
            t.get_mut(p).unwrap().offset = 0;
            struck = true;
        }
    }
    struck
}

/// Difference 7: entries in no holder's window stay. They go.
pub fn difference_7(r: &Rust) -> bool {
    let mut windows: BTreeMap<usize, (Backing, Vec<std::ops::Range<usize>>)> = BTreeMap::new();
    for o in r.objects.values() {
        for r in range_probe::walk(&o.lock_page_tree()) {
            let b = range_probe::backing(r);
            windows.entry(identity(&b)).or_insert((b, Vec::new())).1.push(r.offset..r.offset + r.length);
        }
    }
    let mut struck = false;
    for (b, windows) in windows.values() {
        if let Backing::Many(v) = b {
            let mut v = v.lock();
            for k in vec_probe::indexes(&v) {
                if !windows.iter().any(|w| w.contains(&k)) {
                    vec_probe::remove(&mut v, k);
                    struck = true;
                }
            }
        }
    }
    struck
}

/// 6 and 7 mended, between calls or between the parts of one.
pub fn mend(r: &Rust, struck: &mut Struck) {
    if difference_6(r) {
        struck.insert(6);
    }
    if difference_7(r) {
        struck.insert(7);
    }
}

impl Mended<'_> {
    fn mend(&mut self) {
        if self.between {
            mend(self.rust, &mut self.struck);
        }
    }

    /// Difference 9: an uncovered page would be joined to a range past the limit. It starts one.
    fn difference_9(&mut self, o: u8, p: usize) -> Option<()> {
        let t = self.rust.object(o).lock_page_tree();
        if t.get(PageNumber::from(p)).is_some() {
            return Some(());
        }
        let Some((_, before)) = t.range(0.into()..p.into()).last() else { return Some(()) };
        let end = before.start.num() + before.length - 1;
        let offset = before.offset - self.rust.shift(&range_probe::backing(before)).unwrap_or(0);
        // what is looked at here must not count as a holder
        let joins = !before.is_shared() && p - end <= 16;
        let past = offset + before.length + (p - end) > LIMIT;
        drop(t);
        if joins && past {
            self.struck.insert(9);
            let page = Rust::fresh(&mut self.a)?;
            range_probe::add_alone(&mut self.rust.object(o).lock_page_tree(), p.into(), page);
        }
        Some(())
    }

    /// Bytes of one source page to one destination page.
    fn piece(&mut self, s: u8, from: usize, d: u8, to: usize, n: usize) -> Option<()> {
        self.difference_9(d, to / PAGE)?;
        let (src, dest) = (self.rust.object(s).clone(), self.rust.object(d).clone());
        copy_bytes(&mut src.lock_page_tree(), from, &mut dest.lock_page_tree(), to, n, &mut self.a)?;
        self.mend();
        Some(())
    }

    /// Difference 5: at an absent source page the Rust fills zeros to the end of the destination page, past the end of the source page. Each source
    /// page is judged separately.
    fn unequal(&mut self, s: u8, from: usize, d: u8, to: usize, n: usize) -> Option<()> {
        let mut done = 0;
        while done < n {
            let (f, t) = (from + done, to + done);
            let (in_source, in_dest) = (PAGE - f % PAGE, PAGE - t % PAGE);
            let k = in_source.min(in_dest).min(n - done);
            if self.rust.look(s, f / PAGE) == 0 && in_source < in_dest.min(n - done) {
                self.struck.insert(5);
            }
            self.piece(s, f, d, t, k)?;
            done += k;
        }
        Some(())
    }

    /// Difference 4: the Rust asserts where the last whole source pages are uncovered. They are skipped.
    fn whole_pages(&mut self, s: u8, from: usize, d: u8, to: usize, n: usize) {
        let pages = from / PAGE..(from + n) / PAGE;
        let covered = self.rust.ranges(s, pages.clone()).last().map_or(pages.start, |r| (r.0 + r.1).min(pages.end));
        if covered < pages.end {
            self.struck.insert(4);
        }
        self.copied(s, from, d, to, (covered - pages.start) * PAGE);
    }

    /// Difference 1: a span inside one page with both ends off its edges counts as two pages. Only the named bytes change.
    fn equal(&mut self, s: u8, from: usize, d: u8, to: usize, n: usize) -> Option<()> {
        let span = Span { at: from, n };
        if span.inside_one_page() {
            self.struck.insert(1);
            return if n == 0 { Some(()) } else { self.piece(s, from, d, to, n) };
        }
        for part in parts(span) {
            let to = to + (part.at - from);
            if part.whole().is_empty() {
                self.difference_9(d, to / PAGE)?;
                self.copied(s, part.at, d, to, part.n);
            } else {
                self.whole_pages(s, part.at, d, to, part.n);
            }
        }
        Some(())
    }

    fn copied(&mut self, s: u8, from: usize, d: u8, to: usize, n: usize) {
        let (src, dest) = (self.rust.object(s).clone(), self.rust.object(d).clone());
        copy::copy_ranges(&src, from, &dest, to, n, &mut self.a);
        self.mend();
    }

    /// Difference 3: the Rust asserts on a shared page. It gets a private copy.
    fn zero_part(&mut self, o: u8, at: usize, n: usize) -> Option<()> {
        let object = self.rust.object(o).clone();
        if self.rust.look(o, at / PAGE) == 2 {
            self.struck.insert(3);
        }
        let mut t = object.lock_page_tree();
        match t.get_page(PageNumber::from_offset(at), GetPageFlags::WRITE, Some(&mut self.a)) {
            PageStatus::Ready(p, _) => p.as_mut_slice()[at % PAGE..at % PAGE + n].fill(0),
            PageStatus::NoPage => {}
            _ => return None,
        }
        drop(t);
        self.mend();
        Some(())
    }

    /// Difference 2: the Rust loses the front of the last range it meets when that is the only one. The front stays.
    fn zero_whole(&mut self, o: u8, at: usize, n: usize) {
        let object = self.rust.object(o).clone();
        let (first, end) = (at / PAGE, (at + n) / PAGE);
        let met = self.rust.ranges(o, first..end);
        let front = match met[..] {
            [(start, _, offset)] if start < first => {
                self.struck.insert(2);
                let t = object.lock_page_tree();
                t.get(start.into()).map(|r| r.new_from(start.into(), offset, first - start))
            }
            _ => None,
        };
        copy::zero_ranges(&object, at, n);
        if let Some(front) = front {
            object.lock_page_tree().insert_replace(front.range(), front);
        }
        self.mend();
    }

    fn zero(&mut self, o: u8, at: usize, n: usize) -> Option<()> {
        let span = Span { at, n };
        if span.inside_one_page() {
            self.struck.insert(1);
            return if n == 0 { Some(()) } else { self.zero_part(o, at, n) };
        }
        for part in parts(span) {
            if part.whole().is_empty() {
                self.zero_part(o, part.at, part.n)?;
            } else {
                self.zero_whole(o, part.at, part.n);
            }
        }
        Some(())
    }

    fn write(&mut self, o: u8, at: usize, data: &[u8]) -> Option<()> {
        let mut done = 0;
        while done < data.len() {
            let t = at + done;
            let k = (PAGE - t % PAGE).min(data.len() - done);
            self.difference_9(o, t / PAGE)?;
            let object = self.rust.object(o).clone();
            let mut src = source_tree(t % PAGE, &data[done..done + k]);
            copy_bytes(&mut src, t % PAGE, &mut object.lock_page_tree(), t, k, &mut self.a)?;
            self.mend();
            done += k;
        }
        Some(())
    }

    fn add(&mut self, o: u8, p: usize) -> Option<Vec<u8>> {
        self.difference_9(o, p)?;
        let object = self.rust.object(o).clone();
        let frame = if self.struck.contains(&9) {
            match object.lock_page_tree().get_page(p.into(), GetPageFlags::empty(), None) {
                PageStatus::Ready(page, _) => machine::number_at(page.physical_address()),
                _ => return None,
            }
        } else {
            let page = Rust::fresh(&mut self.a)?;
            let frame = machine::number_at(page.physical_address());
            object.add_page(p.into(), page, Some(&mut self.a));
            frame
        };
        self.mend();
        Some([vec![0], (frame as u16).to_be_bytes().to_vec()].concat())
    }
}

/// First part, whole pages, last part.
fn parts(span: Span) -> Vec<Span> {
    let whole = span.whole();
    if whole.is_empty() {
        let cut = span.touched().map(|p| (p * PAGE).max(span.at)..((p + 1) * PAGE).min(span.end()));
        return cut.map(|r| Span { at: r.start, n: r.end - r.start }).collect();
    }
    let (a, e) = (whole.start * PAGE, whole.end * PAGE);
    let all = [span.at..a, a..e, e..span.end()];
    all.into_iter().filter(|r| !r.is_empty()).map(|r| Span { at: r.start, n: r.end - r.start }).collect()
}

/// A call with the differences mended: its answer, and which struck.
pub fn mended(rust: &mut Rust, call: &Call) -> (Option<Vec<u8>>, Struck) {
    in_parts(rust, call, true)
}

/// A call made part by part. Without mends of 6 and 7 between its parts, and where no other difference strikes, it is what the Rust does.
pub fn in_parts(rust: &mut Rust, call: &Call, between: bool) -> (Option<Vec<u8>>, Struck) {
    let a = rust.frames.allocator();
    let mut m = Mended { rust, a, struck: Struck::new(), between };
    let done = |x: Option<()>| x.map(|()| vec![0]);
    let answer = match call {
        Call::Write(o, at, data) => done(m.write(*o, *at as usize, data)),
        Call::Add(o, p) => m.add(*o, *p as usize),
        Call::Copy(s, from, d, to, n) => {
            let (from, to, n) = (*from as usize, *to as usize, *n as usize);
            done(if from % PAGE == to % PAGE { m.equal(*s, from, *d, to, n) } else { m.unequal(*s, from, *d, to, n) })
        }
        Call::Zero(o, at, n) => done(m.zero(*o, *at as usize, *n as usize)),
        _ => None,
    };
    let Mended { a, struck, .. } = m;
    rust.frames.close(a);
    (answer, struck)
}
