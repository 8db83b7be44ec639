//! The objects of the Rust and its calls.
use std::collections::BTreeMap;
use std::panic::{AssertUnwindSafe, catch_unwind};
use std::sync::{Arc, OnceLock, Weak};

use kernel::arch::memory::phys_to_virt;
use kernel::memory::{PhysAddr, tracker::FrameAllocator};
use kernel::mutex::Mutex;
use kernel::obj::{
    Object, ObjectRef, PageNumber,
    copy::{self, probe::copy_bytes},
    pages::{Page, PageRef, probe::page},
    pagevec::{PageVec, probe as vec_probe},
    range::{GetPageFlags, PageRange, PageRangeTree, PageStatus, probe as range_probe, probe::Backing},
};
use twizzler_abi::{device::CacheType, object::ObjID, syscall::LifetimeType};

use crate::call::Call;
use crate::machine::{self, Frames, PAGE};
use crate::view::{ObjectView, PageView, RangeView, View, hash};

/// A backing kept in mind without holding it, so that no other takes its address; never read.
#[allow(dead_code)]
#[derive(Clone)]
enum Keeper {
    Page(Weak<Page>),
    Vec(Weak<Mutex<PageVec>>),
}

/// How far the Rust's indexes of a backing are from the store's.
#[derive(Clone)]
struct Known {
    _keeper: Keeper,
    shift: usize,
}

pub struct Rust {
    pub objects: BTreeMap<u8, ObjectRef>,
    pub frames: Frames,
    known: BTreeMap<usize, Known>,
}

/// A state that can be taken up again.
pub struct Saved {
    objects: Vec<(u8, Vec<SavedRange>)>,
    backings: Vec<SavedBacking>,
    free: std::collections::BTreeSet<usize>,
    bytes: Vec<(usize, Vec<u8>)>,
}

struct SavedRange {
    start: usize,
    length: usize,
    offset: usize,
    backing: usize,
}

struct SavedBacking {
    single: bool,
    entries: Vec<(usize, usize)>,
    shift: Option<usize>,
}

pub fn identity(b: &Backing) -> usize {
    match b {
        Backing::Nothing => 0,
        Backing::Single(p) => Arc::as_ptr(page(p)) as usize,
        Backing::Many(v) => Arc::as_ptr(v) as usize,
    }
}

fn keeper(b: &Backing) -> Keeper {
    match b {
        Backing::Nothing => Keeper::Page(Weak::new()),
        Backing::Single(p) => Keeper::Page(Arc::downgrade(page(p))),
        Backing::Many(v) => Keeper::Vec(Arc::downgrade(v)),
    }
}

/// The frames of a backing by index.
fn entries(b: &Backing) -> Vec<(usize, usize)> {
    match b {
        Backing::Nothing => Vec::new(),
        Backing::Single(p) => vec![(0, machine::number_at(p.physical_address()))],
        Backing::Many(v) => {
            let all = vec_probe::entries(&v.lock());
            all.iter().map(|(k, p)| (*k, machine::number_at(p.physical_address()))).collect()
        }
    }
}

fn page_of(frame: usize) -> PageRef {
    PageRef::new(Arc::new(Page::new(machine::frame(frame), 1)), 0, 1)
}

/// Two pages outside the store, whose bytes a write copies from.
fn source() -> PhysAddr {
    static AT: OnceLock<u64> = OnceLock::new();
    let at = *AT.get_or_init(|| {
        let layout = std::alloc::Layout::from_size_align(2 * PAGE, PAGE).unwrap();
        unsafe { std::alloc::alloc_zeroed(layout) as u64 }
    });
    PhysAddr::new(at).unwrap()
}

/// An object's pages 0 and 1, both present, with the data from `at` on.
pub fn source_tree(at: usize, data: &[u8]) -> PageRangeTree {
    let p: *mut u8 = phys_to_virt(source()).as_mut_ptr();
    unsafe { std::slice::from_raw_parts_mut(p.add(at), data.len()).copy_from_slice(data) };
    let mut t = PageRangeTree::new(ObjID::new(99));
    for i in 0..2 {
        let page = Page::new_wired(source().offset(i * PAGE).unwrap(), PAGE, CacheType::WriteBack);
        t.add_page(PageNumber::from(i), PageRef::new(Arc::new(page), 0, 1), None);
    }
    t
}

impl Rust {
    pub fn new(count: usize) -> Self {
        Self { objects: BTreeMap::new(), frames: Frames::new(count), known: BTreeMap::new() }
    }

    pub fn object(&self, o: u8) -> &ObjectRef {
        &self.objects[&o]
    }

    /// A fresh page from the allocator.
    pub fn fresh(a: &mut FrameAllocator) -> Option<PageRef> {
        Some(PageRef::new(Arc::new(Page::new(a.try_allocate()?, 1)), 0, 1))
    }

    /// The call as the Rust does it: its answer, or that it did not finish.
    pub fn call(&mut self, call: &Call) -> Option<Vec<u8>> {
        let mut a = self.frames.allocator();
        let answer = catch_unwind(AssertUnwindSafe(|| self.do_call(call, &mut a)));
        self.frames.close(a);
        answer.ok().flatten()
    }

    fn do_call(&mut self, call: &Call, a: &mut FrameAllocator) -> Option<Vec<u8>> {
        match call {
            Call::New(o) => {
                let id = ObjID::new(*o as u128 + 1);
                self.objects.insert(*o, Arc::new(Object::new(id, LifetimeType::Volatile, &[])));
            }
            Call::Drop(o) => {
                self.objects.remove(o);
            }
            Call::Write(o, at, data) => {
                let at = *at as usize;
                let mut src = source_tree(at % PAGE, data);
                copy_bytes(&mut src, at % PAGE, &mut self.object(*o).lock_page_tree(), at, data.len(), a)?;
            }
            Call::Read(o, at, n) => return Some(self.read(*o, *at as usize, *n as usize)),
            Call::Add(o, p) => {
                let page = Self::fresh(a)?;
                let frame = machine::number_at(page.physical_address()) as u16;
                self.object(*o).add_page(PageNumber::from(*p as usize), page, Some(a));
                return Some([vec![0], frame.to_be_bytes().to_vec()].concat());
            }
            Call::LookUp(o, p) => return Some(vec![0, self.look(*o, *p as usize)]),
            Call::Copy(s, from, d, to, n) => {
                copy::copy_ranges(self.object(*s), *from as usize, self.object(*d), *to as usize, *n as usize, a);
            }
            Call::Shadow(s, from, d, to, n) => {
                let mut t = self.object(*d).lock_page_tree();
                copy::copy_range_to_shadow(self.object(*s), *from as usize, &mut t, *to as usize, *n as usize);
            }
            Call::Zero(o, at, n) => copy::zero_ranges(self.object(*o), *at as usize, *n as usize),
            Call::Counts => {
                let (frames, ranges) = self.counts();
                return Some([vec![0], frames.to_be_bytes().to_vec(), ranges.to_be_bytes().to_vec()].concat());
            }
        }
        Some(vec![0])
    }

    fn read(&self, o: u8, at: usize, n: usize) -> Vec<u8> {
        let mut t = self.object(o).lock_page_tree();
        let mut out = vec![0];
        for i in at..at + n {
            out.push(match t.get_page(PageNumber::from_offset(i), GetPageFlags::empty(), None) {
                PageStatus::Ready(p, _) => p.as_slice()[i % PAGE],
                _ => 0,
            });
        }
        out
    }

    /// 0 absent, 1 private, 2 shared.
    pub fn look(&self, o: u8, p: usize) -> u8 {
        let mut t = self.object(o).lock_page_tree();
        match t.get_page(PageNumber::from(p), GetPageFlags::empty(), None) {
            PageStatus::Ready(_, shared) => 1 + shared as u8,
            _ => 0,
        }
    }

    pub fn counts(&self) -> (u16, u16) {
        let mut used = std::collections::BTreeSet::new();
        let mut ranges = 0;
        for o in self.objects.values() {
            for r in range_probe::walk(&o.lock_page_tree()) {
                ranges += 1;
                used.extend(entries(&range_probe::backing(r)).iter().map(|e| e.1));
            }
        }
        (used.len() as u16, ranges)
    }

    /// The ranges of one object that overlap some pages: start, length, offset.
    pub fn ranges(&self, o: u8, pages: std::ops::Range<usize>) -> Vec<(usize, usize, usize)> {
        let t = self.object(o).lock_page_tree();
        t.range(pages.start.into()..pages.end.into()).map(|(_, r)| (r.start.num(), r.length, r.offset)).collect()
    }

    /// All ranges in table order, with what each holds. The list holds each backing once more, so the Rust is asked first which are shared.
    fn table(&self) -> Vec<(u8, usize, usize, usize, Backing, bool)> {
        let mut shared = Vec::new();
        for object in self.objects.values() {
            shared.extend(range_probe::walk(&object.lock_page_tree()).map(PageRange::is_shared));
        }
        let mut out = Vec::new();
        for (o, object) in &self.objects {
            for r in range_probe::walk(&object.lock_page_tree()) {
                out.push((*o, r.start.num(), r.length, r.offset, range_probe::backing(r), shared[out.len()]));
            }
        }
        out
    }

    /// What stands now, and each backing with the place of its first holder.
    pub fn view(&self) -> (View, BTreeMap<usize, Backing>) {
        let mut backings: Vec<(usize, usize, Backing)> = Vec::new();
        let mut objects: Vec<ObjectView> = Vec::new();
        let mut hashes: BTreeMap<usize, u64> = BTreeMap::new();
        for o in self.objects.keys() {
            objects.push(ObjectView { name: *o as usize, ranges: Vec::new(), pages: Vec::new() });
        }
        for (slot, (o, start, length, offset, backing, shared)) in self.table().into_iter().enumerate() {
            let id = identity(&backing);
            let first = backings.iter().find(|b| b.0 == id).map_or(slot, |b| b.1);
            let object = objects.iter_mut().find(|x| x.name == o as usize).unwrap();
            object.ranges.push(RangeView { start, length, offset, backing: first, shared });
            for (k, frame) in entries(&backing) {
                if offset <= k && k < offset + length {
                    let hash = *hashes.entry(frame).or_insert_with(|| hash(machine::bytes(frame)));
                    object.pages.push(PageView { page: start + k - offset, frame, hash });
                }
            }
            if first == slot {
                backings.push((id, slot, backing));
            }
        }
        let mut view = View { objects };
        view.sort();
        (view, backings.into_iter().map(|b| (b.1, b.2)).collect())
    }

    /// How far the Rust's indexes of this backing are from the store's, where that is known.
    pub fn shift(&self, b: &Backing) -> Option<usize> {
        self.known.get(&identity(b)).map(|k| k.shift)
    }

    /// After a call that agrees: the shifts of the backings held now, and no others.
    pub fn know(&mut self, all: &[(Backing, usize)]) {
        self.known = all.iter().map(|(b, shift)| (identity(b), Known { _keeper: keeper(b), shift: *shift })).collect();
    }

    pub fn save(&self) -> Saved {
        let mut ids: Vec<usize> = Vec::new();
        let mut saved = Saved { objects: Vec::new(), backings: Vec::new(), free: self.frames.free.clone(), bytes: Vec::new() };
        for (o, object) in &self.objects {
            let mut ranges = Vec::new();
            for r in range_probe::walk(&object.lock_page_tree()) {
                let b = range_probe::backing(r);
                let n = ids.iter().position(|i| *i == identity(&b)).unwrap_or(ids.len());
                if n == ids.len() {
                    ids.push(identity(&b));
                    let entries = entries(&b);
                    saved.bytes.extend(entries.iter().map(|e| (e.1, machine::bytes(e.1).to_vec())));
                    let single = matches!(b, Backing::Single(_));
                    saved.backings.push(SavedBacking { single, entries, shift: self.shift(&b) });
                }
                ranges.push(SavedRange { start: r.start.num(), length: r.length, offset: r.offset, backing: n });
            }
            saved.objects.push((*o, ranges));
        }
        saved
    }

    /// What stands now is thrown away; the saved state stands again.
    pub fn restore(&mut self, saved: &Saved) {
        self.objects.clear();
        self.known.clear();
        self.frames.collect();
        self.frames.free = saved.free.clone();
        for (frame, bytes) in &saved.bytes {
            machine::bytes(*frame).copy_from_slice(bytes);
        }
        let backings: Vec<Backing> = saved.backings.iter().map(built).collect();
        for (o, ranges) in &saved.objects {
            let object = Object::new(ObjID::new(*o as u128 + 1), LifetimeType::Volatile, &[]);
            for r in ranges {
                let b = backings[r.backing].clone();
                range_probe::put(&mut object.lock_page_tree(), r.start, r.length, r.offset, b);
            }
            self.objects.insert(*o, Arc::new(object));
        }
        for (s, b) in saved.backings.iter().zip(&backings) {
            if let Some(shift) = s.shift {
                self.known.insert(identity(b), Known { _keeper: keeper(b), shift });
            }
        }
    }
}

fn built(s: &SavedBacking) -> Backing {
    if s.single {
        return Backing::Single(page_of(s.entries[0].1));
    }
    let mut v = PageVec::new();
    for (k, frame) in &s.entries {
        v.add_page(*k, page_of(*frame));
    }
    Backing::Many(Arc::new(Mutex::new(v)))
}
