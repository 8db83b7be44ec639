//! The frames, by 01's rule: the one handed out is the highest free one, and one freed in a call comes free at its end.
use std::collections::BTreeSet;
use std::sync::OnceLock;

use kernel::memory::{
    MemoryRegion, MemoryRegionKind, PhysAddr,
    frame::{self, FrameRef, PHYS_LEVEL_LAYOUTS},
    tracker::{FrameAllocFlags, FrameAllocator, try_alloc_frame},
};

pub const PAGE: usize = 4096;
const FRAMES: usize = 1024;
/// Room for the kernel's own table of frames.
const TABLE: usize = 64;

static ALL: OnceLock<Vec<FrameRef>> = OnceLock::new();

/// A frame that the kernel's allocator has free, filled with zeros.
fn taken() -> Option<FrameRef> {
    try_alloc_frame(FrameAllocFlags::ZEROED, PHYS_LEVEL_LAYOUTS[0])
}

/// Memory given to the kernel's allocator once, and all its frames taken out again.
fn all() -> &'static Vec<FrameRef> {
    ALL.get_or_init(|| {
        let length = (FRAMES + TABLE) * PAGE;
        let layout = std::alloc::Layout::from_size_align(length, PAGE).unwrap();
        let memory = unsafe { std::alloc::alloc_zeroed(layout) };
        let start = PhysAddr::new(memory as u64).unwrap();
        frame::init(&[MemoryRegion { start, length, kind: MemoryRegionKind::UsableRam }]);
        let mut frames: Vec<FrameRef> = std::iter::from_fn(taken).collect();
        frames.sort_by_key(|f| f.start_address());
        frames.split_off(frames.len() - FRAMES)
    })
}

pub fn frame(n: usize) -> FrameRef {
    all()[n]
}

pub fn number(f: FrameRef) -> usize {
    (f.start_address() - all()[0].start_address()) / PAGE
}

pub fn number_at(address: PhysAddr) -> usize {
    (address - all()[0].start_address()) / PAGE
}

pub fn bytes(n: usize) -> &'static mut [u8] {
    let p: *mut u8 = kernel::arch::memory::phys_to_virt(frame(n).start_address()).as_mut_ptr();
    unsafe { std::slice::from_raw_parts_mut(p, PAGE) }
}

/// The free frames of a store.
pub struct Frames {
    pub free: BTreeSet<usize>,
}

impl Frames {
    pub fn new(count: usize) -> Self {
        all();
        let mut f = Self { free: (0..count).collect() };
        f.collect();
        f.free = (0..count).collect();
        f
    }

    /// An allocator that hands out the frames free now, the highest first, and no others: what the kernel has beside them is no frame of the size
    /// that it is asked for.
    pub fn allocator(&self) -> FrameAllocator {
        let mut a = FrameAllocator::new(FrameAllocFlags::ZEROED, PHYS_LEVEL_LAYOUTS[2]);
        a.abort(self.free.iter().map(|n| frame(*n)));
        a
    }

    /// The end of a call: what its allocator has left is free, and so is what the kernel got back, filled with zeros.
    pub fn close(&mut self, mut a: FrameAllocator) {
        self.free.clear();
        while let Some(f) = a.try_allocate() {
            self.free.insert(number(f));
        }
        self.collect();
    }

    pub fn collect(&mut self) {
        while let Some(f) = taken() {
            self.free.insert(number(f));
        }
    }
}
