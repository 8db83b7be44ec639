pub use crate::arch::address::{PhysAddr, VirtAddr};

pub mod context;
pub mod frame;
pub mod pagetables;
pub mod tracker;

#[derive(Clone, Copy, PartialEq, Eq)]
pub enum MemoryRegionKind {
    UsableRam,
    Reserved,
}

pub struct MemoryRegion {
    pub start: PhysAddr,
    pub length: usize,
    pub kind: MemoryRegionKind,
}
