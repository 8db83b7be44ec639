//! `copy_bytes`, by which 01 states a write, from outside.
use super::*;

pub fn copy_bytes(
    src: &mut PageRangeTree,
    src_off: usize,
    dest: &mut PageRangeTree,
    dest_off: usize,
    length: usize,
    allocator: &mut FrameAllocator,
) -> Option<()> {
    super::copy_bytes(src, src_off, dest, dest_off, length, allocator)
}
