use core::sync::atomic::AtomicU64;

use crate::thread::ThreadRef;

pub fn disable() -> bool {
    false
}

pub fn set(_: bool) {}

pub fn wait_for_device_interrupt(_: &ThreadRef, _: u32, _: bool, _: &AtomicU64) -> bool {
    false
}
