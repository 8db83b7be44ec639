//! The page ranges of the Twizzler kernel, from its own files (build.rs), and what the harness needs to see of them.
#![allow(
    dead_code,
    unused_macros,
    unused_parens,
    unused_imports,
    unused_variables,
    unused_unsafe,
    static_mut_refs,
    private_interfaces,
    mismatched_lifetime_syntaxes
)]

extern crate alloc;

macro_rules! log {
    ($($t:tt)*) => { if false { let _ = format_args!($($t)*); } };
}
macro_rules! logln {
    ($($t:tt)*) => { if false { let _ = format_args!($($t)*); } };
}
macro_rules! emerglogln {
    ($($t:tt)*) => { if false { let _ = format_args!($($t)*); } };
}

include!(concat!(env!("OUT_DIR"), "/kernel/tree.rs"));

/// Blocks of a marked copy that were reached (`RUST_MARKS`, build.rs).
pub mod marks {
    use std::sync::atomic::{AtomicBool, Ordering};

    /// Each mark's number, file and line.
    pub static ALL: &str = include_str!(concat!(env!("OUT_DIR"), "/kernel/marks.txt"));
    pub static REACHED: [AtomicBool; 4096] = [const { AtomicBool::new(false) }; 4096];

    pub fn reach(n: usize) {
        REACHED[n].store(true, Ordering::Relaxed);
    }
}
