//! What the Rust's own functions cost, at the works and fills of crates/bench and crates/bench_bulk, and what memcpy costs. Each line has a work, the frames
//! and the ranges in use, and the nanoseconds of one turn.
//!
//! What the numbers leave out: a lookup of the object (the calls get the object itself), the kernel's threads and mappings (`invalidate` finds no
//! context), the pager. What stand-ins may distort: the interval tree is the standard library's BTreeMap, as the original's is; messages go nowhere; locks
//! are the kernel's own, never waited for. Frames come from an allocator that was filled with zeroed ones before the clock starts, so the Rust pays for
//! no zeroing of an added page, which the store does pay for.
#[allow(dead_code)]
#[path = "../../harness/src/call.rs"]
mod call;
mod fills;
#[allow(dead_code)]
#[path = "../../harness/src/machine.rs"]
mod machine;
#[allow(dead_code)]
#[path = "../../harness/src/rust_side.rs"]
mod rust_side;
mod time;
#[allow(dead_code)]
#[path = "../../harness/src/view.rs"]
mod view;
mod works;

use fills::Fill;

/// The works that need room, then the others on the store filled up, as in crates/bench.
fn fill_measured(frames: usize, ranges: usize) {
    let mut f = Fill::filled(frames, ranges);
    works::with_room(&mut f);
    f.full();
    works::at_fill(&mut f);
}

fn table() {
    println!("# fills");
    for frames in [16, 300, 1018] {
        fill_measured(frames, 8);
        fill_measured(frames, 40);
        fill_measured(if frames == 1018 { frames } else { frames - 1 }, 508);
    }
    println!("# pages 1024");
    for m in [1, 40, 170, 250] {
        works::hand_over(Fill::record(1024, m, 2));
    }
    println!("# pages 513");
    works::hand_over(Fill::record(513, 1, 1));
    println!("# pages 8192");
    works::hand_over(Fill::record(8192, 1, 16));
    println!("# bulk");
    for m in [8, 40, 510] {
        works::bulk(Fill::adjoining(1024, m));
        works::shift(Fill::two_adjoining(512, m / 2));
    }
}

/// 1/64 of n, and twice as much each time, but not less than `least`.
fn halved(n: usize, k: usize, least: usize) -> usize {
    (n >> (6 - k)).max(least)
}

fn growth(least: usize, many: usize) {
    for k in 0..7 {
        let mut f = Fill::filled(halved(1016, k, least), halved(many, k, 8));
        works::at_fill(&mut f);
        works::with_room(&mut f);
    }
}

fn grown() {
    println!("# frames and ranges");
    growth(16, 508);
    println!("# frames");
    growth(16, 8);
    println!("# ranges");
    growth(1016, 508);
}

fn main() {
    if std::env::args().nth(1).as_deref() == Some("g") {
        return grown();
    }
    println!("# limits");
    works::limits();
    table();
}
