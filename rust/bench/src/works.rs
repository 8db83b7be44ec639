//! The works of crates/works on the Rust's own functions. It has no call that reads or writes bytes of a caller: a read is `get_page` and a copy out of its slice, a
//! write what `copy_bytes` does for its destination, `get_page` for writing or `add_page`, and a copy into the slice, page after page.
use std::hint::black_box;
use std::time::Duration;

use kernel::memory::tracker::FrameAllocator;
use kernel::obj::{
    Object, ObjectRef, PageNumber, copy,
    range::{GetPageFlags, PageStatus},
};
use twizzler_abi::{object::ObjID, syscall::LifetimeType};

use crate::fills::{Fill, object_of, page_of, part, start_of};
use crate::machine::PAGE;
use crate::rust_side::Rust;
use crate::time::{line, repeated, single, took};

fn read(o: &ObjectRef, at: usize, buf: &mut [u8]) {
    let mut done = 0;
    while done < buf.len() {
        let i = at + done;
        let n = (PAGE - i % PAGE).min(buf.len() - done);
        let to = &mut buf[done..done + n];
        match o.lock_page_tree().get_page(PageNumber::from_offset(i), GetPageFlags::empty(), None) {
            PageStatus::Ready(p, _) => to.copy_from_slice(&p.as_slice()[i % PAGE..i % PAGE + n]),
            _ => to.fill(0),
        }
        done += n;
    }
}

fn write(o: &ObjectRef, at: usize, data: &[u8], a: &mut FrameAllocator) -> Option<()> {
    let mut done = 0;
    while done < data.len() {
        let i = at + done;
        let n = (PAGE - i % PAGE).min(data.len() - done);
        let pn = PageNumber::from_offset(i);
        let mut tree = o.lock_page_tree();
        let page = match tree.get_page(pn, GetPageFlags::WRITE, Some(a)) {
            PageStatus::Ready(page, _) => page,
            PageStatus::NoPage => tree.add_page(pn, Rust::fresh(a)?, Some(a))?,
            _ => return None,
        };
        page.as_mut_slice()[i % PAGE..i % PAGE + n].copy_from_slice(&data[done..done + n]);
        done += n;
    }
    Some(())
}

fn upload(o: &ObjectRef, bytes: usize, a: &mut FrameAllocator) {
    let data = black_box([7u8; 64]);
    for i in 0..300 {
        write(o, i * 64 % bytes, &data, a).unwrap();
    }
}

fn look_up(o: &ObjectRef, page: usize) -> bool {
    matches!(o.lock_page_tree().get_page(page.into(), GetPageFlags::empty(), None), PageStatus::Ready(..))
}

fn object(o: u8) -> ObjectRef {
    std::sync::Arc::new(Object::new(ObjID::new(o as u128 + 1), LifetimeType::Volatile, &[]))
}

/// A call with an allocator of the free frames, timed alone; what `undo` does is not.
fn with_frames(rust: &mut Rust, call: impl FnOnce(&Rust, &mut FrameAllocator), undo: impl FnOnce(&mut Rust)) -> Duration {
    let mut a = rust.frames.allocator();
    let spent = took(|| call(rust, &mut a));
    undo(rust);
    rust.frames.close(a);
    spent
}

/// Record 30 empty again.
fn emptied(rust: &mut Rust) {
    rust.objects.insert(30, object(30));
}

/// The works at any fill.
pub fn at_fill(f: &mut Fill) {
    let counts = f.rust.counts();
    let mut a = f.rust.frames.allocator();
    let all: Vec<ObjectRef> = (0..8).map(|o| f.rust.object(o).clone()).collect();
    let mut buf = [0u8; 64];
    let read_some = |turns: usize| {
        for i in 0..turns {
            let j = i % f.own;
            read(&all[object_of(j) as usize], page_of(j) * PAGE, black_box(&mut buf));
        }
    };
    line("read_64", counts, repeated(read_some));
    let data = [7u8; 64];
    let write_some = |turns: usize| (0..turns).for_each(|i| write(&all[0], i % 128 * 64, black_box(&data), &mut a).unwrap());
    line("write_64", counts, repeated(write_some));
    line("upload", counts, repeated(|turns| (0..turns).for_each(|_| upload(&all[0], 8192, &mut a))));
    let record = |_| {
        for i in (0..f.own).step_by(8) {
            (0..part(i, f.frames, f.own)).for_each(|q| assert!(black_box(look_up(&all[0], page_of(i) + q))));
        }
    };
    line("look_up_all", counts, repeated(|turns| (0..turns).for_each(record)));
    line("new", counts, single(|| took(|| object(40))));
    drop(all);
    f.rust.frames.close(a);
    let saved = f.rust.save();
    let dropped = single(|| {
        let o = f.rust.objects.remove(&0).unwrap();
        let spent = took(|| drop(o));
        f.rust.restore(&saved);
        spent
    });
    line("drop", counts, dropped);
}

/// The works that need room.
pub fn with_room(f: &mut Fill) {
    let counts = f.rust.counts();
    let rust = &mut f.rust;
    let add = |r: &Rust, a: &mut FrameAllocator| r.object(30).add_page(PageNumber::from(5), Rust::fresh(a).unwrap(), Some(a));
    line("add", counts, single(|| with_frames(rust, add, emptied)));
    let upload_new = |r: &Rust, a: &mut FrameAllocator| upload(r.object(30), 19200, a);
    line("upload_new", counts, single(|| with_frames(rust, upload_new, emptied)));
    let saved = rust.save();
    for (work, at, n) in [("zero_all", 0, 1 << 30), ("zero_page", PAGE, PAGE)] {
        let zeroed = single(|| {
            let spent = took(|| copy::zero_ranges(rust.object(0), at, n));
            rust.restore(&saved);
            spent
        });
        line(work, counts, zeroed);
    }
}

/// Record 0 handed over to record 30, then 100 bytes written into the copy.
pub fn hand_over(mut f: Fill) {
    let counts = f.rust.counts();
    let (n, m) = (f.end * PAGE, f.own);
    let rust = &mut f.rust;
    let copy = |r: &Rust, a: &mut FrameAllocator| copy::copy_ranges(r.object(0), 0, r.object(30), 0, n, a);
    line("hand_over", counts, single(|| with_frames(rust, copy, emptied)));
    let shadow = |r: &Rust, _: &mut FrameAllocator| copy::copy_range_to_shadow(r.object(0), 0, &mut r.object(30).lock_page_tree(), 0, n);
    line("shadow", counts, single(|| with_frames(rust, shadow, emptied)));
    let touch = |r: &Rust, a: &mut FrameAllocator| {
        for k in 0..100 {
            write(r.object(30), (start_of(k % m) + k / m * 7) * PAGE, &[9], a).unwrap();
        }
    };
    let touched = single(|| {
        with_frames(rust, copy, |_| ());
        with_frames(rust, touch, emptied)
    });
    with_frames(rust, copy, |_| ());
    line("touch_100", rust.counts(), touched);
}

/// 4 MiB read and written, in one go and page by page: to the Rust that is the same, but that each of its parts is a call.
pub fn bulk(mut f: Fill) {
    let counts = f.rust.counts();
    let o = f.rust.object(0).clone();
    let mut a = f.rust.frames.allocator();
    let mut buf = vec![5u8; f.end * PAGE];
    line("write_all", counts, repeated(|turns| (0..turns).for_each(|_| write(&o, 0, black_box(&buf), &mut a).unwrap())));
    line("read_all", counts, repeated(|turns| (0..turns).for_each(|_| read(&o, 0, black_box(&mut buf)))));
    let mut by_pages = || buf.chunks(PAGE).enumerate().for_each(|(i, b)| write(&o, i * PAGE, black_box(b), &mut a).unwrap());
    line("write_pages", counts, repeated(|turns| (0..turns).for_each(|_| by_pages())));
    let mut by_pages = || buf.chunks_mut(PAGE).enumerate().for_each(|(i, b)| read(&o, i * PAGE, black_box(b)));
    line("read_pages", counts, repeated(|turns| (0..turns).for_each(|_| by_pages())));
    drop(o);
    f.rust.frames.close(a);
}

/// 2 MiB copied to unequal places, to present pages of record 1; with that dropped 512 KiB, to absent ones of record 30.
pub fn shift(mut f: Fill) {
    let counts = f.rust.counts();
    let n = f.end * PAGE;
    let mut a = f.rust.frames.allocator();
    let (from, to) = (f.rust.object(0).clone(), f.rust.object(1).clone());
    line("shift", counts, repeated(|turns| (0..turns).for_each(|_| copy::copy_ranges(&from, 100, &to, 0, n, &mut a))));
    drop((from, to));
    f.rust.frames.close(a);
    f.rust.objects.remove(&1);
    f.rust.frames.collect();
    let counts = f.rust.counts();
    let fresh = |r: &Rust, a: &mut FrameAllocator| copy::copy_ranges(r.object(0), 100, r.object(30), 0, 1 << 19, a);
    line("shift_new", counts, single(|| with_frames(&mut f.rust, fresh, emptied)));
}

/// memcpy between two places of so many bytes.
pub fn limits() {
    for (name, n) in [("memcpy_store", 24728), ("memcpy_2M", 1 << 21), ("memcpy_4M", 1 << 22)] {
        let (from, mut to) = (vec![3u8; n], vec![0u8; n]);
        line(name, (0, 0), repeated(|turns| (0..turns).for_each(|_| black_box(&mut to).copy_from_slice(black_box(&from)))));
    }
    line("clock", (0, 0), single(|| took(|| ())));
}
