//! Ranges seen from outside: which backing each holds, and a range put in with a given one.
use super::*;

/// A backing that a range can hold.
#[derive(Clone)]
pub enum Backing {
    Nothing,
    Single(PageRef),
    Many(PageVecRef),
}

pub fn backing(r: &PageRange) -> Backing {
    match &r.backing {
        BackingPages::Nothing => Backing::Nothing,
        BackingPages::Single(p) => Backing::Single(p.clone()),
        BackingPages::Many(v) => Backing::Many(v.clone()),
    }
}

pub fn is_single(r: &PageRange) -> bool {
    matches!(r.backing, BackingPages::Single(_))
}

/// The ranges in rising order.
pub fn walk(t: &PageRangeTree) -> impl Iterator<Item = &PageRange> {
    t.range(0.into()..usize::MAX.into()).map(|(_, r)| r.value())
}

pub fn put(t: &mut PageRangeTree, start: usize, length: usize, offset: usize, backing: Backing) {
    let mut r = PageRange::new(start.into());
    r.length = length;
    r.offset = offset;
    r.backing = match backing {
        Backing::Nothing => BackingPages::Nothing,
        Backing::Single(p) => BackingPages::Single(p),
        Backing::Many(v) => BackingPages::Many(v),
    };
    let over = t.insert_replace(r.range(), r);
    assert!(over.is_empty());
}

/// A page added as a range of its own, whatever stands before it.
pub fn add_alone(t: &mut PageRangeTree, pn: PageNumber, page: PageRef) {
    let mut r = PageRange::new(pn);
    r.length = 1;
    r.add_page(pn, page);
    let over = t.insert_replace(r.range(), r);
    assert!(over.is_empty());
}
