//! A page vector seen from outside: its entries, and one taken out.
use super::*;

pub fn entries(v: &PageVec) -> Vec<(usize, PageRef)> {
    v.tree.range(0..usize::MAX).map(|(k, p)| (*k, p.value().clone())).collect()
}

pub fn indexes(v: &PageVec) -> Vec<usize> {
    v.tree.range(0..usize::MAX).map(|(k, _)| *k).collect()
}

pub fn remove(v: &mut PageVec, index: usize) {
    v.tree.remove(&index);
}
