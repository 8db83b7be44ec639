//! The interval tree by document 01's rules: "a lookup or removal finds the range that covers a page; a walk yields, in rising order, the ranges
//! that overlap the span asked for; an insertion returns the ranges that it overlapped."
use std::collections::{BTreeMap, btree_map};
use std::ops::{Deref, DerefMut, Range};

#[derive(Debug)]
pub struct IntervalValue<K, V> {
    end: K,
    value: V,
}

impl<K, V> IntervalValue<K, V> {
    pub fn value(&self) -> &V {
        &self.value
    }
}

impl<K, V> Deref for IntervalValue<K, V> {
    type Target = V;
    fn deref(&self) -> &V {
        &self.value
    }
}

impl<K, V> DerefMut for IntervalValue<K, V> {
    fn deref_mut(&mut self) -> &mut V {
        &mut self.value
    }
}

/// Intervals by their starts; no two overlap.
#[derive(Debug)]
pub struct NonOverlappingIntervalTree<K, V> {
    map: BTreeMap<K, IntervalValue<K, V>>,
}

impl<K, V> Default for NonOverlappingIntervalTree<K, V> {
    fn default() -> Self {
        Self { map: BTreeMap::new() }
    }
}

pub type ValueRange<'a, K, V> = btree_map::Range<'a, K, V>;
pub type ValueRangeMut<'a, K, V> = btree_map::RangeMut<'a, K, V>;

impl<K: Ord + Copy, V> NonOverlappingIntervalTree<K, V> {
    pub fn new() -> Self {
        Self::default()
    }

    pub fn clear(&mut self) {
        self.map.clear();
    }

    pub fn len(&self) -> usize {
        self.map.len()
    }

    pub fn is_empty(&self) -> bool {
        self.map.is_empty()
    }

    /// The start of the interval that covers a point.
    fn covering(&self, k: &K) -> Option<K> {
        let (start, v) = self.map.range(..=*k).next_back()?;
        (*k < v.end).then_some(*start)
    }

    pub fn get(&self, k: &K) -> Option<&V> {
        let start = self.covering(k)?;
        self.map.get(&start).map(|v| &v.value)
    }

    pub fn get_mut(&mut self, k: &K) -> Option<&mut V> {
        let start = self.covering(k)?;
        self.map.get_mut(&start).map(|v| &mut v.value)
    }

    pub fn remove(&mut self, k: &K) -> Option<V> {
        let start = self.covering(k)?;
        self.map.remove(&start).map(|v| v.value)
    }

    /// Where a walk over a span begins: at the interval that covers the span's first point, or at that point.
    fn first(&self, r: &Range<K>) -> K {
        if r.start < r.end { self.covering(&r.start).unwrap_or(r.start) } else { r.end }
    }

    pub fn range(&self, r: Range<K>) -> ValueRange<'_, K, IntervalValue<K, V>> {
        let first = self.first(&r);
        self.map.range(first..r.end)
    }

    pub fn range_mut(&mut self, r: Range<K>) -> ValueRangeMut<'_, K, IntervalValue<K, V>> {
        let first = self.first(&r);
        self.map.range_mut(first..r.end)
    }

    pub fn insert_replace(&mut self, r: Range<K>, value: V) -> Vec<(Range<K>, V)> {
        let first = self.first(&r);
        let starts: Vec<K> = self.map.range(first..r.end).map(|(k, _)| *k).collect();
        let mut out = Vec::new();
        for k in starts {
            let v = self.map.remove(&k).unwrap();
            out.push((k..v.end, v.value));
        }
        self.map.insert(r.start, IntervalValue { end: r.end, value });
        out
    }

    /// The same; the files use it only where nothing is overlapped.
    pub fn insert(&mut self, r: Range<K>, value: V) -> Vec<(Range<K>, V)> {
        self.insert_replace(r, value)
    }
}
