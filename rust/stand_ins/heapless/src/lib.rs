//! A vector and a map with room for a fixed number.
use std::mem::MaybeUninit;

pub struct Vec<T, const N: usize>(std::vec::Vec<T>, [MaybeUninit<T>; 0]);

impl<T, const N: usize> Vec<T, N> {
    pub fn new() -> Self {
        Self(std::vec::Vec::new(), [])
    }
    pub fn push(&mut self, t: T) -> Result<(), T> {
        if self.is_full() {
            return Err(t);
        }
        self.0.push(t);
        Ok(())
    }
    /// # Safety
    /// There must be room.
    pub unsafe fn push_unchecked(&mut self, t: T) {
        self.push(t).ok().unwrap();
    }
    pub fn is_full(&self) -> bool {
        self.0.len() == N
    }
    pub fn capacity(&self) -> usize {
        N
    }
}

impl<T, const N: usize> Default for Vec<T, N> {
    fn default() -> Self {
        Self::new()
    }
}

impl<T, const N: usize> IntoIterator for Vec<T, N> {
    type Item = T;
    type IntoIter = std::vec::IntoIter<T>;
    fn into_iter(self) -> Self::IntoIter {
        self.0.into_iter()
    }
}

pub mod index_map {
    pub struct FnvIndexMap<K, V, const N: usize>(std::vec::Vec<(K, V)>);

    impl<K: Eq, V, const N: usize> FnvIndexMap<K, V, N> {
        pub const fn new() -> Self {
            Self(std::vec::Vec::new())
        }
        pub fn insert(&mut self, k: K, v: V) -> Result<Option<V>, (K, V)> {
            if let Some(e) = self.0.iter_mut().find(|e| e.0 == k) {
                return Ok(Some(std::mem::replace(&mut e.1, v)));
            }
            if self.0.len() == N {
                return Err((k, v));
            }
            self.0.push((k, v));
            Ok(None)
        }
        pub fn remove(&mut self, k: &K) -> Option<V> {
            let i = self.0.iter().position(|e| e.0 == *k)?;
            Some(self.0.swap_remove(i).1)
        }
        pub fn get_mut(&mut self, k: &K) -> Option<&mut V> {
            self.0.iter_mut().find(|e| e.0 == *k).map(|e| &mut e.1)
        }
        pub fn get_index(&self, i: usize) -> Option<(&K, &V)> {
            self.0.get(i).map(|e| (&e.0, &e.1))
        }
        pub fn capacity(&self) -> usize {
            N
        }
        pub fn clear(&mut self) {
            self.0.clear();
        }
    }
}
