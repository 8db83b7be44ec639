//! Lists and trees of things that hold a link. A list here keeps its members in a vector; a link only says whether it is in one.
use std::collections::VecDeque;
use std::sync::atomic::{AtomicBool, Ordering};

/// A link: whether its holder is in a list.
#[derive(Default)]
pub struct LinkedListLink(AtomicBool);

impl LinkedListLink {
    pub const fn new() -> Self {
        Self(AtomicBool::new(false))
    }
    pub fn is_linked(&self) -> bool {
        self.0.load(Ordering::SeqCst)
    }
    pub fn set(&self, linked: bool) {
        self.0.store(linked, Ordering::SeqCst);
    }
    /// # Safety
    /// Nothing may hold it.
    pub unsafe fn force_unlink(&self) {
        self.set(false);
    }
}

pub mod linked_list {
    pub type AtomicLink = super::LinkedListLink;
}
pub mod rbtree {
    pub type AtomicLink = super::LinkedListLink;
}

/// Which pointers a list holds, and where their links are.
pub trait Adapter {
    type Pointer: Clone + std::ops::Deref;
    fn link(p: &Self::Pointer) -> &LinkedListLink;
}

pub trait KeyAdapter<'a>: Adapter
where
    <Self::Pointer as std::ops::Deref>::Target: 'a,
{
    type Key: Ord;
    fn get_key(&self, s: &'a <Self::Pointer as std::ops::Deref>::Target) -> Self::Key;
}

#[macro_export]
macro_rules! intrusive_adapter {
    ($vis:vis $name:ident = $pointer:ty : $of:ident { $link:ident : $lt:ty }) => {
        $vis struct $name;
        #[allow(dead_code)]
        impl $name {
            pub const NEW: Self = Self;
        }
        impl $crate::Adapter for $name {
            type Pointer = $pointer;
            fn link<'a>(p: &'a $pointer) -> &'a $crate::LinkedListLink {
                &p.$link
            }
        }
    };
}

pub struct LinkedList<A: Adapter>(VecDeque<A::Pointer>);

impl<A: Adapter> LinkedList<A> {
    pub const fn new(a: A) -> Self {
        std::mem::forget(a);
        Self(VecDeque::new())
    }
    pub fn push_back(&mut self, p: A::Pointer) {
        assert!(!A::link(&p).is_linked());
        A::link(&p).set(true);
        self.0.push_back(p);
    }
    fn out(p: Option<A::Pointer>) -> Option<A::Pointer> {
        if let Some(p) = &p {
            A::link(p).set(false);
        }
        p
    }
    pub fn pop_back(&mut self) -> Option<A::Pointer> {
        Self::out(self.0.pop_back())
    }
    pub fn pop_front(&mut self) -> Option<A::Pointer> {
        Self::out(self.0.pop_front())
    }
    pub fn iter(&self) -> impl Iterator<Item = &A::Pointer> {
        self.0.iter()
    }
    pub fn take(&mut self) -> Self {
        Self(std::mem::take(&mut self.0))
    }
    pub fn front_mut(&mut self) -> Cursor<'_, A> {
        Cursor { of: &mut self.0, at: 0 }
    }
}

impl<A: Adapter> IntoIterator for LinkedList<A> {
    type Item = A::Pointer;
    type IntoIter = std::collections::vec_deque::IntoIter<A::Pointer>;
    fn into_iter(self) -> Self::IntoIter {
        self.0.into_iter()
    }
}

pub struct Cursor<'a, A: Adapter> {
    of: &'a mut VecDeque<A::Pointer>,
    at: usize,
}

impl<A: Adapter> Cursor<'_, A> {
    pub fn is_null(&self) -> bool {
        self.at >= self.of.len()
    }
    pub fn get(&self) -> Option<&A::Pointer> {
        self.of.get(self.at)
    }
    pub fn move_next(&mut self) {
        self.at += 1;
    }
    pub fn remove(&mut self) -> Option<A::Pointer> {
        LinkedList::<A>::out(self.of.remove(self.at))
    }
}

/// A tree by key; members are few, so it is a list.
pub struct RBTree<A: Adapter>(LinkedList<A>, A);

impl<A: Adapter> RBTree<A> {
    pub const fn new(a: A) -> Self {
        Self(LinkedList(VecDeque::new()), a)
    }
    pub fn insert(&mut self, p: A::Pointer) {
        self.0.push_back(p);
    }
    pub fn is_empty(&self) -> bool {
        self.0.0.is_empty()
    }
    pub fn front_mut(&mut self) -> Cursor<'_, A> {
        self.0.front_mut()
    }
    pub fn find_mut<'a, K: Ord>(&'a mut self, k: &K) -> Cursor<'a, A>
    where
        for<'b> A: KeyAdapter<'b, Key = K>,
    {
        let at = self.0.0.iter().position(|p| self.1.get_key(p) == *k).unwrap_or(self.0.0.len());
        Cursor { of: &mut self.0.0, at }
    }
}
