use super::AllocError;
use core::ops::{Deref, DerefMut};
use core::slice::SliceIndex;

/// A vector of std, whose growth may fail.
#[derive(Debug)]
pub struct Vec<T>(alloc::vec::Vec<T>);

impl<T> Vec<T> {
    /// An empty vector, which takes no memory.
    #[inline]
    pub const fn new() -> Self {
        Vec(alloc::vec::Vec::new())
    }

    /// An empty vector with room for so many elements.
    #[inline]
    pub fn with_capacity(capacity: usize) -> Result<Self, AllocError> {
        let mut vec = Vec::new();
        vec.reserve(capacity)?;
        Ok(vec)
    }

    /// Makes room for so many elements more.
    #[inline]
    pub fn reserve(&mut self, additional: usize) -> Result<(), AllocError> {
        if additional > self.0.capacity() - self.0.len() {
            return self.grow(additional);
        }
        Ok(())
    }

    #[cold]
    #[inline(never)]
    fn grow(&mut self, additional: usize) -> Result<(), AllocError> {
        Ok(self.0.try_reserve(additional)?)
    }

    /// Puts an element at the end.
    #[inline]
    pub fn push(&mut self, element: T) -> Result<(), AllocError> {
        if self.0.len() >= self.0.capacity() {
            self.grow(1)?;
        }
        self.push_reserved(element);
        Ok(())
    }

    /// Puts an element at the end, for which there is room. It panics where there is none.
    #[inline]
    pub fn push_reserved(&mut self, element: T) {
        assert!(self.0.len() < self.0.capacity()); // so `push` does not grow
        self.0.push(element);
    }

    /// Puts an element at a place; those from there on move up.
    pub fn insert(&mut self, at: usize, element: T) -> Result<(), AllocError> {
        self.reserve(1)?;
        self.0.insert(at, element);
        Ok(())
    }

    /// Takes the element at a place away; those behind it move down.
    pub fn remove(&mut self, at: usize) -> T {
        self.0.remove(at)
    }

    /// Drops the elements for which the test does not hold.
    pub fn retain<F: FnMut(&T) -> bool>(&mut self, test: F) {
        self.0.retain(test);
    }

    /// Takes the last element away.
    #[inline]
    pub fn pop(&mut self) -> Option<T> {
        self.0.pop()
    }

    /// Drops all elements. The room stays.
    #[inline]
    pub fn clear(&mut self) {
        self.0.clear();
    }

    /// Drops the elements from this place on.
    #[inline]
    pub fn truncate(&mut self, len: usize) {
        self.0.truncate(len);
    }

    /// How many elements there is room for in all.
    #[inline]
    pub fn capacity(&self) -> usize {
        self.0.capacity()
    }

    /// The elements.
    #[inline]
    pub fn as_slice(&self) -> &[T] {
        &self.0
    }

    /// The elements, to be written.
    #[inline]
    pub fn as_mut_slice(&mut self) -> &mut [T] {
        &mut self.0
    }

    /// A part of the elements, to be written.
    #[inline]
    pub fn slice_mut<I: SliceIndex<[T], Output = [T]>>(&mut self, range: I) -> &mut [T] {
        &mut self.0[range]
    }

    /// Takes an element away, and puts the last one in its place.
    #[inline]
    pub fn swap_remove(&mut self, at: usize) -> T {
        self.0.swap_remove(at)
    }

    /// The vector of std, with no copy.
    #[inline]
    pub fn into_inner(self) -> alloc::vec::Vec<T> {
        self.0
    }
}

impl<T: Copy> Vec<T> {
    /// Copies of these elements.
    pub fn from_slice(elements: &[T]) -> Result<Self, AllocError> {
        let mut vec = Vec::new();
        vec.extend_from_slice(elements)?;
        Ok(vec)
    }

    /// So many copies of an element.
    pub fn from_elem(element: T, len: usize) -> Result<Self, AllocError> {
        let mut vec = Vec::new();
        vec.resize(len, element)?;
        Ok(vec)
    }

    /// Puts copies of these elements at the end, all or none.
    #[inline]
    pub fn extend_from_slice(&mut self, elements: &[T]) -> Result<(), AllocError> {
        self.reserve(elements.len())?;
        self.0.extend_from_slice(elements);
        Ok(())
    }

    /// Drops elements from the end, or adds copies of this one, until there are so many.
    #[inline]
    pub fn resize(&mut self, len: usize, element: T) -> Result<(), AllocError> {
        self.reserve(len.saturating_sub(self.0.len()))?;
        self.0.resize(len, element);
        Ok(())
    }
}

impl<T> Default for Vec<T> {
    fn default() -> Self {
        Vec::new()
    }
}

impl<T> Deref for Vec<T> {
    type Target = [T];

    #[inline]
    fn deref(&self) -> &[T] {
        &self.0
    }
}

impl<T> DerefMut for Vec<T> {
    #[inline]
    fn deref_mut(&mut self) -> &mut [T] {
        &mut self.0
    }
}

impl<T> IntoIterator for Vec<T> {
    type Item = T;
    type IntoIter = alloc::vec::IntoIter<T>;

    fn into_iter(self) -> Self::IntoIter {
        self.0.into_iter()
    }
}

impl<'a, T> IntoIterator for &'a Vec<T> {
    type Item = &'a T;
    type IntoIter = core::slice::Iter<'a, T>;

    fn into_iter(self) -> Self::IntoIter {
        self.0.iter()
    }
}

impl<T> From<alloc::vec::Vec<T>> for Vec<T> {
    fn from(vec: alloc::vec::Vec<T>) -> Self {
        Vec(vec)
    }
}

impl<T> From<Vec<T>> for alloc::vec::Vec<T> {
    fn from(vec: Vec<T>) -> Self {
        vec.0
    }
}

impl<T: PartialEq> PartialEq for Vec<T> {
    fn eq(&self, other: &Self) -> bool {
        self.0 == other.0
    }
}

impl<T: Eq> Eq for Vec<T> {}

/// Iterators whose elements are collected, where memory may run out.
pub trait TryIterator: Iterator + Sized {
    /// The elements, in order.
    fn try_into_vec(self) -> Result<Vec<Self::Item>, AllocError> {
        let mut vec = Vec::with_capacity(self.size_hint().0)?;
        for element in self {
            vec.push(element)?;
        }
        Ok(vec)
    }
}

impl<I: Iterator> TryIterator for I {}
