//! Vectors of a fixed room, in the place of the crate of this name.

use core::fmt;
use core::ops::{Deref, DerefMut};

/// An element for which there was no room.
#[derive(Clone, Copy, Debug, PartialEq, Eq)]
pub struct CapacityError<T>(pub T);

/// At most `N` elements, which are kept where the value is.
#[derive(Clone, Copy)]
pub struct ArrayVec<T, const N: usize> {
    items: [T; N],
    len: usize,
}

impl<T: Copy + Default, const N: usize> ArrayVec<T, N> {
    /// No elements.
    #[inline]
    pub fn new() -> Self {
        ArrayVec {
            items: [T::default(); N],
            len: 0,
        }
    }

    /// Drops all elements.
    #[inline]
    pub fn clear(&mut self) {
        self.len = 0;
    }

    /// Puts an element at the end. It panics where there is no room.
    #[inline]
    pub fn push(&mut self, element: T) {
        self.items[self.len] = element;
        self.len += 1;
    }

    /// Puts an element at the end, or gives it back where there is no room.
    #[inline]
    pub fn try_push(&mut self, element: T) -> Result<(), CapacityError<T>> {
        if self.len == N {
            return Err(CapacityError(element));
        }
        self.push(element);
        Ok(())
    }

    /// Drops the elements from this place on.
    #[inline]
    pub fn truncate(&mut self, len: usize) {
        self.len = self.len.min(len);
    }

    /// Takes the last element away.
    #[inline]
    pub fn pop(&mut self) -> Option<T> {
        self.len = self.len.checked_sub(1)?;
        Some(self.items[self.len])
    }

    /// Whether there is room for no more element.
    #[inline]
    pub fn is_full(&self) -> bool {
        self.len == N
    }
}

impl<T, const N: usize> ArrayVec<T, N> {
    /// How many elements there are.
    #[inline]
    pub fn len(&self) -> usize {
        self.len
    }

    /// How many elements there is room for in all.
    #[inline]
    pub fn capacity(&self) -> usize {
        N
    }

    /// How many elements more there is room for.
    #[inline]
    pub fn remaining_capacity(&self) -> usize {
        N - self.len
    }

    /// Whether there are no elements.
    #[inline]
    pub fn is_empty(&self) -> bool {
        self.len == 0
    }

    /// The elements.
    #[inline]
    pub fn as_slice(&self) -> &[T] {
        &self.items[..self.len]
    }
}

impl<T, const N: usize> From<[T; N]> for ArrayVec<T, N> {
    fn from(items: [T; N]) -> Self {
        ArrayVec { items, len: N }
    }
}

impl<T: Copy + Default, const N: usize> Default for ArrayVec<T, N> {
    fn default() -> Self {
        ArrayVec::new()
    }
}

impl<'a, T, const N: usize> IntoIterator for &'a ArrayVec<T, N> {
    type Item = &'a T;
    type IntoIter = core::slice::Iter<'a, T>;

    fn into_iter(self) -> Self::IntoIter {
        self.as_slice().iter()
    }
}

impl<T, const N: usize> Deref for ArrayVec<T, N> {
    type Target = [T];

    #[inline]
    fn deref(&self) -> &[T] {
        self.as_slice()
    }
}

impl<T, const N: usize> DerefMut for ArrayVec<T, N> {
    #[inline]
    fn deref_mut(&mut self) -> &mut [T] {
        &mut self.items[..self.len]
    }
}

impl<T: PartialEq, const N: usize> PartialEq for ArrayVec<T, N> {
    fn eq(&self, other: &Self) -> bool {
        self.as_slice() == other.as_slice()
    }
}

impl<T: Eq, const N: usize> Eq for ArrayVec<T, N> {}

impl<T: fmt::Debug, const N: usize> fmt::Debug for ArrayVec<T, N> {
    fn fmt(&self, f: &mut fmt::Formatter<'_>) -> fmt::Result {
        self.as_slice().fmt(f)
    }
}
