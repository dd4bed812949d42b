//! A value that what holds it may share.

use alloc::sync::Arc;
use core::ops::Deref;

/// A value that is not changed any more, which the clones of what holds it may share. It stands in one of the two fields.
#[derive(Debug)]
pub struct Shared<T> {
    /// The value, where one holds it alone.
    alone: Option<T>,
    /// The value, where those that share it are counted.
    counted: Option<Arc<T>>,
}

impl<T> Shared<T> {
    /// A value that one holds alone, which takes no memory.
    #[inline]
    pub const fn new(value: T) -> Self {
        Shared {
            alone: Some(value),
            counted: None,
        }
    }

    /// From now on those that share the value are counted. As `Arc` of std it ends the program where memory runs out.
    #[inline]
    pub fn count(&mut self) {
        if let Some(value) = self.alone.take() {
            self.counted = Some(Arc::new(value));
        }
    }

    /// The same value for another one, where those that share it are counted.
    pub fn again(&self) -> Option<Self> {
        let value = self.counted.as_ref()?;
        Some(Shared {
            alone: None,
            counted: Some(value.clone()),
        })
    }
}

impl<T> Deref for Shared<T> {
    type Target = T;

    #[inline]
    fn deref(&self) -> &T {
        match (&self.counted, &self.alone) {
            (Some(value), _) => value,
            (None, Some(value)) => value,
            (None, None) => unreachable!("the value stands in one of the fields"),
        }
    }
}
