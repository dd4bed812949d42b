use super::AllocError;
use core::fmt;
use core::ops::Deref;

/// A text of std, whose growth may fail.
#[derive(PartialEq, Eq, PartialOrd, Ord, Hash)]
pub struct String(alloc::string::String);

impl String {
    /// An empty text, which takes no memory.
    #[inline]
    pub const fn new() -> Self {
        String(alloc::string::String::new())
    }

    /// An empty text with room for so many bytes.
    #[inline]
    pub fn with_capacity(capacity: usize) -> Result<Self, AllocError> {
        let mut text = String::new();
        text.reserve(capacity)?;
        Ok(text)
    }

    /// A copy of a text.
    #[allow(clippy::should_implement_trait)] // the name that Rattle's has
    pub fn from_str(text: &str) -> Result<Self, AllocError> {
        let mut copy = String::new();
        copy.push_str(text)?;
        Ok(copy)
    }

    /// Makes room for so many bytes more.
    #[inline]
    pub fn reserve(&mut self, additional: usize) -> Result<(), AllocError> {
        if additional > self.0.capacity() - self.0.len() {
            return self.grow(additional);
        }
        Ok(())
    }

    #[cold]
    #[inline(never)]
    fn grow(&mut self, additional: usize) -> Result<(), AllocError> {
        Ok(self.0.try_reserve(additional)?)
    }

    /// Puts a text at the end, all of it or nothing.
    #[inline]
    pub fn push_str(&mut self, text: &str) -> Result<(), AllocError> {
        self.reserve(text.len())?;
        self.0.push_str(text);
        Ok(())
    }

    /// Puts a character at the end.
    #[inline]
    pub fn push(&mut self, c: char) -> Result<(), AllocError> {
        self.reserve(c.len_utf8())?;
        self.0.push(c);
        Ok(())
    }

    /// The text.
    #[inline]
    pub fn as_str(&self) -> &str {
        &self.0
    }

    /// What `format!` makes of these arguments.
    pub fn format(arguments: fmt::Arguments<'_>) -> Result<Self, AllocError> {
        let mut text = String::new();
        text.write_fmt(arguments)?;
        Ok(text)
    }

    /// Puts at the end what `write!` makes of these arguments.
    pub fn write_fmt(&mut self, arguments: fmt::Arguments<'_>) -> Result<(), AllocError> {
        struct Growing<'a>(&'a mut String);

        impl fmt::Write for Growing<'_> {
            fn write_str(&mut self, text: &str) -> fmt::Result {
                self.0.push_str(text).map_err(|AllocError| fmt::Error)
            }
        }

        fmt::Write::write_fmt(&mut Growing(self), arguments).map_err(|fmt::Error| AllocError)
    }

    /// The text of std, with no copy.
    #[inline]
    pub fn into_inner(self) -> alloc::string::String {
        self.0
    }
}

impl Default for String {
    fn default() -> Self {
        String::new()
    }
}

impl Deref for String {
    type Target = str;

    #[inline]
    fn deref(&self) -> &str {
        &self.0
    }
}

impl fmt::Debug for String {
    fn fmt(&self, f: &mut fmt::Formatter<'_>) -> fmt::Result {
        self.0.fmt(f)
    }
}

impl fmt::Display for String {
    fn fmt(&self, f: &mut fmt::Formatter<'_>) -> fmt::Result {
        self.0.fmt(f)
    }
}

impl From<alloc::string::String> for String {
    fn from(text: alloc::string::String) -> Self {
        String(text)
    }
}

impl From<String> for alloc::string::String {
    fn from(text: String) -> Self {
        text.0
    }
}

impl PartialEq<str> for String {
    fn eq(&self, other: &str) -> bool {
        self.0 == other
    }
}

impl PartialEq<&str> for String {
    fn eq(&self, other: &&str) -> bool {
        self.0 == *other
    }
}

/// Texts that are made of others, where memory may run out.
pub trait TryText {
    /// The text with its ASCII letters made small.
    fn try_to_ascii_lowercase(&self) -> Result<String, AllocError>;

    /// The text so many times.
    fn try_repeat(&self, times: usize) -> Result<String, AllocError>;
}

impl TryText for str {
    fn try_to_ascii_lowercase(&self) -> Result<String, AllocError> {
        let mut text = String::with_capacity(self.len())?;
        text.0.push_str(self);
        text.0.make_ascii_lowercase();
        Ok(text)
    }

    fn try_repeat(&self, times: usize) -> Result<String, AllocError> {
        let mut text = String::with_capacity(self.len().checked_mul(times).ok_or(AllocError)?)?;
        for _ in 0..times {
            text.0.push_str(self);
        }
        Ok(text)
    }
}

/// What is written as a text, where memory may run out.
pub trait TryDisplay {
    /// The text.
    fn try_to_string(&self) -> Result<String, AllocError>;
}

impl<T: fmt::Display> TryDisplay for T {
    fn try_to_string(&self) -> Result<String, AllocError> {
        String::format(format_args!("{self}"))
    }
}
