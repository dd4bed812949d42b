use core::ops::Index;

/// The chunks of `N` bytes that lie whole in a slice, as `as_chunks` of std gives them since Rust 1.88.
#[derive(Clone, Copy, Debug)]
pub struct Chunks<'a, const N: usize>(&'a [u8]);

impl<'a, const N: usize> Chunks<'a, N> {
    /// The chunks of a slice, and what is left behind them.
    #[inline(always)]
    pub fn split(bytes: &'a [u8]) -> (Self, &'a [u8]) {
        let rest = bytes.get(bytes.len() / N * N..).unwrap_or(&[]);
        (Chunks(bytes), rest)
    }

    /// The chunk of this number.
    #[inline(always)]
    pub fn get(&self, row: usize) -> Option<&'a [u8; N]> {
        if row >= usize::MAX / N {
            return None;
        }
        self.0.get(row * N..row * N + N)?.first_chunk()
    }
}

impl<const N: usize> Index<usize> for Chunks<'_, N> {
    type Output = [u8; N];

    #[inline(always)]
    fn index(&self, row: usize) -> &[u8; N] {
        self.get(row).expect("there is no chunk of this number")
    }
}

impl<'a, const N: usize, const COUNT: usize> From<&'a [[u8; N]; COUNT]> for Chunks<'a, N> {
    fn from(chunks: &'a [[u8; N]; COUNT]) -> Self {
        Chunks(chunks.as_flattened())
    }
}

impl<'a, const N: usize> IntoIterator for Chunks<'a, N> {
    type Item = &'a [u8; N];
    type IntoIter = Each<'a, N>;

    #[inline(always)]
    fn into_iter(self) -> Each<'a, N> {
        Each(self.0)
    }
}

/// The chunks of a slice, one after the other.
#[derive(Clone, Debug)]
pub struct Each<'a, const N: usize>(&'a [u8]);

impl<'a, const N: usize> Iterator for Each<'a, N> {
    type Item = &'a [u8; N];

    #[inline(always)]
    fn next(&mut self) -> Option<&'a [u8; N]> {
        let (chunk, rest) = self.0.split_first_chunk::<N>()?;
        self.0 = rest;
        Some(chunk)
    }
}
