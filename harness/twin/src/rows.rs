//! A buffer cut into rows of one width: the pool's cells, a segment's blocks, the table's records.

use std::ops::{Deref, DerefMut, Index, IndexMut};
use std::slice::ChunksExact;

#[derive(Clone, Copy, PartialEq)]
pub struct Rows<B> {
    buffer: B,
    width: usize,
}

/// Cells or blocks, lent for reading.
pub type Blocks<'a> = Rows<&'a [u8]>;
/// Cells, lent for writing.
pub type BlocksMut<'a> = Rows<&'a mut [u8]>;
/// Records, lent for reading.
pub type Records<'a> = Rows<&'a [u32]>;
/// Records, lent for writing.
pub type RecordsMut<'a> = Rows<&'a mut [u32]>;

impl<T, B: Deref<Target = [T]>> Rows<B> {
    pub fn new(buffer: B, width: usize) -> Rows<B> {
        Rows { buffer, width }
    }

    pub fn iter(&self) -> ChunksExact<'_, T> {
        self.buffer.chunks_exact(self.width)
    }

    /// The rows in groups of so many, the last of those that are left.
    pub fn groups<'a>(&'a self, rows: usize) -> impl Iterator<Item = Rows<&'a [T]>>
    where
        T: 'a,
    {
        self.buffer.chunks(rows * self.width).map(|part| Rows::new(part, self.width))
    }

    /// The same rows, lent on for reading.
    pub fn read(&self) -> Rows<&[T]> {
        Rows::new(&self.buffer, self.width)
    }
}

impl<T, B: Deref<Target = [T]>> Index<usize> for Rows<B> {
    type Output = [T];

    #[inline]
    fn index(&self, row: usize) -> &[T] {
        &self.buffer[row * self.width..][..self.width]
    }
}

impl<T, B: DerefMut<Target = [T]>> IndexMut<usize> for Rows<B> {
    #[inline]
    fn index_mut(&mut self, row: usize) -> &mut [T] {
        &mut self.buffer[row * self.width..][..self.width]
    }
}

impl Blocks<'_> {
    /// Whether a block equals one of another buffer that is cut alike: one width for both, so that lengths need no test.
    #[inline]
    pub fn is_same(&self, row: usize, other: Blocks, other_row: usize) -> bool {
        self.buffer[row * self.width..][..self.width] == other.buffer[other_row * self.width..][..self.width]
    }
}

impl<T: Copy, B: DerefMut<Target = [T]>> Rows<B> {
    /// Copies one row over another.
    pub fn copy(&mut self, from: usize, to: usize) {
        let at = from * self.width;
        self.buffer.copy_within(at..at + self.width, to * self.width);
    }
}

/// Bytes that are taken at a time; every block is a multiple of them.
const PIECE: usize = 64;

/// Whether a block is all zero.
#[inline]
pub fn is_null(block: &[u8]) -> bool {
    let (pieces, _) = block.as_chunks::<PIECE>();
    pieces.iter().all(|piece| piece.iter().fold(0, |all, byte| all | byte) == 0)
}

/// Whether a block is all 255s.
#[inline]
pub fn is_blank(block: &[u8]) -> bool {
    let (pieces, _) = block.as_chunks::<PIECE>();
    pieces.iter().all(|piece| piece.iter().fold(255, |all, byte| all & byte) == 255)
}
