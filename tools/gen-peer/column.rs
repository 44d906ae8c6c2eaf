//! What a column's typed rows can do, whatever their type.

use crate::zones::{Cell, Zone};
use std::ops::Range;

/// Rows of one type behind each other.
pub trait Column: Sized {
    /// A greatest or least value.
    type Bound: Cell;
    type Dictionary: Dictionary<Self>;

    fn with_capacity(rows: usize) -> Self;
    fn len(&self) -> usize;
    /// Forgets all rows and keeps the room.
    fn clear(&mut self);
    fn append(&mut self, other: &Self, rows: Range<usize>);

    /// Ends a block. Before it no record or dictionary is made.
    fn seal(&mut self) {}
    /// The record of all rows.
    fn zone(&self) -> Zone<Self::Bound>;
    /// Whether all rows are the same.
    fn is_alike(&self) -> bool;
    /// Whether each row is below the next, so that all are distinct.
    fn ascends(&self) -> bool;

    /// The bytes that so many of the first rows take by the format's rule of sizes.
    fn size(&self, rows: usize) -> u64;
    /// The cells of so many of the first rows, with room for a segment's tree.
    fn cells(&self, rows: usize) -> Vec<u8>;
    /// So many rows of their cells, which fill the bytes exactly.
    fn read(cells: &[u8], rows: usize) -> Option<Self>;
    /// The row of each code. All codes are below the number of rows.
    fn take(&self, codes: &[u16]) -> Self;
}

/// Distinct rows in the order in which they came.
pub trait Dictionary<C> {
    fn new() -> Self;
    /// The code of each row of the block; none once more than so many rows are distinct, or their bytes pass the limit.
    fn encode(&mut self, block: &C, most: usize) -> Option<Vec<u16>>;
    fn into_values(self) -> C;
}
