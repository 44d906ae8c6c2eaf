//! Records of blocks, and the table of them.

use crate::segment;

/// A value as the bytes of a cell, without its flag.
pub trait Cell {
    fn push_to(&self, out: &mut Vec<u8>);
}

impl Cell for i64 {
    fn push_to(&self, out: &mut Vec<u8>) {
        out.extend_from_slice(&self.to_le_bytes());
    }
}

impl Cell for u64 {
    fn push_to(&self, out: &mut Vec<u8>) {
        out.extend_from_slice(&self.to_le_bytes());
    }
}

impl Cell for Vec<u8> {
    fn push_to(&self, out: &mut Vec<u8>) {
        (self.len() as u64).push_to(out);
        out.extend_from_slice(self);
    }
}

/// What is known of a block.
pub struct Zone<B> {
    pub max: Option<B>,
    pub min: Option<B>,
    pub nulls: u64,
}

/// The records of a column's blocks, a column a statistic.
pub struct Zones<B> {
    max: Vec<Option<B>>,
    min: Vec<Option<B>>,
    nulls: Vec<Option<u64>>,
}

impl<B: Cell> Zones<B> {
    pub fn new() -> Zones<B> {
        Zones {
            max: Vec::new(),
            min: Vec::new(),
            nulls: Vec::new(),
        }
    }

    pub fn len(&self) -> usize {
        self.nulls.len()
    }

    pub fn push(&mut self, zone: Zone<B>) {
        self.max.push(zone.max);
        self.min.push(zone.min);
        self.nulls.push(Some(zone.nulls));
    }

    /// The segment of the table. A column that is null everywhere is left out.
    pub fn table(&self) -> Vec<u8> {
        let columns = [cells(&self.max), cells(&self.min), cells(&self.nulls)];
        let columns: Vec<Vec<u8>> = columns.into_iter().flatten().collect();
        segment::of_struct(&columns, self.len() as u64)
    }
}

/// The greatest and the least number, in four lanes that don't wait for each other. There is a number.
pub fn bounds_of<T: Copy + Ord>(numbers: &[T]) -> (T, T) {
    let (fours, rest) = numbers.as_chunks::<4>();
    let mut most = [numbers[0]; 4];
    let mut least = most;
    for four in fours {
        for lane in 0..4 {
            most[lane] = most[lane].max(four[lane]);
            least[lane] = least[lane].min(four[lane]);
        }
    }
    let max = most.iter().chain(rest).fold(numbers[0], |a, b| a.max(*b));
    let min = least.iter().chain(rest).fold(numbers[0], |a, b| a.min(*b));
    (max, min)
}

/// Nullable cells; none where all are null.
fn cells<T: Cell>(values: &[Option<T>]) -> Option<Vec<u8>> {
    if values.iter().all(Option::is_none) {
        return None;
    }
    let mut out = Vec::new();
    for value in values {
        out.push(value.is_some() as u8);
        if let Some(value) = value {
            value.push_to(&mut out);
        }
    }
    Some(out)
}
