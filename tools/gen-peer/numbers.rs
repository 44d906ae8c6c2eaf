//! Columns of `i64`, of which the nullable ones have a flag a row.

use crate::column::{Column, Dictionary};
use crate::segment::TREE_ROOM;
use crate::slots::{Key, MULTIPLIER, Slots, fill_known};
use crate::zones::{Zone, bounds_of};
use std::ops::Range;

/// A null row has the value 0. What isn't nullable has no flags.
pub struct Numbers<const NULLABLE: bool> {
    pub values: Vec<i64>,
    pub valid: Vec<bool>,
}

impl<const NULLABLE: bool> Numbers<NULLABLE> {
    fn row(&self, row: usize) -> Option<i64> {
        let valid = !NULLABLE || self.valid[row];
        valid.then_some(self.values[row])
    }

    fn push(&mut self, row: Option<i64>) {
        self.values.push(row.unwrap_or(0));
        if NULLABLE {
            self.valid.push(row.is_some());
        }
    }
}

impl<const NULLABLE: bool> Column for Numbers<NULLABLE> {
    type Bound = i64;
    type Dictionary = NumberDictionary<NULLABLE>;

    fn with_capacity(rows: usize) -> Self {
        Numbers {
            values: Vec::with_capacity(rows),
            valid: Vec::with_capacity(if NULLABLE { rows } else { 0 }),
        }
    }

    fn len(&self) -> usize {
        self.values.len()
    }

    fn clear(&mut self) {
        self.values.clear();
        self.valid.clear();
    }

    fn append(&mut self, other: &Self, rows: Range<usize>) {
        if NULLABLE {
            self.valid.extend_from_slice(&other.valid[rows.clone()]);
        }
        self.values.extend_from_slice(&other.values[rows]);
    }

    fn zone(&self) -> Zone<i64> {
        let (max, min, nulls) = if NULLABLE {
            nullable_bounds(&self.values, &self.valid)
        } else {
            let (max, min) = bounds_of(&self.values);
            (max, min, 0)
        };
        let some = nulls < self.len();
        Zone {
            max: some.then_some(max),
            min: some.then_some(min),
            nulls: nulls as u64,
        }
    }

    fn is_alike(&self) -> bool {
        let alike = self.values.iter().all(|value| *value == self.values[0]);
        alike && self.valid.iter().all(|valid| *valid == self.valid[0])
    }

    fn ascends(&self) -> bool {
        !NULLABLE && self.values.is_sorted_by(|a, b| a < b)
    }

    fn size(&self, rows: usize) -> u64 {
        let width = if NULLABLE { 9 } else { 8 };
        width * rows as u64
    }

    fn cells(&self, rows: usize) -> Vec<u8> {
        let values = &self.values[..rows];
        if NULLABLE {
            nullable_cells(values, &self.valid[..rows])
        } else {
            fixed_cells(values.iter().map(|value| value.to_le_bytes()))
        }
    }

    fn read(cells: &[u8], rows: usize) -> Option<Self> {
        if NULLABLE {
            return read_nullable(cells, rows);
        }
        let (values, rest) = cells.as_chunks::<8>();
        let values: Vec<i64> = values
            .iter()
            .map(|cell| i64::from_le_bytes(*cell))
            .collect();
        (rest.is_empty() && values.len() == rows).then_some(Numbers {
            values,
            valid: Vec::new(),
        })
    }

    fn take(&self, codes: &[u16]) -> Self {
        let values = codes
            .iter()
            .map(|code| self.values[usize::from(*code)])
            .collect();
        let valid = if NULLABLE {
            codes
                .iter()
                .map(|code| self.valid[usize::from(*code)])
                .collect()
        } else {
            Vec::new()
        };
        Numbers { values, valid }
    }
}

/// Greatest and least of the valid values, and how many aren't.
fn nullable_bounds(values: &[i64], valid: &[bool]) -> (i64, i64, usize) {
    let mut max = i64::MIN;
    let mut min = i64::MAX;
    let mut some = 0;
    for (value, valid) in values.iter().zip(valid) {
        max = max.max(if *valid { *value } else { i64::MIN });
        min = min.min(if *valid { *value } else { i64::MAX });
        some += usize::from(*valid);
    }
    (max, min, values.len() - some)
}

/// Cells of one width behind each other, with room for the tree. Writes each byte once.
pub fn fixed_cells<const WIDTH: usize>(
    cells: impl ExactSizeIterator<Item = [u8; WIDTH]>,
) -> Vec<u8> {
    let mut out = Vec::with_capacity(cells.len() + TREE_ROOM.div_ceil(WIDTH));
    out.extend(cells);
    out.into_flattened()
}

fn nullable_cells(values: &[i64], valid: &[bool]) -> Vec<u8> {
    let mut out = Vec::with_capacity(9 * values.len() + TREE_ROOM);
    for (value, valid) in values.iter().zip(valid) {
        if *valid {
            let [a, b, c, d, e, f, g, h] = value.to_le_bytes();
            out.extend_from_slice(&[1, a, b, c, d, e, f, g, h]);
        } else {
            out.push(0);
        }
    }
    out
}

fn read_nullable<const NULLABLE: bool>(cells: &[u8], rows: usize) -> Option<Numbers<NULLABLE>> {
    let mut column = Numbers::with_capacity(rows.min(cells.len()));
    let mut rest = cells;
    for _ in 0..rows {
        let (flag, after) = rest.split_first()?;
        rest = after;
        match flag {
            0 => column.push(None),
            1 => {
                let (value, after) = rest.split_first_chunk()?;
                rest = after;
                column.push(Some(i64::from_le_bytes(*value)));
            }
            _ => return None,
        }
    }
    rest.is_empty().then_some(column)
}

impl Key for i64 {
    fn hash(self) -> u64 {
        (self as u64).wrapping_mul(MULTIPLIER)
    }
}

/// The distinct numbers, and the code of null where there is one.
pub struct NumberDictionary<const NULLABLE: bool> {
    slots: Slots<i64>,
    null: Option<u16>,
    values: Numbers<NULLABLE>,
}

impl<const NULLABLE: bool> NumberDictionary<NULLABLE> {
    /// The code of the row, where it is known.
    #[inline]
    fn known(&self, row: Option<i64>) -> Option<u16> {
        match row {
            Some(value) => self.slots.find(value).ok(),
            None => self.null,
        }
    }

    /// The code of a row that is new, where there is room.
    fn added(&mut self, row: Option<i64>, most: usize) -> Option<u16> {
        let code = self.add(row, most)?;
        match row {
            Some(value) => {
                if let Err(at) = self.slots.find(value) {
                    self.slots.insert(at, value, code);
                }
            }
            None => self.null = Some(code),
        }
        Some(code)
    }

    fn add(&mut self, row: Option<i64>, most: usize) -> Option<u16> {
        let code = self.values.len();
        if code == most {
            return None;
        }
        self.values.push(row);
        Some(code as u16)
    }
}

impl<const NULLABLE: bool> Dictionary<Numbers<NULLABLE>> for NumberDictionary<NULLABLE> {
    fn new() -> Self {
        NumberDictionary {
            slots: Slots::new(),
            null: None,
            values: Numbers::with_capacity(0),
        }
    }

    fn encode(&mut self, block: &Numbers<NULLABLE>, most: usize) -> Option<Vec<u16>> {
        let mut codes = vec![0; block.len()];
        let mut row = 0;
        loop {
            let rest = &mut codes[row..];
            let values = &block.values[row..];
            row += if NULLABLE {
                let rows = values.iter().zip(&block.valid[row..]);
                let known = |(value, valid): (&i64, &bool)| self.known(valid.then_some(*value));
                fill_known(rest, rows.map(known))
            } else {
                fill_known(rest, values.iter().map(|value| self.known(Some(*value))))
            };
            if row == codes.len() {
                return Some(codes);
            }
            codes[row] = self.added(block.row(row), most)?;
            row += 1;
        }
    }

    fn into_values(self) -> Numbers<NULLABLE> {
        self.values
    }
}
