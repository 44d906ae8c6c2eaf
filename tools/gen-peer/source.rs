//! The generated table, a thousand rows at a time.

use crate::numbers::Numbers;
use crate::texts::{Piece, SPARE, Texts, of_pieces};
use std::array;
use std::ops::Range;

const BATCH_ROWS: u32 = 1000;

const CITIES: u32 = 23;

/// Rows of the table by columns.
pub struct Batch {
    pub ids: Numbers<false>,
    pub cities: Texts,
    pub amounts: Numbers<true>,
}

/// Makes each batch as it is asked for.
pub struct Source {
    next: u32,
    end: u32,
    names: [Piece; CITIES as usize],
}

impl Source {
    pub fn new(rows: u32) -> Source {
        Source {
            next: 0,
            end: rows,
            names: array::from_fn(name),
        }
    }

    pub fn is_done(&self) -> bool {
        self.next == self.end
    }

    pub fn next(&mut self) -> Option<Batch> {
        let rows = self.next..self.next + BATCH_ROWS.min(self.end - self.next);
        if rows.is_empty() {
            return None;
        }
        self.next = rows.end;
        Some(Batch {
            ids: Numbers {
                values: rows.clone().map(i64::from).collect(),
                valid: Vec::new(),
            },
            cities: of_pieces(&self.names, rows.clone().map(|row| (row % CITIES) as usize)),
            amounts: amounts(rows),
        })
    }
}

fn name(city: usize) -> Piece {
    let text = format!("city-{city}");
    let mut bytes = [0; SPARE];
    bytes[..text.len()].copy_from_slice(text.as_bytes());
    Piece {
        bytes,
        len: text.len() as u32,
    }
}

/// Each amount is 37 more than the one before, modulo 1,000.
fn amounts(rows: Range<u32>) -> Numbers<true> {
    let mut valid = vec![true; rows.len()];
    let mut values = vec![0; rows.len()];
    let mut amount = i64::from(rows.start) * 37 % 1000;
    for value in &mut values {
        *value = amount;
        amount += 37;
        if amount >= 1000 {
            amount -= 1000;
        }
    }
    for row in (9 - rows.start as usize % 10..rows.len()).step_by(10) {
        valid[row] = false;
        values[row] = 0;
    }
    Numbers { values, valid }
}
