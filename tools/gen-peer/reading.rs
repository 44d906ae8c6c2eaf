//! Rows as they are read back from segments.

use crate::clock::{Clock, Part};
use crate::column::Column;
use crate::segment::{self, CONSTANT, PLAIN};
use crate::writer::{Data, Flat, Sink};
use std::hint::black_box;

/// The rows of a column, each of which is read into typed values; none where a segment isn't what the layout says.
pub fn count<C: Column>(data: &Data, segments: &Sink, clock: &mut Clock) -> Option<u64> {
    match data {
        Data::Chunked(chunks) => chunks.iter().try_fold(0, |rows, flat| {
            let column: C = clock.time(Part::Reading, || rows_of(flat, segments))?;
            Some(rows + black_box(&column).len() as u64)
        }),
        Data::Dictionary { values, codes } => {
            let values: C = clock.time(Part::Reading, || rows_of(values, segments))?;
            codes.iter().try_fold(0, |rows, flat| {
                let codes = clock.time(Part::Reading, || codes_of(flat, values.len(), segments))?;
                let column = clock.time(Part::Applying, || values.take(&codes));
                Some(rows + black_box(&column).len() as u64)
            })
        }
    }
}

fn rows_of<C: Column>(flat: &Flat, segments: &Sink) -> Option<C> {
    let read = segment::parse(segments.get(flat.segment)?)?;
    let rows = usize::try_from(read.rows)
        .ok()
        .filter(|_| read.rows == flat.rows)?;
    match read.encoding {
        PLAIN => C::read(read.cells, rows),
        CONSTANT => Some(C::read(read.cells, 1)?.take(&vec![0; rows])),
        _ => None,
    }
}

/// Codes, all below the number of values.
fn codes_of(flat: &Flat, values: usize, segments: &Sink) -> Option<Vec<u16>> {
    let read = segment::parse(segments.get(flat.segment)?)?;
    let (cells, rest) = read.cells.as_chunks();
    let codes: Vec<u16> = cells.iter().map(|cell| u16::from_le_bytes(*cell)).collect();
    let most = codes.iter().fold(0, |most, code| most.max(*code));
    let whole = read.encoding == PLAIN && rest.is_empty();
    let counted = read.rows == flat.rows && codes.len() as u64 == flat.rows;
    (whole && counted && usize::from(most) < values).then_some(codes)
}
