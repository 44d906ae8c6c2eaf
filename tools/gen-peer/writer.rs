//! Columns as they are written: blocks, their records, codes or images, and segments that are held back.

use crate::clock::{Clock, Part};
use crate::column::{Column, Dictionary};
use crate::numbers::fixed_cells;
use crate::segment::{self, CONSTANT, PLAIN};
use crate::zones::Zones;
use std::collections::VecDeque;
use std::mem;

/// A block, which is a zone, has so many rows.
const BLOCK_ROWS: usize = 8192;

/// So many bytes are held back.
const BUFFER: u64 = 1 << 20;

/// A dictionary has at most so many values.
const MOST_VALUES: usize = 65_535;

/// The segments in order.
pub type Sink = Vec<Vec<u8>>;

/// A segment's number and rows.
pub struct Flat {
    pub segment: usize,
    pub rows: u64,
}

/// How a column's rows are read.
pub enum Data {
    Chunked(Vec<Flat>),
    Dictionary { values: Flat, codes: Vec<Flat> },
}

fn append(sink: &mut Sink, segment: Vec<u8>, rows: u64) -> Flat {
    sink.push(segment);
    Flat {
        segment: sink.len() - 1,
        rows,
    }
}

struct Kept {
    segment: Vec<u8>,
    rows: u64,
    size: u64,
}

/// Segments that are held back until their chunks take twice the buffer's size.
struct Buffer {
    kept: VecDeque<Kept>,
    total: u64,
    sent: Vec<Flat>,
}

impl Buffer {
    fn push(&mut self, kept: Kept, sink: &mut Sink) {
        self.total += kept.size;
        self.kept.push_back(kept);
        if self.total >= 2 * BUFFER {
            self.flush(BUFFER, sink);
        }
    }

    /// Sends from the front until at most so many bytes are held.
    fn flush(&mut self, most: u64, sink: &mut Sink) {
        while self.total > most
            && let Some(first) = self.kept.pop_front()
        {
            self.total -= first.size;
            self.sent.push(append(sink, first.segment, first.rows));
        }
    }

    fn finish(mut self, sink: &mut Sink) -> Vec<Flat> {
        self.flush(0, sink);
        self.sent
    }
}

/// How blocks leave, which the first one decides.
enum Coding<D> {
    Open,
    Images,
    Codes(D),
}

enum Image {
    Constant,
    Dictionary,
    Plain,
}

/// A column that is being written.
pub struct ColumnWriter<C: Column> {
    block: C,
    zones: Zones<C::Bound>,
    coding: Coding<C::Dictionary>,
    buffer: Buffer,
}

impl<C: Column> ColumnWriter<C> {
    pub fn new() -> Self {
        ColumnWriter {
            block: C::with_capacity(BLOCK_ROWS),
            zones: Zones::new(),
            coding: Coding::Open,
            buffer: Buffer {
                kept: VecDeque::new(),
                total: 0,
                sent: Vec::new(),
            },
        }
    }

    /// Takes a batch, and sends what leaves with it.
    pub fn push(&mut self, batch: &C, sink: &mut Sink, clock: &mut Clock) {
        let mut from = 0;
        while from < batch.len() {
            let to = batch.len().min(from + BLOCK_ROWS - self.block.len());
            clock.time(Part::Regrouping, || self.block.append(batch, from..to));
            from = to;
            if self.block.len() == BLOCK_ROWS {
                self.end_block(sink, clock);
            }
        }
    }

    /// Sends all rows, and then the values of a dictionary.
    pub fn finish(mut self, sink: &mut Sink, clock: &mut Clock) -> (Data, Zones<C::Bound>) {
        if self.block.len() > 0 {
            self.end_block(sink, clock);
        }
        let chunks = clock.time(Part::Sink, || self.buffer.finish(sink));
        let Coding::Codes(dictionary) = self.coding else {
            return (Data::Chunked(chunks), self.zones);
        };
        let values = dictionary.into_values();
        let rows = values.len();
        let cells = clock.time(Part::Encoding, || values.cells(rows));
        let values = append(
            sink,
            segment::of_cells(PLAIN, cells, rows as u64),
            rows as u64,
        );
        (
            Data::Dictionary {
                values,
                codes: chunks,
            },
            self.zones,
        )
    }

    fn end_block(&mut self, sink: &mut Sink, clock: &mut Clock) {
        let zone = clock.time(Part::Statistics, || {
            self.block.seal();
            self.block.zone()
        });
        self.zones.push(zone);
        let kept = match mem::replace(&mut self.coding, Coding::Images) {
            Coding::Open => self.first(clock),
            Coding::Images => self.image(clock),
            Coding::Codes(dictionary) => self.codes(dictionary, clock),
        };
        self.block.clear();
        clock.time(Part::Sink, || self.buffer.push(kept, sink));
    }

    /// The first block is codes where its image is a dictionary.
    fn first(&mut self, clock: &mut Clock) -> Kept {
        match clock.time(Part::Hash, || image_of(&self.block)) {
            Image::Dictionary => self.codes(C::Dictionary::new(), clock),
            image => self.stored(image, clock),
        }
    }

    fn image(&mut self, clock: &mut Clock) -> Kept {
        let image = clock.time(Part::Hash, || image_of(&self.block));
        self.stored(image, clock)
    }

    /// The block in this form.
    fn stored(&self, image: Image, clock: &mut Clock) -> Kept {
        let rows = self.block.len();
        let (encoding, cells) = match image {
            Image::Constant => (CONSTANT, 1),
            Image::Plain => (PLAIN, rows),
            Image::Dictionary => unreachable!("no later block of this table has few values"),
        };
        let segment = clock.time(Part::Encoding, || {
            segment::of_cells(encoding, self.block.cells(cells), rows as u64)
        });
        Kept {
            segment,
            rows: rows as u64,
            size: self.block.size(cells),
        }
    }

    fn codes(&mut self, mut dictionary: C::Dictionary, clock: &mut Clock) -> Kept {
        let codes = clock.time(Part::Hash, || dictionary.encode(&self.block, MOST_VALUES));
        let codes = codes.expect("the values of this table are one run");
        self.coding = Coding::Codes(dictionary);
        let rows = codes.len() as u64;
        let segment = clock.time(Part::Encoding, || {
            let cells = fixed_cells(codes.iter().map(|code| code.to_le_bytes()));
            segment::of_cells(PLAIN, cells, rows)
        });
        Kept {
            segment,
            rows,
            size: 2 * rows,
        }
    }
}

/// What the compressor makes of a block: a dictionary where at most half of the rows are distinct.
fn image_of<C: Column>(block: &C) -> Image {
    if block.is_alike() {
        Image::Constant
    } else if !block.ascends()
        && C::Dictionary::new()
            .encode(block, block.len() / 2)
            .is_some()
    {
        Image::Dictionary
    } else {
        Image::Plain
    }
}
