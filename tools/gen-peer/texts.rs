//! Columns of texts that aren't null.

use crate::column::{Column, Dictionary};
use crate::segment::TREE_ROOM;
use crate::slots::{Key, MULTIPLIER, Slots, fill_known};
use crate::zones::{Zone, bounds_of};
use std::collections::HashMap;
use std::ops::Range;

/// So many bytes stand behind the last text, so that a short one is copied or loaded whole.
pub const SPARE: usize = 16;

/// A bound is cut to so many bytes.
const BOUND: usize = 64;

/// The values of a run cost at most so many bytes.
const MOST_COST: usize = 1 << 20;

/// A text stands between two offsets.
pub struct Texts {
    offsets: Vec<u32>,
    bytes: Vec<u8>,
    /// A word a row, of a block that is sealed.
    words: Vec<u64>,
}

impl Texts {
    fn end(&self) -> usize {
        self.offsets[self.len()] as usize
    }

    fn text(&self, row: usize) -> &[u8] {
        &self.bytes[self.offsets[row] as usize..self.offsets[row + 1] as usize]
    }

    fn push(&mut self, text: &[u8]) {
        self.bytes.truncate(self.end());
        self.bytes.extend_from_slice(text);
        self.offsets.push(self.bytes.len() as u32);
        self.bytes.extend_from_slice(&[0; SPARE]);
    }

    /// Where each text begins, and its length.
    fn spans(&self) -> impl Iterator<Item = (usize, usize)> {
        self.offsets
            .windows(2)
            .map(|pair| (pair[0] as usize, (pair[1] - pair[0]) as usize))
    }

    /// The texts in pieces of fixed size; none where one of them is longer.
    fn pieces(&self) -> Option<Vec<Piece>> {
        let piece = |(from, len)| {
            let bytes = *self.bytes[from..].first_chunk()?;
            (len <= SPARE).then_some(Piece {
                bytes,
                len: len as u32,
            })
        };
        self.spans().map(piece).collect()
    }
}

/// The word of a text of eight bytes or more, above those of others.
const LONG: u64 = u64::MAX;

/// A text of fewer than eight bytes as a number: its bytes, zeros behind them, its length. Words order as the texts do.
fn word(first: u64, len: usize) -> u64 {
    const MASKS: [u64; 8] = [
        0,
        !0 << 56,
        !0 << 48,
        !0 << 40,
        !0 << 32,
        !0 << 24,
        !0 << 16,
        !0 << 8,
    ];
    MASKS
        .get(len)
        .map_or(LONG, |mask| first & mask | len as u64)
}

/// A text of at most so many bytes, with what is behind it.
#[derive(Clone, Copy)]
pub struct Piece {
    pub bytes: [u8; SPARE],
    pub len: u32,
}

/// Texts that are pieces, by their places. Each is copied whole, and the next one goes over what is behind it.
pub fn of_pieces(pieces: &[Piece], places: impl ExactSizeIterator<Item = usize>) -> Texts {
    let longest = pieces
        .iter()
        .map(|piece| piece.len as usize)
        .max()
        .unwrap_or(0);
    let mut offsets = vec![0; places.len() + 1];
    let mut bytes = vec![0; longest * places.len() + SPARE];
    let mut end = 0;
    for (offset, place) in offsets[1..].iter_mut().zip(places) {
        let piece = &pieces[place];
        bytes[end..end + SPARE].copy_from_slice(&piece.bytes);
        end += piece.len as usize;
        *offset = end as u32;
    }
    bytes.truncate(end + SPARE);
    Texts {
        offsets,
        bytes,
        words: Vec::new(),
    }
}

impl Column for Texts {
    type Bound = Vec<u8>;
    type Dictionary = TextDictionary;

    fn with_capacity(rows: usize) -> Self {
        let mut offsets = Vec::with_capacity(rows + 1);
        offsets.push(0);
        let mut bytes = Vec::with_capacity(8 * rows + SPARE);
        bytes.extend_from_slice(&[0; SPARE]);
        Texts {
            offsets,
            bytes,
            words: Vec::new(),
        }
    }

    fn len(&self) -> usize {
        self.offsets.len() - 1
    }

    fn clear(&mut self) {
        self.offsets.truncate(1);
        self.bytes.truncate(SPARE);
        self.words.clear();
    }

    fn append(&mut self, other: &Self, rows: Range<usize>) {
        let end = self.end();
        let from = other.offsets[rows.start];
        let to = other.offsets[rows.end];
        let moved = (end as u32).wrapping_sub(from);
        let offsets = &other.offsets[rows.start + 1..=rows.end];
        self.offsets
            .extend(offsets.iter().map(|offset| offset.wrapping_add(moved)));
        self.bytes.truncate(end);
        self.bytes
            .extend_from_slice(&other.bytes[from as usize..to as usize + SPARE]);
    }

    fn seal(&mut self) {
        let bytes = self.bytes.as_slice();
        let words = self.offsets.windows(2).map(|pair| {
            let (from, len) = (pair[0] as usize, (pair[1] - pair[0]) as usize);
            let first = bytes[from..from + 8]
                .first_chunk()
                .expect("these are eight");
            word(u64::from_be_bytes(*first), len)
        });
        self.words.extend(words);
    }

    fn zone(&self) -> Zone<Vec<u8>> {
        if self.len() == 0 {
            return Zone {
                max: None,
                min: None,
                nulls: 0,
            };
        }
        let (max, min) = bounds(self);
        Zone {
            max: Some(max),
            min: Some(min),
            nulls: 0,
        }
    }

    fn is_alike(&self) -> bool {
        (1..self.len()).all(|row| self.text(row) == self.text(0))
    }

    fn ascends(&self) -> bool {
        (1..self.len()).all(|row| self.text(row - 1) < self.text(row))
    }

    fn size(&self, rows: usize) -> u64 {
        16 * rows as u64 + u64::from(self.offsets[rows])
    }

    fn cells(&self, rows: usize) -> Vec<u8> {
        let mut out = Vec::with_capacity(8 * rows + self.offsets[rows] as usize + TREE_ROOM);
        for row in 0..rows {
            let text = self.text(row);
            out.extend_from_slice(&(text.len() as u64).to_le_bytes());
            out.extend_from_slice(text);
        }
        out
    }

    fn read(cells: &[u8], rows: usize) -> Option<Self> {
        let mut column = Texts::with_capacity(rows.min(cells.len()));
        let mut rest = cells;
        for _ in 0..rows {
            let (len, after) = rest.split_first_chunk()?;
            let len = usize::try_from(u64::from_le_bytes(*len)).ok()?;
            let (text, after) = after.split_at_checked(len)?;
            column.push(str::from_utf8(text).ok()?.as_bytes());
            rest = after;
        }
        rest.is_empty().then_some(column)
    }

    fn take(&self, codes: &[u16]) -> Self {
        if let Some(pieces) = self.pieces() {
            return of_pieces(&pieces, codes.iter().map(|code| usize::from(*code)));
        }
        let mut column = Texts::with_capacity(codes.len());
        for code in codes {
            column.push(self.text(usize::from(*code)));
        }
        column
    }
}

/// The greatest and the least text: by words, where all have one.
fn bounds(texts: &Texts) -> (Vec<u8>, Vec<u8>) {
    let (most, least) = bounds_of(&texts.words);
    if most == LONG {
        return long_bounds(texts);
    }
    let text = |word: u64| word.to_be_bytes()[..(word % 256) as usize].to_vec();
    (text(most), text(least))
}

fn long_bounds(texts: &Texts) -> (Vec<u8>, Vec<u8>) {
    let (mut max, mut min) = (texts.text(0), texts.text(0));
    for row in 1..texts.len() {
        max = max.max(texts.text(row));
        min = min.min(texts.text(row));
    }
    assert!(
        max.len() <= BOUND && min.len() <= BOUND,
        "no bound of this table is cut"
    );
    (max.to_vec(), min.to_vec())
}

impl Key for u64 {
    fn hash(self) -> u64 {
        (self ^ (self >> 32)).wrapping_mul(MULTIPLIER)
    }
}

/// The distinct texts: short ones are found by their words.
pub struct TextDictionary {
    short: Slots<u64>,
    long: HashMap<Vec<u8>, u16>,
    values: Texts,
    cost: usize,
}

impl TextDictionary {
    /// The code of a row that isn't found by its word yet.
    fn code(&mut self, word: u64, text: &[u8], most: usize) -> Option<u16> {
        if word == LONG {
            return self.long_code(text, most);
        }
        match self.short.find(word) {
            Ok(code) => Some(code),
            Err(at) => {
                let code = self.add(text, most)?;
                self.short.insert(at, word, code);
                Some(code)
            }
        }
    }

    fn long_code(&mut self, text: &[u8], most: usize) -> Option<u16> {
        if let Some(code) = self.long.get(text) {
            return Some(*code);
        }
        let code = self.add(text, most)?;
        self.long.insert(text.to_vec(), code);
        Some(code)
    }

    fn add(&mut self, text: &[u8], most: usize) -> Option<u16> {
        let code = self.values.len();
        self.cost += text.len() + 16;
        if code == most || self.cost > MOST_COST {
            return None;
        }
        self.values.push(text);
        Some(code as u16)
    }
}

impl Dictionary<Texts> for TextDictionary {
    fn new() -> Self {
        TextDictionary {
            short: Slots::new(),
            long: HashMap::new(),
            values: Texts::with_capacity(0),
            cost: 0,
        }
    }

    fn encode(&mut self, block: &Texts, most: usize) -> Option<Vec<u16>> {
        let mut codes = vec![0; block.len()];
        let mut row = 0;
        loop {
            let known = block.words[row..]
                .iter()
                .map(|word| self.short.find(*word).ok());
            row += fill_known(&mut codes[row..], known);
            if row == codes.len() {
                return Some(codes);
            }
            codes[row] = self.code(block.words[row], block.text(row), most)?;
            row += 1;
        }
    }

    fn into_values(self) -> Texts {
        self.values
    }
}
