//! What the generated table doesn't reach: long texts, rows that are all null, refused bytes.
//!
//!   rustc --edition 2024 --test tools/gen-peer/main.rs -o PATH && PATH

use crate::column::{Column, Dictionary};
use crate::numbers::{NumberDictionary, Numbers};
use crate::segment;
use crate::texts::{TextDictionary, Texts};

/// Texts of lengths from 0 to 40, some of them alike, each length with a zero byte and an accent among them.
fn texts() -> Vec<String> {
    let long = "é\0bcdefghijklmnopqrstuvwxyz0123456789abcdef";
    let fronts = (0..200)
        .map(|k| k * 7 % 40)
        .filter(|len| long.is_char_boundary(*len));
    fronts.map(|len| long[..len].to_string()).collect()
}

fn cells(texts: &[String]) -> Vec<u8> {
    let cell = |text: &String| [&(text.len() as u64).to_le_bytes(), text.as_bytes()].concat();
    texts.iter().flat_map(cell).collect()
}

/// A block of the texts, in two appends.
fn block(texts: &[String]) -> Texts {
    let whole = Texts::read(&cells(texts), texts.len()).expect("these are texts");
    let mut block = Texts::with_capacity(0);
    block.append(&whole, 0..texts.len() / 3);
    block.append(&whole, texts.len() / 3..texts.len());
    block.seal();
    block
}

#[test]
fn texts_of_all_lengths_are_coded_and_taken() {
    for texts in [
        texts(),
        texts().into_iter().filter(|text| text.len() < 8).collect(),
    ] {
        let block = block(&texts);
        let mut dictionary = TextDictionary::new();
        let codes = dictionary.encode(&block, 100).expect("there is room");
        let values = dictionary.into_values();
        let distinct: std::collections::HashSet<&String> = texts.iter().collect();
        assert_eq!(values.len(), distinct.len());
        assert_eq!(values.take(&codes).cells(texts.len()), cells(&texts));
        assert!(
            TextDictionary::new()
                .encode(&block, distinct.len() - 1)
                .is_none()
        );
    }
}

#[test]
fn bounds_of_texts_are_the_greatest_and_the_least() {
    for texts in [
        texts(),
        texts().into_iter().filter(|text| text.len() < 8).collect(),
    ] {
        let zone = block(&texts).zone();
        let bytes = || texts.iter().map(|text| text.as_bytes().to_vec());
        assert_eq!(
            (zone.max, zone.min, zone.nulls),
            (bytes().max(), bytes().min(), 0)
        );
    }
}

#[test]
fn nulls_have_a_code_and_no_bounds() {
    let values = vec![5, 0, -7, 0, 5, 0];
    let valid = vec![true, false, true, true, true, false];
    let column = Numbers::<true> { values, valid };
    let zone = column.zone();
    assert_eq!((zone.max, zone.min, zone.nulls), (Some(5), Some(-7), 2));
    let mut dictionary = NumberDictionary::new();
    let codes = dictionary.encode(&column, 4).expect("there is room");
    assert_eq!(codes, [0, 1, 2, 3, 0, 1]);
    let taken = dictionary.into_values().take(&codes);
    assert_eq!(taken.cells(6), column.cells(6));
    let read = Numbers::<true>::read(&column.cells(6), 6).expect("these are cells");
    assert_eq!((read.values, read.valid), (column.values, column.valid));
    let nulls = Numbers::<true> {
        values: vec![0; 3],
        valid: vec![false; 3],
    };
    let zone = nulls.zone();
    assert_eq!((zone.max, zone.min, zone.nulls), (None, None, 3));
    assert!(nulls.is_alike());
}

#[test]
fn bytes_that_are_no_segment_are_refused() {
    let whole = segment::of_cells(segment::PLAIN, vec![1, 2, 3], 3);
    assert!(segment::parse(&whole).is_some_and(|read| read.cells == [1, 2, 3] && read.rows == 3));
    assert!((0..whole.len()).all(|len| segment::parse(&whole[..len]).is_none()));
    assert!(Texts::read(&[1, 0, 0, 0, 0, 0, 0, 0, 255], 1).is_none());
    assert!(Numbers::<true>::read(&[2], 1).is_none());
    assert!(Numbers::<false>::read(&[0; 9], 1).is_none());
}
