//! The images of a run, one after the other, as the unit divides it.

use std::io;

use cases::feed::Case;
use independent::{Code, LIMIT};

use super::names::code_in_words;
use crate::unit::{Line, Unit};

/// An image in a run.
pub struct Part<'a> {
    /// From 1.
    pub number: usize,
    pub start: usize,
    pub bytes: &'a [u8],
    /// How many items the unit took, the closing 0 among them.
    pub items: u32,
}

/// Hands on each image of a run. Gives what the unit says to what is left, where that is no image, in words.
pub fn divide(unit: &Unit, run: &[u8], mut take: impl FnMut(Part) -> io::Result<()>) -> io::Result<Result<(), String>> {
    let mut start = 0;
    let mut number = 1;
    loop {
        // Bytes after the first image don't matter, so a long run is shown to the unit in parts.
        let rest = &run[start..(start + LIMIT).min(run.len())];
        let Line { code, place, bytes: count, .. } = unit.ask(&Case::count(rest))?;
        let items =
            u32::from_be_bytes(count.try_into().map_err(|_| io::Error::other("a count that is not four bytes"))?);
        if code != 0 {
            let (words, byte) = (code_in_words(code), start + place);
            let after = if code == Code::NoWholeImage.number() {
                format!(", after {}", in_items(items))
            } else {
                String::new()
            };
            return Ok(Err(format!("image {number} at byte {start}: refused {words}, byte {byte}{after}")));
        }
        let bytes = rest.get(..place).filter(|bytes| !bytes.is_empty());
        let bytes = bytes.ok_or_else(|| io::Error::other(format!("an image of {place} bytes at byte {start}")))?;
        take(Part { number, start, bytes, items })?;
        start += place;
        number += 1;
        if start == run.len() {
            return Ok(Ok(()));
        }
    }
}

/// `1 item`, `20 items`.
pub fn in_items(items: u32) -> String {
    match items {
        1 => "1 item".to_string(),
        many => format!("{many} items"),
    }
}
