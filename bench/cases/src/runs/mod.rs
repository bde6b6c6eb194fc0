//! Runs of images: whole ones, joined ones, and damage to their items and bytes.

mod chosen;
mod damage;

pub use chosen::{counts, fixed_set, reads};
pub use damage::damaged;

use independent::content::{value_bytes, END};
use independent::list::{List, REPORT, STATEMENT};
use independent::read::first_image;
use independent::types::Value;

use crate::message::chosen::{EVERY_ROW, REPORT_EVERY_ROW};

/// What stands before the items of an image: `KTO`, the version, and in version 2 the kind byte.
pub const FORMER_FRONT: &[u8] = b"KTO\x00\x01";
pub const STATEMENT_FRONT: &[u8] = b"KTO\x00\x02\x01";
pub const REPORT_FRONT: &[u8] = b"KTO\x00\x02\x02";

/// Each version and kind, with the list that its items go by.
pub const FRONTS: [(&[u8], &List); 3] =
    [(FORMER_FRONT, &STATEMENT), (STATEMENT_FRONT, &STATEMENT), (REPORT_FRONT, &REPORT)];

/// The image of an accepted file.
pub fn image_of(file: &[u8]) -> Vec<u8> {
    independent::content::image(&independent::check::message(file).expect("a valid message"))
}

/// An image's items, each with its row byte.
pub fn take_apart(image: &[u8]) -> Vec<Vec<u8>> {
    let whole = first_image(image).expect("an image");
    let starts = whole.items.iter().map(|item| item.at);
    let ends = whole.items.iter().skip(1).map(|item| item.at).chain([whole.length - 1]);
    starts.zip(ends).map(|(start, end)| image[start..end].to_vec()).collect()
}

/// What stands before an image's items.
pub fn front_of(image: &[u8]) -> &[u8] {
    &image[..first_image(image).expect("an image").items[0].at]
}

/// Front, items, closing 0.
pub fn put_together(front: &[u8], items: &[impl AsRef<[u8]>]) -> Vec<u8> {
    let items = items.iter().flat_map(AsRef::as_ref);
    front.iter().chain(items).chain(&[END]).copied().collect()
}

/// The image with another front.
pub fn with_front(front: &[u8], image: &[u8]) -> Vec<u8> {
    put_together(front, &take_apart(image))
}

/// A statement's image in version 1, as it was written before there were kinds.
pub fn former(image: &[u8]) -> Vec<u8> {
    assert!(image.starts_with(STATEMENT_FRONT), "a statement");
    with_front(FORMER_FRONT, image)
}

/// Where an old transaction code stands.
#[derive(Clone, Copy, PartialEq, Eq, Debug)]
pub enum Old {
    /// In place of the present one.
    Alone,
    /// After it.
    Beside,
}

/// The image of a file with an old transaction code in its entries, as no file may have one any more: for each entry, by its number,
/// where it stands and what it says.
pub fn with_old_codes(image: &[u8], mut code: impl FnMut(usize) -> Option<(Old, String)>) -> Vec<u8> {
    let mut items = take_apart(image);
    let groups: Vec<usize> = (0..items.len()).filter(|at| items[*at][0] == TRANSACTION_CODE).collect();
    let codes: Vec<_> = (0..groups.len()).map(&mut code).collect();
    // From the last to the first, so that the places before stay.
    for (group, (old, text)) in groups.into_iter().zip(codes).rev().filter_map(|(group, code)| Some((group, code?))) {
        let after = group + 1 + PRESENT_CODE_ITEMS;
        let from = if old == Old::Alone { group + 1 } else { after };
        let value = value_bytes(&Value::Text(text));
        items.splice(from..after, [vec![40], [&[41], &value[..]].concat()]);
    }
    put_together(front_of(image), &items)
}

/// The row of BkTxCd, and how many items the present code in it has: Domn and what stands in it.
const TRANSACTION_CODE: u8 = 34;
const PRESENT_CODE_ITEMS: usize = 5;

/// The image with every row of a list: that of the message with every row of files, and old transaction codes. The first stands beside
/// the present one, any other alone.
pub fn every_row(list: &List) -> Vec<u8> {
    let message = if *list == REPORT { REPORT_EVERY_ROW } else { EVERY_ROW };
    with_old_codes(&image_of(message.as_bytes()), |number| match number {
        0 => Some((Old::Beside, "X7".to_string())),
        _ => Some((Old::Alone, "X".to_string())),
    })
}

/// An item for each of these rows, as the image of a list with every row has it first.
pub fn items_of(list: &List, rows: &[u8]) -> Vec<Vec<u8>> {
    let every_row = take_apart(&every_row(list));
    rows.iter().map(|row| every_row.iter().find(|item| item[0] == *row).expect("every row").clone()).collect()
}

/// The image with so many microseconds in its date-time, which it has one of.
pub fn with_microseconds(image: &[u8], microseconds: u32) -> Vec<u8> {
    let mut items = take_apart(image);
    let time = items.iter_mut().find(|item| item[0] == DATE_TIME).expect("every message has one");
    time[8..12].copy_from_slice(&microseconds.to_be_bytes());
    put_together(front_of(image), &items)
}

/// The row of CreDtTm, whose value begins with a day and a time of day: seven bytes.
const DATE_TIME: u8 = 5;

/// Bytes with blanks behind them up to a length.
pub fn filled(mut bytes: Vec<u8>, length: usize) -> Vec<u8> {
    bytes.resize(length, b' ');
    bytes
}
