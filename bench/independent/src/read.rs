//! The reader of images, the picker, and the reader that holds the run and its place.

use std::ops::Range;

use crate::answer::{Answer, Code};
use crate::bytes::find_value;
use crate::content::{END, FORMER_VERSION, MARK, VERSION};
use crate::list::{List, STATEMENT};
use crate::order::Order;
use crate::types::Value;
use crate::LIMIT;

/// One item of an image: an element.
#[derive(Clone, PartialEq, Eq, Debug)]
pub struct Item {
    pub row: u8,
    /// Where its row byte stands in the run.
    pub at: usize,
    /// A leaf's value, and where in the run "the value bytes without row byte and length" stand.
    pub leaf: Option<(Value, Range<usize>)>,
}

/// The image at the beginning of a run.
#[derive(Clone, PartialEq, Eq, Debug)]
pub struct Image {
    pub version: u16,
    pub list: &'static List,
    pub items: Vec<Item>,
    pub length: usize,
}

/// "Reader, over a run of bytes: it gives the length of the first image."
pub fn read(run: &[u8]) -> Answer {
    match first_image(run) {
        Ok(image) => Answer::new(Code::Accepted, 0, image.length),
        Err(refused) => refused,
    }
}

/// The first image of a run, item by item. "Within the limit, bytes after the first image don't matter."
pub fn first_image(run: &[u8]) -> Result<Image, Answer> {
    // "1 for a run over the same limit, place as in the table"
    if run.len() > LIMIT {
        return Err(Answer::new(Code::TooLong, 0, LIMIT));
    }
    let (version, list, start) = front(run)?;
    let Taken { items, at, ended } = take_items(list, run, start);
    match ended {
        true => Ok(Image { version, list, items, length: at + 1 }),
        // "17 .. place 5 plus the bytes of the most whole items that begin some image", and "item places in version 2 count from 6"
        false => Err(Answer::new(Code::NoWholeImage, 0, at)),
    }
}

/// Section 10 of document 02: "The reader returns the number of items it took, the closing 0 among them ..; on code 17 it is the number of
/// whole items before the place, on other refusals 0."
pub fn reading(run: &[u8]) -> (Answer, usize) {
    let answer = read(run);
    let count = match (answer.code, front(run)) {
        (Code::Accepted, Ok((_, list, start))) => take_items(list, run, start).items.len() + 1,
        (Code::NoWholeImage, Ok((_, list, start))) => take_items(list, run, start).items.len(),
        // No item stands before a kind byte that is missing or bad.
        _ => 0,
    };
    (answer, count)
}

/// What is taken of a run from where its items begin.
struct Taken {
    items: Vec<Item>,
    /// Where the items end.
    at: usize,
    /// Whether the closing 0 stands there, and may.
    ended: bool,
}

/// "the most whole items that begin some image"
fn take_items(list: &'static List, run: &[u8], start: usize) -> Taken {
    let mut items = Vec::new();
    let mut at = start;
    let mut order = Order::start(list);
    loop {
        if run.get(at) == Some(&END) && order.may_end() {
            return Taken { items, at, ended: true };
        }
        let Some((item, length)) = next_item(list, run, at, &mut order) else {
            return Taken { items, at, ended: false };
        };
        items.push(item);
        at += length;
    }
}

/// What stands before the items of a run's first image: its version, and the list that its items go by; and where they begin.
fn front(run: &[u8]) -> Result<(u16, &'static List, usize), Answer> {
    // "15 fewer than five bytes or no `KTO`, place 0"
    let version = match run {
        [a, b, c, high, low, ..] if [*a, *b, *c] == *MARK => u16::from_be_bytes([*high, *low]),
        _ => return Err(Answer::new(Code::NotAnImage, 0, 0)),
    };
    match version {
        // "The reader takes versions 1 and 2": version 1 has no kind byte, and is document 01's message.
        FORMER_VERSION => Ok((version, &STATEMENT, 5)),
        // "a missing or bad kind byte is 17, place 5"
        VERSION => match run.get(5).and_then(|byte| List::of_byte(*byte)) {
            Some(list) => Ok((version, list, 6)),
            None => Err(Answer::new(Code::NoWholeImage, 0, 5)),
        },
        // "16 now means version neither 1 nor 2"
        _ => Err(Answer::new(Code::WrongVersion, 0, 3)),
    }
}

/// The whole item at a place, if it can follow the items before it, and its length.
fn next_item(list: &List, run: &[u8], at: usize, order: &mut Order) -> Option<(Item, usize)> {
    let row = list.find(*run.get(at)?)?;
    let values = at + 1;
    let (leaf, length) = if row.kind.is_leaf() {
        let found = find_value(row.kind, &run[values..])?;
        let part = values + found.part.start..values + found.part.end;
        (Some((found.value, part)), 1 + found.length)
    } else {
        (None, 1)
    };
    order.take(row).then_some((Item { row: row.number, at, leaf }, length))
}

/// "A second call picks a value: the n-th (from 0) leaf of a given row. It hands back that part of the lent image itself."
///
/// "code 18 (after 1 and 15 to 17) if the row is no leaf or has no such item, row 0 and place 0. Acceptance is code 0, the
/// asked row, and the place where the part begins; every refusal hands back an empty part."
pub fn pick(run: &[u8], row: u64, n: u64) -> (Answer, &[u8]) {
    let image = match first_image(run) {
        Ok(image) => image,
        Err(refused) => return (refused, &[]),
    };
    let leaves = image.items.iter().filter(|item| u64::from(item.row) == row).filter_map(|item| item.leaf.as_ref());
    match usize::try_from(n).ok().and_then(|n| leaves.map(|(_, part)| part).nth(n)) {
        Some(part) => (Answer::new(Code::Accepted, row as u8, part.start), &run[part.clone()]),
        None => (Answer::new(Code::NoSuchItem, 0, 0), &[]),
    }
}

/// "a reader that holds the run and its place, thin over these calls: it answers as they do on the rest of the run,
/// places counted from the start of that rest". "A held place past the run's end answers 15": its rest is empty.
#[derive(Clone, Debug)]
pub struct Held<'a> {
    run: &'a [u8],
    place: usize,
}

impl<'a> Held<'a> {
    pub fn new(run: &'a [u8], place: usize) -> Held<'a> {
        Held { run, place }
    }

    pub fn place(&self) -> usize {
        self.place
    }

    /// "moves on by the image's length when accepting an image, and stays when .. refusing"
    pub fn read(&mut self) -> Answer {
        let answer = read(self.rest());
        if answer.is_accepted() {
            self.place += answer.place;
        }
        answer
    }

    /// "stays when picking"
    pub fn pick(&self, row: u64, n: u64) -> (Answer, &'a [u8]) {
        pick(self.rest(), row, n)
    }

    fn rest(&self) -> &'a [u8] {
        self.run.get(self.place..).unwrap_or(&[])
    }
}
