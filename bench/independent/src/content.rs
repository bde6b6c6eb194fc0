//! "Content is the tree of rows with values", and its image.

use crate::list::List;
use crate::types::{Amount, Date, DateTime, Value};

#[derive(Clone, PartialEq, Eq, Debug)]
pub enum Content {
    Group { row: u8, children: Vec<Content> },
    Leaf { row: u8, value: Value },
}

impl Content {
    pub fn row(&self) -> u8 {
        match self {
            Content::Group { row, .. } | Content::Leaf { row, .. } => *row,
        }
    }
}

/// A message: its tree, "the kind being part of the content".
#[derive(Clone, PartialEq, Eq, Debug)]
pub struct Message {
    pub list: &'static List,
    pub root: Content,
}

/// "`KTO`": what every image begins with.
pub const MARK: &[u8; 3] = b"KTO";

/// "version 1 in 16 bits": such images are statements, without a kind byte, and are read only.
pub const FORMER_VERSION: u16 = 1;

/// "New images are version 2": "only 2 is written from now on".
pub const VERSION: u16 = 2;

/// "one byte 0": what every image ends with.
pub const END: u8 = 0;

/// "Image: `KTO`, version .. in 16 bits, one item per element in document order, one byte 0", and "after the version comes a kind
/// byte".
pub fn image(message: &Message) -> Vec<u8> {
    let mut image = [&MARK[..], &VERSION.to_be_bytes(), &[message.list.byte]].concat();
    write_items(&message.root, &mut image);
    image.push(END);
    image
}

/// "An item is the row byte and, for a leaf, its value."
fn write_items(content: &Content, image: &mut Vec<u8>) {
    image.push(content.row());
    match content {
        Content::Leaf { value, .. } => image.extend(value_bytes(value)),
        Content::Group { children, .. } => children.iter().for_each(|child| write_items(child, image)),
    }
}

/// A value as it stands in an image, without the row byte. "All numbers are big-endian."
pub fn value_bytes(value: &Value) -> Vec<u8> {
    match value {
        // "REF, TXT, IBAN, CCY: 16-bit byte length, UTF-8."
        Value::Text(text) => [&(text.len() as u16).to_be_bytes(), text.as_bytes()].concat(),
        // "ENUM: place in its list from 1."
        Value::Word(place) => vec![*place],
        // "BOOL: 1 or 0."
        Value::Bool(truth) => vec![u8::from(*truth)],
        // "NUM: 64 bits."
        Value::Num(number) => number.to_be_bytes().to_vec(),
        Value::Amt(amount) => amount_bytes(amount),
        Value::Date(date) => date_bytes(date),
        Value::Dtm(time) => date_time_bytes(time),
    }
}

/// "AMT: three currency letters, scale byte, coefficient in 64 bits."
fn amount_bytes(amount: &Amount) -> Vec<u8> {
    [&amount.currency[..], &[amount.scale], &amount.coefficient.to_be_bytes()].concat()
}

/// "DATE: 16-bit year, month, day."
fn date_bytes(date: &Date) -> Vec<u8> {
    [&date.year.to_be_bytes()[..], &[date.month, date.day]].concat()
}

/// "DTM: DATE, hour, minute, second, 32-bit microseconds, 16-bit offset minutes plus 840."
fn date_time_bytes(time: &DateTime) -> Vec<u8> {
    let offset = (time.offset + 840) as u16;
    [
        &date_bytes(&time.date)[..],
        &[time.hour, time.minute, time.second],
        &time.microsecond.to_be_bytes(),
        &offset.to_be_bytes(),
    ]
    .concat()
}
