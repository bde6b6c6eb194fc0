//! "Write the statement file", section 1 of document 02: the message of an image.

use std::iter::Peekable;
use std::slice::Iter;

use crate::answer::{Answer, Code};
use crate::content::{Content, Message};
use crate::list::{Kind, List, OLD_CODE};
use crate::read::{first_image, Image, Item};
use crate::types::{Amount, Date, DateTime, Value};
use crate::LIMIT;

/// "From an image at the start of a run, write a message". "Success is code 0, row 0, the file's length; bytes beyond it
/// stay."
pub fn write(run: &[u8], out: &mut [u8]) -> Answer {
    // "Refusals: 1 and 15 to 17 as in the reader"
    let image = match first_image(run) {
        Ok(image) => image,
        Err(refused) => return refused,
    };
    // Section 9: "§1 won't write such a statement. .. Refusals: 26, before 20, row 40, place of the first such item."
    if let Some(item) = image.items.iter().find(|item| item.row == OLD_CODE) {
        return Answer::new(Code::OldCode, OLD_CODE, item.at);
    }
    // Section 3: "Stored images with finer fractions are still read; §1 refuses to write them. .. Refusals: 20, before 19, row
    // of the date-time, place of its item."
    if let Some(item) = image.items.iter().find(|item| is_finer(item)) {
        return Answer::new(Code::FinerThanAFile, item.row, item.at);
    }
    let file = file(&message(&image));
    // "then 19 where the file would be over 1,048,576 bytes", with "the bytes needed, row 0"
    if file.len() > LIMIT {
        return Answer::new(Code::FileTooLong, 0, file.len());
    }
    // "then 14 where the buffer is too short"
    match out.get_mut(..file.len()) {
        Some(room) => {
            room.copy_from_slice(file.as_bytes());
            Answer::new(Code::Accepted, 0, file.len())
        }
        None => Answer::new(Code::NoRoom, 0, file.len()),
    }
}

/// A date-time that no fraction of "one to three digits" says.
fn is_finer(item: &Item) -> bool {
    matches!(&item.leaf, Some((Value::Dtm(time), _)) if time.microsecond % 1000 != 0)
}

/// The message that an image holds, whatever its version.
pub fn message(image: &Image) -> Message {
    Message { list: image.list, root: tree(image.list, &mut image.items.iter().peekable()) }
}

/// The file of a message. "no declaration": it begins with the root.
fn file(message: &Message) -> String {
    let mut file = String::new();
    write_element(message.list, &message.root, &mut file);
    file
}

/// The content that begins with the next item. Every row has one parent, so an item is a child of the group that was
/// begun last among those with its parent's row, and the first item that is none of a group's ends that group.
fn tree(list: &List, items: &mut Peekable<Iter<Item>>) -> Content {
    let Item { row, leaf, .. } = items.next().expect("an item for each row");
    match leaf {
        Some((value, _)) => Content::Leaf { row: *row, value: value.clone() },
        None => {
            let mut children = Vec::new();
            while items.peek().is_some_and(|next| list.find(next.row).is_some_and(|next| next.parent == *row)) {
                children.push(tree(list, items));
            }
            Content::Group { row: *row, children }
        }
    }
}

/// "no blanks that could be left out, double quotes": a blank stands in front of an attribute alone. The root has xmlns, with
/// the kind's namespace, an amount Ccy, and nothing else has an attribute.
fn write_element(list: &List, content: &Content, file: &mut String) {
    let row = list.find(content.row()).expect("a row of the list");
    let attribute = match content {
        _ if row.parent == 0 => format!(" xmlns=\"{}\"", list.namespace),
        Content::Leaf { value: Value::Amt(amount), .. } => format!(" Ccy=\"{}\"", amount.currency()),
        _ => String::new(),
    };
    *file += &format!("<{}{attribute}>", row.name);
    match content {
        Content::Leaf { value, .. } => *file += &escaped(&characters(row.kind, value)),
        Content::Group { children, .. } => children.iter().for_each(|child| write_element(list, child, file)),
    }
    *file += &format!("</{}>", row.name);
}

/// "`&` and `<` and `>` as entities in text"
fn escaped(text: &str) -> String {
    text.replace('&', "&amp;").replace('<', "&lt;").replace('>', "&gt;")
}

/// The characters that are written for a value of a kind. An amount's currency is not among them.
pub fn characters(kind: Kind, value: &Value) -> String {
    match value {
        Value::Text(text) => text.clone(),
        Value::Word(place) => match kind {
            Kind::Enum(words) => words[usize::from(*place) - 1].to_string(),
            _ => unreachable!("only ENUM has words"),
        },
        // "BOOL as `true` or `false`"
        Value::Bool(truth) => truth.to_string(),
        // "NUM without leading zeros (zero is `0`)"
        Value::Num(number) => number.to_string(),
        Value::Amt(amount) => amount_characters(amount),
        Value::Date(date) => date_characters(date),
        Value::Dtm(time) => date_time_characters(time),
    }
}

/// "amounts with their smallest scale and digits written most significant first (as `0.5` and `7`)"
///
/// The scale of an amount in an image is the smallest one: so many digits stand behind the point, and where that is none
/// there is no point.
fn amount_characters(amount: &Amount) -> String {
    let scale = usize::from(amount.scale);
    // With a digit in front of the point at least.
    let digits = format!("{:0least$}", amount.coefficient, least = scale + 1);
    let (whole, fraction) = digits.split_at(digits.len() - scale);
    match scale {
        0 => whole.to_string(),
        _ => format!("{whole}.{fraction}"),
    }
}

/// "`YYYY-MM-DD`", as document 01 has it.
fn date_characters(date: &Date) -> String {
    format!("{:04}-{:02}-{:02}", date.year, date.month, date.day)
}

/// "The writer of §1 writes the shortest fraction", "offset zero as `Z`"
fn date_time_characters(time: &DateTime) -> String {
    let fraction = match time.microsecond {
        0 => String::new(),
        microsecond => format!(".{microsecond:06}").trim_end_matches('0').to_string(),
    };
    let zone = match time.offset {
        0 => "Z".to_string(),
        offset => {
            let (sign, minutes) = (if offset < 0 { '-' } else { '+' }, offset.abs());
            format!("{sign}{:02}:{:02}", minutes / 60, minutes % 60)
        }
    };
    let day = date_characters(&time.date);
    format!("{day}T{:02}:{:02}:{:02}{fraction}{zone}", time.hour, time.minute, time.second)
}
