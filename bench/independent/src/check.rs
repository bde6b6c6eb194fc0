//! The checker: "reads one camt.053.001.08 message from a lent buffer and writes its record image into a second", and of "camt.052.001.08
//! as a second message kind".

use crate::answer::{Answer, Code};
use crate::content::{image, Message};
use crate::list::List;
use crate::{house, walk, LIMIT};

/// "Acceptance is 0, row 0, image length; bytes of the result buffer beyond the image stay. Any other code leaves that
/// buffer unchanged."
pub fn check(input: &[u8], out: &mut [u8]) -> Answer {
    let image = match message(input) {
        Ok(message) => image(&message),
        Err(refused) => return refused,
    };
    // 14: "valid, but image longer than the buffer", with the "bytes needed"; "14 comes last".
    match out.get_mut(..image.len()) {
        Some(room) => {
            room.copy_from_slice(&image);
            Answer::new(Code::Accepted, 0, image.len())
        }
        None => Answer::new(Code::NoRoom, 0, image.len()),
    }
}

/// "Codes 1, 2, 3 are judged in turn over the whole input; then the message is walked."
pub fn message(input: &[u8]) -> Result<Message, Answer> {
    // 1: "input over 1,048,576 bytes".
    if input.len() > LIMIT {
        return Err(Answer::new(Code::TooLong, 0, LIMIT));
    }
    // 2: "not UTF-8", at the "start of first bad sequence": all before it is UTF-8.
    if let Err(bad) = std::str::from_utf8(input) {
        return Err(Answer::new(Code::NotUtf8, 0, bad.valid_up_to()));
    }
    // 3: "not house XML".
    let root = house::parse(input).map_err(|place| Answer::new(Code::NotHouseXml, 0, place))?;
    walk::walk(&root)
}

/// "The namespace chooses the list": that of a file, if it is house XML and its root is good.
pub fn list_of(input: &[u8]) -> Option<&'static List> {
    walk::list_of(&house::parse(input).ok()?)
}
