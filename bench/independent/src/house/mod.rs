//! House XML: which texts it has, the place where a text stops to be one, and the tree of a text.
//!
//! [`parse`] goes over the text once, from left to right, and takes a byte only if what it has then taken still begins
//! some house XML text. So it needs no other notion of failure than standing still: where the next byte is missing or
//! can't be taken, the bytes taken so far are "most leading bytes that still begin some house XML text".
//!
//! Two things have to be seen for that, and each function in `recogniser.rs` says why they hold for it:
//!
//! * whatever was taken can be finished (open names, quotes, entities and elements can always be closed), and
//! * a byte that isn't taken could not be followed by anything.

mod characters;
mod recogniser;
mod tree;

pub use characters::{is_blank, is_name_rest, is_name_start};
pub use recogniser::{DECLARATION, ENTITIES, MOST_ATTRIBUTES, MOST_LEVELS};
pub use tree::{resolve, Attribute, Element, Part, Text};

/// The root element of a house XML text, or code 3's place. Takes any bytes, also those that are not UTF-8.
pub fn parse(text: &[u8]) -> Result<Element<'_>, usize> {
    recogniser::recognise(text)
}
