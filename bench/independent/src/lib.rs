//! Document 01, and sections 1, 2, 3, 5, 9, 10 and 12 of document 02, as a plain program, written from the documents and the settled
//! readings of them.
//!
//! The unit in `crates/` is compared with this program. The two share no code, no table and no generated file, so
//! that a mistake in one is not a mistake in the other. It is therefore written for its reader: each function renders
//! a sentence of a document, which stands above it, in the simplest way that is evidently right.
//!
//! ```
//! let mut image = [0u8; 100];
//! let answer = independent::check(b"<a></b>", &mut image);
//! assert_eq!((answer.code.number(), answer.row, answer.place), (3, 0, 5));
//! ```
//!
//! What it does not do: it isn't fast on purpose, it allocates as it likes, and nothing about it is proved.
//!
//! | File | Holds |
//! |---|---|
//! | [`answer`] | code, row and place; the numbers and names of the codes |
//! | [`list`] | the house list of 57 rows, that of the second message kind, and what of them files may have |
//! | [`house`] | house XML: the recogniser (code 3) and the tree of a text |
//! | [`types`] | REF to DTM: from text to value |
//! | [`walk`] | codes 4 to 13, from tree to content |
//! | [`content`] | content and its image |
//! | [`check`](mod@check) | the checker |
//! | [`bytes`] | the values in an image, read back |
//! | [`order`] | which items can follow which in an image |
//! | [`read`](mod@read) | the reader with its count of items, the picker, and the reader that holds its place |
//! | [`write`](mod@write) | the writer: from image to file |
//! | [`tidy`](mod@tidy) | a file read and written again |
//! | [`program`](mod@program) | the programs over standard input |

pub mod answer;
pub mod bytes;
pub mod check;
pub mod content;
pub mod house;
pub mod list;
pub mod order;
pub mod program;
pub mod read;
pub mod tidy;
pub mod types;
pub mod walk;
pub mod write;

pub use answer::{Answer, Code};
pub use check::check;
pub use program::program;
pub use read::{pick, read, reading, Held};
pub use tidy::tidy;
pub use write::write;

/// "input over 1,048,576 bytes": the longest input and the longest run that are judged.
pub const LIMIT: usize = 1_048_576;
