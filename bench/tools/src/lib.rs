//! What the bench's programs share.
//!
//! | File | Holds |
//! |---|---|
//! | [`unit`](mod@unit) | the unit, asked through the program `replay` |
//! | [`output`] | standard output, and how a program ends |
//! | [`difference`] | two answers to one case, shown as a person wants to see them |
//! | [`grade`] | files judged for the technician, images shown |
//! | [`compare`](mod@compare) | the unit and the independent program over many cases |

pub mod compare;
pub mod difference;
pub mod grade;
pub mod output;
pub mod unit;
