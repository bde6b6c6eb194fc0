//! "Types": which texts spell which values.
//!
//! "Lengths count characters after entities are resolved, never bytes." So everything here goes over characters that
//! are resolved already. "NUM, AMT, BOOL, DATE and DTM first lose blanks at both ends", and the others lose none.

pub mod amount;
pub mod code;
pub mod date;
pub mod number;
pub mod reference;
pub mod text;

pub use amount::Amount;
pub use date::{Date, DateTime};

use crate::list::Kind;

/// A leaf's value. "Texts by characters, the rest by value, an amount's currency being part of its value."
#[derive(Clone, PartialEq, Eq, Debug)]
pub enum Value {
    /// REF, TXT, IBAN, CCY.
    Text(String),
    /// ENUM: the word's place in its list, from 1.
    Word(u8),
    Bool(bool),
    Num(u64),
    Amt(Amount),
    Date(Date),
    Dtm(DateTime),
}

/// The value that a leaf's characters spell, if they spell one. `currency` counts for AMT alone: its Ccy.
pub fn value(kind: Kind, text: &str, currency: Option<[u8; 3]>) -> Option<Value> {
    match kind {
        Kind::Ref => reference::is_reference(text).then(|| Value::Text(text.to_string())),
        Kind::Txt(k) => text::is_text(k, text).then(|| Value::Text(text.to_string())),
        Kind::Iban => code::is_iban(text).then(|| Value::Text(text.to_string())),
        Kind::Ccy => code::currency(text).map(|_| Value::Text(text.to_string())),
        Kind::Enum(words) => code::word(words, text).map(Value::Word),
        Kind::Bool => code::boolean(trim(text)).map(Value::Bool),
        Kind::Num => number::number(trim(text)).map(Value::Num),
        Kind::Amt => amount::amount(trim(text), currency?).map(Value::Amt),
        Kind::Date => date::date(trim(text)).map(Value::Date),
        Kind::Dtm => date::date_time(trim(text)).map(Value::Dtm),
        Kind::Group | Kind::Choice => None,
    }
}

/// "first lose blanks at both ends"
fn trim(text: &str) -> &str {
    text.trim_matches(|c| matches!(c, ' ' | '\t' | '\n' | '\r'))
}

/// Whether there is at least one character and all are digits. "Letters, capitals and digits are ASCII."
fn all_digits(text: &str) -> bool {
    !text.is_empty() && text.chars().all(|c| c.is_ascii_digit())
}
