//! Texts of leaves, kind by kind, up to each boundary.

mod chosen;
pub mod made;

use independent::content::value_bytes;
use independent::house::resolve;
use independent::list::Kind;
use independent::types::{code, value};

/// A leaf on its own: its kind, the raw bytes of its text, and of its Ccy where it is an AMT.
#[derive(Clone, PartialEq, Eq, Debug)]
pub struct ValueCase {
    /// The kind's number in a feed, 2 REF to 11 DTM, and its parameter.
    pub kind: u8,
    pub parameter: u8,
    pub currency: Vec<u8>,
    pub raw: Vec<u8>,
}

/// The words of ENUM by the parameter of a feed.
const WORDS: [&[&str]; 5] =
    [&["OPBD", "CLBD", "PRCD"], &["CRDT", "DBIT"], &["BOOK"], &["OPBD", "CLBD", "PRCD", "ITBD"], &["BOOK", "PDNG"]];

impl ValueCase {
    pub fn list_kind(&self) -> Kind {
        match self.kind {
            2 => Kind::Ref,
            3 => Kind::Txt(self.parameter.into()),
            4 => Kind::Iban,
            5 => Kind::Ccy,
            6 => Kind::Enum(WORDS[usize::from(self.parameter)]),
            7 => Kind::Bool,
            8 => Kind::Num,
            9 => Kind::Amt,
            10 => Kind::Date,
            _ => Kind::Dtm,
        }
    }

    /// The value's bytes as in an image, without the row byte; `None` where the text or the currency is refused.
    pub fn answer(&self) -> Option<Vec<u8>> {
        let currency = resolve(&self.currency).and_then(|text| code::currency(&text));
        let value = value(self.list_kind(), &resolve(&self.raw)?, currency)?;
        Some(value_bytes(&value))
    }

    /// Kind, parameter, 16-bit length of the currency, 16-bit length of the text, the currency, the text.
    pub fn feed(&self) -> Vec<u8> {
        let length = |bytes: &[u8]| u16::try_from(bytes.len()).expect("a short text").to_be_bytes();
        let head = [self.kind, self.parameter];
        [&head[..], &length(&self.currency), &length(&self.raw), &self.currency, &self.raw].concat()
    }
}

/// The fixed set for programs in the gate.
pub fn fixed_set() -> Vec<ValueCase> {
    chosen::chosen()
}
