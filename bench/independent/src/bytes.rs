//! The values in an image, read back: the other direction of [`content::value_bytes`](crate::content::value_bytes).

use std::ops::Range;

use crate::list::Kind;
use crate::types::{code, number, reference, text, Amount, Date, DateTime, Value};

/// A value at the beginning of some bytes.
#[derive(Clone, PartialEq, Eq, Debug)]
pub struct Found {
    pub value: Value,
    /// How many bytes it has.
    pub length: usize,
    /// "the value bytes without row byte and length": what the picker hands back.
    pub part: Range<usize>,
}

/// The value of a leaf that stands at the beginning of `bytes`, if a whole one of that kind stands there: one that some
/// text spells, in the only form that an image has for it.
pub fn find_value(kind: Kind, bytes: &[u8]) -> Option<Found> {
    match kind {
        Kind::Ref => find_text(bytes, reference::is_reference),
        Kind::Txt(k) => find_text(bytes, |characters| text::is_text(k, characters)),
        Kind::Iban => find_text(bytes, code::is_iban),
        Kind::Ccy => find_text(bytes, |characters| code::currency(characters).is_some()),
        Kind::Enum(words) => {
            let [place] = first(bytes)?;
            let listed = (1..=words.len()).contains(&usize::from(place));
            listed.then(|| fixed(Value::Word(place), 1))
        }
        Kind::Bool => match first(bytes)? {
            [0] => Some(fixed(Value::Bool(false), 1)),
            [1] => Some(fixed(Value::Bool(true), 1)),
            _ => None,
        },
        Kind::Num => {
            let number = u64::from_be_bytes(first(bytes)?);
            number::is_number(number).then(|| fixed(Value::Num(number), 8))
        }
        Kind::Amt => {
            let amount = amount(first(bytes)?);
            amount.is_canonical().then(|| fixed(Value::Amt(amount), 12))
        }
        Kind::Date => {
            let date = date(first(bytes)?);
            date.is_real().then(|| fixed(Value::Date(date), 4))
        }
        Kind::Dtm => {
            let time = date_time(first(bytes)?)?;
            time.is_real().then(|| fixed(Value::Dtm(time), 13))
        }
        Kind::Group | Kind::Choice => None,
    }
}

/// The first N bytes, if there are as many.
fn first<const N: usize>(bytes: &[u8]) -> Option<[u8; N]> {
    bytes.get(..N)?.try_into().ok()
}

/// A value of fixed length: its part is all of it.
fn fixed(value: Value, length: usize) -> Found {
    Found { value, length, part: 0..length }
}

/// "REF, TXT, IBAN, CCY: 16-bit byte length, UTF-8."
fn find_text(bytes: &[u8], is_good: impl Fn(&str) -> bool) -> Option<Found> {
    let length = usize::from(u16::from_be_bytes(first(bytes)?));
    let part = 2..2 + length;
    let characters = std::str::from_utf8(bytes.get(part.clone())?).ok()?;
    is_good(characters).then(|| Found { value: Value::Text(characters.to_string()), length: 2 + length, part })
}

/// "AMT: three currency letters, scale byte, coefficient in 64 bits."
fn amount(bytes: [u8; 12]) -> Amount {
    let [a, b, c, scale, coefficient @ ..] = bytes;
    Amount { currency: [a, b, c], scale, coefficient: u64::from_be_bytes(coefficient) }
}

/// "DATE: 16-bit year, month, day."
fn date(bytes: [u8; 4]) -> Date {
    let [high, low, month, day] = bytes;
    Date { year: u16::from_be_bytes([high, low]), month, day }
}

/// "DTM: DATE, hour, minute, second, 32-bit microseconds, 16-bit offset minutes plus 840." `None` where the offset is far
/// from any.
fn date_time(bytes: [u8; 13]) -> Option<DateTime> {
    let [y, z, month, day, hour, minute, second, a, b, c, d, high, low] = bytes;
    let offset = i16::try_from(i32::from(u16::from_be_bytes([high, low])) - 840).ok()?;
    let microsecond = u32::from_be_bytes([a, b, c, d]);
    Some(DateTime { date: date([y, z, month, day]), hour, minute, second, microsecond, offset })
}

#[cfg(test)]
mod tests {
    use super::*;
    use crate::content::value_bytes;
    use crate::types::value;

    /// What a text spells is written and read back as itself, and no shorter bytes are read at all.
    #[test]
    fn written_values_are_read_back() {
        let samples = [
            (Kind::Ref, "A/B"),
            (Kind::Txt(140), "Miete € 5"),
            (Kind::Iban, "AT611904300234573201"),
            (Kind::Ccy, "EUR"),
            (Kind::Enum(&["CRDT", "DBIT"]), "DBIT"),
            (Kind::Bool, "true"),
            (Kind::Bool, "0"),
            (Kind::Num, "999999999999999999"),
            (Kind::Amt, "1250.50"),
            (Kind::Date, "2024-02-29"),
            (Kind::Dtm, "2024-03-01T06:00:00.123-14:00"),
        ];
        for (kind, text) in samples {
            let value = value(kind, text, Some(*b"EUR")).unwrap();
            let bytes = value_bytes(&value);
            for cut in 0..bytes.len() {
                assert_eq!(find_value(kind, &bytes[..cut]), None);
            }
            let found = find_value(kind, &[&bytes[..], b"more"].concat()).unwrap();
            assert_eq!((found.value, found.length, found.part.end), (value, bytes.len(), bytes.len()));
        }
    }

    #[test]
    fn what_no_text_spells_is_not_read() {
        let bad: [(Kind, &[u8]); 22] = [
            (Kind::Ref, b"\x00\x00"),
            (Kind::Ref, b"\x00\x01/"),
            (Kind::Ref, b"\x00\x02\xc3\xa4"),
            (Kind::Txt(4), b"\x00\x05abcde"),
            (Kind::Txt(4), b"\x00\x01\xe4"),
            (Kind::Txt(4), b"\x00\x01`"),
            (Kind::Iban, b"\x00\x04AT61"),
            (Kind::Ccy, b"\x00\x04EURO"),
            (Kind::Enum(&["CRDT", "DBIT"]), b"\x00"),
            (Kind::Enum(&["CRDT", "DBIT"]), b"\x03"),
            (Kind::Bool, b"\x02"),
            (Kind::Num, &1_000_000_000_000_000_000_u64.to_be_bytes()),
            (Kind::Amt, b"EUR\x01\x00\x00\x00\x00\x00\x00\x00\x32"),
            (Kind::Amt, b"EUR\x01\x00\x00\x00\x00\x00\x00\x00\x00"),
            (Kind::Amt, b"EUR\x06\x00\x00\x00\x00\x00\x00\x00\x01"),
            (Kind::Amt, b"EuR\x00\x00\x00\x00\x00\x00\x00\x00\x01"),
            (Kind::Amt, b"EUR\x00\xff\xff\xff\xff\xff\xff\xff\xff"),
            (Kind::Date, b"\x07\xe7\x02\x1d"),
            (Kind::Date, b"\x27\x10\x01\x01"),
            (Kind::Dtm, b"\x07\xe8\x03\x01\x18\x00\x00\x00\x00\x00\x00\x03\x48"),
            (Kind::Dtm, b"\x07\xe8\x03\x01\x06\x00\x00\x00\x0f\x42\x40\x03\x48"),
            (Kind::Dtm, b"\x07\xe8\x03\x01\x06\x00\x00\x00\x00\x00\x00\x06\x91"),
        ];
        for (kind, bytes) in bad {
            assert_eq!(find_value(kind, bytes), None, "{kind:?} {bytes:x?}");
        }
    }
}
