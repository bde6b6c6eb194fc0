//! Two answers to one case that are not the same, shown as a person wants to see them.

use std::fmt;

use cases::feed::{Case, Op};
use independent::Code;

/// One case, and what the two programs said.
#[derive(Clone, Debug)]
pub struct Difference {
    pub number: u64,
    pub class: &'static str,
    pub case: Case,
    pub unit: String,
    pub independent: String,
}

/// How many bytes are shown on either side of a place.
const AROUND: usize = 40;

/// How much of an image or a part is shown.
const MOST_HEX: usize = 120;

impl fmt::Display for Difference {
    fn fmt(&self, f: &mut fmt::Formatter) -> fmt::Result {
        writeln!(f, "case {}: {}, {}", self.number, self.class, question(&self.case))?;
        writeln!(f, "  the unit says         {}", in_words(&self.unit))?;
        writeln!(f, "  the independent says  {}", in_words(&self.independent))?;
        for (who, line) in [("the unit", &self.unit), ("the independent", &self.independent)] {
            if let Some(place) = self.place(line) {
                writeln!(f, "  around {who}'s place {place}:")?;
                around(f, &self.case.bytes, place)?;
            }
        }
        if let Some(at) = first_unequal(&self.unit, &self.independent) {
            writeln!(f, "  the handed-back bytes differ from byte {at} on:")?;
            writeln!(f, "    unit         {}", shortened(&hex(&self.unit), at))?;
            writeln!(f, "    independent  {}", shortened(&hex(&self.independent), at))?;
        }
        Ok(())
    }
}

impl Difference {
    /// Where a line's place lies in what was asked about. The place of an acceptance is a length, but for a pick's; that of
    /// 14 and 19 the bytes needed.
    fn place(&self, line: &str) -> Option<usize> {
        let mut words = line.split(' ');
        let (code, place) = (words.next()?, words.nth(1)?.parse().ok()?);
        let lies_in = match code {
            "0" => matches!(self.case.op, Op::Pick { .. }),
            "14" | "19" => false,
            _ => true,
        };
        (lies_in && place <= self.case.bytes.len()).then_some(place)
    }
}

fn question(case: &Case) -> String {
    let length = case.bytes.len();
    match case.op {
        Op::Check { room } => format!("check of {length} bytes, room {room}"),
        Op::Read => format!("read of {length} bytes"),
        Op::Pick { row, n } => format!("pick of row {row}, n {n}, from {length} bytes"),
        Op::Write { room } => format!("write of {length} bytes, room {room}"),
        Op::Count => format!("read with its count of {length} bytes"),
        Op::Tidy { room, space } => format!("tidying of {length} bytes, room {room} and {space}"),
    }
}

/// A line with its code's name: `code 7 (over its count), row 4, place 120`.
fn in_words(line: &str) -> String {
    let words: Vec<&str> = line.split(' ').collect();
    match words[..] {
        [code, row, place, hex] => {
            let name = code.parse().ok().and_then(Code::from_number).map_or("no such code", Code::name);
            let bytes = if hex.is_empty() { String::new() } else { format!(", {} bytes", hex.len() / 2) };
            format!("code {code} ({name}), row {row}, place {place}{bytes}")
        }
        _ => format!("\"{line}\", which is no answer"),
    }
}

/// The bytes that an answer hands back, of a tidying both parts one after the other; none of a line that is no answer.
fn hex(line: &str) -> String {
    match line.split(' ').collect::<Vec<_>>()[..] {
        [_, _, _, hex] => hex.replace('/', ""),
        _ => String::new(),
    }
}

/// The first byte in which the handed-back parts differ.
fn first_unequal(one: &str, other: &str) -> Option<usize> {
    let (one, other) = (hex(one), hex(other));
    let same = one.bytes().zip(other.bytes()).take_while(|(a, b)| a == b).count();
    (one != other).then_some(same / 2)
}

fn shortened(hex: &str, from: usize) -> String {
    let start = (from * 2).min(hex.len());
    let end = (start + MOST_HEX).min(hex.len());
    format!("{}{}{}", if start > 0 { ".." } else { "" }, &hex[start..end], if end < hex.len() { ".." } else { "" })
}

/// The bytes around a place as text, and a mark below the place.
fn around(f: &mut fmt::Formatter, bytes: &[u8], place: usize) -> fmt::Result {
    let start = place.saturating_sub(AROUND);
    let before = printable(&bytes[start..place]);
    let after = printable(&bytes[place..(place + AROUND).min(bytes.len())]);
    writeln!(f, "    {before}{after}")?;
    writeln!(f, "    {}^", " ".repeat(before.chars().count()))
}

/// Bytes with `\n`, `\t`, `\xNN` for all that is not printable ASCII.
pub fn printable(bytes: &[u8]) -> String {
    bytes
        .iter()
        .map(|byte| std::ascii::escape_default(*byte).to_string().replace("\\\"", "\"").replace("\\'", "'"))
        .collect()
}

#[cfg(test)]
mod tests {
    use super::*;

    #[test]
    fn places_are_shown_side_by_side() {
        let difference = Difference {
            number: 7,
            class: "message with one fault",
            case: Case::check(100, "<a>\n<b/></a>"),
            unit: "7 4 4 ".to_string(),
            independent: "6 4 8 ".to_string(),
        };
        let shown = difference.to_string();
        let expected = "\
case 7: message with one fault, check of 12 bytes, room 100
  the unit says         code 7 (over its count), row 4, place 4
  the independent says  code 6 (later sibling already seen), row 4, place 8
  around the unit's place 4:
    <a>\\n<b/></a>
         ^
  around the independent's place 8:
    <a>\\n<b/></a>
             ^
";
        assert_eq!(shown, expected);
    }

    #[test]
    fn handed_back_bytes_are_shown_from_where_they_differ() {
        let difference = Difference {
            number: 0,
            class: "pick from an image",
            case: Case::pick(4, 0, "KTO"),
            unit: "0 4 11 4d31".to_string(),
            independent: "0 4 11 4d32".to_string(),
        };
        let shown = difference.to_string();
        assert!(shown.contains("differ from byte 1 on:\n    unit         ..31\n    independent  ..32\n"), "{shown}");
    }

    #[test]
    fn bytes_needed_are_no_place() {
        let difference = Difference {
            number: 0,
            class: "write of an image, tight room",
            case: Case::write(2, "KTO and more"),
            unit: "14 0 3 ".to_string(),
            independent: "19 0 4 ".to_string(),
        };
        let expected = "\
case 0: write of an image, tight room, write of 12 bytes, room 2
  the unit says         code 14 (longer than the buffer), row 0, place 3
  the independent says  code 19 (file would be too long), row 0, place 4
";
        assert_eq!(difference.to_string(), expected);
    }

    #[test]
    fn a_broken_line_is_shown_as_it_is() {
        assert_eq!(in_words("feed broken at case 3"), "\"feed broken at case 3\", which is no answer");
    }
}
