//! A place in a file as a person looks for it: line, column, and the line's text with a mark.

/// Where a place lies. Lines and columns count from 1, columns in characters.
#[derive(Clone, PartialEq, Eq, Debug)]
pub struct Spot {
    pub line: usize,
    pub column: usize,
    /// The line, or the part of a long one around the place.
    pub text: String,
    /// How many characters of the text stand before the place.
    pub before: usize,
}

/// The longest line that is shown whole; of a longer one, how much is shown before the place, and behind it.
const WHOLE: usize = 110;
const BEFORE: usize = 60;
const BEHIND: usize = 50;

impl Spot {
    pub fn find(file: &[u8], place: usize) -> Spot {
        let place = place.min(file.len());
        let start = file[..place].iter().rposition(|byte| *byte == b'\n').map_or(0, |at| at + 1);
        let end = file[place..].iter().position(|byte| *byte == b'\n').map_or(file.len(), |at| place + at);
        let left: Vec<char> = shown(&file[start..place]);
        let right: Vec<char> = shown(&file[place..end]);
        let (from, to) = match left.len() + right.len() {
            ..=WHOLE => (0, right.len()),
            _ => (left.len().saturating_sub(BEFORE), right.len().min(BEHIND)),
        };
        let mut text: String = left[from..].iter().chain(&right[..to]).collect();
        let mut before = left.len() - from;
        if from > 0 {
            text.insert_str(0, "..");
            before += 2;
        }
        if to < right.len() {
            text += "..";
        }
        let line = 1 + file[..place].iter().filter(|byte| **byte == b'\n').count();
        Spot { line, column: left.len() + 1, text, before }
    }
}

/// Characters that take one column each. What isn't printable becomes a blank or the replacement character.
fn shown(bytes: &[u8]) -> Vec<char> {
    let plain = |c: char| match c {
        '\t' | '\r' => ' ',
        c if c.is_control() => char::REPLACEMENT_CHARACTER,
        c => c,
    };
    String::from_utf8_lossy(bytes).chars().map(plain).collect()
}

#[cfg(test)]
mod tests {
    use super::*;

    #[test]
    fn lines_and_columns_count_from_one() {
        let file = "<a>\n  <ä/>x\n</a>".as_bytes();
        let spot = |place| Spot::find(file, place);
        assert_eq!((spot(0).line, spot(0).column), (1, 1));
        assert_eq!((spot(6).line, spot(6).column), (2, 3));
        assert_eq!((spot(11).line, spot(11).column), (2, 7), "a character of two bytes is one column");
        assert_eq!((spot(11).text.as_str(), spot(11).before), ("  <ä/>x", 6));
        assert_eq!((spot(17).line, spot(17).column), (3, 5), "the end");
        assert_eq!((spot(99).line, spot(99).column), (3, 5), "past the end");
    }

    #[test]
    fn long_lines_are_cut_around_the_place() {
        let file = "x".repeat(500);
        let spot = Spot::find(file.as_bytes(), 200);
        assert_eq!((spot.column, spot.before, spot.text.len()), (201, 62, 2 + 60 + 50 + 2));
    }

    #[test]
    fn an_empty_file_has_one_empty_line() {
        assert_eq!(Spot::find(b"", 0), Spot { line: 1, column: 1, text: String::new(), before: 0 });
    }
}
