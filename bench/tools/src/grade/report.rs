//! The report on a file, as text, and the tally of many.

use std::collections::BTreeMap;
use std::fmt;
use std::path::PathBuf;

use independent::check::list_of;
use independent::list::{List, STATEMENT};
use independent::read::first_image;

use super::names::{code_in_words, row_in_words};
use super::spot::Spot;
use crate::unit::Line;

/// What is said of one file.
#[derive(Clone, PartialEq, Eq, Debug)]
pub struct Report {
    pub path: PathBuf,
    pub outcome: Outcome,
}

#[derive(Clone, PartialEq, Eq, Debug)]
pub enum Outcome {
    Accepted(Acceptance),
    Refused(Refusal),
    /// Not judged at all, and why.
    Unreadable(String),
}

#[derive(Clone, PartialEq, Eq, Debug)]
pub struct Acceptance {
    /// The kind of the message, as its image says.
    pub list: Option<&'static List>,
    /// The image's length.
    pub length: usize,
}

#[derive(Clone, PartialEq, Eq, Debug)]
pub struct Refusal {
    /// The kind of the message, as its namespace says.
    pub list: Option<&'static List>,
    pub code: u8,
    pub row: u8,
    pub place: usize,
    pub spot: Spot,
}

impl Outcome {
    /// What the unit's line says of a file.
    pub fn judged(file: &[u8], line: &Line) -> Outcome {
        let Line { code, row, place, ref bytes, .. } = *line;
        match code {
            0 => {
                let list = first_image(bytes).ok().map(|image| image.list);
                Outcome::Accepted(Acceptance { list, length: place })
            }
            _ => {
                // Codes 1 to 3 are judged before there is a message.
                let list = if code > 3 { list_of(file) } else { None };
                Outcome::Refused(Refusal { list, code, row, place, spot: Spot::find(file, place) })
            }
        }
    }
}

impl Refusal {
    /// The row with its path; nothing where the answer has no row.
    pub fn row_in_words(&self) -> Option<String> {
        row_in_words(self.list.unwrap_or(&STATEMENT), self.row)
    }

    /// The path of the row. Where no list was chosen, the row is the root's, which every list has.
    pub fn path(&self) -> Option<String> {
        let list = self.list.unwrap_or(&STATEMENT);
        list.find(self.row).map(|row| list.path(row))
    }
}

/// `statement (camt.053.001.08)`.
pub fn kind_in_words(list: &List) -> String {
    format!("{} ({})", list.name, list.message)
}

/// One line for an accepted file; for a refused one the reason, and the file's line with a mark below the place.
impl fmt::Display for Report {
    fn fmt(&self, f: &mut fmt::Formatter) -> fmt::Result {
        let path = self.path.display();
        match &self.outcome {
            Outcome::Accepted(Acceptance { list, length }) => {
                let kind = list.map_or(String::new(), |list| format!(", {}", kind_in_words(list)));
                writeln!(f, "{path}: accepted{kind}, image of {length} bytes")
            }
            Outcome::Unreadable(error) => writeln!(f, "{path}: can't be read: {error}"),
            Outcome::Refused(refusal) => {
                let Refusal { code, place, spot, .. } = refusal;
                let row = refusal.row_in_words().map_or(String::new(), |row| format!(", {row}"));
                let (line, column) = (spot.line, spot.column);
                let code = code_in_words(*code);
                writeln!(f, "{path}: refused {code}{row}, byte {place}, line {line}, column {column}")?;
                writeln!(f, "    {}\n    {}^", spot.text, " ".repeat(spot.before))
            }
        }
    }
}

/// How many files got which code.
#[derive(Default)]
pub struct Tally {
    pub codes: BTreeMap<u8, usize>,
    pub unreadable: usize,
}

impl Tally {
    pub fn add(&mut self, outcome: &Outcome) {
        match outcome {
            Outcome::Accepted(_) => *self.codes.entry(0).or_default() += 1,
            Outcome::Refused(refusal) => *self.codes.entry(refusal.code).or_default() += 1,
            Outcome::Unreadable(_) => self.unreadable += 1,
        }
    }

    pub fn judged(&self) -> usize {
        self.codes.values().sum()
    }

    pub fn accepted(&self) -> usize {
        self.codes.get(&0).copied().unwrap_or(0)
    }

    pub fn refused(&self) -> usize {
        self.judged() - self.accepted()
    }
}

/// `15 files: 2 accepted, 13 refused`, and a line for each code that came up.
impl fmt::Display for Tally {
    fn fmt(&self, f: &mut fmt::Formatter) -> fmt::Result {
        write!(f, "{} files: {} accepted, {} refused", self.judged(), self.accepted(), self.refused())?;
        if self.unreadable > 0 {
            write!(f, ", {} not read", self.unreadable)?;
        }
        writeln!(f)?;
        self.codes.iter().try_for_each(|(code, count)| writeln!(f, "  {count:>6}  {}", code_in_words(*code)))
    }
}

#[cfg(test)]
mod tests {
    use super::*;
    use cases::feed::Case;
    use cases::message::chosen::{REPORT_LEAST, WHOLE};
    use independent::LIMIT;

    #[test]
    fn a_refused_file_is_shown_with_its_line() {
        let file = b"<Document xmlns=\"x\">\n</Document>";
        let line = Line::parse(&Case::check(LIMIT, &file[..]).line()).unwrap();
        let expected = "\
a.xml: refused 4 WRONG_ROOT, wrong root or namespace, row 1 Document, byte 0, line 1, column 1
    <Document xmlns=\"x\">
    ^
";
        let report = Report { path: "a.xml".into(), outcome: Outcome::judged(file, &line) };
        assert_eq!(report.to_string(), expected);
    }

    #[test]
    fn a_file_is_shown_with_its_kind() {
        let shown = |file: &str| {
            let line = Line::parse(&Case::check(LIMIT, file).line()).unwrap();
            Report { path: "a.xml".into(), outcome: Outcome::judged(file.as_bytes(), &line) }.to_string()
        };
        assert_eq!(shown(WHOLE), "a.xml: accepted, statement (camt.053.001.08), image of 68 bytes\n");
        assert_eq!(shown(REPORT_LEAST), "a.xml: accepted, report (camt.052.001.08), image of 42 bytes\n");
        let path = "row 7 Document/BkToCstmrAcctRpt/Rpt/Id, byte";
        assert!(shown(&REPORT_LEAST.replace(">R1<", "> <")).contains(path), "the path is the kind's");
    }

    #[test]
    fn files_are_counted_by_code() {
        let mut tally = Tally::default();
        tally.add(&Outcome::Accepted(Acceptance { list: Some(&STATEMENT), length: 68 }));
        tally.add(&Outcome::Accepted(Acceptance { list: None, length: 69 }));
        tally.add(&Outcome::Unreadable("gone".to_string()));
        let refused = Refusal { list: None, code: 12, row: 4, place: 0, spot: Spot::find(b"", 0) };
        tally.add(&Outcome::Refused(refused));
        let expected = "\
3 files: 2 accepted, 1 refused, 1 not read
       2  0 ACCEPTED, accepted
       1  12 BAD_VALUE, value breaks its type
";
        assert_eq!(tally.to_string(), expected);
    }
}
