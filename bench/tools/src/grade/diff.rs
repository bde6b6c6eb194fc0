//! Two files told apart by what they say: whether they have one content, and where they differ first if not.

use std::io::{self, Write};
use std::path::{Path, PathBuf};

use cases::feed::Case;
use independent::content::{Content, Message};
use independent::list::{List, Row};
use independent::read::first_image;
use independent::write::message;
use independent::LIMIT;

use super::judge::read_file;
use super::report::{kind_in_words, Outcome, Report};
use super::show::in_words;
use crate::unit::Unit;

/// Says whether two files have one content, "the kind being part of the content", or the first place where they differ, by its path and by
/// what each has there. The status: 0 for one content, 1 for two, 2 where a file has none that is known.
pub fn say_difference(unit: &Unit, one: &Path, other: &Path, out: &mut dyn Write) -> io::Result<u8> {
    let (first, second) = (content_of(unit, one, out)?, content_of(unit, other, out)?);
    let (Some(first), Some(second)) = (first, second) else {
        return Ok(2);
    };
    let (one, other) = (one.display(), other.display());
    match difference(&first, &second) {
        None => writeln!(out, "{one} and {other}: one content").map(|()| 0),
        Some(Difference { path, one: has, other: has_other }) => {
            writeln!(out, "{one} and {other}: they differ at {path}")?;
            writeln!(out, "    {one}: {has}\n    {other}: {has_other}").map(|()| 1)
        }
    }
}

/// The content of a file that the unit accepts; of any other it is said why there is none.
fn content_of(unit: &Unit, path: &Path, out: &mut dyn Write) -> io::Result<Option<Message>> {
    let say = |outcome, out: &mut dyn Write| write!(out, "{}", Report { path: PathBuf::from(path), outcome });
    let file = match read_file(path) {
        Ok(file) => file,
        Err(error) => return say(Outcome::Unreadable(error.to_string()), out).map(|()| None),
    };
    let line = unit.ask(&Case::check(LIMIT, &file[..]))?;
    if line.code != 0 {
        return say(Outcome::judged(&file, &line), out).map(|()| None);
    }
    match first_image(&line.bytes) {
        Ok(image) => Ok(Some(message(&image))),
        Err(_) => {
            Err(io::Error::other(format!("the independent program doesn't read the image of {}", path.display())))
        }
    }
}

/// A place by its path, and what each of two messages has there.
#[derive(Clone, PartialEq, Eq, Debug)]
struct Difference {
    path: String,
    one: String,
    other: String,
}

/// The first place in document order where two messages differ.
fn difference(one: &Message, other: &Message) -> Option<Difference> {
    if one.list != other.list {
        let kind = |message: &Message| kind_in_words(message.list);
        return Some(Difference { path: "the root's namespace".to_string(), one: kind(one), other: kind(other) });
    }
    let root = one.list.root().name.to_string();
    below(one.list, &root, &one.root, &other.root)
}

/// The first difference of two elements of one row that stand at this path.
fn below(list: &List, path: &str, one: &Content, other: &Content) -> Option<Difference> {
    match (one, other) {
        (Content::Leaf { row, value: first }, Content::Leaf { value: second, .. }) => {
            let kind = find(list, *row).kind;
            let (one, other) = (in_words(kind, first), in_words(kind, second));
            (first != second).then(|| Difference { path: path.to_string(), one, other })
        }
        (Content::Group { children: first, .. }, Content::Group { children: second, .. }) => {
            (0..first.len().max(second.len())).find_map(|n| {
                let (one, other) = (first.get(n), second.get(n));
                match (one, other) {
                    (Some(one), Some(other)) if one.row() == other.row() => {
                        below(list, &format!("{path}/{}", step(list, &first[..=n])), one, other)
                    }
                    _ => Some(Difference {
                        path: path.to_string(),
                        one: standing(list, &first[..first.len().min(n + 1)], one),
                        other: standing(list, &second[..second.len().min(n + 1)], other),
                    }),
                }
            })
        }
        _ => unreachable!("a row is a leaf's or a group's"),
    }
}

/// The last of these children as a step of a path: `Dt`, `Ntry[3]` where a row may come again.
fn step(list: &List, children: &[Content]) -> String {
    let last = children.last().expect("a child").row();
    let row = find(list, last);
    match row.count.repeats {
        true => format!("{}[{}]", row.name, children.iter().filter(|child| child.row() == last).count()),
        false => row.name.to_string(),
    }
}

/// What stands at a place among the children of a group: an element, or the group's end.
fn standing(list: &List, children: &[Content], here: Option<&Content>) -> String {
    match here {
        Some(_) => step(list, children),
        None => "no further element".to_string(),
    }
}

fn find(list: &List, row: u8) -> &Row {
    list.find(row).expect("a row of the list")
}

#[cfg(test)]
mod tests {
    use super::*;
    use cases::message::chosen::{EVERY_ROW, REPORT_LEAST, WHOLE};
    use cases::tidies::{ODD, ODD_TIDIED};

    fn told(one: &str, other: &str) -> Option<(String, String, String)> {
        let content = |file: &str| independent::check::message(file.as_bytes()).expect("a good file");
        difference(&content(one), &content(other)).map(|found| (found.path, found.one, found.other))
    }

    fn differ(one: &str, other: &str, path: &str, has: &str, has_other: &str) {
        assert_eq!(told(one, other), Some((path.to_string(), has.to_string(), has_other.to_string())));
        assert_eq!(told(other, one), Some((path.to_string(), has_other.to_string(), has.to_string())));
    }

    #[test]
    fn one_content_in_two_styles() {
        assert_eq!(told(ODD, ODD_TIDIED), None);
        assert_eq!(told(WHOLE, &WHOLE.replace("5.00", "5")), None);
    }

    #[test]
    fn values_and_elements_that_differ() {
        let stmt = "Document/BkToCstmrStmt/Stmt[1]";
        differ(WHOLE, &WHOLE.replace("5.00", "5.01"), &format!("{stmt}/Bal[1]/Amt"), "EUR 5", "EUR 5.01");
        differ(WHOLE, &WHOLE.replace("EUR", "USD"), &format!("{stmt}/Bal[1]/Amt"), "EUR 5", "USD 5");
        let account = format!("{stmt}/Acct/Id");
        let iban = WHOLE.replace("<Othr><Id>9</Id></Othr>", "<IBAN>AT611904300234573201</IBAN>");
        differ(WHOLE, &iban, &account, "Othr", "IBAN");
        let details = format!("{stmt}/Ntry[1]/NtryDtls[1]/TxDtls[1]/RmtInf");
        differ(EVERY_ROW, &EVERY_ROW.replace("<Ustrd>Top 4</Ustrd>", ""), &details, "Ustrd[2]", "no further element");
        let second = EVERY_ROW.replace("Top 4", "Top 5");
        differ(EVERY_ROW, &second, &format!("{details}/Ustrd[2]"), "Top 4", "Top 5");
        let later = EVERY_ROW.replace("<Id>S2</Id>", "<Id>S3</Id>");
        differ(EVERY_ROW, &later, "Document/BkToCstmrStmt/Stmt[2]/Id", "S2", "S3");
    }

    #[test]
    fn kinds_that_differ() {
        let (one, other) = ("statement (camt.053.001.08)", "intraday report (camt.052.001.08)");
        let path = "the root's namespace";
        let found = told(WHOLE, REPORT_LEAST).unwrap();
        assert_eq!((found.0.as_str(), found.1.as_str()), (path, one));
        assert!(found.2.ends_with("(camt.052.001.08)"), "{} {other}", found.2);
    }
}
