//! The walk against a slower way to decide codes 4 to 13: every violation of the whole message is collected, each sought on
//! its own, and the one that comes first is chosen.
//!
//! "then the message is walked in document order and the first violation is the answer. An opening tag is tested 4, 5, 6,
//! 7, 9 (in a choice 6 isn't given); a closing tag 11, 8, 12, 13". So a violation has a moment (its tag or text, numbered in
//! document order) and a rank among the tests of that moment.

use cases::any::Source;
use cases::feed::{Case, Op};
use independent::house::{parse, resolve, Element, Part};
use independent::list::{Kind, List, Row, REPORT, STATEMENT};
use independent::types::{code, value};
use independent::walk::walk;

/// Moment, rank, and the answer: code, row, place.
type Violation = (usize, usize, (u8, u8, usize));

struct Collected {
    list: &'static List,
    moment: usize,
    violations: Vec<Violation>,
}

impl Collected {
    fn add(&mut self, broken: bool, rank: usize, answer: (u8, u8, usize)) {
        if broken {
            self.violations.push((self.moment, rank, answer));
        }
    }

    /// All violations at and in an element of this row; `None` for an element that the list doesn't know.
    fn element(&mut self, row: Option<&Row>, element: &Element) {
        let texts: Vec<&[u8]> = element.parts.iter().filter_map(|part| text_of(part)).collect();
        let rows: Vec<Option<&Row>> = element.parts.iter().map(|part| row_of(self.list, row, part)).collect();
        for (index, part) in element.parts.iter().enumerate() {
            self.moment += 1;
            match part {
                Part::Child(child) => {
                    let earlier: Vec<&Row> = rows[..index].iter().copied().flatten().collect();
                    self.opening(row, &earlier, rows[index], child);
                    self.element(rows[index], child);
                }
                Part::Text(text) => {
                    let strange = text.raw.iter().position(|byte| !b" \t\n\r".contains(byte));
                    if let (Some(row), Some(offset)) = (row.filter(|row| !row.kind.is_leaf()), strange) {
                        self.add(true, 10, (10, row.number, text.at + offset));
                    }
                }
            }
        }
        self.moment += 1;
        if let Some(row) = row {
            self.closing(row, &rows.into_iter().flatten().collect::<Vec<_>>(), &texts, element);
        }
    }

    fn opening(&mut self, parent: Option<&Row>, earlier: &[&Row], row: Option<&Row>, child: &Element) {
        let Some(parent) = parent else {
            return;
        };
        let Some(row) = row else {
            return self.add(true, 5, (5, parent.number, child.at));
        };
        let choice = parent.kind == Kind::Choice;
        let later = earlier.iter().any(|other| other.number > row.number);
        let same = earlier.iter().filter(|other| other.number == row.number).count();
        let most = if row.count.repeats { usize::MAX } else { 1 };
        let attributes: Vec<(&[u8], &[u8])> = child.attributes.iter().map(|a| (a.name, a.raw)).collect();
        let good_attributes = match (row.kind, &attributes[..]) {
            (Kind::Amt, [(b"Ccy", raw)]) => raw.len() == 3 && raw.iter().all(u8::is_ascii_uppercase),
            (Kind::Amt, _) => false,
            (_, others) => others.is_empty(),
        };
        self.add(!choice && later, 6, (6, row.number, child.at));
        self.add(if choice { !earlier.is_empty() } else { same + 1 > most }, 7, (7, row.number, child.at));
        self.add(!good_attributes, 9, (9, row.number, child.at));
    }

    fn closing(&mut self, row: &Row, inside: &[&Row], texts: &[&[u8]], element: &Element) {
        let at = element.at;
        let has = |number: u8| inside.iter().any(|child| child.number == number);
        if row.kind.is_leaf() {
            let text: String = texts.iter().filter_map(|raw| resolve(raw)).collect();
            let currency = element.attributes.first().and_then(|a| code::currency(std::str::from_utf8(a.raw).ok()?));
            self.add(text.is_empty(), 1, (11, row.number, at));
            self.add(value(row.kind, &text, currency).is_none(), 3, (12, row.number, at));
        } else {
            // "Domn becomes 1..1"
            let absent = self
                .list
                .children(row.number)
                .filter(|child| (child.count.required || child.number == 35) && !has(child.number))
                .min_by_key(|r| r.number);
            self.add(inside.is_empty(), 1, (11, row.number, at));
            if let Some(absent) = absent {
                self.add(true, 2, (8, absent.number, at));
            }
            self.add(row.number == 43 && has(47) != has(48), 4, (13, 43, at));
        }
    }
}

fn text_of<'a>(part: &Part<'a>) -> Option<&'a [u8]> {
    match part {
        Part::Text(text) => Some(text.raw),
        Part::Child(_) => None,
    }
}

/// The row of a child; "Files of kinds 1 and 2 with row 40 are now refused with 5", so of an old transaction code none.
fn row_of(list: &List, parent: Option<&Row>, part: &Part) -> Option<&'static Row> {
    match part {
        Part::Child(child) => {
            list.children(parent?.number).find(|row| row.name.as_bytes() == child.name).filter(|row| row.number != 40)
        }
        Part::Text(_) => None,
    }
}

/// The first violation of a message.
fn slow_walk(root: &Element) -> Option<(u8, u8, usize)> {
    let mut carried: Vec<(&[u8], &[u8])> = root.attributes.iter().map(|a| (a.name, a.raw)).collect();
    carried.sort();
    let space = match &carried[..] {
        [(b"xmlns", raw)] => Some(raw),
        [(b"xmlns", raw), (b"xmlns:xsi", _)] => Some(raw),
        [(b"xmlns", raw), (b"xmlns:xsi", _), (b"xsi:schemaLocation", _)] => Some(raw),
        _ => None,
    };
    let list = match space.map(|raw| String::from_utf8_lossy(raw)).as_deref() {
        Some("urn:iso:std:iso:20022:tech:xsd:camt.053.001.08") => Some(&STATEMENT),
        Some("urn:iso:std:iso:20022:tech:xsd:camt.052.001.08") => Some(&REPORT),
        _ => None,
    };
    let good = root.name == b"Document" && list.is_some();
    let list = list.unwrap_or(&STATEMENT);
    let mut collected = Collected { list, moment: 0, violations: Vec::new() };
    collected.add(!good, 4, (4, 1, root.at));
    collected.element(Some(list.root()), root);
    collected.violations.into_iter().min_by_key(|(moment, rank, _)| (*moment, *rank)).map(|(_, _, answer)| answer)
}

/// Whether the case was one for the walk at all, and what the walk said; and of which kind the message says that it is.
fn examine(case: &Case) -> Option<(u8, bool)> {
    if !matches!(case.op, Op::Check { .. }) || std::str::from_utf8(&case.bytes).is_err() {
        return None;
    }
    let root = parse(&case.bytes).ok()?;
    let quick = walk(&root).err().map(|answer| (answer.code.number(), answer.row, answer.place));
    assert_eq!(quick, slow_walk(&root), "{}", String::from_utf8_lossy(&case.bytes));
    let is_report = case.bytes.windows(8).any(|bytes| bytes == b"camt.052");
    Some((quick.map_or(0, |answer| answer.0), is_report))
}

#[test]
fn both_ways_give_the_same_answers() {
    let mut codes = [[0; 14]; 2];
    let source = Source::new(&[0, 1, 2], 31);
    for number in 0..20_000 {
        if let Some((code, is_report)) = examine(&source.case(number).1) {
            codes[usize::from(is_report)][usize::from(code)] += 1;
        }
    }
    assert!((4..=13).all(|code| codes[0][code] > 50 && codes[1][code] > 25), "{codes:?}");
}

#[test]
fn the_fixed_checks_too() {
    assert!(cases::checks::fixed_set().iter().filter_map(examine).count() > 300);
}
