//! "then the message is walked in document order and the first violation is the answer": codes 4 to 13.
//!
//! The walk is one recursion over the tree: the tests of an opening tag (4, 5, 6, 7, 9), then the element's parts in
//! order, then the tests of its closing tag (11, 8, 12, 13). The first test that fails is the answer, at once.

use crate::answer::{Answer, Code};
use crate::content::{Content, Message};
use crate::house::{is_blank, resolve, Element, Part, Text};
use crate::list::{Kind, List, Row, RULE_FIRST, RULE_ROW, RULE_SECOND};
use crate::types::{code, value};

/// The content of a message, or the first violation.
pub fn walk(root: &Element) -> Result<Message, Answer> {
    let list = list_of(root).ok_or(Answer::new(Code::WrongRoot, 1, root.at))?;
    Ok(Message { list, root: group(list, list.root(), root)? })
}

/// "files carry `xmlns:xsi` and `xsi:schemaLocation` on the root"
const PREFIX: &[u8] = b"xmlns:xsi";
const LOCATION: &[u8] = b"xsi:schemaLocation";

/// The list that a message goes by; none is code 4: "root not Document, or its only attribute isn't xmlns with [the namespace]"; but
/// "the root may carry these two besides xmlns, with any text", and "an xsi attribute without its `xmlns:xsi` gives code 4". "The
/// namespace chooses the list": it is compared as written, for no entity spells a character of it.
pub fn list_of(root: &Element) -> Option<&'static List> {
    let carried = |name: &[u8]| root.attributes.iter().find(|attribute| attribute.name == name);
    let known = |name: &[u8]| name == b"xmlns" || name == PREFIX || name == LOCATION;
    let good = root.name == b"Document"
        && root.attributes.iter().all(|attribute| known(attribute.name))
        && (carried(LOCATION).is_none() || carried(PREFIX).is_some());
    carried(b"xmlns").filter(|_| good).and_then(|space| List::of_namespace(space.raw))
}

/// An element whose row is a group or a choice, after its opening tag was tested.
fn group(list: &List, row: &Row, element: &Element) -> Result<Content, Answer> {
    let mut contents: Vec<Content> = Vec::new();
    for part in &element.parts {
        match part {
            Part::Text(text) => no_text(row, text)?,
            Part::Child(child) => {
                let last = contents.last().map(Content::row);
                contents.push(child_of_group(list, row, last, child)?);
            }
        }
    }
    closing_group(list, row, element, &contents)?;
    Ok(Content::Group { row: row.number, children: contents })
}

/// Code 10: "non-blank text in a group", at the "first such byte". Of an entity that is its `&`.
fn no_text(row: &Row, text: &Text) -> Result<(), Answer> {
    match text.raw.iter().position(|byte| !is_blank(*byte)) {
        Some(offset) => Err(Answer::new(Code::TextInGroup, row.number, text.at + offset)),
        None => Ok(()),
    }
}

/// A child of a group whose children so far end in one of row `last`.
fn child_of_group(list: &List, parent: &Row, last: Option<u8>, child: &Element) -> Result<Content, Answer> {
    let row = opening(list, parent, last, child)?;
    let currency = attributes(row, child)?;
    if row.kind.is_leaf() {
        leaf(row, child, currency)
    } else {
        group(list, row, child)
    }
}

/// Codes 5, 6 and 7, and the child's row where there is nothing to say.
///
/// The children before this one passed the same tests, so they are in row order: a later sibling was seen exactly if the
/// last one is later, and this row was seen exactly if the last one has it.
fn opening(list: &List, parent: &Row, last: Option<u8>, child: &Element) -> Result<&'static Row, Answer> {
    // 5: "not a child of its parent", with the parent's row; so are "files .. with row 40", for the rows of files have it no longer.
    let not_a_child = Answer::new(Code::NotAChild, parent.number, child.at);
    let named_so = |row: &&Row| row.name.as_bytes() == child.name;
    let row = list.file_children(parent.number).find(named_so).ok_or(not_a_child)?;
    let Some(last) = last else {
        return Ok(row);
    };
    // In a choice any second child is 7, and "6 isn't given".
    if parent.kind == Kind::Choice {
        return Err(Answer::new(Code::OverItsCount, row.number, child.at));
    }
    // 6: "later sibling already seen".
    if last > row.number {
        return Err(Answer::new(Code::LaterSiblingSeen, row.number, child.at));
    }
    // 7: "over its count".
    if last == row.number && !row.count.repeats {
        return Err(Answer::new(Code::OverItsCount, row.number, child.at));
    }
    Ok(row)
}

/// Code 9: "below the root: attributes not exactly the type's, or bad Ccy". AMT has "one attribute, Ccy, of type CCY",
/// which is handed back; nothing else has any.
fn attributes(row: &Row, element: &Element) -> Result<Option<[u8; 3]>, Answer> {
    let refused = Answer::new(Code::WrongAttributes, row.number, element.at);
    match (row.kind, &element.attributes[..]) {
        (Kind::Amt, [only]) if only.name == b"Ccy" => {
            let text = resolve(only.raw).ok_or(refused)?;
            code::currency(&text).map(Some).ok_or(refused)
        }
        (Kind::Amt, _) => Err(refused),
        (_, []) => Ok(None),
        (_, _) => Err(refused),
    }
}

/// An element whose row is a leaf, after its opening tag was tested: an element inside it is no child of it (5), then 11,
/// "no character in a leaf", then 12, "value breaks its type".
fn leaf(row: &Row, element: &Element, currency: Option<[u8; 3]>) -> Result<Content, Answer> {
    let mut characters = String::new();
    for part in &element.parts {
        match part {
            Part::Child(child) => return Err(Answer::new(Code::NotAChild, row.number, child.at)),
            Part::Text(text) => characters += &resolve(text.raw).expect("the text of a tree in UTF-8"),
        }
    }
    if characters.is_empty() {
        return Err(Answer::new(Code::Empty, row.number, element.at));
    }
    match value(row.kind, &characters, currency) {
        Some(value) => Ok(Content::Leaf { row: row.number, value }),
        None => Err(Answer::new(Code::BadValue, row.number, element.at)),
    }
}

/// The tests of a group's closing tag: 11, 8 and 13, each with the place of the opening tag's `<`.
fn closing_group(list: &List, row: &Row, element: &Element, contents: &[Content]) -> Result<(), Answer> {
    let has = |number: u8| contents.iter().any(|child| child.row() == number);
    // 11: "no child in a group".
    if contents.is_empty() {
        return Err(Answer::new(Code::Empty, row.number, element.at));
    }
    // 8: "required child absent from a group that has some child", with the "lowest absent" row.
    if let Some(absent) = list.file_children(row.number).find(|child| child.count.required && !has(child.number)) {
        return Err(Answer::new(Code::RequiredAbsent, absent.number, element.at));
    }
    // 13: "rows 47 and 48 are both present or both absent".
    if row.number == RULE_ROW && has(RULE_FIRST) != has(RULE_SECOND) {
        return Err(Answer::new(Code::RuleBroken, RULE_ROW, element.at));
    }
    Ok(())
}
