//! One fault in a statement, as it happens to files, for each code.

use independent::list::{Kind, List, Row};
use independent::LIMIT;

use crate::message::{Draft, Part, Path};
use crate::random::Random;

/// Damages a draft so that its file gets the code, and says what was done. Nothing where the code is not one of the message's own.
pub fn to_draft(code: u8, draft: &mut Draft, random: &mut Random) -> Result<Option<String>, String> {
    let what = match code {
        4 => {
            let old = random.one_of(&["camt.053.001.02", "camt.053.001.04", "camt.053.001.10", "camt.054.001.08"]);
            draft.attributes[0].1 = draft.attributes[0].1.replace(list_of(draft).message, old);
            format!("a message of another kind or version, {old}")
        }
        5 => strange_child(draft, random),
        6 => swapped(draft, random),
        7 => doubled(draft, random),
        8 => left_out(draft, random),
        9 => without_currency(draft, random),
        10 => noted(draft, random),
        11 => emptied(draft, random),
        12 => bad_value(draft, random),
        13 => amount_alone(draft, random)?,
        _ => return Ok(None),
    };
    Ok(Some(what))
}

/// Damages the bytes of a file so that it gets the code, and says what was done. Nothing where the code is the message's own.
pub fn to_file(code: u8, file: &mut Vec<u8>, random: &mut Random) -> Option<String> {
    match code {
        1 => {
            file.resize(LIMIT + 1, b' ');
            Some("blanks behind the end, one byte too many".to_string())
        }
        2 => Some(older_encoding(file, random)),
        3 => Some(broken_xml(file, random)),
        _ => None,
    }
}

/// A u-umlaut as an older encoding has it, inside a text.
fn older_encoding(file: &mut Vec<u8>, random: &mut Random) -> String {
    let texts: Vec<usize> =
        (1..file.len()).filter(|at| file[at - 1] == b'>' && file[*at].is_ascii_alphanumeric()).collect();
    file.insert(texts[random.below(texts.len())], 0xfc);
    "the u-umlaut of an older encoding in a text".to_string()
}

fn broken_xml(file: &mut Vec<u8>, random: &mut Random) -> String {
    let ends: Vec<usize> = (0..file.len() - 1).filter(|at| file[*at..].starts_with(b"</")).collect();
    let end = ends[random.below(ends.len())];
    match random.below(3) {
        0 => {
            file.truncate(end);
            "a transfer that broke off".to_string()
        }
        1 => {
            file.splice(end..end, *b" & ");
            "a bare ampersand in front of an end tag".to_string()
        }
        _ => {
            let close = end + file[end..].iter().position(|byte| *byte == b'>').expect("a tag's end");
            file.remove(close - 1);
            "an end tag that lost its last letter".to_string()
        }
    }
}

/// The list of an undamaged message.
fn list_of(draft: &Draft) -> &'static List {
    draft.list().expect("an undamaged message")
}

/// The elements that have a row for which something holds, each with its way.
fn places(draft: &Draft, wanted: impl Fn(&Row, &Draft) -> bool) -> Vec<(Path, &'static Row)> {
    let mut found = Vec::new();
    let list = list_of(draft);
    collect(list, draft, list.root(), &mut Vec::new(), &wanted, &mut found);
    found
}

fn collect(
    list: &List,
    draft: &Draft,
    row: &'static Row,
    path: &mut Path,
    wanted: &impl Fn(&Row, &Draft) -> bool,
    found: &mut Vec<(Path, &'static Row)>,
) {
    if wanted(row, draft) {
        found.push((path.clone(), row));
    }
    for (index, part) in draft.parts.iter().enumerate() {
        if let Part::Child(child) = part {
            let row = list.file_children(row.number).find(|row| row.name == child.name).expect("an undamaged message");
            path.push(index);
            collect(list, child, row, path, wanted, found);
            path.pop();
        }
    }
}

/// One of them. Each kind that is asked for below stands in every statement, but for transactions.
fn some(draft: &Draft, random: &mut Random, wanted: impl Fn(&Row, &Draft) -> bool) -> (Path, &'static Row) {
    let found = places(draft, wanted);
    found[random.below(found.len())].clone()
}

/// 5: an element of the schema that the house list has not, or files no longer.
fn strange_child(draft: &mut Draft, random: &mut Random) -> String {
    let strangers = [
        (3, "MsgRcpt", 2),
        (6, "LglSeqNb", 1),
        (9, "Svcr", 2),
        (15, "Avlbty", 4),
        (23, "NtryRef", 0),
        (34, OLD_CODE, 1),
        (43, "AddtlTxInf", 9),
        (44, "InstrId", 0),
    ];
    let (path, row) = some(draft, random, |row, _| strangers.iter().any(|(parent, ..)| *parent == row.number));
    let (_, name, at) = strangers.iter().find(|(parent, ..)| *parent == row.number).expect("one of them");
    let parts = &mut draft.at(&path).parts;
    let (stranger, why) = match *name {
        OLD_CODE => (Draft { parts: vec![Part::Child(Draft::leaf("Cd", "1"))], ..Draft::new(name) }, "is retired"),
        _ => (Draft::leaf(name, "1"), "the house list has not"),
    };
    parts.insert((*at).min(parts.len()), Part::Child(stranger));
    format!("{name} in {}, which {why}", row.name)
}

/// "BkTxCd/Prtry was let in for a time"
const OLD_CODE: &str = "Prtry";

/// 6: two neighbours of different rows, the other way round.
fn swapped(draft: &mut Draft, random: &mut Random) -> String {
    let (path, row) = some(draft, random, |row, draft| row.kind == Kind::Group && !unlike_neighbours(draft).is_empty());
    let element = draft.at(&path);
    let pairs = unlike_neighbours(element);
    let at = pairs[random.below(pairs.len())];
    element.parts.swap(at, at + 1);
    format!("two elements of {} in the wrong order", row.name)
}

/// The first of each two neighbours with different names.
fn unlike_neighbours(draft: &Draft) -> Vec<usize> {
    let unlike = |pair: &[Part]| match pair {
        [Part::Child(one), Part::Child(other)] => one.name != other.name,
        _ => false,
    };
    draft.parts.windows(2).enumerate().filter(|(_, pair)| unlike(pair)).map(|(at, _)| at).collect()
}

/// 7: an element that may stand once, twice.
fn doubled(draft: &mut Draft, random: &mut Random) -> String {
    let (path, row) = some(draft, random, |row, _| row.parent != 0 && !row.count.repeats);
    let (parts, index) = draft.around(&path).expect("not the root");
    parts.insert(index, parts[index].clone());
    format!("{} twice where there may be one", row.name)
}

/// 8: a required element left out of a group that has another.
fn left_out(draft: &mut Draft, random: &mut Random) -> String {
    let list = list_of(draft);
    let alone = |row: &Row| list.file_children(row.parent).filter(|sibling| sibling.count.required).count() < 2;
    let (path, row) =
        some(draft, random, |row, _| row.parent > 1 && row.count.required && !row.count.repeats && !alone(row));
    let (parts, index) = draft.around(&path).expect("not the root");
    parts.remove(index);
    format!("{} is missing", row.name)
}

/// 9: an amount without its currency, or with a bad one.
fn without_currency(draft: &mut Draft, random: &mut Random) -> String {
    let (path, _) = some(draft, random, |row, _| row.kind == Kind::Amt);
    let attributes = &mut draft.at(&path).attributes;
    let what = match random.below(3) {
        0 => {
            attributes.clear();
            "an amount without its currency"
        }
        1 => {
            attributes[0].1 = "eur".to_string();
            "a currency in small letters"
        }
        _ => {
            attributes[0].1 = "€".to_string();
            "a currency's sign for its letters"
        }
    };
    what.to_string()
}

/// 10: somebody's note between two elements.
fn noted(draft: &mut Draft, random: &mut Random) -> String {
    let (path, row) = some(draft, random, |row, _| !row.kind.is_leaf());
    let parts = &mut draft.at(&path).parts;
    let note = random.one_of(&["geprüft!", "siehe Brief", "??", "&lt;-- offen"]);
    parts.insert(random.below(parts.len() + 1), Part::Text(note.to_string()));
    format!("somebody's note in {}", row.name)
}

/// 11: a leaf without a character, or a group without a child.
fn emptied(draft: &mut Draft, random: &mut Random) -> String {
    let (path, row) = some(draft, random, |row, _| row.number > 3);
    draft.at(&path).parts.clear();
    format!("{} without anything in it", row.name)
}

/// 12: a value as people and programs get it wrong.
fn bad_value(draft: &mut Draft, random: &mut Random) -> String {
    let (path, row) = some(draft, random, |row, _| row.kind.is_leaf());
    let element = draft.at(&path);
    let old = match &element.parts[..] {
        [Part::Text(text)] => text.clone(),
        _ => String::new(),
    };
    let (new, what) = match row.kind {
        Kind::Amt => (old.replace('.', ","), "a comma for the point"),
        Kind::Date => (format!("{}02-30", &old[..5]), "a day that no calendar has"),
        Kind::Dtm => (old.replace('T', " "), "a blank for the T"),
        Kind::Iban => (format!("{} {}", &old[..4], &old[4..]), "an IBAN with a blank"),
        Kind::Ref => (format!("{old}//1"), "a double slash in a reference"),
        Kind::Bool => ("ja".to_string(), "another word for true"),
        Kind::Num => (format!("{old}."), "a number with a point"),
        Kind::Enum(_) | Kind::Ccy => (old.to_lowercase(), "small letters"),
        Kind::Txt(k) => (format!("{old}{}", "x".repeat(k)), "a text that is too long"),
        Kind::Group | Kind::Choice => unreachable!("only leaves were asked for"),
    };
    element.parts = vec![Part::Text(new)];
    format!("{what}, in {}", row.name)
}

/// 13: the amount of one transaction without its indicator.
fn amount_alone(draft: &mut Draft, random: &mut Random) -> Result<String, String> {
    if places(draft, |row, _| row.number == 43).is_empty() {
        return Err("code 13 takes an entry with details".to_string());
    }
    let (path, _) = some(draft, random, |row, _| row.number == 43);
    let parts = &mut draft.at(&path).parts;
    match parts.iter().position(|part| matches!(part, Part::Child(child) if child.name == "CdtDbtInd")) {
        Some(indicator) => drop(parts.remove(indicator)),
        None => parts.insert(1, Part::Child(Draft::leaf("Amt", "1.00").attribute("Ccy", "EUR"))),
    }
    Ok("an amount of one transaction without its indicator".to_string())
}
