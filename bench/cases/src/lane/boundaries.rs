//! Every boundary of each type: the texts that are chosen for it, each in a file, in the first leaf of its kind; what a text may not have, or
//! only in another spelling, at each of its places; every byte and every near character in a text, a reference and a schema hint.

use independent::list::{Kind, List, REPORT, STATEMENT};

use crate::message::chosen::{EVERY_ROW, REPORT_EVERY_ROW, WHOLE};
use crate::message::{Draft, Part, Style};
use crate::values::{self, ValueCase};

/// What stands in a leaf and in its currency until the bytes are put there: they need not be UTF-8.
const TEXT: &str = "TEXT HERE";
const CURRENCY: &str = "CURRENCY HERE";

/// TXT1 and TXT35 have no row in files, so their texts are left out.
pub fn files() -> Vec<Vec<u8>> {
    let chosen = values::fixed_set().iter().filter_map(file).collect();
    [chosen, within("9", 34, &IN_TEXTS), within("M1", 35, &IN_REFERENCES), each_character(), in_hints()].concat()
}

/// Bytes beside those of TXT, what house XML has no place for in texts, and what must be looked at once more.
const IN_TEXTS: [&str; 20] = [
    "`", "\u{7f}", "\u{1}", "\n", "\t", "é", "\u{a0}", "ẞ", "₫", "𝄞", "\u{fffe}", ">", "]>", "]]", "]]>", "<", "&",
    "&amp", "&#65;", "&copy;",
];

/// The same for REF, and its slashes.
const IN_REFERENCES: [&str; 12] = ["/", "//", "/ /", " ", "_", ";", "`", "&apos;", "&amp;", "ä", "]]>", "\n"];

/// A file with each of these after every number of plain bytes, in a text that has as many characters as its kind allows, where it can.
fn within(old: &str, most: usize, odd: &[&str]) -> Vec<Vec<u8>> {
    let after = |odd: &str, before: usize| most.saturating_sub(before + odd.chars().count());
    let text = |odd: &str, before: usize| "x".repeat(before) + odd + &"y".repeat(after(odd, before));
    let texts = odd.iter().flat_map(|odd| (0..most).map(move |before| text(odd, before)));
    texts.map(|text| WHOLE.replacen(&format!(">{old}<"), &format!(">{text}<"), 1).into_bytes()).collect()
}

/// Every character of one or two bytes up to U+017F, and those about the euro, early in a text and late, and in a reference.
fn each_character() -> Vec<Vec<u8>> {
    let characters = (0..=0x17f).chain(0x2070..=0x20cf).filter_map(char::from_u32);
    let texts =
        characters.map(|character| [3, 20].map(|before| "x".repeat(before) + &character.to_string() + "yyyyyyy"));
    let file = |old: &str, text: &str| WHOLE.replacen(&format!(">{old}<"), &format!(">{text}<"), 1).into_bytes();
    texts.flat_map(|[early, late]| [file("9", &early), file("9", &late), file("M1", &early)]).collect()
}

/// Every byte in the text of each schema hint, in either quotes.
fn in_hints() -> Vec<Vec<u8>> {
    let hints = [
        "xmlns:xsi='a@'", "xmlns:xsi=\"@a\"", "xmlns:xsi='' xsi:schemaLocation=\"a@a\"",
        "xmlns:xsi='' xsi:schemaLocation='@'",
    ];
    let files = hints.map(|hint| WHOLE.replacen("\">", &format!("\" {hint}>"), 1).into_bytes());
    files.iter().flat_map(|file| (0..=255).map(|byte| put(file.clone(), "@", &[byte]))).collect()
}

/// The file with this value; none where no row is of its kind.
fn file(value: &ValueCase) -> Option<Vec<u8>> {
    [(EVERY_ROW, &STATEMENT), (REPORT_EVERY_ROW, &REPORT)].into_iter().find_map(|(message, list)| {
        let mut draft = Draft::from_text(message);
        let leaf = first_leaf(&mut draft, list, list.root().number, value.list_kind())?;
        leaf.parts = vec![Part::Text(TEXT.to_string())];
        leaf.attributes.iter_mut().for_each(|(_, raw)| *raw = CURRENCY.to_string());
        let text = Style::DENSE.write(&draft);
        Some(put(put(text.into_bytes(), CURRENCY, &value.currency), TEXT, &value.raw))
    })
}

/// The first leaf of a kind in an element of a row.
fn first_leaf<'a>(element: &'a mut Draft, list: &List, row: u8, kind: Kind) -> Option<&'a mut Draft> {
    for part in &mut element.parts {
        let Part::Child(child) = part else {
            continue;
        };
        let found = list.file_children(row).find(|found| found.name == child.name).expect("a good message");
        if found.kind == kind {
            return Some(child);
        }
        if let Some(leaf) = first_leaf(child, list, found.number, kind) {
            return Some(leaf);
        }
    }
    None
}

/// The file with other bytes where the mark stands, if it does.
fn put(file: Vec<u8>, mark: &str, bytes: &[u8]) -> Vec<u8> {
    match file.windows(mark.len()).position(|window| window == mark.as_bytes()) {
        Some(at) => [&file[..at], bytes, &file[at + mark.len()..]].concat(),
        None => file,
    }
}

#[cfg(test)]
mod tests {
    use super::*;

    /// A file is good exactly where its value is, and the value's bytes stand in its image.
    #[test]
    fn a_file_is_as_good_as_its_value() {
        let mut of_kinds = [0; 12];
        for value in values::fixed_set() {
            let Some(file) = file(&value) else {
                assert!([Kind::Txt(1), Kind::Txt(35)].contains(&value.list_kind()));
                continue;
            };
            of_kinds[usize::from(value.kind)] += 1;
            let mut room = vec![0; 4096];
            let answer = independent::check(&file, &mut room);
            match value.answer() {
                Some(bytes) => {
                    assert!(answer.is_accepted(), "{value:?}: {answer:?}");
                    assert!(room[..answer.place].windows(bytes.len()).any(|part| part == bytes), "{value:?}");
                }
                None => assert!(!answer.is_accepted(), "{value:?}"),
            }
        }
        assert!(of_kinds[2..].iter().all(|count| *count > 5), "{of_kinds:?}");
    }

    #[test]
    fn a_text_has_what_is_odd_at_each_place() {
        let files = within("M1", 35, &["/"]);
        assert_eq!(files.len(), 35);
        assert!(files[2].starts_with(WHOLE.replace("M1", &format!("xx/{}", "y".repeat(32))).as_bytes()));
        assert!(!independent::check(&files[0], &mut []).is_accepted() && files[0] != WHOLE.as_bytes());
    }
}
