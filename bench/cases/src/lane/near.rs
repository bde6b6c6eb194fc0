//! Files one byte away from a good one, and files one element, or an attribute of the root, away from it.

use crate::lane::roots;
use crate::message::chosen::{EVERY_ROW, REPORT_EVERY_ROW, REPORT_LEAST, WHOLE};
use crate::message::{Draft, Part, Style};

/// What a byte of a short file is replaced by, besides its neighbours and its other case: what ends a text or a tag, blanks, digits, and
/// bytes of characters beyond ASCII.
const TELLING: &[u8] = b" \n\t<>&/\"'=`0A\x80\xc3\xe2";

/// Schema hints after the namespace, and before it.
const HINTED: [&str; 2] =
    [" xmlns:xsi='http://www.w3.org/2001/XMLSchema-instance' xsi:schemaLocation=\"a b.xsd\"", " xmlns:xsi=\"\""];

const HINTED_FIRST: &str = " xsi:schemaLocation='&amp;ß\"' xmlns:xsi=\"€'\"";

/// Short files with each change at each byte, the hints on a root too; long ones, with every row, with two changes at each.
pub fn by_a_byte() -> Vec<Vec<u8>> {
    let after = HINTED.map(|hints| WHOLE.replacen("\">", &format!("\"{hints}>"), 1));
    let before = WHOLE.replacen(" xmlns", &format!("{HINTED_FIRST} xmlns"), 1);
    let roots = after.iter().chain([&before]).flat_map(|file| {
        let end = file.find("<BkTo").expect("a root");
        changed(&file.as_bytes()[..end], TELLING)
            .into_iter()
            .map(move |front| [&front, &file.as_bytes()[end..]].concat())
    });
    let short = [WHOLE, REPORT_LEAST].into_iter().flat_map(|file| changed(file.as_bytes(), TELLING)).chain(roots);
    let long = [EVERY_ROW, REPORT_EVERY_ROW].into_iter().flat_map(|file| changed(file.as_bytes(), b""));
    short.chain(long).collect()
}

/// The file without a byte, with it twice, and with another in its place, for each of its bytes. Without telling bytes it is only the next
/// one in its place, or it is missing.
fn changed(file: &[u8], telling: &[u8]) -> Vec<Vec<u8>> {
    let mut files = Vec::new();
    for (at, byte) in file.iter().copied().enumerate() {
        let with = |part: &[u8]| [&file[..at], part, &file[at + 1..]].concat();
        files.push(with(&[]));
        files.push(with(&[byte.wrapping_add(1)]));
        if telling.is_empty() {
            continue;
        }
        files.push(with(&[byte, byte]));
        let others = telling.iter().copied().chain([byte.wrapping_sub(1), byte ^ 0x20]);
        files.extend(others.filter(|other| *other != byte).map(|other| with(&[other])));
    }
    files
}

/// Each element doubled, put before the one that it comes after, and with the name of the next one; each run of neighbours left out; and
/// roots with other attributes.
pub fn by_an_element() -> Vec<Vec<u8>> {
    let drafts = [EVERY_ROW, REPORT_EVERY_ROW].map(Draft::from_text);
    let changed = drafts.iter().flat_map(|draft| [rearranged(draft), shortened(draft)].concat());
    let elements = changed.map(|draft| Style::DENSE.write(&draft));
    elements.chain(roots::bad()).map(String::into_bytes).collect()
}

/// Without some children of an element that stand one after the other, for each element.
fn shortened(message: &Draft) -> Vec<Draft> {
    let mut drafts = Vec::new();
    for path in message.paths() {
        let mut draft = message.clone();
        let parts = draft.at(&path).parts.clone();
        let runs = (0..parts.len()).flat_map(|from| (from + 1..=parts.len()).map(move |to| from..to));
        for run in runs.filter(|run| matches!(parts[run.start], Part::Child(_))) {
            draft.at(&path).parts = [&parts[..run.start], &parts[run.end..]].concat();
            drafts.push(draft.clone());
        }
    }
    drafts
}

fn rearranged(message: &Draft) -> Vec<Draft> {
    let mut drafts = Vec::new();
    for path in message.paths().iter().skip(1) {
        let mut with = |change: fn(&mut Vec<Part>, usize)| {
            let mut draft = message.clone();
            let (parts, at) = draft.around(path).expect("not the root");
            change(parts, at);
            if draft != *message {
                drafts.push(draft);
            }
        };
        with(|parts, at| parts.insert(at, parts[at].clone()));
        with(|parts, at| parts.swap(at.saturating_sub(1), at));
        with(|parts, at| {
            let next = parts[(at + 1) % parts.len()].clone();
            if let (Part::Child(child), Part::Child(next)) = (&mut parts[at], next) {
                child.name = next.name;
            }
        });
    }
    drafts
}

#[cfg(test)]
mod tests {
    use super::*;

    #[test]
    fn a_byte_is_left_out_doubled_and_replaced() {
        let all = changed(b"a<", b"0<");
        let texts: Vec<&str> = all.iter().map(|file| std::str::from_utf8(file).unwrap()).collect();
        assert_eq!(texts, ["<", "b<", "aa<", "0<", "<<", "`<", "A<", "a", "a=", "a<<", "a0", "a;", "a\u{1c}"]);
        assert_eq!(changed(b"ab", b""), [&b"b"[..], b"bb", b"a", b"ac"]);
    }

    #[test]
    fn an_element_is_doubled_moved_and_renamed() {
        let drafts = rearranged(&Draft::from_text("<a><b>1</b><c>2</c></a>"));
        let texts: Vec<String> = drafts.iter().map(|draft| Style::DENSE.write(draft)).collect();
        assert_eq!(
            texts,
            [
                "<a><b>1</b><b>1</b><c>2</c></a>", "<a><c>1</c><c>2</c></a>", "<a><b>1</b><c>2</c><c>2</c></a>",
                "<a><c>2</c><b>1</b></a>", "<a><b>1</b><b>2</b></a>",
            ]
        );
    }

    #[test]
    fn runs_of_neighbours_are_left_out() {
        let drafts = shortened(&Draft::from_text("<a><b>1</b><c><d>2</d></c></a>"));
        let texts: Vec<String> = drafts.iter().map(|draft| Style::DENSE.write(draft)).collect();
        assert_eq!(texts, ["<a><c><d>2</d></c></a>", "<a></a>", "<a><b>1</b></a>", "<a><b>1</b><c></c></a>"]);
    }
}
