//! Good files in every shape that the lane takes: with a declaration and without, any blanks between tags, both quotes, schema hints in any
//! order, every entity and every character beyond ASCII at every place of a chunk, texts of each length.

use crate::lane::roots;
use crate::message::chosen::{EVERY_ROW, REPORT_EVERY_ROW, REPORT_LEAST, WHOLE};

/// What stands for a character that is no plain byte of a text: the five entities, and the ten beyond ASCII.
pub const SPELLED: [&str; 15] =
    ["&amp;", "&lt;", "&gt;", "&quot;", "&apos;", "ä", "ö", "ü", "ß", "Ä", "Ö", "Ü", "€", "§", "°"];

pub fn files() -> Vec<Vec<u8>> {
    let all = [between_tags(), fronts(), roots::good(), quoted(), characters(), long_texts(), references(), accounts()]
        .concat();
    all.into_iter().map(String::into_bytes).collect()
}

/// Blanks as they stand between tags: each of the four, lines that are indented by up to 34 blanks, and blanks before and after a line's end.
fn gaps() -> Vec<String> {
    let mut gaps: Vec<String> = ["", " ", "\n", "\t", "\r", "\r\n", "\n\n", " \n", "\t \r\n "].map(String::from).into();
    for n in 1..=34 {
        gaps.push(" ".repeat(n));
        gaps.push("\n".to_string() + &" ".repeat(n));
        gaps.push("\n".to_string() + &"\t".repeat(n));
        gaps.push(" ".repeat(n) + "\n");
        gaps.push("\r\n".to_string() + &" ".repeat(n) + "\t");
    }
    gaps
}

/// The same gap between all tags of a file, before its root and after it.
fn between_tags() -> Vec<String> {
    let files = [EVERY_ROW, REPORT_EVERY_ROW];
    gaps()
        .iter()
        .flat_map(|gap| files.map(|file| format!("{gap}{}{gap}", file.replace("><", &format!(">{gap}<")))))
        .collect()
}

/// Up to the end of the root's tag: a declaration or none, blanks, either quote, and hints after the namespace.
fn fronts() -> Vec<String> {
    let hints = [
        "",
        " xmlns:xsi=\"http://www.w3.org/2001/XMLSchema-instance\"",
        " xmlns:xsi='' xsi:schemaLocation=''",
        "\n  xmlns:xsi='a' xsi:schemaLocation=\"urn:a a.xsd\"",
        "\t\r xmlns:xsi=\"a>b\"    xsi:schemaLocation='>'",
    ];
    let mut files = Vec::new();
    for declaration in ["", "<?xml version=\"1.0\" encoding=\"UTF-8\"?>"] {
        for gap in ["", "\n", "\r\n", " ", "        ", "\n\t        \n"] {
            for quote in ["\"", "'"] {
                for hint in hints {
                    for file in [WHOLE, REPORT_LEAST] {
                        let root = file.replacen("xmlns=\"", &format!("xmlns={quote}"), 1);
                        files
                            .push(format!("{declaration}{gap}{}", root.replacen("\">", &format!("{quote}{hint}>"), 1)));
                    }
                }
            }
        }
    }
    files
}

/// Currencies in single quotes: all, every second, none.
fn quoted() -> Vec<String> {
    let single = |file: &str, which: fn(usize) -> bool| {
        let parts = file.split("Ccy=\"").enumerate().map(|(at, part)| match at {
            0 => part.to_string(),
            _ if which(at) => format!("Ccy='{}", part.replacen('"', "'", 1)),
            _ => format!("Ccy=\"{part}"),
        });
        parts.collect::<String>()
    };
    let which: [fn(usize) -> bool; 3] = [|_| true, |at| at % 2 == 0, |at| at % 2 == 1];
    [WHOLE, EVERY_ROW, REPORT_EVERY_ROW].iter().flat_map(|file| which.map(|which| single(file, which))).collect()
}

/// TXT34: every spelled character after up to 17 plain bytes and before some, and two of them side by side.
fn characters() -> Vec<String> {
    let mut texts = Vec::new();
    for (number, spelled) in SPELLED.iter().enumerate() {
        for before in 0..=17 {
            texts.extend([0, 1, 8, 16].map(|after| "x".repeat(before) + spelled + &"y".repeat(after)));
            texts.push("x".repeat(before) + spelled + SPELLED[(number + before) % SPELLED.len()]);
        }
    }
    texts.extend((1..=34).map(|length| "x".repeat(length)));
    texts.extend((1..=33).map(|length| "x".repeat(length) + " "));
    texts.iter().map(|text| WHOLE.replace("<Id>9</Id>", &format!("<Id>{text}</Id>"))).collect()
}

/// TXT140: each length, and a spelled character at each place.
fn long_texts() -> Vec<String> {
    let plain = (1..=140).map(|length| "x".repeat(length));
    let spelled = (0..140).map(|at| "x".repeat(at) + SPELLED[at % SPELLED.len()] + &"y".repeat(139 - at));
    plain.chain(spelled).map(|text| EVERY_ROW.replace("Top 4", &text)).collect()
}

/// REF: a slash after each number of bytes, and before some, up to 35.
fn references() -> Vec<String> {
    let mut texts: Vec<String> = (1..=35).map(|length| "R".repeat(length)).collect();
    for before in 1..=33 {
        texts.extend([1, 35 - 1 - before].map(|after| "R".repeat(before) + "/" + &"S".repeat(after)));
    }
    texts.iter().map(|text| WHOLE.replace("M1", text)).collect()
}

/// IBAN: each length from 5 to 34.
fn accounts() -> Vec<String> {
    (1..=30)
        .map(|length| {
            EVERY_ROW.replace("AT611904300234573201", &format!("AT61{}", "0aZ".repeat(10).split_at(length).0))
        })
        .collect()
}

#[cfg(test)]
mod tests {
    use super::*;
    use std::collections::BTreeSet;

    #[test]
    fn all_are_good() {
        for file in &files() {
            let answer = independent::check(file, &mut vec![0; 4096]);
            assert!(answer.is_accepted(), "{answer:?} {}", String::from_utf8_lossy(file));
        }
    }

    /// Blanks don't count, so that all of these have the images of the two messages.
    #[test]
    fn gaps_change_no_image() {
        let images: BTreeSet<Vec<u8>> =
            between_tags().iter().map(|file| crate::runs::image_of(file.as_bytes())).collect();
        assert_eq!(images.len(), 2);
    }
}
