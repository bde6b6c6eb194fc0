//! Raw texts of leaves made from a seed: good ones in every spelling, and bad ones.

use std::sync::OnceLock;

use independent::list::Kind;

use super::{chosen, ValueCase};
use crate::random::Random;

const LETTERS: &str = "ABCDEFGHIJKLMNOPQRSTUVWXYZabcdefghijklmnopqrstuvwxyz";
const CAPITALS: &str = "ABCDEFGHIJKLMNOPQRSTUVWXYZ";
const DIGITS: &str = "0123456789";
const REFERENCE_SIGNS: &str = " -+?:().,'/";
const TEXT_SIGNS: &str = " -+/?:().,'&><\"|$%!=#~;*{}[]@\\_^äöüßÄÖÜ€§°";

/// A good raw text of this kind.
pub fn valid(kind: Kind, random: &mut Random) -> String {
    match kind {
        Kind::Ref => escape(&reference(random), random),
        Kind::Txt(k) => escape(&text(k, random), random),
        Kind::Iban => {
            let length = length(30, random);
            let (country, check) = (random.characters(CAPITALS, 2), random.characters(DIGITS, 2));
            format!("{country}{check}{}", random.characters(&[LETTERS, DIGITS].concat(), length))
        }
        Kind::Ccy => match random.once_in(3) {
            true => random.characters(CAPITALS, 3),
            false => "EUR".to_string(),
        },
        Kind::Enum(words) => random.one_of(words).to_string(),
        Kind::Bool => padded(random.one_of(&["true", "1", "false", "0"]), random),
        Kind::Num => {
            let length = length(18, random);
            padded(&random.characters(DIGITS, length), random)
        }
        Kind::Amt => padded(&amount(random), random),
        Kind::Date => padded(&date(random), random),
        Kind::Dtm => padded(&date_time(random), random),
        Kind::Group | Kind::Choice => String::new(),
    }
}

/// Mostly a bad raw text of this kind, and one that can stand in a text: a chosen one, or a good one with a change.
pub fn doubtful(kind: Kind, random: &mut Random) -> String {
    static CHOSEN: OnceLock<Vec<ValueCase>> = OnceLock::new();
    let chosen: Vec<&ValueCase> =
        CHOSEN.get_or_init(chosen::chosen).iter().filter(|case| case.list_kind() == kind).collect();
    if !chosen.is_empty() && random.once_in(2) {
        let case = chosen[random.below(chosen.len())];
        return String::from_utf8_lossy(&case.raw).replace('<', "&lt;");
    }
    let mut characters: Vec<char> = valid(kind, random).chars().collect();
    let at = random.below(characters.len());
    match random.below(4) {
        0 => characters[at] = random.character("09aZ/: .-+T€`;"),
        1 => characters.insert(at, random.character("09aZ/: .-+T€`\n")),
        2 => drop(characters.remove(at)),
        _ => characters.extend(characters.clone()),
    }
    characters.into_iter().collect()
}

/// From 1 to the most, the edges often.
fn length(most: usize, random: &mut Random) -> usize {
    match random.below(6) {
        0 => 1,
        1 => most,
        2 => most.max(2) - 1,
        3 => random.between(1, most),
        _ => random.between(1, most.min(12)),
    }
}

fn reference(random: &mut Random) -> String {
    let length = length(35, random);
    let signs = if random.once_in(2) { REFERENCE_SIGNS } else { "" };
    let mut text = random.characters(&[LETTERS, DIGITS, signs].concat(), length);
    while text.contains("//") {
        text = text.replace("//", "/-");
    }
    if text.starts_with('/') {
        text.replace_range(..1, "A");
    }
    if text.ends_with('/') || text.trim().is_empty() {
        text.pop();
        text.push('Z');
    }
    text
}

fn text(k: usize, random: &mut Random) -> String {
    let length = length(k, random);
    let mut text = match random.below(3) {
        0 => random.characters(&[LETTERS, DIGITS, " "].concat(), length),
        1 => random.characters(TEXT_SIGNS, length),
        _ => random.characters(&[LETTERS, DIGITS, TEXT_SIGNS].concat(), length),
    };
    if text.trim().is_empty() {
        text.pop();
        text.push('§');
    }
    text
}

/// Characters as they stand in a file: `&` and `<` as entities, the other three now and then, `]]>` never.
fn escape(text: &str, random: &mut Random) -> String {
    let mut raw = String::new();
    for c in text.chars() {
        match c {
            '&' => raw += "&amp;",
            '<' => raw += "&lt;",
            '>' if random.once_in(2) => raw += "&gt;",
            '"' if random.once_in(2) => raw += "&quot;",
            '\'' if random.once_in(2) => raw += "&apos;",
            _ => raw.push(c),
        }
    }
    raw.replace("]]>", "]]&gt;")
}

/// Now and then with blanks at either end.
fn padded(text: &str, random: &mut Random) -> String {
    let mut blanks = || match random.once_in(8) {
        true => random.characters(" \t\n\r", 2),
        false => String::new(),
    };
    let (front, back) = (blanks(), blanks());
    format!("{front}{text}{back}")
}

/// An amount that is not below 0, in any spelling.
fn amount(random: &mut Random) -> String {
    let scale = random.below(6);
    let whole_digits = random.below(18 - scale + 1);
    let mut whole = random.characters(DIGITS, whole_digits);
    let mut fraction = random.characters(DIGITS, scale);
    if random.once_in(6) {
        let zeros = random.below(20);
        fraction += &"0".repeat(zeros);
        whole = "0".repeat(zeros) + &whole;
    }
    if whole.is_empty() && fraction.is_empty() {
        whole = "0".to_string();
    }
    let is_zero = whole.chars().chain(fraction.chars()).all(|c| c == '0');
    let sign = match random.below(8) {
        0 => "+",
        1 if is_zero => "-",
        _ => "",
    };
    let point = if fraction.is_empty() && !random.once_in(8) { "" } else { "." };
    format!("{sign}{whole}{point}{fraction}")
}

fn date(random: &mut Random) -> String {
    let year = match random.below(6) {
        0 => random.between(1, 9999),
        1 => random.between(1, 24) * 400,
        2 => random.between(1, 99) * 100,
        _ => random.between(2020, 2028),
    };
    let leap = (year % 4 == 0 && year % 100 != 0) || year % 400 == 0;
    let month = random.between(1, 12);
    let days = [31, if leap { 29 } else { 28 }, 31, 30, 31, 30, 31, 31, 30, 31, 30, 31][month - 1];
    let day = if random.once_in(3) { days } else { random.between(1, days) };
    format!("{year:04}-{month:02}-{day:02}")
}

fn date_time(random: &mut Random) -> String {
    let date = date(random);
    let (hour, minute, second) = match random.below(6) {
        0 => (23, 59, 59),
        1 => (0, 0, 0),
        _ => (random.below(24), random.below(60), random.below(60)),
    };
    // 24:00:00 has no fraction, and none follows the last day.
    let midnight = random.once_in(8) && date != "9999-12-31";
    let (hour, minute, second) = if midnight { (24, 0, 0) } else { (hour, minute, second) };
    let digits = random.below(3);
    let fraction = match random.below(2) {
        0 if !midnight => format!(".{}{}", random.characters(DIGITS, digits), random.between(1, 9)),
        _ => String::new(),
    };
    let zone = match random.below(5) {
        0 => random.one_of(&["+00:00", "-00:00", "+14:00", "-14:00", "+13:59"]).to_string(),
        1 => format!("{}{:02}:{:02}", random.one_of(&["+", "-"]), random.below(14), random.below(60)),
        2 => "+01:00".to_string(),
        _ => "Z".to_string(),
    };
    format!("{date}T{hour:02}:{minute:02}:{second:02}{fraction}{zone}")
}

#[cfg(test)]
mod tests {
    use super::*;
    use independent::list::{REPORT, STATEMENT};

    #[test]
    fn good_texts_are_good() {
        let mut random = Random::new(1);
        for row in [STATEMENT.rows, REPORT.rows].concat().iter().filter(|row| row.kind.is_leaf()) {
            for _ in 0..2000 {
                let raw = valid(row.kind, &mut random);
                let text = independent::house::resolve(raw.as_bytes()).unwrap();
                let value = independent::types::value(row.kind, &text, Some(*b"EUR"));
                assert!(value.is_some(), "{:?} {raw}", row.kind);
            }
        }
    }

    #[test]
    fn doubtful_texts_are_mostly_bad() {
        let mut random = Random::new(1);
        for row in [STATEMENT.rows, REPORT.rows].concat().iter().filter(|row| row.kind.is_leaf()) {
            let bad = (0..400).filter(|_| {
                let text = independent::house::resolve(doubtful(row.kind, &mut random).as_bytes());
                text.is_none_or(|text| independent::types::value(row.kind, &text, Some(*b"EUR")).is_none())
            });
            assert!(bad.count() > 60, "{:?}", row.kind);
        }
    }
}
