//! The root's tag: a namespace and schema hints in every order, each as often as four attributes allow, with any text.

use crate::message::chosen::{REPORT_LEAST, WHOLE};

/// What a root may carry, by its name.
const NAMES: [&str; 3] = ["xmlns", "xmlns:xsi", "xsi:schemaLocation"];

/// What a hint says, with `~` for the quote that it does not stand in: what files have, what is one character in several bytes, and what
/// would end something elsewhere.
const TEXTS: [&str; 6] =
    ["", "http://www.w3.org/2001/XMLSchema-instance", "a b.xsd", "&amp;&lt;&gt;&quot;&apos;", "~§ä€>~=/", "]]>--"];

/// Of files that are good with a root of the namespace alone, those that are good still.
pub fn good() -> Vec<String> {
    orders().into_iter().filter(|names| is_good(names)).flat_map(|names| spelled(&names, &TEXTS)).collect()
}

/// And those that are not: without a namespace, with a name twice, with a location and no prefix.
pub fn bad() -> Vec<String> {
    orders().into_iter().filter(|names| !is_good(names)).flat_map(|names| spelled(&names, &TEXTS[..1])).collect()
}

/// Up to four names, one after the other.
fn orders() -> Vec<Vec<&'static str>> {
    let mut all: Vec<Vec<&str>> = vec![vec![]];
    let mut from = 0;
    for _ in 0..4 {
        let longer = all[from..].iter().flat_map(|names| NAMES.map(|name| [&names[..], &[name]].concat())).collect();
        from = all.len();
        all = [all, longer].concat();
    }
    all
}

fn is_good(names: &[&str]) -> bool {
    let count = |name: &str| names.iter().filter(|other| **other == name).count();
    let [spaces, prefixes, locations] = NAMES.map(count);
    spaces == 1 && prefixes <= 1 && locations <= prefixes
}

/// Each of two files with these names, in either quotes, and each text in all the hints.
fn spelled(names: &[&str], texts: &[&str]) -> Vec<String> {
    let mut files = Vec::new();
    for file in [WHOLE, REPORT_LEAST] {
        let end = file.find('>').expect("a root");
        let space = file[..end].split('"').nth(1).expect("a namespace");
        for text in texts {
            for (quote, other) in [("\"", "'"), ("'", "\"")] {
                let written = names.iter().map(|name| {
                    let text = if *name == NAMES[0] { space.to_string() } else { text.replace('~', other) };
                    format!(" {name}={quote}{text}{quote}")
                });
                files.push(format!("<Document{}{}", written.collect::<String>(), &file[end..]));
            }
        }
    }
    files
}

#[cfg(test)]
mod tests {
    use super::*;
    use independent::check;

    fn code(file: &str) -> u8 {
        check(file.as_bytes(), &mut [0; 4096]).code.number()
    }

    #[test]
    fn the_good_are_good() {
        let files = good();
        assert_eq!(files.len(), 9 * 2 * 2 * TEXTS.len());
        files.iter().for_each(|file| assert_eq!(code(file), 0, "{file}"));
    }

    /// A name twice is no house XML, and what else is wrong is a wrong root.
    #[test]
    fn the_bad_are_bad() {
        let files = bad();
        assert_eq!(files.len(), (1 + 3 + 9 + 27 + 81 - 9) * 2 * 2);
        for file in &files {
            let root = &file[..file.find('>').expect("a root")];
            let twice = NAMES.iter().any(|name| root.matches(&format!(" {name}=")).count() > 1);
            assert_eq!(code(file), if twice { 3 } else { 4 }, "{file}");
        }
    }
}
