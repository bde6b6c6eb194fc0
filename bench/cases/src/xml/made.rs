//! Texts made from a seed: house XML in every style, and mutations of its bytes.

use crate::random::Random;

/// A house XML text of up to some hundred bytes.
pub fn whole(random: &mut Random) -> Vec<u8> {
    let mut text = String::new();
    if random.once_in(3) {
        text += "<?xml version=\"1.0\" encoding=\"UTF-8\"?>";
    }
    text += &blanks(random, 0);
    element(random, 1, &mut text);
    text += &blanks(random, 0);
    text.into_bytes()
}

/// Mostly shallow, now and then as deep as can be.
fn element(random: &mut Random, level: usize, text: &mut String) {
    let name = name(random);
    *text += &format!("<{name}");
    attributes(random, text);
    *text += &blanks(random, 0);
    if random.once_in(4) {
        *text += "/>";
        return;
    }
    *text += ">";
    let children = if level == 16 { 0 } else { random.below(4) / if level > 3 { 2 } else { 1 } };
    for _ in 0..children {
        piece(random, text);
        element(random, level + 1, text);
    }
    piece(random, text);
    *text += &format!("</{name}{}>", blanks(random, 0));
}

fn attributes(random: &mut Random, text: &mut String) {
    let mut names: Vec<String> = Vec::new();
    for _ in 0..random.below(9).saturating_sub(4) {
        let name = attribute_name(random);
        if names.contains(&name) {
            continue;
        }
        let (quote, other) = if random.once_in(2) { ('"', "'") } else { ('\'', "\"") };
        let value = characters(random, other).replace("<", "&lt;").replace(quote, "");
        let (front, left, right) = (blanks(random, 1), blanks(random, 0), blanks(random, 0));
        *text += &format!("{front}{name}{left}={right}{quote}{value}{quote}");
        names.push(name);
    }
}

/// A run of text, often none.
fn piece(random: &mut Random, text: &mut String) {
    if random.once_in(2) {
        *text += &characters(random, "\"'").replace("]]>", "]]&gt;");
    }
}

fn characters(random: &mut Random, more: &str) -> String {
    let pieces =
        ["a", "Z", "0", " ", "\n", "]", "]]", ">", "ä", "€", "𝄞", "\u{7f}", "\u{fffd}", "&amp;", "&lt;", "&gt;"];
    let entities = ["&quot;", "&apos;", more];
    let count = random.below(6);
    (0..count).map(|_| if random.once_in(5) { random.one_of(&entities) } else { random.one_of(&pieces) }).collect()
}

fn name(random: &mut Random) -> String {
    let first = random.character("ab_Z");
    let rest = random.below(4);
    format!("{first}{}", random.characters("ab_Z09.-", rest))
}

/// A name, or two with a colon between them.
fn attribute_name(random: &mut Random) -> String {
    let first = name(random);
    if random.once_in(3) {
        return format!("{first}:{}", name(random));
    }
    first
}

/// At least so many blanks, mostly few.
fn blanks(random: &mut Random, least: usize) -> String {
    let more = if random.once_in(3) { random.below(3) } else { 0 };
    random.characters(" \t\n\r", least + more)
}

/// Bytes that mean something somewhere in house XML.
const TELLING: &[u8] =
    b"<>/='\"& \t\n\r?!;:]]ab_Z09.-\x00\x01\x0b\x1f\x7f\x80\xbf\xc2\xc3\xe2\x82\xac\xed\xef\xbe\xbf\xf0\xf4\xff";

/// Pieces that mean something when they stand in the wrong place.
const TELLING_PIECES: &[&str] = &[
    "]]>", "<!--", "-->", "<![CDATA[", "<?", "?>", "&#65;", "&amp;", "&am", "</", "/>", "<a>", "<a ", "\u{ffff}",
    "\u{feff}", " a=\"\"", " a='' a=''", " b='1' c='2' d='3' e='4' f='5'", ":a", " a:b=''", " a:b='' a:b=''",
];

/// Changes a text in one place: a byte or a piece put in, left out, replaced, doubled, swapped, or the end cut off.
pub fn mutate(text: &mut Vec<u8>, random: &mut Random) {
    let at = random.below(text.len() + 1);
    let span = random.between(1, 8).min(text.len() - at);
    match random.below(8) {
        0 => text.insert(at, TELLING[random.below(TELLING.len())]),
        1 if at < text.len() => text[at] = TELLING[random.below(TELLING.len())],
        2 if at < text.len() => text[at] ^= 1 << random.below(8),
        3 => drop(text.drain(at..at + span)),
        4 => {
            let doubled = text[at..at + span].to_vec();
            text.splice(at..at, doubled).for_each(drop);
        }
        5 => text.splice(at..at, random.one_of(TELLING_PIECES).bytes()).for_each(drop),
        6 if at + 1 < text.len() => text.swap(at, at + 1),
        _ => text.truncate(at),
    }
}
