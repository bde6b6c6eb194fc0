//! The recogniser of house XML against a second acceptor that is written in another way, and against completions.
//!
//! The second acceptor decodes the text, cuts it into tags and runs of text, and judges each piece whole. It knows nothing
//! of places. A place p is right if the first p bytes can be completed to a text that the acceptor takes, and if none of the
//! completions we know helps one byte further on.

use cases::random::Random;
use cases::xml;
use independent::house::parse;

/// A text cut up: the names that are still open, and what is left over behind the last whole tag.
struct Cut {
    open: Vec<String>,
    left: String,
    /// Whether a root was begun.
    begun: bool,
}

const BLANKS: [char; 4] = [' ', '\t', '\n', '\r'];

/// Whether the text is house XML.
fn accepts(text: &[u8]) -> bool {
    let Ok(text) = std::str::from_utf8(text) else {
        return false;
    };
    text.chars().all(is_character)
        && cut(text).is_some_and(|cut| cut.begun && cut.open.is_empty() && cut.left.trim_matches(BLANKS).is_empty())
}

fn is_character(c: char) -> bool {
    matches!(c, '\t' | '\n' | '\r' | ' '..='\u{d7ff}' | '\u{e000}'..='\u{fffd}' | '\u{10000}'..='\u{10ffff}')
}

/// Cuts a text into tags and runs of text. `None` where a whole piece is bad.
fn cut(text: &str) -> Option<Cut> {
    let mut left = text.strip_prefix("<?xml version=\"1.0\" encoding=\"UTF-8\"?>").unwrap_or(text);
    let mut open: Vec<String> = Vec::new();
    let mut begun = false;
    while let Some(start) = left.find('<') {
        let run = &left[..start];
        let good_run = if open.is_empty() { run.trim_matches(BLANKS).is_empty() } else { is_text(run) };
        let Some(end) = tag_end(&left[start..]) else {
            return good_run.then(|| Cut { open, left: left[start..].to_string(), begun });
        };
        let tag = &left[start + 1..start + end];
        if !good_run {
            return None;
        }
        if let Some(name) = tag.strip_prefix('/') {
            if open.pop()? != name.trim_end_matches(BLANKS) {
                return None;
            }
        } else {
            if open.is_empty() && begun {
                return None;
            }
            begun = true;
            let inside = tag.strip_suffix('/').unwrap_or(tag);
            open.push(opened(inside)?);
            if open.len() > 16 {
                return None;
            }
            if tag.ends_with('/') {
                open.pop();
            }
        }
        left = &left[start + end + 1..];
    }
    Some(Cut { open, left: left.to_string(), begun })
}

/// The place of the `>` that ends the tag at the beginning of a text: the first one outside quotes.
fn tag_end(text: &str) -> Option<usize> {
    let mut quote = None;
    for (place, c) in text.char_indices() {
        match quote {
            Some(q) if c == q => quote = None,
            Some(_) => {}
            None if c == '>' => return Some(place),
            None if c == '"' || c == '\'' => quote = Some(c),
            None => {}
        }
    }
    None
}

/// The name of an opening tag without its `<`, `>` and `/`, if all of it is good.
fn opened(tag: &str) -> Option<String> {
    let (name, mut rest) = tag.split_at(tag.find(BLANKS).unwrap_or(tag.len()));
    if !is_name(name) {
        return None;
    }
    let mut names: Vec<&str> = Vec::new();
    loop {
        let begins = rest.trim_start_matches(BLANKS);
        if begins.is_empty() {
            return Some(name.to_string());
        }
        if begins.len() == rest.len() {
            return None; // no blank in front of the attribute
        }
        let (attribute, value) = begins.split_once('=')?;
        let attribute = attribute.trim_end_matches(BLANKS);
        let value = value.trim_start_matches(BLANKS);
        let quote = value.chars().next().filter(|c| "'\"".contains(*c))?;
        let (value, after) = value[1..].split_once(quote)?;
        if !is_attribute_name(attribute) || names.contains(&attribute) || names.len() == 4 || !is_value(value) {
            return None;
        }
        names.push(attribute);
        rest = after;
    }
}

fn is_name(name: &str) -> bool {
    let mut characters = name.chars();
    characters.next().is_some_and(|c| c.is_ascii_alphabetic() || c == '_')
        && characters.all(|c| c.is_ascii_alphanumeric() || "._-".contains(c))
}

/// "one colon between two names"
fn is_attribute_name(name: &str) -> bool {
    match name.split_once(':') {
        Some((first, second)) => is_name(first) && is_name(second),
        None => is_name(name),
    }
}

fn is_text(text: &str) -> bool {
    !text.contains("]]>") && entities_are_good(text)
}

fn is_value(value: &str) -> bool {
    !value.contains('<') && entities_are_good(value)
}

fn entities_are_good(text: &str) -> bool {
    let names = ["amp;", "lt;", "gt;", "quot;", "apos;"];
    text.split('&').skip(1).all(|rest| names.iter().any(|name| rest.starts_with(name)))
}

/// What may complete a beginning: first the character, entity or declaration that is cut off, then the tag, then all
/// elements that are open.
fn completions(beginning: &[u8]) -> Vec<Vec<u8>> {
    let mut ends: Vec<Vec<u8>> = Vec::new();
    for small in small_ends(beginning) {
        let Ok(text) = String::from_utf8([beginning, &small].concat()) else {
            continue;
        };
        let Some(cut) = cut(&text) else {
            continue;
        };
        for tag in tag_ends(&cut) {
            ends.push([&small[..], tag.as_bytes()].concat());
        }
    }
    ends
}

fn small_ends(beginning: &[u8]) -> Vec<Vec<u8>> {
    let mut ends: Vec<Vec<u8>> =
        ["", "x", "amp;", "lt;", "gt;", "quot;", "apos;", "mp;", "p;", ";", "t;", "uot;", "ot;", "pos;", "os;", "s;"]
            .iter()
            .map(|end| end.as_bytes().to_vec())
            .collect();
    for low in [0x80, 0x90, 0xa0] {
        ends.extend([vec![low], vec![low, 0x80], vec![low, 0x80, 0x80]]);
    }
    let declaration = independent::house::DECLARATION;
    if beginning.len() < declaration.len() && declaration.starts_with(beginning) {
        ends.push(declaration[beginning.len()..].to_vec());
    }
    ends
}

fn tag_ends(cut: &Cut) -> Vec<String> {
    let mut ends: Vec<String> =
        ["", ">", "/>", "'/>", "\"/>", "''/>", "=''/>", "a/>", "a=''/>", " a=''/>", "zz=''/>", "<a/>"]
            .map(str::to_string)
            .to_vec();
    if let Some(name) = cut.open.last() {
        // What is left over may be a piece of this element's end tag.
        let end_tag = format!("</{name}>");
        let typed = cut.left.rfind('<').map_or("", |start| cut.left[start..].trim_end_matches(BLANKS));
        let mut closed = end_tag.strip_prefix(typed).unwrap_or(&end_tag).to_string();
        closed += &close(&cut.open[..cut.open.len() - 1]);
        ends.push(closed);
    }
    let outside = close(&cut.open);
    let mut all: Vec<String> = ends.iter().map(|end| format!("{end}{outside}")).collect();
    // `>` opens an element whose name stands at the beginning of what is left over.
    if let Some(tag) = cut.left.strip_prefix('<') {
        let name: String = tag.chars().take_while(|c| c.is_ascii_alphanumeric() || "._-".contains(*c)).collect();
        all.push(format!("></{name}>{outside}"));
    }
    all.extend(ends);
    all
}

fn close(open: &[String]) -> String {
    open.iter().rev().map(|name| format!("</{name}>")).collect()
}

/// All that we can see of a text's answer.
fn examine(text: &[u8]) {
    let shown = || String::from_utf8_lossy(text).into_owned();
    let place = match parse(text) {
        Ok(_) => {
            assert!(accepts(text), "the second acceptor refuses {}", shown());
            return;
        }
        Err(place) => place,
    };
    assert!(!accepts(text), "the second acceptor takes {}", shown());
    assert!(place <= text.len());
    for shorter in 0..place {
        let answer = parse(&text[..shorter]);
        assert!(answer.is_ok() || answer == Err(shorter), "{} at {shorter}: {answer:?}", shown());
    }
    let viable = &text[..place];
    let completed = completions(viable).iter().any(|end| accepts(&[viable, end].concat()));
    assert!(completed, "{} bytes of {} have no completion", place, shown());
    if place < text.len() {
        let longer = &text[..place + 1];
        assert_eq!(parse(longer).err(), Some(place), "{}", shown());
        let completed = completions(longer).into_iter().find(|end| accepts(&[longer, end].concat()));
        assert_eq!(completed, None, "more than {} bytes of {} have a completion", place, shown());
    }
}

/// All texts of up to seven bytes, but for those that go on behind a byte where the text has stopped already.
#[test]
fn every_short_text_over_a_small_alphabet() {
    fn extend(text: &mut Vec<u8>) {
        for byte in b"<>/a= ':" {
            text.push(*byte);
            examine(text);
            let viable = !matches!(parse(text), Err(place) if place < text.len());
            if viable && text.len() < 7 {
                extend(text);
            }
            text.pop();
        }
    }
    examine(b"");
    extend(&mut Vec::new());
}

#[test]
fn many_random_sequences_of_telling_pieces() {
    let pieces: [&[u8]; 43] = [
        b"<", b">", b"/", b"a", b"b", b" ", b"=", b"'", b"\"", b"&", b"]", b"]]", b"]]>", b"<a>", b"</a>", b"<a/>",
        b"<b ", b"</b>", b" a=''", b" b=\"x\"", b"&amp;", b"&lt", b"quot;", b"\xc3\xa4", b"\xe2\x82", b"\xac",
        b"\xef\xbf", b"\xbf", b"\xbd", b"\xf0\x9f\x80\x80", b"\x01", b"\x7f", b"?", b"<?",
        b"<?xml version=\"1.0\" encoding=\"UTF-8\"?>", b"!", b"-", b"1", b"\n", b"<a", b":", b" a:b=''", b"b:",
    ];
    let mut random = Random::new(11);
    for _ in 0..20_000 {
        let count = random.between(1, 9);
        let mut text = if random.once_in(2) { b"<a>".to_vec() } else { Vec::new() };
        (0..count).for_each(|_| text.extend(random.one_of(&pieces)));
        examine(&text);
    }
}

#[test]
fn made_texts_and_their_mutations() {
    let mut random = Random::new(12);
    for _ in 0..1500 {
        let text = xml::whole(&mut random);
        assert!(parse(&text).is_ok(), "{}", String::from_utf8_lossy(&text));
        examine(&text);
    }
    for _ in 0..4000 {
        examine(&xml::damaged(&mut random));
    }
}

#[test]
fn the_fixed_set() {
    let texts = xml::fixed_set();
    assert!(texts.len() >= 250);
    texts.iter().for_each(|text| examine(text));
    for length in 0..xml::RICH.trim_end().len() {
        assert_eq!(parse(&xml::RICH.as_bytes()[..length]).err(), Some(length), "an unfinished text answers its length");
    }
}
