//! The tree of a house XML text: elements with the place of their `<`, attributes, and the parts between their tags.

use super::recogniser::ENTITIES;

#[derive(Clone, PartialEq, Eq, Debug)]
pub struct Element<'a> {
    /// The place of the `<` of its opening tag.
    pub at: usize,
    pub name: &'a [u8],
    pub attributes: Vec<Attribute<'a>>,
    /// What stands between its tags, in order. "`<a/>` equals `<a></a>`": both have no parts.
    pub parts: Vec<Part<'a>>,
}

#[derive(Clone, PartialEq, Eq, Debug)]
pub struct Attribute<'a> {
    pub name: &'a [u8],
    /// As written between the quotes, entities not resolved.
    pub raw: &'a [u8],
}

#[derive(Clone, PartialEq, Eq, Debug)]
pub enum Part<'a> {
    Child(Element<'a>),
    Text(Text<'a>),
}

/// A run of text between two tags, never empty.
#[derive(Clone, PartialEq, Eq, Debug)]
pub struct Text<'a> {
    pub at: usize,
    /// As written, entities not resolved.
    pub raw: &'a [u8],
}

/// The characters that a raw text spells: "`&` only as `&amp; &lt; &gt; &quot; &apos;`".
///
/// `None` where it is not UTF-8, or holds a `<` or an `&` that begins none of the five. The raw texts of a tree hold
/// neither; a value handed in on its own may.
pub fn resolve(raw: &[u8]) -> Option<String> {
    let mut rest = std::str::from_utf8(raw).ok()?;
    let mut characters = String::new();
    while let Some(next) = rest.chars().next() {
        let (character, length) = match next {
            '<' => return None,
            '&' => {
                let (name, character) = ENTITIES.iter().find(|(name, _)| rest[1..].starts_with(name))?;
                (*character, 1 + name.len())
            }
            plain => (plain, plain.len_utf8()),
        };
        characters.push(character);
        rest = &rest[length..];
    }
    Some(characters)
}

#[cfg(test)]
mod tests {
    use super::*;

    #[test]
    fn entities_become_one_character_each() {
        assert_eq!(resolve(b"a&amp;b&lt;&gt;&quot;&apos;").unwrap(), "a&b<>\"'");
        assert_eq!(resolve(b"&amp;lt;").unwrap(), "&lt;");
        assert_eq!(resolve("€&amp;".as_bytes()).unwrap(), "€&");
        assert_eq!(resolve(b"").unwrap(), "");
    }

    #[test]
    fn what_no_text_can_hold_is_refused() {
        for raw in [&b"&"[..], b"&amp", b"&AMP;", b"&#38;", b"&a;", b"a<b", b"\xff", b"\xe2\x82"] {
            assert_eq!(resolve(raw), None);
        }
    }
}
