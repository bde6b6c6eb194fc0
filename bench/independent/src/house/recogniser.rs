//! The recogniser of house XML, which stops at the first byte that no house XML text can have there.

use super::characters::{is_ascii_character, is_blank, is_lead, is_name_rest, is_name_start, next_byte_range};
use super::tree::{Attribute, Element, Part, Text};

/// "Optionally exactly `<?xml version="1.0" encoding="UTF-8"?>` at byte 0"
pub const DECLARATION: &[u8] = br#"<?xml version="1.0" encoding="UTF-8"?>"#;

/// "`&` only as `&amp; &lt; &gt; &quot; &apos;`": what stands behind the `&`, and the character meant.
pub const ENTITIES: [(&str, char); 5] = [("amp;", '&'), ("lt;", '<'), ("gt;", '>'), ("quot;", '"'), ("apos;", '\'')];

/// "At most four attributes"
pub const MOST_ATTRIBUTES: usize = 4;

/// "Nesting is at most 16, the root being 1."
pub const MOST_LEVELS: usize = 16;

/// The next byte is missing or can't be taken.
struct Stuck;

type Taken<T> = Result<T, Stuck>;

/// How an opening tag ends.
enum TagEnd {
    /// `>`: the element's parts follow.
    Open,
    /// `/>`: the element has no parts.
    Closed,
}

struct Recogniser<'a> {
    text: &'a [u8],
    /// How many bytes are taken. They begin some house XML text.
    at: usize,
}

pub fn recognise(text: &[u8]) -> Result<Element<'_>, usize> {
    let mut recogniser = Recogniser { text, at: 0 };
    match recogniser.document() {
        Ok(root) => Ok(root),
        Err(Stuck) => Err(recogniser.at),
    }
}

impl<'a> Recogniser<'a> {
    /// "Optionally exactly [the declaration] at byte 0; then blanks, one element, blanks."
    ///
    /// A text that begins with `<?` can only be one with the declaration; any other begins with a blank, or with a `<`
    /// that a name follows. After the element only blanks can come, and none need to.
    fn document(&mut self) -> Taken<Element<'a>> {
        if self.text.starts_with(b"<?") {
            self.exactly(DECLARATION)?;
        }
        self.blanks();
        let at = self.at;
        self.byte(b'<')?;
        let root = self.element(at, 1)?;
        self.blanks();
        if self.at == self.text.len() {
            Ok(root)
        } else {
            Err(Stuck)
        }
    }

    /// An element whose `<` is taken, at a level from 1 to 16.
    ///
    /// A name, or as much of an opening tag as is taken, can be finished by `/>`.
    fn element(&mut self, at: usize, level: usize) -> Taken<Element<'a>> {
        let name = self.name()?;
        let (attributes, end) = self.attributes()?;
        let parts = match end {
            TagEnd::Closed => Vec::new(),
            TagEnd::Open => self.parts_and_end_tag(name, level)?,
        };
        Ok(Element { at, name, attributes, parts })
    }

    /// What follows the name of an opening tag, up to its `>` or `/>`.
    ///
    /// "At most four attributes, each after one or more blanks", and "blanks are allowed before `>` and `/>`". Without a
    /// blank in front, or behind the fourth, no attribute can begin, so the first byte of its name is not taken. Inside
    /// `/>` no blank may stand.
    fn attributes(&mut self) -> Taken<(Vec<Attribute<'a>>, TagEnd)> {
        let mut attributes = Vec::new();
        loop {
            let blanks = self.blanks();
            match self.next() {
                Some(b'>') => {
                    self.at += 1;
                    return Ok((attributes, TagEnd::Open));
                }
                Some(b'/') => {
                    self.at += 1;
                    self.byte(b'>')?;
                    return Ok((attributes, TagEnd::Closed));
                }
                _ if blanks > 0 && attributes.len() < MOST_ATTRIBUTES => {
                    let attribute = self.attribute(&attributes)?;
                    attributes.push(attribute);
                }
                _ => return Err(Stuck),
            }
        }
    }

    /// One attribute: "all names different, blanks allowed around `=`, either quote"; "Duplicates are judged by full names".
    ///
    /// While the name grows it can still become different from the others (there are at most three), so it is only where
    /// it ends, at the first byte that is no part of it, that an equal name can't go on.
    fn attribute(&mut self, earlier: &[Attribute<'a>]) -> Taken<Attribute<'a>> {
        let name = self.attribute_name()?;
        if earlier.iter().any(|other| other.name == name) {
            return Err(Stuck);
        }
        self.blanks();
        self.byte(b'=')?;
        self.blanks();
        let quote = match self.next() {
            Some(quote @ (b'"' | b'\'')) => quote,
            _ => return Err(Stuck),
        };
        self.at += 1;
        let start = self.at;
        while self.next() != Some(quote) {
            self.value_character()?;
        }
        let raw = &self.text[start..self.at];
        self.at += 1;
        Ok(Attribute { name, raw })
    }

    /// A character of an attribute value: "XML 1.0 characters without the quote used; `&` only as [the five], which may
    /// not hold `<`". The caller has seen that it isn't the quote. `]]>` is nothing special here.
    fn value_character(&mut self) -> Taken<()> {
        match self.next() {
            Some(b'<') => Err(Stuck),
            Some(b'&') => self.entity(),
            _ => self.character(),
        }
    }

    /// The children and texts of an element, and its end tag.
    ///
    /// Every `<` is taken, at any level, as `</` can follow. What comes next is the `/`, or a name's first letter; at
    /// level 16 only the `/`, as a child there would be the 17th level.
    fn parts_and_end_tag(&mut self, name: &[u8], level: usize) -> Taken<Vec<Part<'a>>> {
        let mut parts = Vec::new();
        loop {
            if let Some(text) = self.text_run()? {
                parts.push(Part::Text(text));
            }
            let at = self.at;
            self.byte(b'<')?;
            if self.next() == Some(b'/') {
                self.at += 1;
                self.end_tag(name)?;
                return Ok(parts);
            }
            if level == MOST_LEVELS {
                return Err(Stuck);
            }
            parts.push(Part::Child(self.element(at, level + 1)?));
        }
    }

    /// An end tag whose `</` is taken: the open name, letter by letter, then blanks, then `>`.
    fn end_tag(&mut self, name: &[u8]) -> Taken<()> {
        self.exactly(name)?;
        self.blanks();
        self.byte(b'>')
    }

    /// The text up to the next `<`, if there is any: "XML 1.0 characters without `<` and `]]>`; `&` only as [the five]".
    ///
    /// `]]` can be followed by many things, so only the `>` behind it is not taken. An entity's `>` is another thing,
    /// and so is a `>` behind a tag.
    fn text_run(&mut self) -> Taken<Option<Text<'a>>> {
        let start = self.at;
        while self.at < self.text.len() && self.next() != Some(b'<') {
            match self.next() {
                Some(b'&') => self.entity()?,
                Some(b'>') if self.text[start..self.at].ends_with(b"]]") => return Err(Stuck),
                _ => self.character()?,
            }
        }
        let raw = &self.text[start..self.at];
        Ok(if raw.is_empty() { None } else { Some(Text { at: start, raw }) })
    }

    /// One of the five entities. A byte is taken while the bytes behind the `&` begin one of them.
    fn entity(&mut self) -> Taken<()> {
        self.byte(b'&')?;
        let start = self.at;
        loop {
            let taken = &self.text[start..self.at];
            if ENTITIES.iter().any(|(name, _)| name.as_bytes() == taken) {
                return Ok(());
            }
            let next = self.next().ok_or(Stuck)?;
            let begins = |name: &str| name.as_bytes().starts_with(taken) && name.as_bytes()[taken.len()] == next;
            if !ENTITIES.iter().any(|(name, _)| begins(name)) {
                return Err(Stuck);
            }
            self.at += 1;
        }
    }

    /// One XML 1.0 character in UTF-8. Its bytes are taken one by one, while they begin such a character.
    fn character(&mut self) -> Taken<()> {
        let start = self.at;
        let first = self.next().ok_or(Stuck)?;
        if !is_ascii_character(first) && !is_lead(first) {
            return Err(Stuck);
        }
        self.at += 1;
        while let Some((low, high)) = next_byte_range(&self.text[start..self.at]) {
            match self.next() {
                Some(next) if (low..=high).contains(&next) => self.at += 1,
                _ => return Err(Stuck),
            }
        }
        Ok(())
    }

    /// "A name is a letter or `_`, then letters, digits, `.`, `-`, `_`": as long as it goes. It is all of an element's name,
    /// which may hold no colon.
    fn name(&mut self) -> Taken<&'a [u8]> {
        let start = self.at;
        if !self.next().is_some_and(is_name_start) {
            return Err(Stuck);
        }
        while self.next().is_some_and(is_name_rest) {
            self.at += 1;
        }
        Ok(&self.text[start..self.at])
    }

    /// "Attribute names may hold one colon between two names".
    ///
    /// After a name the colon is taken, as another name can follow; then one must. A second colon is not taken: it is no
    /// part of a name, and neither `=` nor a blank.
    fn attribute_name(&mut self) -> Taken<&'a [u8]> {
        let start = self.at;
        self.name()?;
        if self.next() == Some(b':') {
            self.at += 1;
            self.name()?;
        }
        Ok(&self.text[start..self.at])
    }

    /// All blanks that come next, and how many they are.
    fn blanks(&mut self) -> usize {
        let start = self.at;
        while self.next().is_some_and(is_blank) {
            self.at += 1;
        }
        self.at - start
    }

    /// These bytes and no others, as far as they come.
    fn exactly(&mut self, bytes: &[u8]) -> Taken<()> {
        bytes.iter().try_for_each(|byte| self.byte(*byte))
    }

    fn byte(&mut self, byte: u8) -> Taken<()> {
        if self.next() == Some(byte) {
            self.at += 1;
            Ok(())
        } else {
            Err(Stuck)
        }
    }

    fn next(&self) -> Option<u8> {
        self.text.get(self.at).copied()
    }
}
