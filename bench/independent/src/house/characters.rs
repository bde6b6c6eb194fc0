//! The classes of bytes that house XML speaks of.

/// "blanks (space, tab, LF, CR)"
pub fn is_blank(byte: u8) -> bool {
    matches!(byte, b' ' | b'\t' | b'\n' | b'\r')
}

/// "A name is a letter or `_` .."
pub fn is_name_start(byte: u8) -> bool {
    byte.is_ascii_alphabetic() || byte == b'_'
}

/// ".. then letters, digits, `.`, `-`, `_` (ASCII)."
pub fn is_name_rest(byte: u8) -> bool {
    is_name_start(byte) || byte.is_ascii_digit() || byte == b'.' || byte == b'-'
}

/// One-byte XML 1.0 characters: tab, LF, CR and everything from the space on (7F is one too).
pub fn is_ascii_character(byte: u8) -> bool {
    is_blank(byte) || (0x20..=0x7f).contains(&byte)
}

/// For the bytes of a character so far (its first byte at least), the range in which its next byte lies; `None`
/// where the character is whole. This is the UTF-8 table of the Unicode standard (nothing overlong, no surrogates, at
/// most U+10FFFF), less U+FFFE and U+FFFF, which are no XML 1.0 characters. Every prefix that keeps to it can be
/// completed, as no range is empty.
pub fn next_byte_range(so_far: &[u8]) -> Option<(u8, u8)> {
    match so_far {
        [0xc2..=0xdf] => Some((0x80, 0xbf)),
        [0xe0] => Some((0xa0, 0xbf)),
        [0xe1..=0xec | 0xee | 0xef] => Some((0x80, 0xbf)),
        [0xed] => Some((0x80, 0x9f)),
        [0xef, 0xbf] => Some((0x80, 0xbd)),
        [0xe0..=0xef, _] => Some((0x80, 0xbf)),
        [0xf0] => Some((0x90, 0xbf)),
        [0xf1..=0xf3] => Some((0x80, 0xbf)),
        [0xf4] => Some((0x80, 0x8f)),
        [0xf0..=0xf4, _] | [0xf0..=0xf4, _, _] => Some((0x80, 0xbf)),
        _ => None,
    }
}

/// The first bytes of characters with more than one byte.
pub fn is_lead(byte: u8) -> bool {
    (0xc2..=0xf4).contains(&byte)
}

#[cfg(test)]
mod tests {
    use super::*;

    /// XML 1.0, production 2: Char ::= #x9 | #xA | #xD | [#x20-#xD7FF] | [#xE000-#xFFFD] | [#x10000-#x10FFFF]
    fn is_xml_character(c: char) -> bool {
        matches!(c, '\t' | '\n' | '\r' | '\u{20}'..='\u{d7ff}' | '\u{e000}'..='\u{fffd}' | '\u{10000}'..='\u{10ffff}')
    }

    /// Whether the table spells these bytes as one character, from the first byte to the last.
    fn is_spelled(bytes: &[u8]) -> bool {
        if bytes.len() == 1 {
            return is_ascii_character(bytes[0]);
        }
        is_lead(bytes[0])
            && (1..bytes.len())
                .all(|i| next_byte_range(&bytes[..i]).is_some_and(|(low, high)| (low..=high).contains(&bytes[i])))
            && next_byte_range(bytes).is_none()
    }

    #[test]
    fn the_table_spells_exactly_the_xml_characters() {
        let mut buffer = [0; 4];
        for c in '\0'..=char::MAX {
            assert_eq!(is_spelled(c.encode_utf8(&mut buffer).as_bytes()), is_xml_character(c), "{c:?}");
        }
    }

    /// Two and three bytes are all tried; Rust's own decoder is the judge.
    #[test]
    fn the_table_spells_nothing_else() {
        for first in 0x80..=0xff_u8 {
            for second in 0..=0xff_u8 {
                let two = [first, second];
                assert_eq!(is_spelled(&two), std::str::from_utf8(&two).is_ok_and(|s| s.chars().count() == 1));
                for third in 0..=0xff_u8 {
                    let three = [first, second, third];
                    let decoded = std::str::from_utf8(&three).ok().filter(|s| s.chars().count() == 1);
                    assert_eq!(is_spelled(&three), decoded.is_some_and(|s| s.chars().all(is_xml_character)));
                }
            }
        }
    }
}
