//! TXTk.

/// "TXTk: 1 to k from [the characters]; at least one not a space."
pub fn is_text(k: usize, text: &str) -> bool {
    (1..=k).contains(&text.chars().count()) && text.chars().all(is_text_character) && text.chars().any(|c| c != ' ')
}

/// "letters, digits, space, `- + / ? : ( ) . , ' & > < " | $ % ! = # ~ ; * { } [ ] @ \ _ ^` and ä ö ü ß Ä Ö Ü € § °"
fn is_text_character(c: char) -> bool {
    c.is_ascii_alphanumeric()
        || c == ' '
        || r##"-+/?:().,'&><"|$%!=#~;*{}[]@\_^"##.contains(c)
        || "äöüßÄÖÜ€§°".contains(c)
}

#[cfg(test)]
mod tests {
    use super::*;

    /// Reading 15: "exactly 104 characters: 0x20 to 0x7E without the backtick 0x60, and [ten more]".
    #[test]
    fn there_are_104_characters() {
        let others = "\u{a7}\u{b0}\u{c4}\u{d6}\u{dc}\u{df}\u{e4}\u{f6}\u{fc}\u{20ac}";
        for c in '\0'..=char::MAX {
            let expected = (' '..='~').contains(&c) && c != '`' || others.contains(c);
            assert_eq!(is_text_character(c), expected, "{c:?}");
        }
        assert_eq!(('\0'..=char::MAX).filter(|c| is_text_character(*c)).count(), 104);
    }

    #[test]
    fn lengths_count_characters() {
        assert!(is_text(140, &"€".repeat(140)));
        assert!(!is_text(140, &"€".repeat(141)));
        assert!(is_text(4, "PMNT"));
        assert!(!is_text(4, "PMNTS"));
        assert!(!is_text(4, ""));
        assert!(!is_text(4, "    "));
        assert!(is_text(4, "   a"));
    }

    #[test]
    fn only_composed_forms() {
        assert!(is_text(4, "ä"));
        assert!(!is_text(4, "a\u{308}"));
    }
}
