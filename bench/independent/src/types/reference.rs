//! REF.

/// "REF: 1 to 35 of letters, digits, space and `- + ? : ( ) . , ' /`; at least one not a space; no `/` first or last,
/// no `//`."
pub fn is_reference(text: &str) -> bool {
    (1..=35).contains(&text.chars().count())
        && text.chars().all(is_reference_character)
        && text.chars().any(|c| c != ' ')
        && !text.starts_with('/')
        && !text.ends_with('/')
        && !text.contains("//")
}

fn is_reference_character(c: char) -> bool {
    c.is_ascii_alphanumeric() || " -+?:().,'/".contains(c)
}

#[cfg(test)]
mod tests {
    use super::*;

    #[test]
    fn slashes() {
        assert!(is_reference("A/B"));
        assert!(is_reference("A/B/C"));
        assert!(is_reference(" /A/ "));
        for bad in ["A//B", "/A", "A/", "/", "//", " // "] {
            assert!(!is_reference(bad), "{bad}");
        }
    }

    #[test]
    fn lengths() {
        assert!(!is_reference(""));
        assert!(is_reference("A"));
        assert!(is_reference(&"A".repeat(35)));
        assert!(!is_reference(&"A".repeat(36)));
    }

    #[test]
    fn characters() {
        assert!(is_reference("az AZ 09 -+?:().,'/x"));
        assert!(is_reference(" A "));
        for bad in [" ", "   ", "A\tB", "A\n", "ä", "A&B", "A_B", "A;B", "A\"B", "A\u{a0}B"] {
            assert!(!is_reference(bad), "{bad:?}");
        }
    }
}
