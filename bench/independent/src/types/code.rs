//! IBAN, CCY, ENUM and BOOL: short codes.

/// "IBAN: two capitals, two digits, 1 to 30 ASCII letters or digits."
pub fn is_iban(text: &str) -> bool {
    let bytes = text.as_bytes();
    (5..=34).contains(&bytes.len())
        && bytes[..2].iter().all(u8::is_ascii_uppercase)
        && bytes[2..4].iter().all(u8::is_ascii_digit)
        && bytes[4..].iter().all(u8::is_ascii_alphanumeric)
}

/// "CCY: three capitals."
pub fn currency(text: &str) -> Option<[u8; 3]> {
    let letters: [u8; 3] = text.as_bytes().try_into().ok()?;
    letters.iter().all(u8::is_ascii_uppercase).then_some(letters)
}

/// "ENUM: one listed word." The word's place in its list, from 1.
pub fn word(words: &[&str], text: &str) -> Option<u8> {
    let index = words.iter().position(|word| *word == text)?;
    u8::try_from(index + 1).ok()
}

/// "BOOL: `true`, `1`, `false`, `0`."
pub fn boolean(text: &str) -> Option<bool> {
    match text {
        "true" | "1" => Some(true),
        "false" | "0" => Some(false),
        _ => None,
    }
}

#[cfg(test)]
mod tests {
    use super::*;

    #[test]
    fn ibans() {
        assert!(is_iban("AT611904300234573201"));
        assert!(is_iban("AT61a"));
        assert!(is_iban(&format!("AT61{}", "z".repeat(30))));
        let long = format!("AT61{}", "z".repeat(31));
        for bad in ["", "AT61", "aT611", "At611", "A1611", "AT6A1", "AT61 1", "AT61ä", "ATä1", " AT611", &long] {
            assert!(!is_iban(bad), "{bad}");
        }
    }

    #[test]
    fn currencies_words_and_booleans() {
        assert_eq!(currency("EUR"), Some(*b"EUR"));
        for bad in ["", "EU", "EURO", "eur", "EU1", " EUR", "Ä1"] {
            assert_eq!(currency(bad), None);
        }
        assert_eq!(word(&["OPBD", "CLBD"], "CLBD"), Some(2));
        assert_eq!(word(&["OPBD", "CLBD"], "CLBD "), None);
        assert_eq!(word(&["OPBD", "CLBD"], "clbd"), None);
        assert_eq!(["true", "1", "false", "0", "TRUE", "2", ""].map(boolean), {
            [Some(true), Some(true), Some(false), Some(false), None, None, None]
        });
    }
}
