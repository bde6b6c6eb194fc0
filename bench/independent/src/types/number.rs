//! NUM.

use super::all_digits;

/// "NUM: 1 to 18 digits." Leading zeros count among the 18.
pub fn number(text: &str) -> Option<u64> {
    if all_digits(text) && text.len() <= 18 {
        text.parse().ok()
    } else {
        None
    }
}

/// The numbers that 18 digits can spell.
pub fn is_number(number: u64) -> bool {
    number < 1_000_000_000_000_000_000
}

#[cfg(test)]
mod tests {
    use super::*;

    #[test]
    fn numbers() {
        assert_eq!(number("0"), Some(0));
        assert_eq!(number("000000000000000007"), Some(7));
        assert_eq!(number("999999999999999999"), Some(999_999_999_999_999_999));
        for bad in ["", "0000000000000000007", "1000000000000000000", "+1", "-1", "1.0", "1 2", "٣"] {
            assert_eq!(number(bad), None, "{bad}");
        }
    }
}
