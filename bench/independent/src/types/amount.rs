//! AMT.

/// "The value is coefficient / 10^scale with the smallest scale from 0 up", with its currency.
#[derive(Clone, Copy, PartialEq, Eq, Debug)]
pub struct Amount {
    pub currency: [u8; 3],
    pub scale: u8,
    pub coefficient: u64,
}

impl Amount {
    /// Its currency as text.
    pub fn currency(&self) -> String {
        self.currency.iter().copied().map(char::from).collect()
    }

    /// "scale is at most 5, coefficient below 10^18", and the scale is the smallest: with a scale above 0, the last digit
    /// of the coefficient is not 0.
    pub fn is_canonical(&self) -> bool {
        self.currency.iter().all(u8::is_ascii_uppercase)
            && self.scale <= 5
            && self.coefficient < 1_000_000_000_000_000_000
            && (self.scale == 0 || self.coefficient % 10 != 0)
    }
}

/// "AMT: optional sign, digits with an optional point, at least one digit." and "value not below 0".
///
/// It goes by the digits as written, in any number: zeros in front of the whole number and zeros behind the fraction
/// change no value. Once they are gone, the fraction's length is the smallest scale, and all digits together, less
/// zeros in front, are the coefficient's.
pub fn amount(text: &str, currency: [u8; 3]) -> Option<Amount> {
    let negative = text.starts_with('-');
    let unsigned = text.strip_prefix(['+', '-']).unwrap_or(text);
    let (whole, fraction) = unsigned.split_once('.').unwrap_or((unsigned, ""));
    let digits_only = whole.chars().chain(fraction.chars()).all(|c| c.is_ascii_digit());
    if !digits_only || whole.len() + fraction.len() == 0 {
        return None;
    }

    let fraction = fraction.trim_end_matches('0');
    let digits = format!("{whole}{fraction}");
    let digits = digits.trim_start_matches('0');
    let (scale, zero) = (fraction.len(), digits.is_empty());
    if scale > 5 || digits.len() > 18 || (negative && !zero) {
        return None;
    }
    let coefficient = if zero { 0 } else { digits.parse().ok()? };
    Some(Amount { currency, scale: scale as u8, coefficient })
}

#[cfg(test)]
mod tests {
    use super::*;

    fn spelled(text: &str) -> Option<(u64, u8)> {
        amount(text, *b"EUR").map(|amount| {
            assert!(amount.is_canonical(), "{text}");
            (amount.coefficient, amount.scale)
        })
    }

    /// "AMT accepted: `1250.50` (12505, scale 1), `-0.00` (0, 0), `.5`, `7.`, `0.000010` (1, 5), 18 nines."
    #[test]
    fn accepted_in_document_01() {
        assert_eq!(spelled("1250.50"), Some((12505, 1)));
        assert_eq!(spelled("-0.00"), Some((0, 0)));
        assert_eq!(spelled(".5"), Some((5, 1)));
        assert_eq!(spelled("7."), Some((7, 0)));
        assert_eq!(spelled("0.000010"), Some((1, 5)));
        assert_eq!(spelled(&"9".repeat(18)), Some((999_999_999_999_999_999, 0)));
    }

    /// "Refused with 12: `0.000001`, 1 with 18 zeros, `-0.01`, `.`"
    #[test]
    fn refused_in_document_01() {
        for bad in ["0.000001", "1000000000000000000", "-0.01", "."] {
            assert_eq!(spelled(bad), None, "{bad}");
        }
    }

    /// Reading 16: zeros that change no value are free, in any number.
    #[test]
    fn free_zeros() {
        let zeros = "0".repeat(5000);
        assert_eq!(spelled(&format!("{zeros}5.25{zeros}")), Some((525, 2)));
        assert_eq!(spelled(&format!("{zeros}.{zeros}")), Some((0, 0)));
        assert_eq!(spelled(&format!("5.{zeros}1")), None);
        assert_eq!(spelled("5.0"), spelled("5.00"));
        assert_eq!(spelled("100"), Some((100, 0)));
        assert_eq!(spelled("+9999999999999.99999"), Some((999_999_999_999_999_999, 5)));
        assert_eq!(spelled("99999999999999.99999"), None);
        assert_eq!(spelled("100000000000000000.0"), Some((100_000_000_000_000_000, 0)));
        assert_eq!(spelled("100000000000000000.5"), None);
    }

    #[test]
    fn other_spellings() {
        for bad in ["", "+", "-", "+.", "--1", "+-1", "1-", "1.2.3", "1,5", "1e5", "1 2", "0x1", "INF", "٣", "-1"] {
            assert_eq!(spelled(bad), None, "{bad}");
        }
        assert_eq!(spelled("-0"), Some((0, 0)));
        assert_eq!(spelled("-.0"), Some((0, 0)));
        assert_eq!(spelled("+1."), Some((1, 0)));
    }
}
