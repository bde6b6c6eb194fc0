//! Invented names and texts, as they stand in statements of Austrian banks. All their letters are ones that TXT has.

use crate::random::Random;

const FIRST_NAMES: [&str; 20] = [
    "Anna", "Franz", "Jörg", "Käthe", "Lukas", "Maria", "Özge", "Renate", "Stefan", "Ulrike", "Viktor", "Zoe",
    "Günter", "Ivana", "Bela", "Elfriede", "Martin", "Sabine", "Thomas", "Hannelore",
];

const LAST_NAMES: [&str; 24] = [
    "Huber", "Gruber", "Wagner", "Müller", "Pichler", "Steiner", "Moser", "Mayer", "Hofer", "Leitner", "Berger",
    "Fuchs", "Eder", "Fischer", "Schmid", "Winkler", "Weber", "Schwarz", "Maier", "Köck", "Jovanovic", "Yilmaz",
    "Nemeth", "Öllinger",
];

const COMPANIES: [&str; 8] = [
    "Müller & Söhne OG", "Bäckerei Köck GmbH", "Cafe Zentral KG", "Ordination Dr. Lechner", "Blumen & Garten Übleis",
    "WEG Lindengasse 12", "Schlosserei Fürst e.U.", "Radwerkstatt \"Zum Sattel\"",
];

const MONTHS: [&str; 12] = [
    "Jänner", "Februar", "März", "April", "Mai", "Juni", "Juli", "August", "September", "Oktober", "November",
    "Dezember",
];

const SPENT: [&str; 8] = [
    "Stiegenhausreinigung", "Liftwartung, Rechnung", "Strom Allgemeinflächen", "Versicherung Gebäude", "Grundsteuer",
    "Rauchfangkehrer", "Winterdienst", "Reparatur Gegensprechanlage",
];

/// Who pays: mostly a person.
pub fn payer(random: &mut Random) -> String {
    match random.once_in(5) {
        true => random.one_of(&COMPANIES).to_string(),
        false => format!("{} {}", random.one_of(&LAST_NAMES), random.one_of(&FIRST_NAMES)),
    }
}

pub fn month(number: usize) -> &'static str {
    MONTHS[number - 1]
}

/// What a tenant writes for the rent of a flat.
pub fn rent(top: usize, month: &str, year: usize, random: &mut Random) -> String {
    match random.below(8) {
        0 => format!("Miete + BK {month} {year}, Top {top}"),
        1 => format!("Mietzins {month}/{year} Top {top} & Garage {}", random.between(1, 9)),
        2 => format!("TOP {top} MIETE {}", month.to_uppercase()),
        3 => format!("Miete {month} (Dauerauftrag) Top {top}"),
        4 => format!("Top {top}: Miete {year}, Rest folgt"),
        _ => format!("Miete {month} {year} Top {top}"),
    }
}

/// What is paid once.
pub fn other_credit(top: usize, year: usize, random: &mut Random) -> String {
    match random.below(4) {
        0 => format!("Betriebskosten-Nachzahlung {} Top {top}", year - 1),
        1 => format!("Kaution Top {top}, Rate {} von 3", random.between(1, 3)),
        2 => format!("Gutschrift Heizkosten {} - Top {top} <Storno>", year - 1),
        _ => format!("Schlüssel nachbestellt, Top {top}"),
    }
}

pub fn spent(random: &mut Random) -> String {
    let number = random.between(1000, 9999);
    format!("{} RE-{number}", random.one_of(&SPENT))
}

/// An IBAN of a country with its check digits (ISO 13616: the whole, with the first four characters behind the rest, letters as two digits,
/// is 1 modulo 97).
pub fn iban(random: &mut Random) -> String {
    let (country, digits) = if random.once_in(6) { ("DE", 18) } else { ("AT", 16) };
    let account = random.characters("0123456789", digits);
    let check = 98 - modulo_97(&format!("{account}{country}00"));
    format!("{country}{check:02}{account}")
}

fn modulo_97(text: &str) -> u32 {
    let digits = text.chars().flat_map(|c| c.to_digit(36).expect("letters and digits").to_string().into_bytes());
    digits.fold(0, |rest, digit| (rest * 10 + u32::from(digit - b'0')) % 97)
}

#[cfg(test)]
mod tests {
    use super::*;
    use independent::types::{code, text};

    #[test]
    fn ibans_have_their_check_digits() {
        assert_eq!(modulo_97("1904300234573201AT61"), 1, "the example of ISO 13616");
        let mut random = Random::new(1);
        for _ in 0..200 {
            let iban = iban(&mut random);
            assert!(code::is_iban(&iban));
            assert_eq!(modulo_97(&format!("{}{}", &iban[4..], &iban[..4])), 1, "{iban}");
        }
    }

    #[test]
    fn texts_are_good_ones() {
        let mut random = Random::new(2);
        for _ in 0..2000 {
            let month = month(random.between(1, 12));
            let texts = [
                payer(&mut random),
                rent(12, month, 2024, &mut random),
                other_credit(3, 2024, &mut random),
                spent(&mut random),
            ];
            assert!(texts.iter().all(|good| text::is_text(140, good)), "{texts:?}");
        }
    }
}
