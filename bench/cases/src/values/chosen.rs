//! Hand-chosen texts of leaves.

use super::ValueCase;

const REF: u8 = 2;
const TXT: u8 = 3;
const IBAN: u8 = 4;
const CCY: u8 = 5;
const ENUM: u8 = 6;
const BOOL: u8 = 7;
const NUM: u8 = 8;
const AMT: u8 = 9;
const DATE: u8 = 10;
const DTM: u8 = 11;

pub fn chosen() -> Vec<ValueCase> {
    let mut cases = Vec::new();
    cases.extend(references().iter().map(|text| plain(REF, 0, text)));
    for k in [1, 4, 34, 35, 140] {
        cases.extend(texts(k).iter().map(|text| plain(TXT, k as u8, text)));
    }
    cases.extend(ibans().iter().map(|text| plain(IBAN, 0, text)));
    cases.extend(CURRENCIES.iter().map(|text| plain(CCY, 0, text)));
    for parameter in 0..5 {
        cases.extend(WORDS.iter().map(|text| plain(ENUM, parameter, text)));
    }
    cases.extend(BOOLEANS.iter().map(|text| plain(BOOL, 0, text)));
    cases.extend(numbers().iter().map(|text| plain(NUM, 0, text)));
    cases.extend(amounts().iter().map(|text| with_currency("EUR", text)));
    cases.extend(AMOUNT_CURRENCIES.iter().map(|currency| with_currency(currency, "5.00")));
    cases.extend(DATES.iter().map(|text| plain(DATE, 0, text)));
    cases.extend(times().iter().map(|text| plain(DTM, 0, text)));
    cases.extend(for_every_kind());
    cases
}

fn plain(kind: u8, parameter: u8, text: &str) -> ValueCase {
    ValueCase { kind, parameter, currency: Vec::new(), raw: text.as_bytes().to_vec() }
}

fn with_currency(currency: &str, text: &str) -> ValueCase {
    ValueCase { kind: AMT, parameter: 0, currency: currency.as_bytes().to_vec(), raw: text.as_bytes().to_vec() }
}

fn strings(texts: &[&str]) -> Vec<String> {
    texts.iter().map(|text| text.to_string()).collect()
}

fn references() -> Vec<String> {
    let mut texts = strings(&[
        "A", "a", "0", "A/B", "A//B", "/A", "A/", "/", "//", "A/B/C", "A///B", " /A/ ", " / ", " // ", "/ A", "A /",
        " A", "A ", " ", "   ", "\t", "A\tB", "A\nB", "A\r", "-+?:().,'", "&apos;", "&amp;", "&lt;", "&gt;", "&quot;",
        "A&apos;/B", "A'B", "A\"B", "A_B", "A;B", "A*B", "A@B", "A`B", "A{B", "A[B", "A^B", "A~B", "A!B", "A#B", "A%B",
        "A$B", "A=B", "A|B", "A\\B", "ä", "A€", "A\u{a0}B", "NOTPROVIDED",
    ]);
    texts.extend([34, 35, 36].map(|length| "R".repeat(length)));
    texts.extend([34, 35, 36].map(|length| " ".repeat(length - 1) + "R"));
    texts.extend([35, 36].map(|length| "&apos;".repeat(length)));
    texts.extend([35, 36].map(|length| "A/".repeat(length / 2) + &"B".repeat(length % 2 + 1)));
    texts.push("A".repeat(17) + "/" + &"A".repeat(17));
    texts.push("A".repeat(34) + "/");
    texts.push("A".repeat(33) + "//");
    texts
}

/// Texts around the length k, and every character that TXT has or nearly has.
fn texts(k: usize) -> Vec<String> {
    let mut texts = Vec::new();
    for length in [k.max(2) - 1, k, k + 1] {
        texts.push("x".repeat(length));
        texts.push("€".repeat(length));
        texts.push("&amp;".repeat(length));
        texts.push(" ".repeat(length));
        texts.push(" ".repeat(length - 1) + "&lt;");
    }
    if k == 4 {
        texts.extend(strings(&[
            "ä", "ö", "ü", "ß", "Ä", "Ö", "Ü", "€", "§", "°", "\u{7f}", "`", "´", "ẞ", "é", "µ", "\u{a0}", "\u{ad}",
            "¢", "¨", "₫", "\u{20ab}", "\u{2082}", "a\u{308}", "\u{feff}", "𝄞", "\t", "\n", "a\nb", "a\rb", "&quot;",
            "&apos;", "&gt;", "&amp;", "äöüß", "äöüßx", "ÄÖÜ€", "§°a&lt;",
        ]));
        texts.extend((b' '..=b'~').filter(|b| !b"<&`".contains(b)).map(|b| format!("{}.", char::from(b))));
    }
    texts
}

fn ibans() -> Vec<String> {
    let mut texts = strings(&[
        "AT611904300234573201", "DE89370400440532013000", "AT61a", "AT61", "AT6", "AT", "A", "at611", "At611", "aT611",
        "A1611", "1A611", "AT6A1", "ATA61", "AT61 1904", " AT611", "AT611 ", "AT611\n", "AT61-1", "AT61&amp;", "AT61ä",
        "ÄT611", "AT61.", "MT84MALT011000012345MTLCAST001S", "ZZ00abcXYZ",
    ]);
    texts.extend([29, 30, 31].map(|length| "AT61".to_string() + &"z".repeat(length)));
    texts
}

const CURRENCIES: &[&str] = &[
    "EUR", "AAA", "ZZZ", "eur", "EUr", "EU", "EURO", "E", "E1R", "EU ", " EUR", "EUR ", "EUR\n", "EU&amp;", "ÄÖÜ",
    "EÄ", "&lt;",
];

const WORDS: &[&str] = &[
    "OPBD", "CLBD", "PRCD", "CRDT", "DBIT", "BOOK", "BOO", "BOOKS", "book", " BOOK", "BOOK ", "CRDTDBIT", "CRDT DBIT",
    "ITBD", "PDNG", "1", "OPBE", "CLBC", "&amp;", "BOOK\n",
];

const BOOLEANS: &[&str] = &[
    "true", "1", "false", "0", " true", "true ", "\t\r\n1\n\r\t", " 0 ", "TRUE", "True", "False", "tru", "truee", "2",
    "01", "10", "t", "1 1", " ", "\u{a0}1", "&amp;", "yes",
];

fn numbers() -> Vec<String> {
    let mut texts = strings(&[
        "0", "1", "7", "9", "10", "00", "007", " 5", "5 ", "\t5\n", "\r\n 5 \r\n", "5 5", "+5", "-5", "-0", "5.",
        "5.0", ".5", "5e1", "a", "5a", "a5", "0x5", "/", ":", "٣", "５", "\u{a0}5", "&amp;", "5&amp;", " ", "\t",
    ]);
    texts.extend([17, 18, 19].map(|length| "9".repeat(length)));
    texts.extend([17, 18, 19].map(|length| "0".repeat(length)));
    texts.extend([17, 18].map(|length| "0".repeat(length) + "7"));
    texts.extend([17, 18].map(|length| "1".to_string() + &"0".repeat(length)));
    texts.push(format!(" {}\n", "9".repeat(18)));
    texts.push(format!(" {}\n", "9".repeat(19)));
    texts.push("18446744073709551615".to_string());
    texts.push("18446744073709551616".to_string());
    texts
}

fn amounts() -> Vec<String> {
    let mut texts = strings(&[
        "1250.50", "-0.00", ".5", "7.", "0.000010", "0.000001", "-0.01", ".", "0", "00", "5.00", "5.0", "5", "+5",
        "-5", "+0", "-0", "-.0", "-0.", "+.5", "+7.", "+", "-", "+.", "-.", "--0", "+-0", "-+0", "- 0", "+ 5", "5-",
        "5+", "1.2.3", "1..2", "..", "1,5", "1.5,0", "1e5", "1E5", "0x1", "INF", "NaN", "a", "5a", "5.a", "5 0",
        "5. 0", " 5.00", "5.00 ", "\t\r\n5.00\n\r\t ", " ", "\n", "100", "1000000", "10.10", "0.1", "0.12", "0.123",
        "0.1234", "0.12345", "0.123456", "0.123450", "0.1234500000", "0.12345000001", "1.00000", "1.000000",
        "1.0000000000", "1.00001", "1.000001", "0.00001", "0.00000", "0.000000", "00000.00000", "0.5", "0.50", "01.50",
        "-00.000", "-0.000001", "٣", "５.00", "5&amp;", "&lt;5", "5\u{a0}", "1/2", "1:2", "5.٣", "12345678901234567.8",
        "123456789012345678.9", "1234567890123.45678", "12345678901234.56789", "0.00010", "10", "20.0",
        "123456789.00001",
    ]);
    for digits in [17, 18, 19] {
        texts.push("9".repeat(digits));
        texts.push("1".to_string() + &"0".repeat(digits));
        texts.push("9".repeat(digits) + ".0");
        texts.push("9".repeat(digits - 5) + ".99999");
        texts.push("9".repeat(digits - 1) + ".9");
        texts.push("9".repeat(digits - 1) + ".90");
    }
    let zeros = "0".repeat(300);
    texts.push(format!("{zeros}5"));
    texts.push(format!("{zeros}{}", "9".repeat(18)));
    texts.push(format!("{zeros}{}", "9".repeat(19)));
    texts.push(format!("5.{zeros}"));
    texts.push(format!("5.{zeros}1"));
    texts.push(format!("5.25{zeros}"));
    texts.push(format!("{}.{zeros}", "9".repeat(18)));
    texts.push(format!("{zeros}.{zeros}"));
    texts.push(format!("-{zeros}.{zeros}"));
    texts.push(format!("-{zeros}.{zeros}1"));
    texts.push(format!("  {zeros}1.5{zeros}  "));
    texts.push("9".repeat(300));
    texts.push("18446744073709551616".to_string());
    texts.push("18446744073709551617.5".to_string());
    texts.push("184467440737095516160".to_string());
    texts.push(format!(".{}", "1".repeat(18)));
    texts.push(format!("{}.", "1".repeat(18)));
    texts
}

/// The Ccy of an amount. It is not trimmed.
const AMOUNT_CURRENCIES: &[&str] = &[
    "USD", "AAA", "ZZZ", "", "EU", "EURO", "eur", "EU1", " EUR", "EUR ", "E R", "EU&amp;", "&lt;", "ÄU", "€", "EU\n",
    "@AA", "AA[",
];

const DATES: &[&str] = &[
    "2024-02-29", "2023-02-29", "2023-02-28", "2000-02-29", "1900-02-29", "1900-02-28", "2100-02-29", "2400-02-29",
    "0004-02-29", "0100-02-29", "0400-02-29", "9996-02-29", "2024-02-30", "2024-01-31", "2024-01-32", "2024-03-31",
    "2024-03-32", "2024-04-30", "2024-04-31", "2024-05-31", "2024-05-32", "2024-06-30", "2024-06-31", "2024-07-31",
    "2024-07-32", "2024-08-31", "2024-08-32", "2024-09-30", "2024-09-31", "2024-10-31", "2024-10-32", "2024-11-30",
    "2024-11-31", "2024-12-31", "2024-12-32", "2024-00-01", "2024-13-01", "2024-01-00", "0000-01-01", "0001-01-01",
    "9999-12-31", "10000-01-01", "-2024-01-01", "+2024-01-01", "2024-1-01", "2024-01-1", "24-01-01", "2024/01/01",
    "2024.01.01", "20240101", "2024-01-01Z", "2024-01-01+01:00", " 2024-01-01", "2024-01-01\n", "\t 2024-01-01 \r\n",
    "2024 -01-01", "2024-0a-01", "2024-01-0/", "2024-01-0:", "202:-01-01", "2024-01", "2024", "2024-99-99",
    "2024-01-01T00:00:00Z", "٢٠٢٤-01-01", "2024-01-01&amp;", "2024-01-01\u{a0}", " ",
];

fn times() -> Vec<String> {
    let mut texts = strings(&[
        "2024-03-01T06:00:00Z", "2024-03-01T00:00:00Z", "2024-03-01T23:59:59Z", "2024-03-01T24:00:00Z",
        "2024-03-01T23:60:00Z", "2024-03-01T23:59:60Z", "2024-12-31T23:59:60Z", "2024-03-01T29:00:00Z",
        "2024-03-01T99:99:99Z", "2024-03-01T06:00:00", "2024-03-01T06:00:00z", "2024-03-01t06:00:00Z",
        "2024-03-01 06:00:00Z", "2024-03-01T6:00:00Z", "2024-03-01T06:00Z", "2024-03-01T06:0:00Z",
        "2024-03-01T06:00:0Z", "2024-03-01T060000Z", "2024-03-01T06.00.00Z", "2024-03-01T06:00:00ZZ",
        "2024-03-01T06:00:00Z0", "2024-03-01T06:00:00 Z", "2024-03-01T06:00:00,123Z", "2024-03-01T06:00:00.12aZ",
        "2024-03-01T06:00:00.12:Z", "2024-03-01T06:00:00.12345/Z", "2024-02-29T06:00:00Z", "2023-02-29T06:00:00Z",
        "0000-01-01T06:00:00Z", "0001-01-01T00:00:00+14:00", "9999-12-31T23:59:59.999999-14:00",
        "2024-04-31T06:00:00Z", " 2024-03-01T06:00:00Z", "2024-03-01T06:00:00Z\n",
        "\t\r\n2024-03-01T06:00:00.500+01:00 \t", "2024-03-01T06:00:00Z\u{a0}", "2024-03-01", "T06:00:00Z", "Z",
        "2024-03-01T", "2024-03-01T06:00:00.+01:00", "2024-03-01T06:00:00.12+01:00", "2024-03-01T06:00:00.123",
        "2024-03-01T06:00:00.123456", "2024-03-01T06:00:00&amp;", "2024-03-01T٠6:00:00Z", "-2024-03-01T06:00:00Z",
        "2024-03-01T06:00:00.000Z", "2024-03-01T06:00:00.000000Z", "2024-03-01T06:00:00.001Z",
        "2024-03-01T06:00:00.000001Z", "2024-03-01T06:00:00.999Z", "2024-03-01T06:00:00.999999Z",
        "2024-03-01T06:00:00.100000Z", "2024-03-01T06:00:00.100Z",
    ]);
    for digits in 0..=7 {
        texts.push(format!("2024-03-01T06:00:00.{}Z", &"1234567"[..digits]));
        texts.push(format!("2024-03-01T06:00:00.{}-01:30", &"7654321"[..digits]));
    }
    for digits in 0..=2 {
        texts.push(format!("2024-03-01T06:00:00.{}0Z", &"12"[..digits]));
        texts.push(format!("2024-03-01T06:00:00.{}7+14:00", &"00"[..digits]));
        texts.push(format!("2024-03-01T06:00:00.{}0", &"12"[..digits]));
    }
    texts.extend(midnights());
    let zones = [
        "+00:00", "-00:00", "+00:01", "-00:01", "+01:00", "-01:00", "+00:59", "+00:60", "+01:60", "+13:59", "+13:60",
        "+14:00", "-14:00", "+14:01", "-14:01", "+14:59", "+15:00", "-15:00", "+24:00", "+99:00", "+1:00", "+01:0",
        "+0100", "+01", "+01:000", "+001:00", "01:00", " +01:00", "+ 1:00", "+01.00", "+01:00Z", "Z+01:00", "+0a:00",
        "±01:00", "+-1:00", "--1:00",
    ];
    texts.extend(zones.map(|zone| format!("2024-03-01T06:00:00{zone}")));
    texts
}

/// 24:00:00 at the end of every month, on leap days and the last day, with every kind of zone; and what is nearly 24:00:00.
fn midnights() -> Vec<String> {
    let mut texts = Vec::new();
    for year in [1900, 2000, 2023, 2024] {
        for (month, days) in (1..).zip([31, 28, 31, 30, 31, 30, 31, 31, 30, 31, 30, 31]) {
            texts.push(format!("{year}-{month:02}-{days}T24:00:00Z"));
        }
        texts.push(format!("{year}-02-29T24:00:00Z"));
    }
    let zones = ["+00:00", "-00:00", "+14:00", "-14:00", "+14:01", "-14:01", "+01", "", "Z0", ".0Z", ".1Z", ".000Z"];
    texts.extend(zones.map(|zone| format!("2024-02-28T24:00:00{zone}")));
    texts.extend(strings(&[
        "2024-03-01T24:00:01Z", "2024-03-01T24:01:00Z", "2024-03-01T24:00:60Z", "2024-03-01T24:60:00Z",
        "2024-03-01T25:00:00Z", "2024-03-01T24:00Z", "2024-03-01T24:0:00Z", "2024-03-01T24-00:00Z",
        "2024-03-01t24:00:00Z", "2024-02-30T24:00:00Z", "0000-12-31T24:00:00Z", "0001-01-01T24:00:00Z",
        "9998-12-31T24:00:00Z", "9999-12-30T24:00:00Z", "9999-12-31T24:00:00Z", "9999-12-31T24:00:00-14:00",
        "9999-11-30T24:00:00Z", " 2024-03-31T24:00:00+01:00\n",
    ]));
    texts
}

/// An empty text, bytes that are not UTF-8, and what no text can hold, for each kind.
fn for_every_kind() -> Vec<ValueCase> {
    let kinds: [(u8, u8, &[u8]); 10] = [
        (REF, 0, b"A1"),
        (TXT, 140, b"A1"),
        (IBAN, 0, b"AT611"),
        (CCY, 0, b"EUR"),
        (ENUM, 1, b"CRDT"),
        (BOOL, 0, b"true"),
        (NUM, 0, b"15"),
        (AMT, 0, b"1.5"),
        (DATE, 0, b"2024-02-29"),
        (DTM, 0, b"2024-03-01T06:00:00Z"),
    ];
    let endings: [&[u8]; 12] = [
        b"\xff", b"\x80", b"\xc3", b"\xe2\x82", b"\xed\xa0\x80", b"&", b"&amp", b"&#65;", b"&x;", b"<", b"\x00",
        b"\x7f",
    ];
    let mut cases = Vec::new();
    for (kind, parameter, good) in kinds {
        let currency = if kind == AMT { b"EUR".to_vec() } else { Vec::new() };
        let case = |raw: Vec<u8>| ValueCase { kind, parameter, currency: currency.clone(), raw };
        cases.push(case(Vec::new()));
        cases.push(case(good.to_vec()));
        for ending in endings {
            cases.push(case([good, ending].concat()));
            cases.push(case([ending, good].concat()));
        }
    }
    cases
}
