//! The settled readings of document 01, point by point.

mod support;

use independent::{check, pick, read, Held, LIMIT};
use support::*;

/// Code 3's place, or that there is none.
fn stops(text: impl AsRef<[u8]>) -> Option<usize> {
    independent::house::parse(text.as_ref()).err()
}

/// Point 1: "Code 2's place is the length of the longest prefix that is well-formed UTF-8."
#[test]
fn point_1_not_utf8() {
    let good = whole_example();
    let sequences: [&[u8]; 9] = [
        b"\x80", b"\xc0\x80", b"\xe2\x82", b"\xe0\x80\x80", b"\xed\xa0\x80", b"\xf4\x90\x80\x80", b"\xf0\x9d\x84",
        b"\xff", b"\xf8\x88\x80\x80\x80",
    ];
    for sequence in sequences {
        assert_eq!(judge([good.as_bytes(), sequence].concat()), (2, 0, good.len()));
        assert_eq!(judge([good.as_bytes(), "€".as_bytes(), sequence, b"x"].concat()), (2, 0, good.len() + 3));
        assert_eq!(judge([b"<a></b>", sequence].concat()), (2, 0, 7), "2 is judged before 3");
    }
    assert_eq!(judge(vec![0xff; LIMIT + 1]), (1, 0, 1_048_576), "1 is judged before 2");
    assert_eq!(judge(vec![0xff; LIMIT]), (2, 0, 0));
}

/// Point 2: "Code 3's place counts bytes, and may fall inside a character, a name, an entity, the declaration. .. An unfinished
/// text answers its own length."
#[test]
fn point_2_places_count_bytes() {
    let text = "<?xml version=\"1.0\" encoding=\"UTF-8\"?><ab c='€'>ä&quot;</ab>";
    for length in 0..text.len() {
        assert_eq!(stops(&text.as_bytes()[..length]), Some(length));
    }
    assert_eq!(stops(text), None);
    assert_eq!(stops("<?xml version=\"1.1\""), Some(17));
    assert_eq!(stops("<abc></abd>"), Some(9));
    assert_eq!(stops("<a>&quit;</a>"), Some(6));
    assert_eq!(stops("<a>\u{fffe}</a>"), Some(5));
    assert_eq!(judge(format!("<a>{}", " ".repeat(LIMIT - 3))), (3, 0, LIMIT), "the continuation may be longer");
}

/// Point 3: "What follows from 2".
#[test]
fn point_3_what_follows() {
    for c in ['\u{fffe}', '\u{ffff}'] {
        assert_eq!(stops(format!("<a>{c}</a>")), Some(5), "at the third byte");
        assert_eq!(stops(format!("<a b='{c}'/>")), Some(8), "in a value too");
    }
    assert_eq!(stops("<a>\u{fffd}</a>"), None);
    for control in (0..0x20_u8).filter(|byte| !b"\t\n\r".contains(byte)) {
        assert_eq!(stops([b"<a>x", &[control][..]].concat()), Some(4), "a control character stops at itself");
    }
    for c in '\u{7f}'..='\u{9f}' {
        assert_eq!(stops(format!("<a>{c}</a>")), None, "7F to 9F are characters");
    }
    let sixteen = "<a>".repeat(16);
    assert_eq!(stops(format!("{sixteen}<b")), Some(49), "a 17th level, just behind its <");
    assert_eq!(stops(format!("{sixteen}{}", "</a>".repeat(16))), None);
    assert_eq!(stops("<a b='' c='' d='' e='' f=''/>"), Some(23), "a fifth attribute, at its name");
    assert_eq!(stops("<a b='' c='' d='' e='' />"), None);
    assert_eq!(stops("<a b='' b=''/>"), Some(9), "a second attribute of the same name, behind its name");
    assert_eq!(stops("<a b='' b"), Some(9));
    assert_eq!(stops("<a b='' bc=''/>"), None);
    assert_eq!(stops("<ab></ac>"), Some(7), "an end tag, at the first byte that differs");
    assert_eq!(stops("<ab></abc>"), Some(8));
    assert_eq!(stops("<a>&aq;</a>"), Some(5), "an entity, at the first byte off all five");
    assert_eq!(stops("<a>]]></a>"), Some(5), "at its >");
    assert_eq!(stops("\u{feff}<a/>"), Some(0), "a byte order mark");
    assert_eq!(stops(" <?xml version=\"1.0\" encoding=\"UTF-8\"?><a/>"), Some(2), "<? after anything stops at ?");
    assert_eq!(stops("<a><?x?></a>"), Some(4));
    assert_eq!(stops("<a b=''c=''/>"), Some(7), "no blank between two attributes, at the second's name");
}

/// Point 4: "`]]>` is forbidden literally and within one run of text only .. Blanks may stand in `</a >`, not behind `<` or `</`,
/// and not inside `/>`."
#[test]
fn point_4_brackets_and_blanks() {
    for good in ["<a>]]&gt;</a>", "<a>]]<a/>></a>", "<a b=']]>'/>", "<a>] ]></a>", "<a></a >", "<a\n></a\t>", "<a />"] {
        assert_eq!(stops(good), None, "{good}");
    }
    for (bad, place) in [("< a/>", 1), ("<a></ a>", 5), ("<a/ >", 3), ("<a>]]]></a>", 6)] {
        assert_eq!(stops(bad), Some(place), "{bad}");
    }
}

/// Point 5: "XML's line-end and attribute normalisation change no answer and are left out": line ends are blanks or bad values
/// in either form.
#[test]
fn point_5_line_ends() {
    assert_eq!(image(amount("\r\n5.00\r")), image(amount("\n5.00\n")));
    assert_eq!(judge(message_id("A\r\nB")).0, 12);
    assert_eq!(judge(message_id("A\nB")).0, 12);
    assert_eq!(judge(amount_element("<Amt Ccy='EUR\t'>5</Amt>")).0, 9);
}

/// Point 6: "Code 4 also for a root with no attribute, or with two or more. The namespace is compared as written."
#[test]
fn point_6_root() {
    let namespace = "urn:iso:std:iso:20022:tech:xsd:camt.053.001.08";
    let roots = [
        "<Document/>".to_string(),
        format!("<Document xmlns='{namespace}' a=''/>"),
        format!("<Document a='' xmlns='{namespace}'/>"),
        format!("<Document xmlns='{namespace} '/>"),
        format!("<Document XMLNS='{namespace}'/>"),
        format!("<document xmlns='{namespace}'/>"),
    ];
    for root in roots {
        assert_eq!(judge(&root), (4, 1, 0), "{root}");
        assert_eq!(judge(format!("\n {root}")), (4, 1, 2), "the root's <");
    }
    assert_eq!(judge(format!("<Document  xmlns = '{namespace}' />")), (11, 1, 0));
}

/// Point 7: "An element inside a leaf is 5 with the leaf's row, at its opening tag, before anything is said of the leaf's text."
#[test]
fn point_7_element_in_leaf() {
    let start = place(&whole_example(), "<MsgId>") + "<MsgId>".len();
    for text in ["M1<x/>", "A//B<x a=''/>", "<x></x>", "<MsgId>M1</MsgId>"] {
        let inner = start + text.find('<').unwrap();
        assert_eq!(judge(message_id(text)), (5, 4, inner), "{text}");
    }
}

/// Point 8: "A row that comes again behind a later sibling is 6, not 7. In a choice an unknown child is 5, any second child 7, and
/// 8 never arises: an empty choice is 11."
#[test]
fn point_8_siblings() {
    let again = whole_example().replace("</CreDtTm>", "</CreDtTm><MsgId >M2</MsgId>");
    assert_eq!(judge(&again), (6, 4, place(&again, "<MsgId >")));
    let twice = whole_example().replace("</MsgId>", "</MsgId><MsgId >M2</MsgId>");
    assert_eq!(judge(&twice), (7, 4, place(&twice, "<MsgId >")));
    let choice = |inside: &str| whole_example().replace("<Othr><Id>9</Id></Othr>", inside);
    let cases = [
        ("<Othr><Id>9</Id></Othr><IBAN >AT611</IBAN>", (7, 11), "<IBAN >"),
        ("<IBAN>AT611</IBAN><Othr ><Id>9</Id></Othr>", (7, 12), "<Othr >"),
        ("<IBAN>AT611</IBAN><IBAN >AT611</IBAN>", (7, 11), "<IBAN >"),
        ("<IBAN>AT611</IBAN><Prtry />", (5, 10), "<Prtry />"),
        ("<Prtry />", (5, 10), "<Prtry />"),
    ];
    for (inside, (code, row), at) in cases {
        let file = choice(inside);
        assert_eq!(judge(&file), (code, row, place(&file, at)), "{inside}");
    }
    let empty = choice("");
    assert_eq!(judge(&empty), (11, 10, place(&empty, "<Id></Id>")));
}

/// Point 9: "Code 8 is seen at the parent's end only, so a violation inside a later sibling wins over it."
#[test]
fn point_9_required() {
    let absent = whole_example().replace("<Id>S1</Id>", "");
    assert_eq!(judge(&absent), (8, 7, place(&absent, "<Stmt>")));
    let later = absent.replace("5.00", "x");
    assert_eq!(judge(&later), (12, 19, place(&later, "<Amt")));
    let lowest = absent.replace(ACCOUNT, "");
    assert_eq!(judge(&lowest), (8, 7, place(&lowest, "<Stmt>")));
}

/// Point 10: "Code 10: the first byte of the first character that is no blank; of an entity that is its `&`. U+00A0 is no blank."
#[test]
fn point_10_text_in_group() {
    for (text, offset) in [("x", 0), (" \t\r\nx", 4), ("\n€", 1), (" &amp;", 1), ("\u{a0}", 0)] {
        let file = whole_example().replace("<GrpHdr>", &format!("<GrpHdr>{text}"));
        assert_eq!(judge(&file), (10, 3, place(&file, "<GrpHdr>") + 8 + offset), "{text:?}");
    }
    let behind = whole_example().replace("</GrpHdr>", " x</GrpHdr>");
    assert_eq!(judge(&behind), (10, 3, place(&behind, " x</GrpHdr>") + 1));
    let choice = whole_example().replace("<Othr>", ".<Othr>");
    assert_eq!(judge(&choice), (10, 10, place(&choice, ".<Othr>")), "a choice is a group");
    let no_child = whole_example().replace("<Othr><Id>9</Id></Othr>", "x");
    assert_eq!(judge(&no_child).0, 10, "before 11");
}

/// Point 11: "Code 11 for a leaf means no character at all. A leaf of blanks only has characters: 12."
#[test]
fn point_11_empty() {
    let at = place(&whole_example(), "<MsgId>");
    assert_eq!(judge(message_id("")), (11, 4, at));
    assert_eq!(judge(whole_example().replace("<MsgId>M1</MsgId>", "<MsgId/>")), (11, 4, at));
    assert_eq!(judge(message_id(" ")), (12, 4, at));
    assert_eq!(judge(amount(" \n")).0, 12);
    assert_eq!(judge(amount("")).0, 11);
    let blank_group = whole_example().replace("<Id><Othr><Id>9</Id></Othr></Id>", "<Id> </Id>");
    assert_eq!(judge(&blank_group), (11, 10, place(&blank_group, "<Id> <")));
}

/// Point 12: "For codes 11, 8, 12 and 13 'its `<`' is the `<` of the element's opening tag."
#[test]
fn point_12_opening_tags() {
    let file = transaction("<Amt Ccy='EUR'>1</Amt>");
    assert_eq!(judge(&file), (13, 43, place(&file, "<TxDtls>")));
    let file = transaction("<CdtDbtInd>CRDT</CdtDbtInd>");
    assert_eq!(judge(&file), (13, 43, place(&file, "<TxDtls>")));
    assert_eq!(judge(transaction("<Amt Ccy='EUR'>1</Amt><CdtDbtInd>CRDT</CdtDbtInd>")).0, 0);
    let file = transaction("");
    assert_eq!(judge(&file), (11, 43, place(&file, "<TxDtls>")));
    let file = transaction("<Refs></Refs>");
    assert_eq!(judge(&file), (11, 44, place(&file, "<Refs>")));
}

/// Point 13: "Code 9: any attribute on an element that is no AMT (xmlns too); an AMT without, or with more than, the one attribute
/// Ccy; Ccy not three capitals. Ccy is not trimmed."
#[test]
fn point_13_attributes() {
    for attribute in ["a=''", "Ccy='EUR'", "xmlns='urn:iso:std:iso:20022:tech:xsd:camt.053.001.08'"] {
        let file = whole_example().replace("<MsgId>", &format!("<MsgId {attribute}>"));
        assert_eq!(judge(&file), (9, 4, place(&file, "<MsgId ")));
        let file = whole_example().replace("<GrpHdr>", &format!("<GrpHdr {attribute}>"));
        assert_eq!(judge(&file), (9, 3, place(&file, "<GrpHdr ")));
    }
    let bad = ["", " a='EUR'", " ccy='EUR'", " Ccy='EUR' a=''", " Ccy=''", " Ccy='EU'", " Ccy='EURO'", " Ccy='eur'"];
    let more_bad = [" Ccy=' EUR'", " Ccy='EUR '", " Ccy='E&amp;R'", " Ccy='ÄÖÜ'"];
    for attributes in bad.iter().chain(&more_bad) {
        let file = amount_element(&format!("<Amt{attributes}>x</Amt>"));
        assert_eq!(judge(&file), (9, 19, place(&file, "<Amt")), "{attributes}: before the value is looked at");
    }
}

/// Point 14: "REF, TXT, IBAN, CCY and ENUM lose no blanks .. Entities are resolved before a value is judged."
#[test]
fn point_14_no_blanks_lost() {
    assert_eq!(image(message_id(" /A/ "))[12..17], *b" /A/ ");
    assert_eq!(image(message_id("A&apos;B"))[12..15], *b"A'B");
    assert_eq!(judge(message_id("A\tB")).0, 12);
    assert_eq!(image(debtor(" a ")).windows(6).filter(|w| *w == b"\x34\x00\x03 a ").count(), 1);
    assert_eq!(judge(debtor("a\n")).0, 12);
    for (from, to) in [(">CLBD<", "> CLBD<"), (">CRDT<", ">CRDT <")] {
        assert_eq!(judge(whole_example().replace(from, to)).0, 12);
    }
    let account = |iban: &str| whole_example().replace("<Othr><Id>9</Id></Othr>", &format!("<IBAN>{iban}</IBAN>"));
    assert_eq!(judge(account("AT611")).0, 0);
    assert_eq!(judge(account(" AT611")).0, 12);
    let currency = |text: &str| whole_example().replace("</Id></Acct>", &format!("</Id><Ccy>{text}</Ccy></Acct>"));
    assert_eq!(judge(currency("EUR")).0, 0);
    assert_eq!(judge(currency("EUR ")).0, 12);
}

/// Point 15: "TXT is exactly 104 characters .. Only the composed forms." (All code points are tried in `types::text`.)
#[test]
fn point_15_text_characters() {
    assert_eq!(judge(debtor("äöüßÄÖÜ€§°")).0, 0);
    assert_eq!(judge(debtor("!\"#$%&amp;'()*+,-./:;&lt;=>?@[\\]^_{|}~")).0, 0);
    for bad in ["`", "a\u{308}", "é", "\u{7f}", "\u{a0}", "ẞ"] {
        assert_eq!(judge(debtor(bad)).0, 12, "{bad}");
    }
}

/// Point 16: "NUM: leading zeros count among the 18 digits. AMT: leading zeros and trailing zeros of the fraction are free, in any
/// number."
#[test]
fn point_16_zeros() {
    let number =
        |text: &str| whole_example().replace("</Id><Acct>", &format!("</Id><ElctrncSeqNb>{text}</ElctrncSeqNb><Acct>"));
    assert_eq!(judge(number(&format!("{}7", "0".repeat(17)))).0, 0);
    assert_eq!(judge(number(&format!("{}7", "0".repeat(18)))).0, 12);
    let zeros = "0".repeat(5000);
    assert_eq!(image(amount(&format!("{zeros}5.00{zeros}"))), whole_image());
    assert_eq!(judge(amount(&format!("5.{zeros}1"))).0, 12);
}

/// Point 17: "DTM: the zone is required; .. second 60 [is] refused; .. the offset is -14:00 to +14:00." What it says of 24:00:00
/// and of the fraction, section 3 of document 02 changed.
#[test]
fn point_17_times() {
    let time = |text: &str| judge(whole_example().replace("2024-03-01T06:00:00Z", text)).0;
    for good in [
        "2024-03-01T23:59:59.123Z", "2024-03-01T06:00:00.12+14:00", "2024-03-01T06:00:00-14:00",
        "2024-03-01T24:00:00Z", " 2024-03-01T06:00:00Z\n",
    ] {
        assert_eq!(time(good), 0, "{good}");
    }
    let bad = [
        "T06:00:00", "T24:00:01Z", "T23:59:60Z", "T06:00:00.120Z", "T06:00:00.1234Z", "T06:00:00.123456Z",
        "T06:00:00+14:01", "T06:00:00-14:01", "T06:00:00.000Z",
    ];
    for rest in bad {
        assert_eq!(time(&format!("2024-03-01{rest}")), 12, "{rest}");
    }
    for zero in ["Z", "+00:00", "-00:00"] {
        assert_eq!(image(whole_example().replace("00Z", &format!("00{zero}"))), whole_image(), "{zero}");
    }
}

/// Point 18: "IBAN: small letters are allowed behind the first four characters."
#[test]
fn point_18_ibans() {
    let account =
        |iban: &str| judge(whole_example().replace("<Othr><Id>9</Id></Othr>", &format!("<IBAN>{iban}</IBAN>"))).0;
    assert_eq!(account("AT61abcXYZ019"), 0);
    assert_eq!(account("aT61abc"), 12);
    assert_eq!(account("AT6aabc"), 12);
}

/// Point 19: "Well-formedness asks k from 1 to 140": TXT0 would have no value.
#[test]
fn point_19_no_empty_type() {
    for text in ["", "a", " "] {
        assert!(!independent::types::text::is_text(0, text));
    }
}

/// The rows of an image's items and their bytes, to put runs together.
fn items(image: &[u8]) -> Vec<Vec<u8>> {
    let found = independent::read::first_image(image).unwrap();
    let mut places: Vec<usize> = found.items.iter().map(|item| item.at).collect();
    places.push(found.length - 1);
    places.windows(2).map(|pair| image[pair[0]..pair[1]].to_vec()).collect()
}

/// Point 20: "Code 17's place: the most whole items such that SOME image of a rule-meeting content begins with exactly those
/// items."
#[test]
fn point_20_most_whole_items() {
    let file = transaction("<Amt Ccy='EUR'>1</Amt><CdtDbtInd>CRDT</CdtDbtInd><RmtInf><Ustrd>x</Ustrd></RmtInf>");
    let items = items(&image(file));
    let row = |row: u8| items.iter().position(|item| item[0] == row).unwrap();
    // In version 2 places count from 6; in version 1 the same items stop one byte earlier.
    let stop = |items: &[Vec<u8>]| {
        let stop = |front: &[u8]| numbers(read(&[front, &items.concat()[..], b"\0"].concat()));
        let (code, row, place) = stop(b"KTO\0\x02\x01");
        assert_eq!(stop(b"KTO\0\x01"), (code, row, place - 1));
        (code, row, place)
    };
    let bytes_before = |index: usize| 6 + items[..index].concat().len();
    assert_eq!(stop(&items).0, 0);

    // An item left out: the next one skips a required sibling, or comes without 47, or a group is left without a child.
    for left_out in [2, 3, 4, 7, 19, 47, 57] {
        let mut less = items.clone();
        less.remove(row(left_out));
        assert_eq!(stop(&less), (17, 0, bytes_before(row(left_out))), "without {left_out}");
    }
    // After 47 only 48 can come.
    let mut no_indicator = items.clone();
    no_indicator.remove(row(48));
    assert_eq!(stop(&no_indicator), (17, 0, bytes_before(row(48))));
    // A second child of a choice: 12 and 13 stand there already.
    let mut second = items.clone();
    second.insert(row(13) + 1, b"\x0b\x00\x05AT611".to_vec());
    assert_eq!(stop(&second), (17, 0, bytes_before(row(13) + 1)));
    // An early 0 stops at that 0.
    for cut in 0..row(22) {
        assert_eq!(stop(&items[..cut]), (17, 0, bytes_before(cut)));
    }
    assert_eq!(stop(&items[..=row(22)]).0, 0, "entries are optional");
    // An item whose value breaks its type, or is not canonical, is not counted; nor one that is cut short.
    for bad in [&b"\x13EUR\x01\0\0\0\0\0\0\0\x32"[..], b"\x13EuR\x00\0\0\0\0\0\0\0\x05"] {
        let mut changed = items.clone();
        changed[row(19)] = bad.to_vec();
        assert_eq!(stop(&changed), (17, 0, bytes_before(row(19))));
    }
    let image = whole_image();
    assert_eq!(numbers(read(&image[..67])), (17, 0, 67), "the closing 0 is missing");
    assert_eq!(numbers(read(&image[..66])), (17, 0, 62), "the last item is cut short");
    assert_eq!(numbers(read(&former_image()[..66])), (17, 0, 66));
    assert_eq!(numbers(read(&former_image()[..65])), (17, 0, 61));
}

/// Headers: 15 and 16 before 17.
#[test]
fn point_20_headers() {
    for short in [&b""[..], b"K", b"KTO", b"KTO\0", b"XTO\0\x01", b"KTX\0\x02"] {
        assert_eq!(numbers(read(short)), (15, 0, 0));
    }
    assert_eq!(numbers(read(b"KTO\0\x03")), (16, 0, 3));
    assert_eq!(numbers(read(b"KTO\x01\x01")), (16, 0, 3));
    assert_eq!(numbers(read(b"KTO\0\x01")), (17, 0, 5));
    assert_eq!(numbers(read(b"KTO\0\x02\x01")), (17, 0, 6));
    assert_eq!(numbers(read(&vec![0; LIMIT + 1])), (1, 0, 1_048_576));
    assert_eq!(numbers(read(&vec![0; LIMIT])), (15, 0, 0));
}

/// Point 21: "'Content that meets the same rules' knows no file size": an image whose file would be over the limit is read.
#[test]
fn point_21_no_file_size() {
    let mut items = items(&image(transaction("<RmtInf><Ustrd>x</Ustrd></RmtInf>")));
    let remittance = b"\x39\x00\x01x".to_vec();
    items.extend(std::iter::repeat_n(remittance, 200_000));
    let run = [b"KTO\0\x02\x01", &items.concat()[..], b"\0"].concat();
    assert!(run.len() <= LIMIT && 200_000 * "<Ustrd>x</Ustrd>".len() > LIMIT);
    assert_eq!(numbers(read(&run)), (0, 0, run.len()));
}

/// Point 22: "The picker judges the whole first image before it answers; then a row that is no leaf (0, 58 and 300 among them) or
/// has no n-th item is 18. Places count from the start of the run. AMT's part is 12 bytes, texts begin behind their length."
#[test]
fn point_22_picks() {
    let image = whole_image();
    let picked = |run: &[u8], row, n| {
        let (answer, part) = pick(run, row, n);
        (numbers(answer), part.to_vec())
    };
    for (run, more) in [(former_image(), 0), (whole_image(), 1)] {
        assert_eq!(picked(&run, 4, 0), ((0, 4, 11 + more), b"M1".to_vec()));
        assert_eq!(picked(&run, 7, 0), ((0, 7, 31 + more), b"S1".to_vec()));
        assert_eq!(picked(&run, 19, 0), ((0, 19, 46 + more), b"EUR\0\0\0\0\0\0\0\0\x05".to_vec()));
        assert_eq!(picked(&run, 20, 0), ((0, 20, 59 + more), vec![1]));
        assert_eq!(picked(&run, 22, 0), ((0, 22, 62 + more), b"\x07\xe8\x02\x1d".to_vec()));
    }
    for (row, n) in [(0, 0), (1, 0), (6, 0), (58, 0), (300, 0), (260, 0), (u64::MAX, 0), (4, 1), (4, u64::MAX), (11, 0)]
    {
        assert_eq!(picked(&image, row, n), ((18, 0, 0), vec![]), "{row} {n}");
    }
    assert_eq!(picked(&image[..67], 4, 0), ((17, 0, 67), vec![]), "the whole image is judged first");
    assert_eq!(picked(&image[..67], 300, 0), ((17, 0, 67), vec![]));
    assert_eq!(picked(b"KTO\0\x03", 4, 0), ((16, 0, 3), vec![]));
    assert_eq!(picked(b"", 4, 0), ((15, 0, 0), vec![]));
    assert_eq!(picked(&vec![0; LIMIT + 1], 4, 0), ((1, 0, 1_048_576), vec![]));
    let two = [&image[..], &image].concat();
    assert_eq!(picked(&two, 4, 1), ((18, 0, 0), vec![]), "only the first image counts");
    let part = pick(&image, 4, 0).1;
    assert!(std::ptr::eq(part, &image[12..14]), "a part of the lent image itself");
}

/// Point 23: "The held reader: the size limit is judged on the rest of the run. A place at the end or past it answers 15 for reading
/// and for picking."
#[test]
fn point_23_held() {
    let other = image(message_id("M22"));
    let run = [&whole_image()[..], &other, b"rest"].concat();
    let mut held = Held::new(&run, 0);
    assert_eq!((numbers(held.read()), held.place()), ((0, 0, 68), 68));
    assert_eq!(numbers(held.pick(4, 0).0), (0, 4, 12), "places count from the start of the rest");
    assert_eq!((held.pick(4, 0).1, held.place()), (&b"M22"[..], 68), "picking stays");
    assert_eq!((numbers(held.read()), held.place()), ((0, 0, 69), 137));
    assert_eq!((numbers(held.read()), held.place()), ((15, 0, 0), 137), "refusing stays");
    assert_eq!(numbers(held.pick(4, 0).0), (15, 0, 0));
    for place in [run.len(), run.len() + 1, usize::MAX] {
        let mut past = Held::new(&run, place);
        assert_eq!((numbers(past.read()), past.place()), ((15, 0, 0), place));
        assert_eq!((numbers(past.pick(4, 0).0), past.pick(4, 0).1), ((15, 0, 0), &b""[..]));
    }
    let mut long = vec![0; 10];
    long.extend(whole_image());
    long.resize(10 + LIMIT, 0);
    assert_eq!(numbers(Held::new(&long, 0).read()), (1, 0, 1_048_576));
    assert_eq!(numbers(Held::new(&long, 10).read()), (0, 0, 68), "the rest is within the limit");
}

/// Point 24: "Code 14 cannot arise in [the program]: an image of the house list is never longer than its file."
#[test]
fn point_24_images_are_no_longer_than_files() {
    for file in [whole_example(), debtor("€"), amount("5"), transaction("<Refs><EndToEndId>E</EndToEndId></Refs>")] {
        let mut room = vec![0; file.len()];
        assert!(check(file.as_bytes(), &mut room).is_accepted());
    }
}

/// The size limit of files, exactly.
#[test]
fn the_limit() {
    let mut file = whole_example();
    file += &" ".repeat(LIMIT - file.len());
    assert_eq!(judge(&file), (0, 0, 68));
    assert_eq!(judge(file + " "), (1, 0, 1_048_576));
}
