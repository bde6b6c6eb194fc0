//! Sections 1, 2, 3, 5, 9, 10 and 12 of document 02, "Write the statement file", "Files with schema hints", "The retired six digits",
//! "Intraday reports", "Old transaction codes retired", "How far does it look?" and "Tidying a file", sentence by sentence. What must be
//! written or answered stands here as a person reads it from the document; nothing of it is computed.

mod support;

use independent::program::{images_program, program, tidy_program, write_program};
use independent::{check, pick, read, reading, tidy, write, Held, LIMIT};
use support::*;

/// The file that is written for an image, with room for any.
fn file_of(image: &[u8]) -> String {
    let mut room = vec![0; LIMIT];
    let answer = write(image, &mut room);
    assert_eq!(numbers(answer), (0, 0, answer.place));
    room.truncate(answer.place);
    String::from_utf8(room).unwrap()
}

/// The file that is written for the image of a file.
fn rewritten(file: impl AsRef<[u8]>) -> String {
    file_of(&image(file))
}

/// A message of `support`, whose two amounts are spelled with zeros, as it must be written.
fn without_zeros(file: &str) -> String {
    file.replace(">5.00<", ">5<").replace(">1.00<", ">1<")
}

/// Each spelling of a value in some message, and what must be written for it.
fn holds(message: impl Fn(&str) -> String, spelled_and_written: &[(&str, &str)]) {
    for (spelled, written) in spelled_and_written {
        assert_eq!(rewritten(message(spelled)), without_zeros(&message(written)), "{spelled}");
    }
}

/// "no declaration, no blanks that could be left out, double quotes": of the whole example, and of the same in another
/// style.
#[test]
fn the_whole_one() {
    let expected = "<Document xmlns=\"urn:iso:std:iso:20022:tech:xsd:camt.053.001.08\"><BkToCstmrStmt>\
                    <GrpHdr><MsgId>M1</MsgId><CreDtTm>2024-03-01T06:00:00Z</CreDtTm></GrpHdr>\
                    <Stmt><Id>S1</Id><Acct><Id><Othr><Id>9</Id></Othr></Id></Acct>\
                    <Bal><Tp><CdOrPrtry><Cd>CLBD</Cd></CdOrPrtry></Tp><Amt Ccy=\"EUR\">5</Amt>\
                    <CdtDbtInd>CRDT</CdtDbtInd><Dt><Dt>2024-02-29</Dt></Dt></Bal></Stmt></BkToCstmrStmt></Document>";
    assert_eq!(file_of(&whole_image()), expected);
    let other_style = whole_example()
        .replace('"', "'")
        .replace("><", " >\r\n\t<")
        .replace("<Document ", "<?xml version=\"1.0\" encoding=\"UTF-8\"?>\n<Document  ")
        .replace("Ccy=", "\nCcy = ")
        .replace("5.00", " +0005.00 ");
    assert_eq!(rewritten(other_style), expected);
}

/// "`&` and `<` and `>` as entities in text", and nothing else.
#[test]
fn texts() {
    let euros = "€".repeat(140);
    let ampersands = "&amp;".repeat(140);
    holds(
        debtor,
        &[
            ("&amp;", "&amp;"),
            ("&lt;", "&lt;"),
            (">", "&gt;"),
            ("&gt;", "&gt;"),
            ("&quot;", "\""),
            ("\"", "\""),
            ("&apos;", "'"),
            ("'", "'"),
            ("]]&gt;", "]]&gt;"),
            ("&amp;amp;", "&amp;amp;"),
            ("&amp;lt;&gt;", "&amp;lt;&gt;"),
            (" Müller  &amp; Söhne ", " Müller  &amp; Söhne "),
            ("ÄÖÜäöüß€§°", "ÄÖÜäöüß€§°"),
            (
                "- + / ? : ( ) . , ' | $ % ! = # ~ ; * { } [ ] @ \\ _ ^",
                "- + / ? : ( ) . , ' | $ % ! = # ~ ; * { } [ ] @ \\ _ ^",
            ),
            (&euros, &euros),
            (&ampersands, &ampersands),
        ],
    );
    holds(message_id, &[("A/B", "A/B"), (" A ", " A "), ("-+?:().,&apos;", "-+?:().,'")]);
}

/// "amounts with their smallest scale and digits written most significant first (as `0.5` and `7`)"
#[test]
fn amounts() {
    holds(
        amount,
        &[
            ("0.5", "0.5"),
            (".5", "0.5"),
            ("7", "7"),
            ("7.", "7"),
            ("0", "0"),
            ("-0.00", "0"),
            ("+0", "0"),
            ("1250.50", "1250.5"),
            ("0.000010", "0.00001"),
            ("0.05", "0.05"),
            ("12.345", "12.345"),
            ("12.3450", "12.345"),
            ("1.2345", "1.2345"),
            ("1.00001", "1.00001"),
            ("10", "10"),
            ("100.10", "100.1"),
            ("00012.30", "12.3"),
            (" 3 ", "3"),
            ("999999999999999999", "999999999999999999"),
            ("9999999999999.99999", "9999999999999.99999"),
            ("0.99999", "0.99999"),
            ("100000000000000000", "100000000000000000"),
            ("1234567890", "1234567890"),
        ],
    );
    let francs = |text: &str| amount(text).replace("EUR", "CHF");
    holds(francs, &[("5.00", "5"), ("0.50", "0.5")]);
}

/// "BOOL as `true` or `false`"
#[test]
fn booleans() {
    let reversal = |text: &str| {
        document(&[header(), statement(&entry(""))].concat())
            .replace("<Sts>", &format!("<RvslInd>{text}</RvslInd><Sts>"))
    };
    holds(reversal, &[("true", "true"), ("1", "true"), ("false", "false"), ("0", "false"), ("\n1 ", "true")]);
}

/// "NUM without leading zeros (zero is `0`)"
#[test]
fn numbers_without_leading_zeros() {
    let sequence =
        |text: &str| whole_example().replace("<Acct>", &format!("<ElctrncSeqNb>{text}</ElctrncSeqNb><Acct>"));
    holds(
        sequence,
        &[
            ("0", "0"),
            ("000000000000000000", "0"),
            ("7", "7"),
            ("007", "7"),
            ("10", "10"),
            ("100200300", "100200300"),
            ("999999999999999999", "999999999999999999"),
            (" 42\t", "42"),
        ],
    );
}

/// "The writer of §1 writes the shortest fraction", "offset zero as `Z`"; "24:00:00 .. its content is 00:00:00 of the next day"
#[test]
fn times() {
    let made = |text: &str| whole_example().replace("2024-03-01T06:00:00Z", text);
    holds(
        made,
        &[
            ("2024-03-01T06:00:00Z", "2024-03-01T06:00:00Z"),
            ("2024-03-01T06:00:00+00:00", "2024-03-01T06:00:00Z"),
            ("2024-03-01T06:00:00-00:00", "2024-03-01T06:00:00Z"),
            ("2024-03-01T06:00:00.1Z", "2024-03-01T06:00:00.1Z"),
            ("2024-03-01T06:00:00.12Z", "2024-03-01T06:00:00.12Z"),
            ("2024-03-01T06:00:00.001Z", "2024-03-01T06:00:00.001Z"),
            ("2024-03-01T06:00:00.01Z", "2024-03-01T06:00:00.01Z"),
            ("2024-03-01T23:59:59.999+14:00", "2024-03-01T23:59:59.999+14:00"),
            ("2024-02-29T24:00:00Z", "2024-03-01T00:00:00Z"),
            ("2023-12-31T24:00:00-14:00", "2024-01-01T00:00:00-14:00"),
            ("0001-01-01T00:00:00-14:00", "0001-01-01T00:00:00-14:00"),
            ("9999-12-31T09:08:07+01:00", "9999-12-31T09:08:07+01:00"),
            ("2024-03-01T06:00:00-00:30", "2024-03-01T06:00:00-00:30"),
            ("2024-03-01T06:00:00+00:05", "2024-03-01T06:00:00+00:05"),
            ("2024-03-01T06:00:00-13:59", "2024-03-01T06:00:00-13:59"),
            (" 2024-03-01T06:00:00.5+10:00\n", "2024-03-01T06:00:00.5+10:00"),
        ],
    );
}

/// The whole example's image with so many microseconds in its date-time, whose item stands at 14: after the header, the kind byte,
/// three groups, and the row byte, the length and the two letters of `M1`.
fn with_microseconds(microseconds: u32) -> Vec<u8> {
    let mut image = whole_image();
    assert_eq!(image[14..28], *b"\x05\x07\xe8\x03\x01\x06\x00\x00\x00\x00\x00\x00\x03\x48");
    image[22..26].copy_from_slice(&microseconds.to_be_bytes());
    image
}

/// Section 3: "Stored images with finer fractions are still read; §1 refuses to write them." "Refusals: 20, before 19, row of the
/// date-time, place of its item." And what is no finer has the shortest fraction.
#[test]
fn finer_fractions() {
    for microseconds in [1, 10, 100, 999, 1_001, 120_500, 123_456, 500_001, 999_999] {
        let image = with_microseconds(microseconds);
        assert_eq!(numbers(read(&image)), (0, 0, 68), "{microseconds}");
        for room in [0, 1000] {
            let mut out = vec![0xaa; room];
            assert_eq!(numbers(write(&image, &mut out)), (20, 5, 14), "{microseconds}");
            assert_eq!(out, vec![0xaa; room], "a refusal changes no byte");
        }
    }
    let shortest = [
        (0, ""),
        (100_000, ".1"),
        (120_000, ".12"),
        (123_000, ".123"),
        (1_000, ".001"),
        (10_000, ".01"),
        (20_000, ".02"),
        (250_000, ".25"),
        (900_000, ".9"),
        (909_000, ".909"),
        (990_000, ".99"),
        (999_000, ".999"),
    ];
    for (microseconds, fraction) in shortest {
        let file = file_of(&with_microseconds(microseconds));
        assert!(file.contains(&format!("<CreDtTm>2024-03-01T06:00:00{fraction}Z</CreDtTm>")), "{microseconds}");
        assert_eq!(image(file), with_microseconds(microseconds));
    }
}

/// "20, before 19": where the file would be over the limit too. "1 and 15 to 17" come before it.
#[test]
fn finer_fractions_in_order() {
    let mut over = image_for_file_of(LIMIT + 1);
    over[22..26].copy_from_slice(&1_u32.to_be_bytes());
    assert_eq!(numbers(write(&over, &mut [])), (20, 5, 14));
    let finer = with_microseconds(1);
    assert_eq!(numbers(write(&finer[..67], &mut [])), (17, 0, 67));
    assert_eq!(numbers(write(&[b"KTO\x00\x03", &finer[5..]].concat(), &mut [])), (16, 0, 3));
    assert_eq!(numbers(write(&[&finer[..], &vec![0; LIMIT]].concat(), &mut [])), (1, 0, 1_048_576));
    assert_eq!(numbers(write(&[&finer[..], b"behind"].concat(), &mut [])), (20, 5, 14));
}

/// DATE, ENUM, IBAN and CCY have one spelling but for blanks around a DATE.
#[test]
fn days_words_and_codes() {
    let day = |text: &str| whole_example().replace("2024-02-29", text);
    holds(day, &[("2024-02-29", "2024-02-29"), (" 0001-01-01 ", "0001-01-01"), ("9999-12-31", "9999-12-31")]);
    let kind = |text: &str| whole_example().replace("CLBD", text);
    holds(kind, &[("OPBD", "OPBD"), ("CLBD", "CLBD"), ("PRCD", "PRCD")]);
    let side = |text: &str| whole_example().replace("CRDT", text);
    holds(side, &[("CRDT", "CRDT"), ("DBIT", "DBIT")]);
    let account = |text: &str| whole_example().replace("<Othr><Id>9</Id></Othr>", &format!("<IBAN>{text}</IBAN>"));
    holds(account, &[("AT611904300234573201", "AT611904300234573201"), ("AT61a", "AT61a")]);
    let currency = |text: &str| whole_example().replace("</Acct>", &format!("<Ccy>{text}</Ccy></Acct>"));
    holds(currency, &[("EUR", "EUR"), ("ZZZ", "ZZZ")]);
    assert_eq!(rewritten(transaction("<Refs><MndtId>M</MndtId></Refs>")), {
        without_zeros(&transaction("<Refs><MndtId>M</MndtId></Refs>"))
    });
}

/// "Success is code 0, row 0, the file's length; bytes beyond it stay." and "14 where the buffer is too short; place is the
/// bytes needed, row 0".
#[test]
fn room() {
    let file = without_zeros(&whole_example());
    let length = file.len();
    for more in [0, 1, 40] {
        let mut room = vec![0xaa; length + more];
        assert_eq!(numbers(write(&whole_image(), &mut room)), (0, 0, length));
        assert_eq!(room[..length], *file.as_bytes());
        assert_eq!(room[length..], vec![0xaa; more]);
    }
    for less in [1, 2, length] {
        let mut room = vec![0xaa; length - less];
        assert_eq!(numbers(write(&whole_image(), &mut room)), (14, 0, length));
        assert_eq!(room, vec![0xaa; length - less], "a refusal changes no byte");
    }
}

/// "Refusals: 1 and 15 to 17 as in the reader", before all that depends on the room; "From an image at the start of a run":
/// what stands behind it doesn't matter.
#[test]
fn refused_as_in_the_reader() {
    let whole = whole_image();
    let mut runs: Vec<Vec<u8>> = (0..whole.len()).map(|length| whole[..length].to_vec()).collect();
    runs.push([b"KTP", &whole[3..]].concat());
    runs.push([b"KTO\x00\x03", &whole[5..]].concat());
    runs.push([&whole[..67], b"\x06"].concat());
    runs.push([&whole[..], &vec![0; LIMIT + 1 - whole.len()]].concat());
    for run in runs {
        for length in [0, 10, 1000] {
            let mut room = vec![0xaa; length];
            assert_eq!(write(&run, &mut room), read(&run));
            assert_eq!(room, vec![0xaa; length], "a refusal changes no byte");
        }
    }
    let file = file_of(&whole);
    assert_eq!(file_of(&[&whole[..], b"KTO"].concat()), file);
    assert_eq!(file_of(&[&whole[..], &whole[..]].concat()), file);
    assert_eq!(file_of(&[&whole[..], &vec![0xff; LIMIT - whole.len()]].concat()), file);
}

/// The image of a message whose file has this length: many texts of one character, which take 4 bytes in an image and 16 in
/// a file, and a last one that makes up the rest.
fn image_for_file_of(length: usize) -> Vec<u8> {
    let short = "<Ustrd>x</Ustrd>";
    let with = |texts: &str| without_zeros(&transaction(&format!("<RmtInf>{texts}</RmtInf>")));
    let left = length - with("").len();
    let last = "y".repeat(left % short.len() + 1);
    let times = (left - format!("<Ustrd>{last}</Ustrd>").len()) / short.len();
    let short_ones = image(with(&format!("{short}<Ustrd>{last}</Ustrd>")));
    let (item, end) = (b"\x39\x00\x01x", 3 + last.len() + 1);
    let start = short_ones.len() - end - item.len();
    assert_eq!(short_ones[start..start + 4], *item);
    [&short_ones[..start], &item.repeat(times), &short_ones[start + 4..]].concat()
}

/// "then 19 where the file would be over 1,048,576 bytes, then 14 where the buffer is too short": exactly so many bytes are
/// written, one more are not, whatever the room is.
#[test]
fn over_the_limit() {
    let mut room = vec![0xaa; LIMIT + 2];
    assert_eq!(numbers(write(&image_for_file_of(LIMIT), &mut room)), (0, 0, 1_048_576));
    assert_eq!(room[LIMIT..], [0xaa, 0xaa]);
    assert_eq!(numbers(check(&room[..LIMIT], &mut vec![0; LIMIT])), (0, 0, image_for_file_of(LIMIT).len()));
    assert_eq!(numbers(write(&image_for_file_of(LIMIT), &mut room[..LIMIT - 1])), (14, 0, 1_048_576));
    for length in [LIMIT + 1, LIMIT + 2, 2 * LIMIT] {
        for space in [0, 1000, LIMIT, LIMIT + 2] {
            let mut room = vec![0xaa; space];
            assert_eq!(numbers(write(&image_for_file_of(length), &mut room)), (19, 0, length), "room {space}");
            assert_eq!(room, vec![0xaa; space], "a refusal changes no byte");
        }
    }
}

/// The program `write`: the file, or the line of the refusal.
#[test]
fn the_program() {
    let whole = whole_image();
    assert_eq!(write_program(&whole), file_of(&whole).into_bytes());
    assert_eq!(write_program(b""), b"refused 15 0 0\n");
    assert_eq!(write_program(&whole[..67]), b"refused 17 0 67\n");
    assert_eq!(write_program(&image_for_file_of(LIMIT)).len(), LIMIT);
    assert_eq!(write_program(&image_for_file_of(LIMIT + 1)), b"refused 19 0 1048577\n");
    for more in [1, 2, LIMIT] {
        let long = [&whole[..], &vec![0; LIMIT + more - whole.len()]].concat();
        assert_eq!(write_program(&long), b"refused 1 0 1048576\n");
    }
}

// ---- Section 2.

/// Code 3's place, or that there is none.
fn stops(text: &str) -> Option<usize> {
    independent::house::parse(text.as_bytes()).err()
}

/// "Attribute names may hold one colon between two names; element names may not."
#[test]
fn colons() {
    for whole in [
        "<a b:c=''/>", "<a _:_=\"\"/>", "<a b-1.:c_2 = 'x'></a>", "<a b:c='' d='' e:f='' g=''/>",
        "<a xmlns:xsi='x' xsi:schemaLocation='y z'/>", "<a><b c:d=''/></a>",
    ] {
        assert_eq!(stops(whole), None, "{whole}");
    }
    let places = [
        // After the colon, where no name begins.
        ("<a b:=''/>", 5),
        ("<a b: c=''/>", 5),
        ("<a b:1=''/>", 5),
        ("<a b:-c=''/>", 5),
        ("<a b:''/>", 5),
        ("<a b:/>", 5),
        ("<a b:\u{e4}=''/>", 5),
        ("<a bc.d:", 8),
        // At a second colon.
        ("<a b::c=''/>", 5),
        ("<a b:c:d=''/>", 6),
        ("<a b:c:", 6),
        // At a colon that begins a name, or that a blank parts from one.
        ("<a :b=''/>", 3),
        ("<a b='' :c=''/>", 8),
        ("<a b :c=''/>", 5),
        // At a colon in an element's name, in either of its tags.
        ("<a:b/>", 2),
        ("<:a/>", 1),
        ("<a:b c=''/>", 2),
        ("<a><b:c/></a>", 5),
        ("<a></a:b>", 6),
        ("<a></:a>", 5),
    ];
    for (text, place) in places {
        assert_eq!(stops(text), Some(place), "{text}");
    }
    let text = "<a b:c='' d:e=''/>";
    for length in 0..text.len() {
        assert_eq!(stops(&text[..length]), Some(length), "an unfinished text answers its length");
    }
}

/// "Duplicates are judged by full names; four attributes stay the limit."
#[test]
fn full_names() {
    for whole in [
        "<a b='' b:c=''/>", "<a b:c='' b=''/>", "<a b:c='' c=''/>", "<a b:c='' d:c=''/>", "<a b:c='' b:d=''/>",
        "<a b:c='' b:cc=''/>", "<a b:cc='' b:c=''/>", "<a b:c=''><d b:c=''/></a>", "<a b:c='' d:e='' f:g='' h:i=''/>",
    ] {
        assert_eq!(stops(whole), None, "{whole}");
    }
    let places = [
        // After a full name that stands there already: up to there it could still grow.
        ("<a b:c='' b:c=''/>", 13),
        ("<a b:c='' b:c =''/>", 13),
        ("<a b:c='' b:c", 13),
        ("<a b:c='' d='' b:c=''/>", 18),
        ("<a b:c='' b:c:d=''/>", 13),
        ("<a b='' b:=''/>", 10),
        ("<a b='' b=''/>", 9),
        // At the first byte of a fifth.
        ("<a b:c='' d:e='' f:g='' h:i='' j:k=''/>", 31),
        ("<a b='' c='' d='' e='' f:g=''/>", 23),
        ("<a b:c='' d='' e='' f='' b:c=''/>", 25),
    ];
    for (text, place) in places {
        assert_eq!(stops(text), Some(place), "{text}");
    }
}

/// The whole example with these attributes on its root.
fn rooted(attributes: &[&str]) -> String {
    whole_example().replace("<Document xmlns=\"urn:iso:std:iso:20022:tech:xsd:camt.053.001.08\">", {
        &format!("<Document {}>", attributes.join(" "))
    })
}

const SPACE: &str = "xmlns=\"urn:iso:std:iso:20022:tech:xsd:camt.053.001.08\"";
const PREFIX: &str = "xmlns:xsi=\"http://www.w3.org/2001/XMLSchema-instance\"";
const LOCATION: &str = "xsi:schemaLocation=\"urn:iso:std:iso:20022:tech:xsd:camt.053.001.08 camt.053.001.08.xsd\"";

/// "The root may carry these two besides xmlns, with any text; they belong to no content."
#[test]
fn hints_on_the_root() {
    for attributes in [
        &[SPACE, PREFIX, LOCATION][..],
        &[SPACE, LOCATION, PREFIX],
        &[PREFIX, SPACE, LOCATION],
        &[PREFIX, LOCATION, SPACE],
        &[LOCATION, SPACE, PREFIX],
        &[LOCATION, PREFIX, SPACE],
        &[SPACE, PREFIX],
        &[PREFIX, SPACE],
        &[SPACE],
        &[SPACE, "xmlns:xsi=''", "xsi:schemaLocation=''"],
        &[SPACE, "xmlns:xsi = '&lt;&quot;>'", "xsi:schemaLocation='\n\u{20ac}'"],
        &["xmlns:xsi='urn:iso:std:iso:20022:tech:xsd:camt.053.001.08'", SPACE],
    ] {
        assert_eq!(image(rooted(attributes)), whole_image(), "{attributes:?}");
        assert_eq!(rewritten(rooted(attributes)), without_zeros(&whole_example()), "no hint is written");
    }
}

/// "An xsi attribute without its `xmlns:xsi` gives code 4", and so does every other attribute: these two are all that the root
/// may carry besides xmlns.
#[test]
fn other_attributes_on_the_root() {
    for attributes in [
        &[SPACE, LOCATION][..],
        &[LOCATION, SPACE],
        &[SPACE, LOCATION, "xmlns:xs=''"],
        &[SPACE, PREFIX, LOCATION, "a=''"],
        &[SPACE, "a=''"],
        &[SPACE, PREFIX, "xsi:noNamespaceSchemaLocation=''"],
        &[SPACE, PREFIX, "xsi:type=''"],
        &[SPACE, PREFIX, "schemaLocation=''"],
        &[SPACE, PREFIX, "xsi:SchemaLocation=''"],
        &[SPACE, "xmlns:x='http://www.w3.org/2001/XMLSchema-instance'", "x:schemaLocation=''"],
        &[SPACE, "xmlns:xs=''"],
        &[SPACE, "xmlns:xsi2=''"],
        &[SPACE, "xml:lang='de'"],
        &[SPACE, "xsi=''"],
        &[PREFIX],
        &[PREFIX, LOCATION],
        &["xmlns=''", PREFIX, LOCATION],
        &["xmlns='urn:iso:std:iso:20022:tech:xsd:camt.053.001.02'", PREFIX, LOCATION],
    ] {
        assert_eq!(judge(rooted(attributes)), (4, 1, 0), "{attributes:?}");
    }
    let other_root = rooted(&[SPACE, PREFIX]).replace("Document", "Documents");
    assert_eq!(judge(other_root), (4, 1, 0));
    let second = rooted(&[SPACE, PREFIX, PREFIX]);
    assert_eq!(judge(&second), (3, 0, second.rfind("xmlns:xsi").unwrap() + 9), "3 is judged before 4");
    let fifth = rooted(&[SPACE, PREFIX, LOCATION, "a=''", "b=''"]);
    assert_eq!(judge(&fifth), (3, 0, place(&fifth, "b=''")));
}

/// Below the root an attribute with a colon is none "of the type's": code 9.
#[test]
fn hints_below_the_root() {
    for hint in ["xmlns:xsi=''", "xsi:schemaLocation=''", "xmlns:xsi='' xsi:schemaLocation=''", "a:b=''"] {
        for (name, row) in [("BkToCstmrStmt", 2), ("MsgId", 4), ("Stmt", 6)] {
            let file = rooted(&[SPACE, PREFIX]).replace(&format!("<{name}>"), &format!("<{name} {hint}>"));
            assert_eq!(judge(&file), (9, row, place(&file, &format!("<{name} "))), "{hint}");
        }
        let file = rooted(&[SPACE, PREFIX]).replace("<Amt ", &format!("<Amt {hint} "));
        assert_eq!(judge(&file), (9, 19, place(&file, "<Amt ")), "{hint}");
    }
    let file = amount_element("<Amt xsi:Ccy=\"EUR\">5.00</Amt>");
    assert_eq!(judge(&file), (9, 19, place(&file, "<Amt ")));
}

// ---- Section 5.

/// A statement as a report: "Root child BkToCstmrAcctRpt with Rpt in place of Stmt (ISO spelling, not source document 002's)".
fn as_report(statement: &str) -> String {
    statement
        .replace("camt.053.001.08", "camt.052.001.08")
        .replace("BkToCstmrStmt>", "BkToCstmrAcctRpt>")
        .replace("Stmt>", "Rpt>")
}

/// Document 01's whole example as a report.
fn whole_report() -> String {
    as_report(&whole_example())
}

/// The same without its balance: "Bal 0..n".
fn least_report() -> String {
    whole_report().replace(BALANCE, "")
}

fn bytes(hexadecimal: &str) -> Vec<u8> {
    let digits: String = hexadecimal.split_whitespace().collect();
    (0..digits.len()).step_by(2).map(|i| u8::from_str_radix(&digits[i..i + 2], 16).unwrap()).collect()
}

/// The images of the two, version 2 and kind byte 2, and document 01's items after it.
fn report_image() -> Vec<u8> {
    bytes(
        "4B544F0002 02 010203 0400024D31 0507E80301060000000000000348 06 0700025331 090A0C0D000139 \
         0F10111202 13455552000000000000000005 1401 151607E8021D 00",
    )
}

fn least_image() -> Vec<u8> {
    bytes("4B544F0002 02 010203 0400024D31 0507E80301060000000000000348 06 0700025331 090A0C0D000139 00")
}

/// "camt.052.001.08 as a second message kind", "New images are version 2: after the version comes a kind byte, 1 for camt.053, 2 for
/// camt.052."
#[test]
fn both_kinds_have_images() {
    assert_eq!(image(whole_report()), report_image());
    assert_eq!(image(least_report()), least_image());
    assert_eq!(image(whole_example()), whole_image());
    assert_eq!(numbers(read(&report_image())), (0, 0, 68));
    assert_eq!(numbers(read(&least_image())), (0, 0, 42));
    let differs: Vec<usize> = (0..68).filter(|at| report_image()[*at] != whole_image()[*at]).collect();
    assert_eq!(differs, [5], "\"the kind being part of the content\"");
    for (file, length) in [(whole_report(), 68), (least_report(), 42)] {
        let mut exact = vec![0xaa; length];
        assert_eq!(numbers(check(file.as_bytes(), &mut exact)), (0, 0, length));
        let mut short = vec![0xaa; length - 1];
        assert_eq!(numbers(check(file.as_bytes(), &mut short)), (14, 0, length));
        assert_eq!(short, vec![0xaa; length - 1], "a refusal changes no byte");
    }
}

/// "Bal 0..n": none, one and several; of a statement at least one, as before.
#[test]
fn balances_of_reports() {
    let many = whole_report().replace(BALANCE, &BALANCE.repeat(3));
    assert_eq!(judge(&many), (0, 0, 68 + 2 * 26), "a balance has 26 bytes");
    let none = whole_example().replace(BALANCE, "");
    assert_eq!(judge(&none), (8, 15, place(&none, "<Stmt>")));
    let empty = whole_report().replace(BALANCE, "<Bal></Bal>");
    assert_eq!(judge(&empty), (11, 15, place(&empty, "<Bal>")));
    let before = whole_report().replace("<Acct>", "<Bal/><Acct>");
    assert_eq!(judge(&before), (11, 15, place(&before, "<Bal/>")), "its own tests come before its later sibling's");
    let entry_first = as_report(&document(&[header(), statement(&entry(""))].concat())).replace(BALANCE, "");
    let late = entry_first.replace("</Ntry>", &format!("</Ntry>{BALANCE}"));
    assert_eq!(judge(&entry_first).0, 0);
    assert_eq!(judge(&late), (6, 15, place(&late, "<Bal>")));
}

/// ".. with OPBD, CLBD, PRCD, ITBD, Sts codes BOOK and PDNG": "place in its list from 1".
#[test]
fn words_of_reports() {
    let balance = |file: String, word: &str| file.replace("CLBD", word);
    for (word, byte) in [("OPBD", 1), ("CLBD", 2), ("PRCD", 3), ("ITBD", 4)] {
        let image = image(balance(whole_report(), word));
        assert_eq!(pick(&image, 18, 0).1, [byte], "{word}");
        assert_eq!(file_of(&image), without_zeros(&balance(whole_report(), word)));
    }
    for word in ["ITAV", "itbd", "ITBD ", "OPBDITBD", "PDNG"] {
        assert_eq!(judge(balance(whole_report(), word)).0, 12, "{word}");
    }
    let file = balance(whole_example(), "ITBD");
    assert_eq!(judge(&file), (12, 18, place(&file, "<Cd>")), "no word of a statement");

    let with_entry = document(&[header(), statement(&entry(""))].concat());
    let status = |file: String, word: &str| file.replace("BOOK", word);
    for (word, byte) in [("BOOK", 1), ("PDNG", 2)] {
        let file = status(as_report(&with_entry), word);
        assert_eq!(pick(&image(&file), 28, 0).1, [byte], "{word}");
        assert_eq!(rewritten(&file), without_zeros(&file));
    }
    for word in ["INFO", "pdng", " PDNG", "ITBD"] {
        assert_eq!(judge(status(as_report(&with_entry), word)).0, 12, "{word}");
    }
    let file = status(with_entry, "PDNG");
    assert_eq!(judge(&file), (12, 28, place(&file, "<Cd>PDNG")), "no word of a statement");
}

/// "The namespace chooses the list." What belongs to the other list is no child here; an unknown namespace is 4.
#[test]
fn the_namespace_chooses() {
    let statement_space = whole_report().replace("camt.052", "camt.053");
    assert_eq!(judge(&statement_space), (5, 1, place(&statement_space, "<BkToCstmrAcctRpt>")));
    let report_space = whole_example().replace("camt.053", "camt.052");
    assert_eq!(judge(&report_space), (5, 1, place(&report_space, "<BkToCstmrStmt>")));
    let inside = whole_report().replace("Rpt>", "Stmt>").replace("BkToCstmrAcctStmt", "BkToCstmrAcctRpt");
    assert_eq!(judge(&inside), (5, 2, place(&inside, "<Stmt>")));
    let inside = whole_example().replace("<Stmt>", "<Rpt>").replace("</Stmt>", "</Rpt>");
    assert_eq!(judge(&inside), (5, 2, place(&inside, "<Rpt>")));
    let spelling = whole_report().replace("BkToCstmrAcctRpt", "BkToCstmrRpt");
    assert_eq!(
        judge(&spelling),
        (5, 1, place(&spelling, "<BkToCstmrRpt>")),
        "\"ISO spelling, not source document 002's\""
    );
    for other in [
        "camt.052.001.02", "camt.052.001.0", "camt.052.001.080", "camt.054.001.08", "camt.051.001.08", "camt.52.001.08",
    ] {
        assert_eq!(judge(whole_report().replace("camt.052.001.08", other)), (4, 1, 0), "{other}");
    }
    let hinted = whole_report().replace("<Document ", "<Document xmlns:xsi='camt.053' ");
    assert_eq!(image(hinted), report_image(), "hints choose nothing");
    assert_eq!(program(whole_report().as_bytes()), report_image());
}

/// "the rest of the house list as it is": the same files, as reports, get the same answers but for the bytes of the tags that have
/// other names.
#[test]
fn the_rest_of_the_list() {
    let files = [
        transaction("<Refs><EndToEndId>E</EndToEndId><MndtId>M</MndtId></Refs>"),
        transaction("<Amt Ccy='EUR'>1</Amt><CdtDbtInd>DBIT</CdtDbtInd>"),
        transaction("<Amt Ccy='EUR'>1</Amt>"),
        transaction("<RmtInf><Ustrd>a</Ustrd><Ustrd>b</Ustrd></RmtInf>"),
        transaction("<RmtInf></RmtInf>"),
        debtor("Müller &amp; Söhne"),
        debtor("`"),
        amount("-0.01"),
        amount("1250.50"),
        message_id("A//B"),
        whole_example().replace("<Id>S1</Id>", ""),
        whole_example().replace("<Acct>", "<ElctrncSeqNb>7</ElctrncSeqNb><Acct>"),
        whole_example().replace("<GrpHdr>", "<GrpHdr>x"),
        whole_example().replace("<Othr><Id>9</Id></Othr>", "<IBAN>AT611</IBAN><Othr/>"),
    ];
    for file in files {
        let (code, row, at) = judge(&file);
        let (code_of_report, row_of_report, at_of_report) = judge(as_report(&file));
        assert_eq!((code_of_report, row_of_report), (code, row), "{file}");
        if code == 0 {
            let (one, other) = (image(&file), image(as_report(&file)));
            assert_eq!((&one[..5], one[5], &one[6..]), (&other[..5], 1, &other[6..]), "{file}");
            assert_eq!(other[5], 2);
            assert_eq!(at_of_report, at);
        } else {
            assert_eq!(at_of_report, as_report(&file[..at]).len(), "{file}");
        }
    }
}

/// "The reader takes versions 1 and 2": "16 now means version neither 1 nor 2".
#[test]
fn versions() {
    let items = &former_image()[5..];
    let with = |version: u16, rest: &[u8]| [b"KTO", &version.to_be_bytes()[..], rest].concat();
    assert_eq!(numbers(read(&with(1, items))), (0, 0, 67));
    for kind in [1, 2] {
        assert_eq!(numbers(read(&with(2, &[&[kind], items].concat()))), (0, 0, 68));
    }
    for version in [0, 3, 4, 255, 256, 257, 258, 512, 513, 0x0101, 0x0202, u16::MAX] {
        for rest in [items, &[&[1], items].concat()[..], &[&[2], items].concat(), b""] {
            let run = with(version, rest);
            assert_eq!(numbers(read(&run)), (16, 0, 3), "{version}");
            assert_eq!(numbers(pick(&run, 4, 0).0), (16, 0, 3), "{version}");
            assert_eq!(numbers(write(&run, &mut [])), (16, 0, 3), "{version}");
        }
    }
    assert_eq!(numbers(read(b"KTO\x00")), (15, 0, 0), "fewer than five bytes");
    assert_eq!(numbers(read(b"KTX\x00\x02\x01")), (15, 0, 0));
}

/// "a missing or bad kind byte is 17, place 5; item places in version 2 count from 6."
#[test]
fn kind_bytes() {
    let items = &former_image()[5..];
    for bad in [&b""[..], b"\x00", b"\x03", b"\x04", b"\x10", b"\x80", b"\xff"] {
        let run = match bad {
            b"" => b"KTO\x00\x02".to_vec(),
            _ => [b"KTO\x00\x02", bad, items].concat(),
        };
        let mut room = [0xaa; 1000];
        assert_eq!(numbers(read(&run)), (17, 0, 5), "{bad:?}");
        assert_eq!((numbers(pick(&run, 4, 0).0), pick(&run, 4, 0).1), ((17, 0, 5), &b""[..]), "{bad:?}");
        assert_eq!(numbers(write(&run, &mut room)), (17, 0, 5), "{bad:?}");
        assert_eq!(room, [0xaa; 1000]);
        let mut held = Held::new(&run, 0);
        assert_eq!((numbers(held.read()), held.place()), ((17, 0, 5), 0));
    }
    // Version 2 without one: the root's row byte is taken for it, and `BkToCstmrStmt` can't be the first item.
    assert_eq!(numbers(read(&[b"KTO\x00\x02", items].concat())), (17, 0, 6));
    // Version 1 with one: the byte 1 is an item, the root, and no root stands in it; the byte 2 can't be the first item.
    assert_eq!(numbers(read(&[b"KTO\x00\x01\x01", items].concat())), (17, 0, 6));
    assert_eq!(numbers(read(&[b"KTO\x00\x01\x02", items].concat())), (17, 0, 5));
    // Nothing, an early 0, and another row after a good kind byte.
    for rest in [&b""[..], b"\x00", b"\x02", b"\x3a", b"\xff"] {
        assert_eq!(numbers(read(&[b"KTO\x00\x02\x02", rest].concat())), (17, 0, 6));
        assert_eq!(numbers(read(&[b"KTO\x00\x01", rest].concat())), (17, 0, 5));
    }
    // Where each cut of the image stops: after the whole items, which begin at these places in version 2.
    let places = [6, 7, 8, 9, 14, 28, 29, 34, 35, 36, 37, 41, 42, 43, 44, 46, 59, 61, 62, 67];
    for image in [whole_image(), report_image()] {
        for length in 6..68 {
            let stop = places.iter().rev().find(|place| **place <= length).unwrap();
            assert_eq!(numbers(read(&image[..length])), (17, 0, *stop), "{length}");
        }
    }
    for length in 5..67 {
        let stop = places.iter().rev().map(|place| place - 1).find(|place| *place <= length).unwrap();
        assert_eq!(numbers(read(&former_image()[..length])), (17, 0, stop), "{length}");
    }
}

/// Items go by the list of their kind: a report without balances, ITBD and PDNG are no statement's, in either version.
#[test]
fn items_go_by_the_kind() {
    let front = |image: &[u8], front: &[u8]| [front, &image[6..]].concat();
    let with_entry = as_report(&document(&[header(), statement(&entry(""))].concat()));
    let itbd = image(whole_report().replace("CLBD", "ITBD"));
    let pdng = image(with_entry.replace("BOOK", "PDNG"));
    // The bytes before the item that can't follow: the closing 0, and the balance's and the status's words.
    for (report, stop) in [(least_image(), 41), (itbd, 44), (pdng, 84)] {
        assert_eq!(numbers(read(&report)), (0, 0, report.len()));
        assert_eq!(numbers(read(&front(&report, b"KTO\x00\x02\x01"))), (17, 0, stop));
        assert_eq!(numbers(read(&front(&report, b"KTO\x00\x01"))), (17, 0, stop - 1));
        assert_eq!(numbers(write(&front(&report, b"KTO\x00\x02\x01"), &mut [])), (17, 0, stop));
        assert_eq!(numbers(pick(&front(&report, b"KTO\x00\x01"), 4, 0).0), (17, 0, stop - 1));
    }
    for (word, code) in [(0, 17), (4, 0), (5, 17)] {
        let mut changed = report_image();
        assert_eq!(changed[44..46], [18, 2]);
        changed[45] = word;
        assert_eq!(read(&changed).code.number(), code, "{word}");
    }
}

/// "only 2 is written from now on": the file of a version 1 image is that of version 2, and has its image. Each kind is written with its
/// own namespace and names.
#[test]
fn written_from_either_version_and_kind() {
    assert_eq!(file_of(&former_image()), file_of(&whole_image()));
    assert_eq!(image(file_of(&former_image())), whole_image(), "\"the version 2 image of that content\"");
    let expected = "<Document xmlns=\"urn:iso:std:iso:20022:tech:xsd:camt.052.001.08\"><BkToCstmrAcctRpt>\
                    <GrpHdr><MsgId>M1</MsgId><CreDtTm>2024-03-01T06:00:00Z</CreDtTm></GrpHdr>\
                    <Rpt><Id>S1</Id><Acct><Id><Othr><Id>9</Id></Othr></Id></Acct></Rpt></BkToCstmrAcctRpt></Document>";
    assert_eq!(file_of(&least_image()), expected);
    assert_eq!(file_of(&report_image()), without_zeros(&whole_report()));
    assert_ne!(file_of(&report_image()), file_of(&whole_image()), "equal trees of different kinds");
    assert_eq!(image(file_of(&report_image())), report_image());
    assert_eq!(write_program(&least_image()), expected.as_bytes());
    for length in [0, expected.len() - 1] {
        assert_eq!(numbers(write(&least_image(), &mut vec![0; length])), (14, 0, expected.len()));
    }
    let mut finer = report_image();
    finer[22..26].copy_from_slice(&123_456_u32.to_be_bytes());
    assert_eq!(numbers(write(&finer, &mut [])), (20, 5, 14), "places in version 2");
    let mut finer = former_image();
    finer[21..25].copy_from_slice(&123_456_u32.to_be_bytes());
    assert_eq!(numbers(write(&finer, &mut [])), (20, 5, 13), "places in version 1");
}

/// Picking counts from the start of the run in each version; the rows are those of the list, whatever the kind.
#[test]
fn picked_from_either_version_and_kind() {
    for (run, at) in [(former_image(), 11), (whole_image(), 12), (report_image(), 12), (least_image(), 12)] {
        assert_eq!((numbers(pick(&run, 4, 0).0), pick(&run, 4, 0).1), ((0, 4, at), &b"M1"[..]));
        assert_eq!((numbers(pick(&run, 7, 0).0), pick(&run, 7, 0).1), ((0, 7, at + 20), &b"S1"[..]));
        assert_eq!(numbers(pick(&run, 6, 0).0), (18, 0, 0));
    }
    assert_eq!(numbers(pick(&report_image(), 22, 0).0), (0, 22, 63));
    assert_eq!(numbers(pick(&least_image(), 22, 0).0), (18, 0, 0));
}

/// A run of mixed versions and kinds is divided in one way.
#[test]
fn mixed_runs() {
    let run = [former_image(), report_image(), whole_image(), least_image(), former_image()].concat();
    assert_eq!(images_program(&run), b"0 67 20\n67 68 20\n135 68 20\n203 42 12\n245 67 20\n");
    let behind = images_program(&[&run[..], b"KTO\x00\x02\x03"].concat());
    assert_eq!(behind, b"0 67 20\n67 68 20\n135 68 20\n203 42 12\n245 67 20\nrefused 17 0 5\n");
    let mut held = Held::new(&run, 135);
    assert_eq!((numbers(held.read()), held.place()), ((0, 0, 68), 203));
    assert_eq!(held.pick(22, 0).0.code.number(), 18, "the report without a balance is next");
    assert_eq!((numbers(held.read()), held.place()), ((0, 0, 42), 245));
    assert_eq!(held.pick(22, 0).0.code.number(), 0);
}

// ---- Section 9.

/// A file with one entry that has this inside its BkTxCd.
fn coded(inside: &str) -> String {
    document(&[header(), statement(&entry(""))].concat()).replace(DOMAIN, inside)
}

const OLD: &str = "<Prtry><Cd>X</Cd></Prtry>";

/// "Files of kinds 1 and 2 with row 40 are now refused with 5 and the parent row": alone, beside Domn, before it, twice, whatever it
/// holds and carries.
#[test]
fn files_with_an_old_code() {
    let before = format!("{OLD}{DOMAIN}");
    for (inside, at) in [
        (OLD, 0),
        (&before[..], 0),
        (&format!("{DOMAIN}{OLD}"), DOMAIN.len()),
        (&format!(" \n{DOMAIN}\t{OLD}"), DOMAIN.len() + 3),
        (&format!("{OLD}{OLD}"), 0),
        (&format!("{OLD}{DOMAIN}{OLD}"), 0),
        ("<Prtry/>", 0),
        ("<Prtry></Prtry>", 0),
        ("<Prtry a=''>x</Prtry>", 0),
        ("<Prtry><Cd/></Prtry>", 0),
        ("<Prtry><Domn/></Prtry>", 0),
    ] {
        for file in [coded(inside), as_report(&coded(inside))] {
            assert_eq!(judge(&file), (5, 34, place(&file, "<BkTxCd>") + 8 + at), "{inside}");
            assert_eq!(program(file.as_bytes()), format!("refused 5 34 {}\n", judge(&file).2).into_bytes());
        }
    }
    // In any other place it was no child before, and of the other groups it is none now.
    let beside = document(&[header(), statement(&entry(OLD))].concat());
    assert_eq!(judge(&beside), (5, 23, place(&beside, OLD)));
    let within = coded(&DOMAIN.replace("</Domn>", &format!("{OLD}</Domn>")));
    assert_eq!(judge(&within), (5, 35, place(&within, OLD)));
}

/// "Domn becomes 1..1". Nothing else may stand beside it, so that 8 with its row is never the answer: a BkTxCd without any child is 11, and
/// with another child 5.
#[test]
fn one_domain() {
    for as_kind in [|file: String| file, |file: String| as_report(&file)] {
        let file = as_kind(coded(DOMAIN));
        assert_eq!(judge(&file), (0, 0, 102));
        let twice = as_kind(coded(&DOMAIN.repeat(2)));
        assert_eq!(judge(&twice), (7, 35, twice.rfind("<Domn>").unwrap()));
        for nothing in ["", " ", "\n\t"] {
            let empty = as_kind(coded(nothing));
            assert_eq!(judge(&empty), (11, 34, place(&empty, "<BkTxCd>")));
        }
        let other = as_kind(coded("<Cd>X</Cd>"));
        assert_eq!(judge(&other), (5, 34, place(&other, "<Cd>X")));
        let text = as_kind(coded("X"));
        assert_eq!(judge(&text), (10, 34, place(&text, "X</BkTxCd>")));
        let none = as_kind(coded("").replace("<BkTxCd></BkTxCd>", ""));
        assert_eq!(judge(&none), (8, 34, place(&none, "<Ntry>")));
    }
}

/// The first violation in document order: what stands before the old code, and what stands after it.
#[test]
fn old_codes_in_order() {
    let long = DOMAIN.replace("<Cd>A<", "<Cd>ABCDE<");
    let file = coded(&format!("{long}{OLD}"));
    assert_eq!(judge(&file), (12, 36, place(&file, "<Cd>ABCDE")));
    let file = coded(&format!("{OLD}{long}"));
    assert_eq!(judge(&file), (5, 34, place(&file, OLD)));
    let file = coded(&format!("x{OLD}"));
    assert_eq!(judge(&file), (10, 34, place(&file, &format!("x{OLD}"))));
    let file = coded(OLD).replace("<BkTxCd>", "<BkTxCd a=''>");
    assert_eq!(judge(&file), (9, 34, place(&file, "<BkTxCd ")));
    let file = coded(OLD).replace("1.00", "x");
    assert_eq!(judge(&file), (12, 24, place(&file, "<Amt Ccy=\"EUR\">x")));
    // 14 comes last.
    assert_eq!(numbers(check(coded(OLD).as_bytes(), &mut [])).0, 5);
}

/// Images of an entry, version 1 and version 2 of either kind, and where the item after its row 34 stands: the old code alone, or after
/// Domn.
fn old_images(beside: bool) -> Vec<(Vec<u8>, usize)> {
    let new = image(coded(DOMAIN));
    let domain = bytes("23 24000141 25 26000142 27000143");
    assert_eq!((new[86], &new[87..101], new[101], new.len()), (34, &domain[..], 0, 102));
    let old = bytes("28 29000158 00");
    let kept = if beside { 101 } else { 87 };
    let statement = [&new[..kept], &old].concat();
    let report = [b"KTO\x00\x02\x02", &statement[6..]].concat();
    let former = [b"KTO\x00\x01", &statement[6..]].concat();
    vec![(former, kept - 1), (statement, kept), (report, kept)]
}

/// "Stored images with rows 40 and 41 are still read and picked from, in both versions."
#[test]
fn images_with_an_old_code() {
    for beside in [true, false] {
        for (run, at) in old_images(beside) {
            let length = at + 6;
            // The example's 19 elements, the entry's up to its BkTxCd, Domn's five where it is there, the code's two, the closing 0.
            let items = 19 + 6 + if beside { 5 } else { 0 } + 2 + 1;
            assert_eq!(run.len(), length);
            assert_eq!(counted(&run).1, items);
            assert_eq!(numbers(read(&run)), (0, 0, length));
            assert_eq!((numbers(pick(&run, 41, 0).0), pick(&run, 41, 0).1), ((0, 41, at + 4), &b"X"[..]));
            assert_eq!(numbers(pick(&run, 40, 0).0), (18, 0, 0), "a group");
            assert_eq!(numbers(pick(&run, 41, 1).0), (18, 0, 0));
            assert_eq!(pick(&run, 36, 0).0.code.number(), if beside { 0 } else { 18 });
            assert_eq!(pick(&run, 4, 0).1, b"M1");
            assert_eq!(
                images_program(&[&run[..], &run].concat()),
                format!("0 {length} {items}\n{length} {length} {items}\n").into_bytes()
            );
            let double = [&run[..], &run].concat();
            let mut held = Held::new(&double, length);
            assert_eq!(held.pick(41, 0).1, b"X");
            assert_eq!((numbers(held.read()), held.place()), ((0, 0, length), 2 * length));
            // Each cut, and the rules of document 01 for these rows: 40 once, and a 41 in it, once; 35 before it.
            for cut in [length - 1, at + 5] {
                assert_eq!(numbers(read(&run[..cut])), (17, 0, at + 5));
            }
            for cut in at + 1..at + 5 {
                assert_eq!(numbers(read(&run[..cut])), (17, 0, at + 1), "{cut}");
            }
            let with = |items: &str| [&run[..at], &bytes(items)].concat();
            assert_eq!(numbers(read(&with("28 00"))), (17, 0, at + 1));
            assert_eq!(numbers(read(&with("28 29000158 29000158 00"))), (17, 0, at + 5));
            assert_eq!(numbers(read(&with("28 29000158 28 29000158 00"))), (17, 0, at + 5));
            assert_eq!(numbers(read(&with("28 29000158 23 24000141 25 26000142 27000143 00"))), (17, 0, at + 5));
            assert_eq!(numbers(read(&with("29000158 00"))), (17, 0, at));
            assert_eq!(numbers(read(&with("28 290000 00"))), (17, 0, at + 1), "no character");
            assert_eq!(numbers(read(&with("28 29000160 00"))), (17, 0, at + 1), "no character of TXT");
            let long = |length: u8| [&run[..at], &[40, 41, 0, length], &vec![b'x'; length.into()], &[0]].concat();
            assert_eq!(read(&long(35)).code.number(), 0);
            assert_eq!(numbers(read(&long(36))), (17, 0, at + 1));
        }
    }
    // Neither: 35 is not required there, but every group has a child.
    for (run, at) in old_images(false) {
        assert_eq!(numbers(read(&[&run[..at], &[0]].concat())), (17, 0, at));
    }
}

/// "§1 won't write such a statement. .. Refusals: 26, before 20, row 40, place of the first such item."
#[test]
fn old_codes_are_not_written() {
    for (run, at) in [old_images(true), old_images(false)].concat() {
        for space in [0, 10, 1000, LIMIT] {
            let mut room = vec![0xaa; space];
            assert_eq!(numbers(write(&run, &mut room)), (26, 40, at), "room {space}");
            assert_eq!(room, vec![0xaa; space], "a refusal changes no byte");
        }
        assert_eq!(write_program(&run), format!("refused 26 40 {at}\n").into_bytes());
        assert_eq!(numbers(write(&[&run[..], b"behind"].concat(), &mut [])), (26, 40, at));
        // "1 and 15 to 17 as in the reader", before it.
        assert_eq!(numbers(write(&run[..run.len() - 1], &mut [])), (17, 0, run.len() - 1));
        assert_eq!(numbers(write(&[b"KTO\x00\x03", &run[5..]].concat(), &mut [])), (16, 0, 3));
        assert_eq!(numbers(write(&[b"KTX", &run[3..]].concat(), &mut [])), (15, 0, 0));
        assert_eq!(numbers(write(&[&run[..], &vec![0; LIMIT]].concat(), &mut [])), (1, 0, LIMIT));
        // Before 20, although the date-time stands first.
        let mut finer = run.clone();
        let microseconds = if run[4] == 1 { 21 } else { 22 };
        finer[microseconds..microseconds + 4].copy_from_slice(&123_456_u32.to_be_bytes());
        assert_eq!(numbers(write(&finer, &mut [])), (26, 40, at));
        // Of the image at the start of the run alone.
        assert_eq!(file_of(&[&whole_image()[..], &run].concat()), file_of(&whole_image()));
    }
    // Before 19: a second entry with an old code, in a file that would be over the limit.
    let over = image_for_file_of(LIMIT + 1);
    let entry = &old_images(false)[1].0[67..];
    let with_old = [&over[..over.len() - 1], entry].concat();
    assert_eq!(numbers(write(&over, &mut [])), (19, 0, LIMIT + 1));
    assert_eq!(numbers(write(&with_old, &mut [])), (26, 40, over.len() - 1 + 20));
    // The first of several.
    let (run, at) = &old_images(false)[1];
    let several = [&run[..run.len() - 1], entry].concat();
    assert_eq!(numbers(read(&several)), (0, 0, several.len()));
    assert_eq!(numbers(write(&several, &mut [])), (26, 40, *at));
    let second = [&image(coded(DOMAIN))[..101], entry].concat();
    assert_eq!(numbers(write(&second, &mut [])), (26, 40, 101 + 20));
}

// ---- Section 10.

/// What the reader answers, and how many items it took.
fn counted(run: &[u8]) -> ((u8, u8, usize), usize) {
    let (answer, items) = reading(run);
    assert_eq!(answer, read(run), "the answer is the reader's");
    (numbers(answer), items)
}

/// "The reader returns the number of items it took, the closing 0 among them": document 01's example has 19 elements, the least report 11.
#[test]
fn items_are_counted() {
    assert_eq!(counted(&former_image()), ((0, 0, 67), 20));
    assert_eq!(counted(&whole_image()), ((0, 0, 68), 20));
    assert_eq!(counted(&report_image()), ((0, 0, 68), 20));
    assert_eq!(counted(&least_image()), ((0, 0, 42), 12));
    // An element more is an item more, whatever its value; and so is a group.
    assert_eq!(counted(&image(message_id("A much longer identification"))).1, 20);
    assert_eq!(counted(&image(amount("1250.50"))).1, 20);
    let numbered = whole_example().replace("<Acct>", "<ElctrncSeqNb>7</ElctrncSeqNb><Acct>");
    assert_eq!(counted(&image(numbered)).1, 21);
    let balances = whole_example().replace(BALANCE, &BALANCE.repeat(3));
    assert_eq!(counted(&image(balances)).1, 20 + 2 * 8, "a balance has eight elements");
    // "bytes after the first image don't matter"
    for behind in [&b"\x00"[..], b"KTO", &whole_image(), &[0xff; 100]] {
        assert_eq!(counted(&[&whole_image()[..], behind].concat()), ((0, 0, 68), 20));
    }
}

/// "on code 17 it is the number of whole items before the place": every cut of an image of each version and kind, by the places at which
/// items begin in version 2.
#[test]
fn items_of_each_cut() {
    let places = [6, 7, 8, 9, 14, 28, 29, 34, 35, 36, 37, 41, 42, 43, 44, 46, 59, 61, 62, 67];
    for (image, earlier) in [(former_image(), 1), (whole_image(), 0), (report_image(), 0)] {
        for length in 6 - earlier..68 - earlier {
            let (whole, place) =
                places.iter().enumerate().rev().find(|(_, place)| **place <= length + earlier).unwrap();
            assert_eq!(counted(&image[..length]), ((17, 0, place - earlier), whole), "{length}");
            // What stands there in its place is no item that can follow.
            for other in [b"\xff", b"\x3a"] {
                let run = [&image[..place - earlier], other].concat();
                assert_eq!(counted(&run), ((17, 0, place - earlier), whole), "{length}");
            }
        }
    }
}

/// An early 0 is no closing one, and a broken item is none: neither is counted.
#[test]
fn early_ends_and_broken_items() {
    let whole = whole_image();
    for (at, items) in [(6, 0), (7, 1), (8, 2), (9, 3), (14, 4), (28, 5), (29, 6), (41, 11), (62, 18)] {
        assert_eq!(counted(&[&whole[..at], b"\x00"].concat()), ((17, 0, at), items), "{at}");
        assert_eq!(counted(&[&whole[..at], b"\x00", &whole[at..]].concat()), ((17, 0, at), items), "{at}");
    }
    // A reference without a character, a word that is none, an amount with a digit to spare, a day that no calendar has.
    for (at, bytes, items) in
        [(9, &b"\x04\x00\x00"[..], 3), (44, b"\x12\x04", 14), (46, b"\x13EUR\x01\x00\x00\x00\x00\x00\x00\x00\x0a", 15)]
    {
        assert_eq!(counted(&[&whole[..at], bytes, &whole[at + bytes.len()..]].concat()), ((17, 0, at), items), "{at}");
    }
    let mut february = whole.clone();
    february[66] = 30;
    assert_eq!(counted(&february), ((17, 0, 62), 18));
    // The closing 0 alone is missing: all nineteen elements stand before the place.
    assert_eq!(counted(&whole[..67]), ((17, 0, 67), 19));
}

/// "on other refusals 0": 1, 15 and 16; and no item stands before the place of a kind byte that is missing or bad.
#[test]
fn no_items_on_other_refusals() {
    let items = &former_image()[5..];
    for run in [&b""[..], b"K", b"KTO", b"KTO\x00", b"KTX\x00\x02\x01"] {
        assert_eq!(counted(run), ((15, 0, 0), 0));
    }
    assert_eq!(counted(&[b"KTo\x00\x01", items].concat()), ((15, 0, 0), 0));
    for version in [0, 3, 256, 258] {
        for rest in [items, &[&[1], items].concat()] {
            let run = [b"KTO", &u16::to_be_bytes(version)[..], rest].concat();
            assert_eq!(counted(&run), ((16, 0, 3), 0), "{version}");
        }
    }
    for kind in [&b""[..], b"\x00", b"\x03", b"\xff"] {
        let run = if kind.is_empty() { b"KTO\x00\x02".to_vec() } else { [b"KTO\x00\x02", kind, items].concat() };
        assert_eq!(counted(&run), ((17, 0, 5), 0), "{kind:?}");
    }
    // 17 at 5 in version 1 is at its first item, and none stands before it either.
    assert_eq!(counted(b"KTO\x00\x01"), ((17, 0, 5), 0));
    let over = [&whole_image()[..], &vec![0; LIMIT]].concat();
    assert_eq!(counted(&over), ((1, 0, LIMIT), 0));
    assert_eq!(counted(&over[..LIMIT]), ((0, 0, 68), 20));
}

/// "On acceptance it is at most the image's length less four": the header has five bytes or six, and each item one at least.
#[test]
fn items_are_bounded() {
    for (image, header) in [(former_image(), 5), (whole_image(), 6), (report_image(), 6), (least_image(), 6)] {
        let ((code, _, length), items) = counted(&image);
        assert!(code == 0 && items <= length - header && items <= length - 4);
    }
}

/// "And a result buffer as long as the accepted file never gives 14."
#[test]
fn a_buffer_as_long_as_the_file_is_enough() {
    for file in
        [whole_example(), whole_report(), least_report(), debtor(&"€".repeat(140)), amount("5"), message_id("M")]
    {
        let mut room = vec![0; file.len()];
        assert_eq!(check(file.as_bytes(), &mut room).code.number(), 0);
        let short = rewritten(&file);
        assert_eq!(check(short.as_bytes(), &mut vec![0; short.len()]).code.number(), 0);
    }
}

// Section 12, "Tidying a file".

/// A file's tidied form, with room for any.
fn tidied(file: impl AsRef<[u8]>) -> String {
    let (mut image, mut out) = (vec![0; LIMIT], vec![0; LIMIT]);
    let answer = tidy(file.as_ref(), &mut image, &mut out);
    assert_eq!(numbers(answer), (0, 0, answer.place));
    out.truncate(answer.place);
    String::from_utf8(out).unwrap()
}

/// The whole example in many ways that change nothing of its content.
fn other_spellings() -> Vec<String> {
    let file = whole_example();
    vec![
        file.replace("5.00", "5"),
        file.replace("5.00", " +05.0 "),
        file.replace('"', "'"),
        file.replace("><", ">\r\n<"),
        file.replace("<MsgId>", "<MsgId\t>").replace("</MsgId>", "</MsgId\n>"),
        format!("<?xml version=\"1.0\" encoding=\"UTF-8\"?>\n{file}\n"),
        file.replace("<Document ", "<Document xmlns:xsi='' xsi:schemaLocation='a' "),
        file.replace("2024-03-01T06:00:00Z", "\n2024-03-01T06:00:00+00:00"),
        file.replace("<Dt>2024-02-29</Dt>", "<Dt> 2024-02-29 </Dt>"),
    ]
}

/// "Two accepted files of one kind that both can be tidied end in the same bytes exactly when their contents are equal".
#[test]
fn tidied_files_tell_contents() {
    let file = whole_example();
    assert_eq!(tidied(&file), without_zeros(&file));
    for other in other_spellings() {
        assert_eq!(tidied(&other), without_zeros(&file), "{other}");
    }
    let others = [
        file.replace("5.00", "5.01"),
        file.replace("EUR", "USD"),
        file.replace("M1", "M2"),
        file.replace("06:00:00Z", "06:00:00+01:00"),
        file.replace("CRDT", "DBIT"),
        file.replace(BALANCE, &BALANCE.repeat(2)),
    ];
    for other in &others {
        assert_ne!(tidied(other), tidied(&file), "{other}");
    }
    assert_ne!(tidied(as_report(&file)), tidied(&file), "the kind is part of the content");
    let midnight = |time: &str| tidied(file.replace("2024-03-01T06:00:00Z", time));
    assert_eq!(midnight("2024-02-29T24:00:00Z"), midnight("2024-03-01T00:00:00Z"));
    assert_eq!(tidied(debtor("&quot;a&apos; > &gt;")), without_zeros(&debtor("\"a' &gt; &gt;")));
}

/// "tidying a tidied file changes no byte".
#[test]
fn a_tidied_file_stays() {
    for file in [whole_example(), whole_report(), least_report(), debtor("&lt;&quot;>"), amount(".50")] {
        let once = tidied(&file);
        assert_eq!(tidied(&once), once);
    }
}

/// A tidying with so much room for the image and for the file: the answer, and both buffers, in which 0xaa stood.
fn tidied_into(file: &str, room: usize, space: usize) -> ((u8, u8, usize), Vec<u8>, Vec<u8>) {
    let (mut image, mut out) = (vec![0xaa; room], vec![0xaa; space]);
    (numbers(tidy(file.as_bytes(), &mut image, &mut out)), image, out)
}

/// "A file that document 01 refuses, code 14 included, changes neither".
#[test]
fn a_refused_file_changes_neither() {
    let refused =
        ["<a></b>".to_string(), "<Document/>".to_string(), amount("-1"), whole_example().replace("<Id>S1</Id>", "")];
    for file in refused {
        for (room, space) in [(0, 0), (1000, 1000), (LIMIT + 1, LIMIT + 1)] {
            let (answer, image, out) = tidied_into(&file, room, space);
            assert_eq!(answer, judge(&file));
            assert!(image.iter().chain(&out).all(|byte| *byte == 0xaa), "{file}");
        }
    }
    for (room, space) in [(0, 0), (67, 0), (67, 1000)] {
        let (answer, image, out) = tidied_into(&whole_example(), room, space);
        assert_eq!(answer, (14, 0, 68));
        assert!(image.iter().chain(&out).all(|byte| *byte == 0xaa));
    }
}

/// "then §1's answers and order apply, and where §1 refuses, the image stands and the other buffer stays".
#[test]
fn the_image_stands_where_the_writer_refuses() {
    let file = whole_example();
    let needed = without_zeros(&file).len();
    for room in [68, 69, LIMIT, LIMIT + 1, 2 * LIMIT] {
        for space in [0, 1, needed - 1] {
            let (answer, image, out) = tidied_into(&file, room, space);
            assert_eq!(answer, (14, 0, needed), "of the file");
            assert_eq!(image[..68], whole_image());
            assert!(image[68..].iter().chain(&out).all(|byte| *byte == 0xaa));
        }
        for space in [needed, needed + 1, LIMIT + 1] {
            let (answer, image, out) = tidied_into(&file, room, space);
            assert_eq!(answer, (0, 0, needed), "also where the image's buffer is over the limit");
            assert_eq!((&image[..68], &out[..needed]), (&whole_image()[..], without_zeros(&file).as_bytes()));
            assert!(image[68..].iter().chain(&out[needed..]).all(|byte| *byte == 0xaa));
        }
    }
}

/// A file of the limit's length and less whose tidied form is longer: "19 where the file would be over 1,048,576 bytes", and then the image
/// stands too.
#[test]
fn a_tidied_form_over_the_limit() {
    let text = format!("<Ustrd>{}</Ustrd>", ">".repeat(140));
    let file = transaction(&format!("<RmtInf>{}</RmtInf>", text.repeat(2000)));
    let longer = without_zeros(&file).len() + 2000 * 140 * 3;
    assert!(file.len() < LIMIT && longer > LIMIT);
    for space in [0, LIMIT, 2 * LIMIT] {
        let (answer, buffer, out) = tidied_into(&file, LIMIT, space);
        assert_eq!(answer, (19, 0, longer), "before 14");
        assert!(buffer.starts_with(&image(&file)) && out.iter().all(|byte| *byte == 0xaa));
    }
    assert_eq!(tidy_program(file.as_bytes()), format!("refused 19 0 {longer}\n").into_bytes());
}

/// The program: the tidied file, or one line.
#[test]
fn the_program_tidy() {
    let file = whole_example();
    assert_eq!(tidy_program(file.as_bytes()), without_zeros(&file).into_bytes());
    assert_eq!(tidy_program(b""), b"refused 3 0 0\n");
    let filled = |length: usize| [file.as_bytes(), &vec![b'\n'; length - file.len()]].concat();
    assert_eq!(tidy_program(&filled(LIMIT)), without_zeros(&file).into_bytes());
    for length in [LIMIT + 1, 2 * LIMIT] {
        assert_eq!(tidy_program(&filled(length)), b"refused 1 0 1048576\n");
    }
}
