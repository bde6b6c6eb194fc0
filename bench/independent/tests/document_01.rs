//! Every worked example of document 01, with images as section 5 of document 02 has them written.

mod support;

use independent::program::images_program;
use independent::{check, pick, program, read, LIMIT};
use support::*;

/// "empty: 3, place 0. `<a></b>`: 3, place 5. `<Document/>`: 4, row 1, place 0."
#[test]
fn short_texts() {
    assert_eq!(judge(""), (3, 0, 0));
    assert_eq!(judge("<a></b>"), (3, 0, 5));
    assert_eq!(judge("<Document/>"), (4, 1, 0));
}

/// "A whole one: .. Image, 67 bytes": "its 67 bytes are still read", and it "is then written as 68 bytes".
#[test]
fn the_whole_one() {
    assert_eq!((former_image().len(), whole_image().len()), (67, 68));
    assert_eq!(support::image(whole_example()), whole_image());
    assert_eq!(numbers(read(&whole_image())), (0, 0, 68));
    assert_eq!(numbers(read(&former_image())), (0, 0, 67));
}

/// "a 68-byte buffer accepts, 67 gives 14, place 68". With the bytes of the buffers.
#[test]
fn room() {
    let mut exact = [0xaa; 68];
    assert_eq!(numbers(check(whole_example().as_bytes(), &mut exact)), (0, 0, 68));
    assert_eq!(exact[..], whole_image());

    let mut short = [0xaa; 67];
    assert_eq!(numbers(check(whole_example().as_bytes(), &mut short)), (14, 0, 68));
    assert_eq!(short, [0xaa; 67]);

    let mut more = [0xaa; 71];
    assert_eq!(numbers(check(whole_example().as_bytes(), &mut more)), (0, 0, 68));
    assert_eq!(more[..68], whole_image());
    assert_eq!(more[68..], [0xaa; 3]);

    let mut none = [];
    assert_eq!(numbers(check(whole_example().as_bytes(), &mut none)), (14, 0, 68));
}

/// "AMT accepted: `1250.50` (12505, scale 1), `-0.00` (0, 0), `.5`, `7.`, `0.000010` (1, 5), 18 nines."
#[test]
fn amounts_accepted() {
    let nines = "9".repeat(18);
    let cases = [
        ("1250.50", 12505, 1),
        ("-0.00", 0, 0),
        (".5", 5, 1),
        ("7.", 7, 0),
        ("0.000010", 1, 5),
        (&nines, 999_999_999_999_999_999_u64, 0),
    ];
    for (text, coefficient, scale) in cases {
        let image = image(amount(text));
        let (_, part) = pick(&image, 19, 0);
        assert_eq!(part, [&b"EUR"[..], &[scale], &coefficient.to_be_bytes()].concat(), "{text}");
    }
}

/// "Refused with 12: `0.000001`, 1 with 18 zeros, `-0.01`, `.`"
#[test]
fn amounts_refused() {
    for text in ["0.000001", &format!("1{}", "0".repeat(18)), "-0.01", "."] {
        let file = amount(text);
        assert_eq!(judge(&file), (12, 19, place(&file, "<Amt")), "{text}");
    }
}

/// "REF: `A/B` good, `A//B` bad, 35 good, 36 bad."
#[test]
fn references() {
    let at = place(&whole_example(), "<MsgId>");
    assert_eq!(judge(message_id("A/B")).0, 0);
    assert_eq!(judge(message_id("A//B")), (12, 4, at));
    assert_eq!(judge(message_id(&"A".repeat(35))).0, 0);
    assert_eq!(judge(message_id(&"A".repeat(36))), (12, 4, at));
}

/// "Nm of 140 `€` (420 bytes) good, 141 bad."
#[test]
fn names_count_characters() {
    assert_eq!("€".repeat(140).len(), 420);
    assert_eq!(judge(debtor(&"€".repeat(140))).0, 0);
    let file = debtor(&"€".repeat(141));
    assert_eq!(judge(&file), (12, 52, place(&file, "<Nm>")));
}

/// "Easy to get wrong: counting bytes for lengths; `&amp;` as five characters; trailing zeros spending the 18 digits;
/// cutting references; holding `5.0` and `5.00` different; reporting 14 before a later violation."
#[test]
fn easy_to_get_wrong() {
    assert_eq!(judge(debtor(&"&amp;".repeat(140))).0, 0);
    assert_eq!(judge(debtor(&"&amp;".repeat(141))).0, 12);
    assert_eq!(judge(amount(&format!("123456789012.123{}", "0".repeat(30)))).0, 0);
    let long = "ABCDEFGHIJKLMNOPQRSTUVWXYZ012345678";
    assert_eq!(image(message_id(long))[10..12], [0, 35]);
    assert_eq!(image(message_id(long))[12..47], *long.as_bytes());
    assert_eq!(image(amount("5.0")), image(amount("5.00")));
    let mut none = [];
    let late = whole_example().replace("2024-02-29", "2023-02-29");
    assert_eq!(check(late.as_bytes(), &mut none).code.number(), 12);
}

/// "The program reads at most 65,536 bytes and writes the image or one line. Empty input gives `refused 3 0 0` and LF,
/// whole. Longer input gives `refused 1 0 65536` and LF."
#[test]
fn the_program() {
    assert_eq!(program(b""), b"refused 3 0 0\n");
    assert_eq!(program(whole_example().as_bytes()), whole_image());
    assert_eq!(program(b"<Document/>"), b"refused 4 1 0\n");
    let full = format!("{}{}", whole_example(), " ".repeat(65_536 - whole_example().len()));
    assert_eq!(full.len(), 65_536);
    assert_eq!(program(full.as_bytes()), whole_image());
    assert_eq!(program(format!("{full} ").as_bytes()), b"refused 1 0 65536\n");
}

/// The program `images`: "a reader that holds the run and its place .. answers as they do on the rest of the run, places
/// counted from the start of that rest, moves on by the image's length when accepting an image, and stays when .. refusing".
#[test]
fn the_program_that_divides_a_run() {
    let whole = whole_image();
    let other = image(message_id("M12"));
    let said = |run: &[&[u8]]| String::from_utf8(images_program(&run.concat())).unwrap();
    assert_eq!(said(&[]), "");
    assert_eq!(said(&[&whole]), "0 68 20\n");
    assert_eq!(said(&[&whole, &other, &whole]), "0 68 20\n68 69 20\n137 68 20\n");
    assert_eq!(said(&[&former_image(), &whole, &former_image()]), "0 67 20\n67 68 20\n135 67 20\n");
    assert_eq!(said(&[&whole, &other, b"x"]), "0 68 20\n68 69 20\nrefused 15 0 0\n");
    assert_eq!(said(&[&other, &whole[..67]]), "0 69 20\nrefused 17 0 67\n");
    assert_eq!(said(&[&whole, b"KTO\x00\x03", &whole[5..]]), "0 68 20\nrefused 16 0 3\n");
    assert_eq!(said(&[b"garbage"]), "refused 15 0 0\n");
    // "1 for a run over the same limit": judged on what is left, which is never more than at the start.
    assert_eq!(said(&[&whole, &vec![0; LIMIT - 68]]), "0 68 20\nrefused 15 0 0\n");
    assert_eq!(said(&[&whole, &vec![0; LIMIT - 67]]), "refused 1 0 1048576\n");
    assert_eq!(said(&[&whole, &vec![0; 2 * LIMIT]]), "refused 1 0 1048576\n");
}
