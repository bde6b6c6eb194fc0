//! Versions and kinds of images against one another, on made and damaged runs.
//!
//! A statement's image of version 2 is that of version 1 with a kind byte after the version, so all that is said of the one is said of the
//! other, a byte later: "item places in version 2 count from 6". And images of any versions and kinds, one after the other, are divided
//! where they were joined.

use cases::any::{Class, Source};
use cases::runs::{take_apart, FORMER_FRONT, REPORT_FRONT, STATEMENT_FRONT};
use independent::program::images_program;
use independent::{pick, read, write, Code, LIMIT};

/// The runs of some classes that begin with a statement's front of version 2.
fn runs_of_statements(count: usize) -> impl Iterator<Item = Vec<u8>> {
    let source = Source::new(&[1, 2, 3], 51);
    let made = (0..).map(move |number| source.case(number));
    let short = made.filter(|(class, _)| !matches!(class, Class::AtTheLimit | Class::WriteAtTheLimit));
    short.map(|(_, case)| case.bytes).filter(|run| run.starts_with(STATEMENT_FRONT)).take(count)
}

#[test]
fn version_1_says_the_same_a_byte_earlier() {
    let (mut accepted, mut refused) = (0, 0);
    for run in runs_of_statements(2_000) {
        let former = [FORMER_FRONT, &run[STATEMENT_FRONT.len()..]].concat();
        let (new, old) = (read(&run), read(&former));
        assert_eq!((new.code, new.row, new.place), (old.code, old.row, old.place + 1));
        match new.is_accepted() {
            true => accepted += 1,
            false => refused += 1,
        }
        for row in 0..=58 {
            let ((new, part), (old, former_part)) = (pick(&run, row, 0), pick(&former, row, 0));
            let one_more = usize::from(new.code != Code::NoSuchItem);
            assert_eq!((new.code, new.row, new.place, part), (old.code, old.row, old.place + one_more, former_part));
        }
        let (mut room, mut former_room) = (vec![0; 10_000], vec![0; 10_000]);
        let (new, old) = (write(&run, &mut room), write(&former, &mut former_room));
        // A refusal of the reader's, 26 and 20 name a place in the run; the others a length.
        let in_the_run = [Code::NoWholeImage, Code::OldCode, Code::FinerThanAFile];
        let one_more = usize::from(in_the_run.contains(&new.code));
        assert_eq!((new.code, new.row, new.place), (old.code, old.row, old.place + one_more));
        assert!(room == former_room, "the file is the same");
    }
    assert!(accepted > 500 && refused > 500, "{accepted} accepted, {refused} refused");
}

/// What a statement may be, a report may be too: more words, and no balance. So a statement's items are read as a report's, and its file
/// differs in the names of the kind alone.
#[test]
fn a_statement_is_a_report_but_for_its_names() {
    let mut written = 0;
    for run in runs_of_statements(2_000).filter(|run| read(run).is_accepted()) {
        let report = [REPORT_FRONT, &run[STATEMENT_FRONT.len()..]].concat();
        assert_eq!(read(&report), read(&run));
        let (mut room, mut report_room) = (vec![0; LIMIT], vec![0; LIMIT]);
        let (one, other) = (write(&run, &mut room), write(&report, &mut report_room));
        assert_eq!((one.code, one.row), (other.code, other.row));
        if one.is_accepted() {
            let text = |room: &[u8], length: usize| String::from_utf8(room[..length].to_vec()).unwrap();
            let named = text(&room, one.place)
                .replacen("camt.053.001.08", "camt.052.001.08", 1)
                .replace("BkToCstmrStmt>", "BkToCstmrAcctRpt>")
                .replace("<Stmt>", "<Rpt>")
                .replace("</Stmt>", "</Rpt>");
            assert_eq!(text(&report_room, other.place), named);
            written += 1;
        }
    }
    assert!(written > 400, "{written} written");
}

#[test]
fn joined_images_are_divided_where_they_were_joined() {
    let source = Source::new(&[1], 52);
    let images: Vec<Vec<u8>> = (0..4_000)
        .map(|number| source.case(number))
        .filter(|(class, _)| *class == Class::Run)
        .map(|(_, case)| case.bytes)
        .collect();
    for front in [FORMER_FRONT, STATEMENT_FRONT, REPORT_FRONT] {
        assert!(images.iter().filter(|image| image.starts_with(front)).count() > 50, "{front:?}");
    }
    for joined in images.chunks(5) {
        let mut place = 0;
        let mut expected = String::new();
        for image in joined {
            expected += &format!("{place} {} {}\n", image.len(), take_apart(image).len() + 1);
            place += image.len();
        }
        assert_eq!(String::from_utf8(images_program(&joined.concat())).unwrap(), expected);
    }
}
