//! Inputs for the programs over standard input: each is one run of it.

use independent::list::{REPORT, STATEMENT};
use independent::program::{images_program, program, tidy_program, write_program, PROGRAM_LIMIT};
use independent::LIMIT;

use crate::message::chosen::{EVERY_ROW, REPORT_EVERY_ROW, REPORT_LEAST, WHOLE};
use crate::runs::{every_row, filled, former, image_of, with_front, with_microseconds, with_old_codes, Old};
use crate::tidies::{file_for_tidied_of, ODD, ODD_TIDIED};
use crate::writes::image_for_file_of;

/// An input, and what the independent program says to it.
pub type Said = (Vec<u8>, Vec<u8>);

/// For `kto`: document 01's whole example first; then every row, nothing, a refusal of each of a few codes, what is as long as may be and
/// longer, schema hints; and reports, good ones, and under the namespace of the other kind and of none; old transaction codes.
pub fn kto() -> Vec<Said> {
    let refused = WHOLE.replace("2024-02-29", "2023-02-29");
    let inputs = vec![
        WHOLE.into(),
        EVERY_ROW.into(),
        "".into(),
        "<a></b>".into(),
        "<Document/>".into(),
        b"<a>\xFC</a>".into(),
        refused.into(),
        filled(WHOLE.into(), PROGRAM_LIMIT),
        filled(WHOLE.into(), PROGRAM_LIMIT + 1),
        filled(Vec::new(), PROGRAM_LIMIT),
        filled(Vec::new(), PROGRAM_LIMIT + 1),
        filled(Vec::new(), 3 * PROGRAM_LIMIT),
        WHOLE.replace("<Document ", "<Document xmlns:xsi='' xsi:schemaLocation='a b' ").into(),
        WHOLE.replace("<Document ", "<Document xsi:schemaLocation='a b' ").into(),
        REPORT_LEAST.into(),
        REPORT_EVERY_ROW.into(),
        REPORT_LEAST.replace("camt.052", "camt.053").into(),
        WHOLE.replace("camt.053", "camt.052").into(),
        REPORT_LEAST.replace("camt.052", "camt.054").into(),
        EVERY_ROW.replace("</Domn>", "</Domn><Prtry><Cd>X7</Cd></Prtry>").into(),
        REPORT_EVERY_ROW.replace("<Domn>", "<Prtry><Cd>X7</Cd></Prtry><Domn>").into(),
    ];
    said(inputs, program)
}

/// For `write`: the image of every row of files first; then document 01's, runs with something after the image, a refusal of each code, and
/// runs and files as long as may be and longer; images of the other version and kind, and without a good kind byte; old transaction codes,
/// also where a date-time is finer, and where the file would be over the limit.
pub fn writes() -> Vec<Said> {
    let (whole, of_files) = (image_of(WHOLE.as_bytes()), image_of(EVERY_ROW.as_bytes()));
    let (statement, report) = (every_row(&STATEMENT), every_row(&REPORT));
    let over = with_old_codes(&image_for_file_of(LIMIT + 1), |_| Some((Old::Alone, "X".to_string())));
    let inputs = vec![
        of_files.clone(),
        whole.clone(),
        [&whole[..], &of_files].concat(),
        [&of_files[..], b"garbage"].concat(),
        Vec::new(),
        b"KTO\x00".to_vec(),
        other_version(&whole),
        whole[..67].to_vec(),
        [&whole[..67], b"\x06"].concat(),
        filled(whole.clone(), LIMIT),
        filled(whole.clone(), LIMIT + 1),
        filled(whole.clone(), 3 * LIMIT),
        image_for_file_of(LIMIT),
        image_for_file_of(LIMIT + 1),
        image_for_file_of(4 * LIMIT),
        with_microseconds(&image_of(WHOLE.as_bytes()), 123_456),
        with_microseconds(&image_for_file_of(LIMIT + 1), 1),
        former(&of_files),
        former(&whole),
        image_of(REPORT_EVERY_ROW.as_bytes()),
        image_of(REPORT_LEAST.as_bytes()),
        b"KTO\x00\x02".to_vec(),
        with_front(b"KTO\x00\x02\x03", &whole),
        with_microseconds(&former(&whole), 1),
        statement.clone(),
        former(&statement),
        report.clone(),
        with_microseconds(&report, 1),
        with_microseconds(&over, 1),
        over,
        [&whole[..], &statement].concat(),
    ];
    said(inputs, write_program)
}

/// For `tidy`: an odd file first, and its tidied form; then document 01's, every row, reports, a refusal of each of a few codes, what is as
/// long as may be and longer, and files whose tidied form is.
pub fn tidies() -> Vec<Said> {
    let inputs = vec![
        ODD.into(),
        ODD_TIDIED.into(),
        WHOLE.into(),
        EVERY_ROW.into(),
        REPORT_EVERY_ROW.into(),
        REPORT_LEAST.into(),
        "".into(),
        b"<a>\xFC</a>".into(),
        "<a></b>".into(),
        "<Document/>".into(),
        WHOLE.replace("2024-02-29", "2023-02-29").into(),
        WHOLE.replace("camt.053", "camt.052").into(),
        filled(ODD.into(), LIMIT),
        filled(ODD.into(), LIMIT + 1),
        filled(ODD.into(), 3 * LIMIT),
        file_for_tidied_of(LIMIT).into(),
        file_for_tidied_of(LIMIT + 1).into(),
        file_for_tidied_of(2 * LIMIT).into(),
    ];
    said(inputs, tidy_program)
}

/// For `images`: three images, of version 1 and of each kind of version 2, and a damaged one first; then nothing, one image and several,
/// with every refusal behind them and without any image, a run of the limit's length full of images, and longer runs.
pub fn images() -> Vec<Said> {
    let (whole, statement) = (image_of(WHOLE.as_bytes()), every_row(&STATEMENT));
    let three = [&former(&whole)[..], &every_row(&REPORT), &whole].concat();
    let damaged = &statement[..statement.len() / 2];
    let behind = |behind: &[u8]| [&three[..], behind].concat();
    let inputs = vec![
        behind(damaged),
        Vec::new(),
        whole.clone(),
        three.clone(),
        behind(b"garbage \xff"),
        behind(b"\x00"),
        behind(b"KTO\x00"),
        behind(b"KTO\x00\x01"),
        behind(&other_version(&whole)),
        behind(&whole[..67]),
        b"garbage".to_vec(),
        other_version(&whole),
        damaged.to_vec(),
        whole[1..].to_vec(),
        full_of(&whole),
        [&full_of(&whole)[..], b"\x00"].concat(),
        filled(three.clone(), LIMIT),
        filled(three.clone(), LIMIT + 1),
        filled(three.clone(), 3 * LIMIT),
        full_of(&former(&whole)),
        [&image_of(REPORT_LEAST.as_bytes())[..], &three].concat(),
        behind(b"KTO\x00\x02"),
        behind(b"KTO\x00\x02\x00"),
        behind(b"KTO\x00\x02\x02"),
        [&former(&statement)[..], &statement, &every_row(&REPORT)].concat(),
        statement[..statement.len() - 1].to_vec(),
    ];
    said(inputs, images_program)
}

fn said(inputs: Vec<Vec<u8>>, program: fn(&[u8]) -> Vec<u8>) -> Vec<Said> {
    inputs.into_iter().map(|input| (program(&input), input)).map(|(said, input)| (input, said)).collect()
}

/// The image with the next version in its header.
fn other_version(image: &[u8]) -> Vec<u8> {
    [b"KTO\x00\x03", &image[5..]].concat()
}

/// A run of the limit's length: this image again and again, and one of another length.
fn full_of(image: &[u8]) -> Vec<u8> {
    let times = LIMIT / image.len() - 1;
    let rest = LIMIT - times * image.len();
    let id = "M".repeat(2 + rest - image.len());
    let longer = image_of(WHOLE.replace("M1", &id).as_bytes());
    let last = if image.len() == 67 { former(&longer) } else { longer };
    [image.repeat(times), last].concat()
}

#[cfg(test)]
mod tests {
    use super::*;
    use crate::runs::take_apart;

    fn lines(said: &Said) -> Vec<&str> {
        std::str::from_utf8(&said.1).unwrap().lines().collect()
    }

    #[test]
    fn the_limit_of_a_file_is_met_from_both_sides_and_hints_change_no_image() {
        let said = kto();
        assert_eq!(said[2].1, b"refused 3 0 0\n");
        assert_eq!(said[7].1, said[0].1);
        assert_eq!(said[8].1, b"refused 1 0 65536\n");
        assert_eq!(said[9].1, b"refused 3 0 65536\n");
        assert_eq!(said[10].1, said[8].1);
        assert_eq!(said[12].1, said[0].1);
        assert_eq!(said[13].1, b"refused 4 1 0\n");
        assert!(said[14].1.starts_with(b"KTO\x00\x02\x02") && said[15].1.starts_with(b"KTO\x00\x02\x02"));
        assert!(said[16].1.starts_with(b"refused 5 1 ") && said[17].1.starts_with(b"refused 5 1 "));
        assert_eq!(said[18].1, b"refused 4 1 0\n");
        assert!(said[19].1.starts_with(b"refused 5 34 ") && said[20].1.starts_with(b"refused 5 34 "));
    }

    #[test]
    fn the_limit_of_a_written_file_is_met_from_both_sides() {
        let said = writes();
        assert_eq!(said[9].1, said[1].1);
        assert_eq!(said[10].1, b"refused 1 0 1048576\n");
        assert_eq!(said[12].1.len(), LIMIT);
        assert_eq!(said[13].1, b"refused 19 0 1048577\n");
        assert_eq!(said[15].1, b"refused 20 5 14\n");
        assert_eq!(said[16].1, b"refused 20 5 14\n");
        assert_eq!((&said[17].1, &said[18].1), (&said[0].1, &said[1].1), "either version");
        assert_eq!(said[21].1, b"refused 17 0 5\n");
        assert_eq!(said[22].1, b"refused 17 0 5\n");
        assert_eq!(said[23].1, b"refused 20 5 13\n");
        assert!((24..30).all(|number| said[number].1.starts_with(b"refused 26 40 ")), "old transaction codes");
        assert_eq!(said[30].1, said[1].1, "of the second image");
    }

    #[test]
    fn the_limit_of_a_tidied_file_is_met_from_both_sides() {
        let said = tidies();
        assert_eq!((&said[0].1[..], &said[1].1[..]), (ODD_TIDIED.as_bytes(), ODD_TIDIED.as_bytes()));
        assert_eq!(said[12].1, said[0].1);
        assert_eq!(said[13].1, b"refused 1 0 1048576\n");
        assert_eq!(said[14].1, said[13].1);
        assert_eq!(said[15].1.len(), LIMIT);
        assert_eq!(said[16].1, b"refused 19 0 1048577\n");
        assert_eq!(said[17].1, b"refused 19 0 2097152\n");
    }

    #[test]
    fn a_full_run_is_divided_to_its_end_and_a_longer_one_is_not() {
        let said = images();
        let report = every_row(&REPORT);
        let (report, items) = (report.len(), take_apart(&report).len() + 1);
        let three = ["0 67 20".to_string(), format!("67 {report} {items}"), format!("{} 68 20", 67 + report)];
        assert_eq!(lines(&said[0])[..3], three);
        assert!(lines(&said[0])[3].starts_with("refused 17 0 "));
        assert_eq!(said[1].1, b"");
        assert_eq!(said[14].0.len(), LIMIT);
        assert_eq!((lines(&said[14]).len(), lines(&said[19]).len()), (LIMIT / 68, LIMIT / 67));
        assert!([14, 19].iter().all(|number| lines(&said[*number]).iter().all(|line| !line.starts_with("refused"))));
        assert_eq!(lines(&said[15]), ["refused 1 0 1048576"]);
        assert_eq!(lines(&said[16]), [&three[..], &["refused 15 0 0".to_string()]].concat());
        assert_eq!(lines(&said[17]), ["refused 1 0 1048576"]);
        for (number, place) in [(21, 5), (22, 5), (23, 6)] {
            assert_eq!(lines(&said[number])[3], format!("refused 17 0 {place}"));
        }
        assert_eq!(lines(&said[24]).len(), 3, "old transaction codes");
        assert!(lines(&said[25])[0].starts_with("refused 17 0 "));
    }
}
