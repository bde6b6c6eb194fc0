//! The fixed set of runs for the writer.

use independent::list::{List, OLD_CODE};
use independent::LIMIT;

use super::{image_for_file_of, needed};
use crate::feed::Case;
use crate::message::chosen::{EVERY_ROW, REPORT_EVERY_ROW, REPORT_LEAST, WHOLE};
use crate::runs::{
    every_row, former, image_of, items_of, put_together, reads, take_apart, with_front, with_microseconds,
    with_old_codes, Old, FRONTS,
};
use crate::values;

/// Write cases only. The longest are the images of files at the limit.
pub fn fixed_set() -> Vec<Case> {
    let mut cases = Vec::new();
    let images = [WHOLE, EVERY_ROW, REPORT_LEAST, REPORT_EVERY_ROW].map(|file| image_of(file.as_bytes()));
    for image in images.iter().chain(&[former(&images[0]), former(&images[1])]) {
        cases.extend(rooms(image));
        cases.extend(followed(image).into_iter().map(|run| Case::write(LIMIT, run)));
    }
    for (front, list) in FRONTS {
        cases.extend(every_value(front, list).into_iter().map(|run| Case::write(LIMIT, run)));
    }
    cases.extend(refused().into_iter().zip([0, LIMIT].into_iter().cycle()).map(|(run, room)| Case::write(room, run)));
    cases.extend(at_the_limit());
    cases.extend(finer());
    cases.extend(old());
    cases
}

/// "26, before 20, row 40, place of the first such item": alone and beside the present code, in each version and kind, in the first entry, in
/// a later one and in all; with room and with none; where a date-time is finer too, where the file would be over the limit, and where the
/// image is cut.
fn old() -> Vec<Case> {
    let report = image_of(REPORT_EVERY_ROW.as_bytes());
    let code = |old: Old| Some((old, "X".to_string()));
    let mut images = Vec::new();
    for old in [Old::Alone, Old::Beside] {
        images.push(with_old_codes(&report, |_| code(old)));
        images.push(with_old_codes(&report, |number| code(old).filter(|_| number == 1)));
        images.push(with_old_codes(&image_of(EVERY_ROW.as_bytes()), |_| code(old)));
    }
    // A report's words and balances are no statement's.
    let mut runs: Vec<Vec<u8>> =
        images.iter().flat_map(|image| FRONTS.map(|(front, _)| with_front(front, image))).collect();
    runs.extend(FRONTS.map(|(front, list)| with_front(front, &every_row(list))));
    runs.extend([0, 1, 1000].map(|microseconds| with_microseconds(&images[0], microseconds)));
    runs.extend([0, 1, 1000].map(|microseconds| with_microseconds(&former(&images[2]), microseconds)));
    let over = with_old_codes(&image_for_file_of(LIMIT + 1), |_| code(Old::Beside));
    runs.push(with_microseconds(&over, 1));
    runs.push(over);
    runs.extend(followed(&images[1]));
    runs.push([&image_of(WHOLE.as_bytes())[..], &images[0]].concat());
    runs.extend((100..images[1].len()).step_by(7).map(|length| images[1][..length].to_vec()));
    // The chosen runs of the reader that hold one.
    let holds =
        |run: &Vec<u8>| independent::read(run).is_accepted() && take_apart(run).iter().any(|item| item[0] == OLD_CODE);
    runs.extend(reads().into_iter().filter(holds));
    runs.into_iter().zip([LIMIT, 0].into_iter().cycle()).map(|(run, room)| Case::write(room, run)).collect()
}

/// "20, before 19": microseconds with each number of digits, with and without zeros at their end; with room and with none, and
/// where the file would be over the limit too.
fn finer() -> Vec<Case> {
    let image = image_of(EVERY_ROW.as_bytes());
    let report = image_of(REPORT_EVERY_ROW.as_bytes());
    let mut cases: Vec<Case> = [(&former(&image), 1), (&report, 1), (&report, 120_000)]
        .map(|(image, microseconds)| Case::write(LIMIT, with_microseconds(image, microseconds)))
        .to_vec();
    for digits in 0..=6 {
        for number in ["100000", "123456", "000001", "999999"] {
            let microseconds = format!("{:0<6}", &number[..digits]).parse().expect("six digits");
            cases.push(Case::write(LIMIT, with_microseconds(&image, microseconds)));
        }
    }
    cases.push(Case::write(0, with_microseconds(&image, 1)));
    cases.push(Case::write(0, with_microseconds(&image_for_file_of(LIMIT + 1), 1)));
    cases.push(Case::write(0, [&with_microseconds(&image, 1)[..], b"behind"].concat()));
    cases
}

/// "14 where the buffer is too short": every room around the length of the file, and the smallest and largest.
fn rooms(image: &[u8]) -> Vec<Case> {
    let needed = needed(image);
    let rooms = [0, 1, needed - 1, needed, needed + 1, LIMIT, LIMIT + 1, u32::MAX as usize];
    rooms.map(|room| Case::write(room, image)).to_vec()
}

/// "an image at the start of a run": with something behind it.
fn followed(image: &[u8]) -> Vec<Vec<u8>> {
    let behind = [b"\x00", &b"garbage \xff\xff"[..], b"KTO\x00\x02", b"KTO\x00\x03", image, &image[..30]];
    behind.map(|behind| [image, behind].concat()).to_vec()
}

/// "1 and 15 to 17 as in the reader": the chosen runs that the reader refuses. They are asked with no room and with all.
fn refused() -> Vec<Vec<u8>> {
    reads().into_iter().filter(|run| !independent::read(run).is_accepted()).collect()
}

/// "then 19 .., then 14": a file of the limit's length with one byte of room less, and one that is a byte longer, with the limit's
/// room and with none. A file of the limit's length isn't written here: its line would be longer than all the others together.
fn at_the_limit() -> Vec<Case> {
    let (full, over) = (image_for_file_of(LIMIT), image_for_file_of(LIMIT + 1));
    vec![Case::write(LIMIT - 1, full), Case::write(LIMIT, &over[..]), Case::write(0, over)]
}

/// The rows of a message up to its first transaction, without what can be left out.
const BEFORE: [u8; 30] =
    [1, 2, 3, 4, 5, 6, 7, 9, 10, 11, 15, 16, 17, 18, 19, 20, 21, 22, 23, 24, 25, 27, 28, 34, 35, 36, 37, 38, 39, 42];

/// A leaf of each kind, and the rows of a piece that holds it and can be repeated; a message, of the kind that it has once. What holds
/// row 41 is read and not written.
const PIECES: [(u8, &[u8]); 15] = [
    (5, &[1, 2, 3, 4, 5, 6, 7, 9, 10, 11, 15, 16, 17, 18, 19, 20, 21, 22]),
    (8, &[6, 7, 8, 9, 10, 11, 15, 16, 17, 18, 19, 20, 21, 22]),
    (13, &[6, 7, 9, 10, 12, 13, 15, 16, 17, 18, 19, 20, 21, 22]),
    (14, &[6, 7, 9, 10, 11, 14, 15, 16, 17, 18, 19, 20, 21, 22]),
    (18, &[6, 7, 9, 10, 11, 15, 16, 17, 18, 19, 20, 21, 22]),
    (26, &[23, 24, 25, 26, 27, 28, 34, 35, 36, 37, 38, 39]),
    (28, &[23, 24, 25, 27, 28, 34, 35, 36, 37, 38, 39]),
    (30, &[23, 24, 25, 27, 28, 29, 30, 34, 35, 36, 37, 38, 39]),
    (36, &[23, 24, 25, 27, 28, 34, 35, 36, 37, 38, 39]),
    (41, &[23, 24, 25, 27, 28, 34, 40, 41]),
    (45, &[43, 44, 45]),
    (47, &[43, 47, 48]),
    (48, &[43, 47, 48]),
    (55, &[43, 49, 53, 54, 55]),
    (57, &[43, 56, 57]),
];

/// Runs of a version and kind with the value of every good text among the chosen ones of each kind of leaf: all of these in one
/// message, but for those that a message has once.
fn every_value(front: &[u8], list: &List) -> Vec<Vec<u8>> {
    let mut runs = Vec::new();
    for (leaf, rows) in PIECES {
        let start = BEFORE.iter().position(|row| *row == rows[0]).unwrap_or(BEFORE.len());
        let pieces = values_of(list, leaf).into_iter().map(|value| {
            let mut items = items_of(list, rows);
            let item = items.iter_mut().find(|item| item[0] == leaf).expect("the leaf is among the rows");
            *item = [&[leaf], &value[..]].concat();
            items
        });
        let run = |pieces: Vec<Vec<u8>>| put_together(front, &[items_of(list, &BEFORE[..start]), pieces].concat());
        match start {
            0 => runs.extend(pieces.map(run)),
            _ => runs.push(run(pieces.flatten().collect())),
        }
    }
    runs
}

/// The chosen values of a leaf's kind, as they stand in an image.
fn values_of(list: &List, leaf: u8) -> Vec<Vec<u8>> {
    let kind = list.find(leaf).expect("a row").kind;
    values::fixed_set().iter().filter(|case| case.list_kind() == kind).filter_map(|case| case.answer()).collect()
}

#[cfg(test)]
mod tests {
    use super::*;
    use crate::feed::codes;
    use independent::Code;
    use std::collections::BTreeSet;

    #[test]
    fn every_kind_stands_in_it() {
        for (front, list) in FRONTS {
            let held: Vec<_> = PIECES.iter().map(|(leaf, _)| list.find(*leaf).unwrap().kind).collect();
            for row in list.rows.iter().filter(|row| row.kind.is_leaf()) {
                assert_eq!(held.iter().filter(|kind| **kind == row.kind).count(), 1, "{:?}", row.kind);
            }
            let runs = every_value(front, list);
            assert!(runs.iter().all(|run| independent::read(run).is_accepted()));
            assert!(PIECES.iter().all(|(leaf, _)| !values_of(list, *leaf).is_empty()));
        }
    }

    /// All codes of a write but 1: a run over the limit would be as long as all the others together.
    #[test]
    fn every_code_is_reached() {
        let reached: BTreeSet<u8> = fixed_set().iter().map(|case| case.answer().0.code.number()).collect();
        assert_eq!(reached, codes(3).iter().copied().filter(|code| *code != 1).collect());
    }

    /// An old transaction code in each version and kind, whatever else is wrong after the reader.
    #[test]
    fn old_codes_are_told_before_all_else() {
        let told: Vec<Vec<u8>> =
            old().into_iter().filter(|case| case.answer().0.code == Code::OldCode).map(|case| case.bytes).collect();
        for (front, _) in FRONTS {
            assert!(told.iter().filter(|run| run.starts_with(front)).count() > 20, "{front:?}");
        }
        assert!(told.iter().any(|run| run.len() > 100_000), "19 too");
    }
}
