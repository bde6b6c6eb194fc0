//! Hand-chosen runs, and the systematic ones around an image of each version and kind.

use independent::list::{Kind, List, REPORT, STATEMENT};

use super::{every_row, former, front_of, image_of, items_of, put_together, take_apart, with_front, FRONTS};
use crate::feed::Case;
use crate::message::chosen::{EVERY_ROW, REPORT_EVERY_ROW, REPORT_LEAST, WHOLE};

/// The fixed set for programs in the gate: reads and picks.
pub fn fixed_set() -> Vec<Case> {
    let mut cases: Vec<Case> = reads().into_iter().map(Case::read).collect();
    cases.extend(picks());
    cases
}

/// The runs whose items are counted: those that are read, and every cut of an image with every row, of each version and kind.
pub fn counts() -> Vec<Case> {
    let (every_row, report) = (every_row(&STATEMENT), every_row(&REPORT));
    let cut = [former(&every_row), every_row, report].into_iter().flat_map(|image| cuts(&image));
    reads().into_iter().chain(cut).map(Case::count).collect()
}

/// The runs of the fixed set that are read.
pub fn reads() -> Vec<Vec<u8>> {
    let [whole, least] = [WHOLE, REPORT_LEAST].map(|file| image_of(file.as_bytes()));
    let (every_row, report) = (every_row(&STATEMENT), every_row(&REPORT));
    let mut runs: Vec<Vec<u8>> = [&whole, &former(&whole), &least].into_iter().flat_map(|image| cuts(image)).collect();
    runs.extend([&whole, &least].into_iter().flat_map(|image| heads(image)));
    runs.extend(joined(&whole, &every_row));
    runs.extend(mixed(&whole, &report, &least));
    runs.extend(items_changed(&every_row));
    runs.extend(items_left_out(&report));
    runs.extend(items_left_out(&former(&whole)));
    runs.extend(items_of_another_kind());
    runs.extend(FRONTS.into_iter().flat_map(|(front, list)| bad_values_in(front, list)));
    runs.extend(FRONTS.into_iter().flat_map(|(front, list)| orders(front, list)));
    runs
}

/// Every beginning of an image, and the whole of it.
fn cuts(image: &[u8]) -> Vec<Vec<u8>> {
    (0..=image.len()).map(|length| image[..length].to_vec()).collect()
}

/// 15: other first bytes.
const OTHER_MARKS: [&[u8]; 6] =
    [b"KTP\x00\x01", b"kTO\x00\x01", b"KtO\x00\x02\x01", b"XTO\x00\x02\x02", b"KTP\x00\x03", b"\x00\x00\x00\x00\x00"];

/// 16: versions 0, 3, 4, 255, 256, 257, 258, 512, 513 and the last, with and without a kind byte.
const OTHER_VERSIONS: [&[u8]; 14] = [
    b"KTO\x00\x00", b"KTO\x00\x00\x01", b"KTO\x00\x03", b"KTO\x00\x03\x01", b"KTO\x00\x03\x02", b"KTO\x00\x04\x01",
    b"KTO\x00\xff\x01", b"KTO\x01\x00", b"KTO\x01\x00\x01", b"KTO\x01\x01", b"KTO\x01\x02\x01", b"KTO\x02\x00\x02",
    b"KTO\x02\x01\x01", b"KTO\xff\xff",
];

/// 17: bad kind bytes; none, so that the first item is taken for it; two, and one in version 1, so that it is taken for an item.
const OTHER_KINDS: [&[u8]; 13] = [
    b"KTO\x00\x02\x00", b"KTO\x00\x02\x03", b"KTO\x00\x02\x04", b"KTO\x00\x02\x80", b"KTO\x00\x02\xff", b"KTO\x00\x02",
    b"KTO\x00\x02\x01\x01", b"KTO\x00\x02\x02\x02", b"KTO\x00\x02\x02\x01", b"KTO\x00\x01\x01", b"KTO\x00\x01\x02",
    b"KTO\x00\x01\x00", b"KTO\x00\x01\x03",
];

/// An image's items with each good front and with the bad ones, and each front alone.
fn heads(image: &[u8]) -> Vec<Vec<u8>> {
    let good = FRONTS.map(|(front, _)| front);
    let heads = [&good[..], &OTHER_MARKS, &OTHER_VERSIONS, &OTHER_KINDS].concat();
    let items = &image[front_of(image).len()..];
    let mut runs: Vec<Vec<u8>> = heads.iter().flat_map(|head| [[head, items].concat(), head.to_vec()]).collect();
    runs.extend(
        [
            &b"KTO\x00"[..],
            b"KTX\x00",
            b"KTO\x02",
            b"KTO\x00\x01\x00",
            b"KTO\x00\x01\x01\x00",
            b"KTO\x00\x02\x01\x00",
            b"KTO\x00\x02\x02\x00",
            b"KTO\x00\x02\x02\x01\x00",
        ]
        .map(<[u8]>::to_vec),
    );
    runs.push([b"\x00", image].concat());
    runs
}

/// "Within the limit, bytes after the first image don't matter."
fn joined(whole: &[u8], every_row: &[u8]) -> Vec<Vec<u8>> {
    vec![
        [whole, whole].concat(),
        [whole, every_row].concat(),
        [every_row, whole].concat(),
        [every_row, whole, whole].concat(),
        [whole, b"\x00"].concat(),
        [whole, b"garbage \xff\xff"].concat(),
        [whole, &whole[..30]].concat(),
        [&whole[..67], whole].concat(),
        every_row.to_vec(),
    ]
}

/// Runs of mixed versions and kinds.
fn mixed(whole: &[u8], report: &[u8], least: &[u8]) -> Vec<Vec<u8>> {
    let former = former(whole);
    vec![
        report.to_vec(),
        [report, whole].concat(),
        [whole, report].concat(),
        [least, &former, whole].concat(),
        [&former, least].concat(),
        [&former[..66], least].concat(),
        [&least[..least.len() - 1], whole].concat(),
        [report, b"KTO\x00\x02\x03"].concat(),
    ]
}

/// Items of one kind with the front of another version or kind: what a report may be without or have, and a statement may not.
fn items_of_another_kind() -> Vec<Vec<u8>> {
    let messages = [
        REPORT_LEAST.to_string(),
        REPORT_EVERY_ROW.to_string(),
        REPORT_EVERY_ROW.replace("ITBD", "CLBD"),
        REPORT_EVERY_ROW.replace("PDNG", "BOOK"),
        EVERY_ROW.to_string(),
    ];
    let of_files = messages.map(|message| image_of(message.as_bytes()));
    let images = [&of_files[..], &[every_row(&REPORT), every_row(&STATEMENT)]].concat();
    images.iter().flat_map(|image| FRONTS.map(|(front, _)| with_front(front, image))).collect()
}

/// Each item left out, doubled, swapped with the next, or followed by an early 0; and a strange row before it.
fn items_changed(image: &[u8]) -> Vec<Vec<u8>> {
    let items = take_apart(image);
    let mut runs = Vec::new();
    for index in 0..items.len() {
        let mut change = |change: &dyn Fn(&mut Vec<Vec<u8>>)| {
            let mut changed = items.clone();
            change(&mut changed);
            runs.push(put_together(front_of(image), &changed));
        };
        change(&|items| drop(items.remove(index)));
        change(&|items| items.insert(index, items[index].clone()));
        change(&|items| items.truncate(index));
        if index + 1 < items.len() {
            change(&|items| items.swap(index, index + 1));
        }
        if index % 10 == 3 {
            change(&|items| items.insert(index, vec![58]));
            change(&|items| items.insert(index, vec![255]));
        }
    }
    runs
}

/// Each item left out, or followed by an early 0.
fn items_left_out(image: &[u8]) -> Vec<Vec<u8>> {
    let items = take_apart(image);
    let run = |items: &[Vec<u8>]| put_together(front_of(image), items);
    let left_out = |index: usize| run(&[&items[..index], &items[index + 1..]].concat());
    (0..items.len()).flat_map(|index| [left_out(index), run(&items[..index])]).collect()
}

/// The rows of a message with a leaf of each kind, once.
const EACH_KIND: [u8; 40] = [
    1, 2, 3, 4, 5, 6, 7, 8, 9, 10, 11, 14, 15, 16, 17, 18, 19, 20, 21, 22, 23, 24, 25, 26, 27, 28, 34, 35, 36, 37, 38,
    39, 40, 41, 42, 43, 49, 50, 51, 52,
];

/// Each kind of leaf with each bad value, in place of its first good one.
fn bad_values_in(front: &[u8], list: &List) -> Vec<Vec<u8>> {
    let items = items_of(list, &EACH_KIND);
    let mut runs = Vec::new();
    let mut seen: Vec<Kind> = Vec::new();
    for (index, item) in items.iter().enumerate() {
        let kind = list.find(item[0]).expect("a row").kind;
        if seen.contains(&kind) {
            continue;
        }
        seen.push(kind);
        for value in odd_values(kind) {
            let mut changed = items.clone();
            changed[index] = [&item[..1], &value].concat();
            runs.push(put_together(front, &changed));
        }
    }
    runs
}

/// Values at the edges of a kind, on both sides, as they would stand in an image.
pub fn odd_values(kind: Kind) -> Vec<Vec<u8>> {
    let text = |text: &str| [&(text.len() as u16).to_be_bytes()[..], text.as_bytes()].concat();
    let raw = |bytes: &[u8]| bytes.to_vec();
    match kind {
        Kind::Group | Kind::Choice => Vec::new(),
        Kind::Ref => vec![
            text(""),
            text(" "),
            text("/A"),
            text("A/"),
            text("A//B"),
            text("A/B"),
            text(" /A/ "),
            text("A\tB"),
            text("ä"),
            text("A&B"),
            text(&"R".repeat(35)),
            text(&"R".repeat(36)),
            raw(b"\x00\x01\xff"),
            raw(b"\xff\xffA"),
            raw(b"\x00\x02A"),
            raw(b"\x01\x00A"),
        ],
        Kind::Txt(k) => vec![
            text(""),
            text(" "),
            text("`"),
            text("\n"),
            text("é"),
            text("€"),
            text(&"€".repeat(k)),
            text(&"€".repeat(k + 1)),
            text(&"x".repeat(k)),
            text(&"x".repeat(k + 1)),
            text(&" ".repeat(k)),
            raw(b"\x00\x01\xe4"),
            raw(b"\x00\x02\xe2\x82"),
            raw(b"\x00\x03\xed\xa0\x80"),
            raw(b"\xff\xffx"),
        ],
        Kind::Iban => vec![
            text("AT61"),
            text("AT611"),
            text("at611"),
            text("AT61 1"),
            text(&("AT61".to_string() + &"1".repeat(31))),
        ],
        Kind::Ccy => vec![text(""), text("EU"), text("EURO"), text("eur"), text("ZZZ"), raw(b"EUR")],
        Kind::Enum(words) => [0, 1, words.len() as u8, words.len() as u8 + 1, 255].map(|place| vec![place]).to_vec(),
        Kind::Bool => [0, 1, 2, b'1', 255].map(|byte| vec![byte]).to_vec(),
        Kind::Num => [0, 1, 999_999_999_999_999_999, 1_000_000_000_000_000_000, u64::MAX]
            .map(|n: u64| n.to_be_bytes().to_vec())
            .to_vec(),
        Kind::Amt => odd_amounts(),
        Kind::Date => DAYS.map(|day: &[u8; 4]| day.to_vec()).to_vec(),
        Kind::Dtm => odd_times(),
    }
}

fn odd_amounts() -> Vec<Vec<u8>> {
    let amount = |currency: &[u8; 3], scale: u8, coefficient: u64| {
        [&currency[..], &[scale], &coefficient.to_be_bytes()].concat()
    };
    vec![
        amount(b"EUR", 0, 0),
        amount(b"EUR", 1, 0),
        amount(b"EUR", 5, 0),
        amount(b"EUR", 0, 10),
        amount(b"EUR", 1, 10),
        amount(b"EUR", 2, 100),
        amount(b"EUR", 5, 1),
        amount(b"EUR", 6, 1),
        amount(b"EUR", 255, 1),
        amount(b"EUR", 2, 101),
        amount(b"EUR", 0, 999_999_999_999_999_999),
        amount(b"EUR", 5, 999_999_999_999_999_999),
        amount(b"EUR", 0, 1_000_000_000_000_000_000),
        amount(b"EUR", 0, u64::MAX),
        amount(b"EUR", 1, 1_000_000_000_000_000_001),
        amount(b"eUR", 0, 1),
        amount(b"E R", 0, 1),
        amount(b"EU[", 0, 1),
        amount(b"@UR", 0, 1),
    ]
}

const DAYS: [&[u8; 4]; 14] = [
    b"\x00\x00\x01\x01", b"\x00\x01\x01\x01", b"\x27\x0f\x0c\x1f", b"\x27\x10\x01\x01", b"\xff\xff\x01\x01",
    b"\x07\xe8\x02\x1d", b"\x07\xe7\x02\x1d", b"\x07\x6c\x02\x1d", b"\x07\xd0\x02\x1d", b"\x07\xe8\x00\x01",
    b"\x07\xe8\x0d\x01", b"\x07\xe8\x01\x00", b"\x07\xe8\x01\x20", b"\x07\xe8\x04\x1f",
];

fn odd_times() -> Vec<Vec<u8>> {
    let time = |hour: u8, minute: u8, second: u8, micro: u32, offset: u16| {
        let day = b"\x07\xe8\x03\x01";
        [&day[..], &[hour, minute, second], &micro.to_be_bytes(), &offset.to_be_bytes()].concat()
    };
    let mut values = vec![
        time(0, 0, 0, 0, 0),
        time(23, 59, 59, 999_999, 1680),
        time(24, 0, 0, 0, 840),
        time(23, 60, 0, 0, 840),
        time(23, 59, 60, 0, 840),
        time(0, 0, 0, 1, 840),
        time(0, 0, 0, 120_000, 840),
        time(0, 0, 0, 123_456, 840),
        time(0, 0, 0, 1_000_000, 840),
        time(0, 0, 0, u32::MAX, 840),
        time(0, 0, 0, 0, 1681),
        time(0, 0, 0, 0, u16::MAX),
    ];
    values.push([&b"\x07\xe7\x02\x1d"[..], &[0; 7], &[3, 72]].concat());
    values
}

/// Orders of items in one entry's details, written as rows; each begins with a whole statement or report, and entry.
fn orders(front: &[u8], list: &List) -> Vec<Vec<u8>> {
    let up_to_entry = [1, 2, 3, 4, 5, 6, 7, 9, 10, 11, 15, 16, 17, 18, 19, 20, 21, 22, 23, 24, 25, 27, 28, 34];
    let details: [&[u8]; 44] = [
        &[],
        &[35],
        &[35, 36],
        &[35, 36, 37],
        &[35, 36, 37, 38],
        &[35, 36, 37, 38, 39],
        &[35, 36, 37, 38, 39, 35, 36, 37, 38, 39],
        &[35, 36, 37, 38, 39, 40],
        &[35, 36, 37, 38, 39, 40, 41],
        &[35, 36, 37, 38, 39, 40, 41, 41],
        &[35, 36, 37, 38, 39, 40, 41, 42, 43, 44, 45],
        &[35, 36, 37, 38, 39, 41],
        &[35, 36, 37, 40, 41],
        &[41],
        &[40],
        &[40, 41],
        &[40, 41, 35],
        &[40, 41, 40, 41],
        &[40, 41, 42],
        &[40, 41, 42, 43],
        &[40, 41, 42, 43, 44],
        &[40, 41, 42, 43, 44, 45],
        &[40, 41, 42, 43, 44, 46],
        &[40, 41, 42, 43, 44, 46, 45],
        &[40, 41, 42, 43, 44, 45, 47],
        &[40, 41, 42, 43, 44, 45, 48],
        &[40, 41, 42, 43, 47],
        &[40, 41, 42, 43, 48],
        &[40, 41, 42, 43, 47, 48],
        &[40, 41, 42, 43, 47, 48, 48],
        &[40, 41, 42, 43, 47, 49],
        &[40, 41, 42, 43, 47, 56],
        &[40, 41, 42, 43, 47, 43],
        &[40, 41, 42, 43, 47, 23],
        &[40, 41, 42, 43, 49],
        &[40, 41, 42, 43, 49, 50, 51],
        &[40, 41, 42, 43, 49, 50, 51, 52],
        &[40, 41, 42, 43, 49, 53, 54, 55],
        &[40, 41, 42, 43, 49, 53, 54, 55, 50],
        &[40, 41, 42, 43, 56],
        &[40, 41, 42, 43, 56, 57, 57, 57],
        &[40, 41, 42, 43, 56, 57, 43, 56, 57, 42, 43, 56, 57],
        &[40, 41, 42, 43, 56, 57, 15],
        &[40, 41, 42, 43, 56, 57, 6],
    ];
    let run = |rows: &[u8]| put_together(front, &items_of(list, rows));
    let mut runs: Vec<Vec<u8>> = details.iter().map(|rows| run(&[&up_to_entry[..], rows].concat())).collect();
    runs.push(run(&[1, 2, 3, 4, 5, 6, 7, 9, 10, 11, 12, 13]));
    runs.push(run(&[1, 2, 3, 4, 5, 6, 7, 9, 10, 12, 11]));
    runs.push(run(&[1, 2, 3, 4, 5, 6, 7, 9, 10, 12, 13, 11]));
    runs.push(run(&[1, 2, 3, 4, 5, 6, 7, 9, 10, 11, 11]));
    runs.push(run(&[1, 2, 3, 4, 5, 6, 7, 9, 10, 14]));
    runs.push(run(&[1, 1]));
    runs.push(run(&[2]));
    runs.push(run(&[1, 2, 6]));
    // Without a balance: the end, an entry, the next statement or report; and a balance after an entry.
    let up_to_account = [1, 2, 3, 4, 5, 6, 7, 9, 10, 11];
    let entry = [23, 24, 25, 27, 28, 34, 40, 41];
    runs.push(run(&up_to_account));
    runs.push(run(&[&up_to_account[..], &entry].concat()));
    runs.push(run(&[&up_to_account[..], &up_to_account[5..], &entry].concat()));
    runs.push(run(&[&up_to_account[..], &entry, &[15, 16, 17, 18, 19, 20, 21, 22]].concat()));
    runs
}

/// Picks: every row once of each version and kind, rows that are no leaves, later and missing items, and runs that are no images.
fn picks() -> Vec<Case> {
    let [whole, least] = [WHOLE, REPORT_LEAST].map(|file| image_of(file.as_bytes()));
    let (every_row, report) = (every_row(&STATEMENT), every_row(&REPORT));
    let mut cases = Vec::new();
    for image in [&every_row, &former(&every_row), &report] {
        cases.extend((0..=58).map(|row| Case::pick(row, 0, &image[..])));
        for (row, n) in
            [(7, 1), (7, 2), (13, 1), (18, 2), (18, 3), (19, 1), (19, 2), (19, 3), (22, 2), (57, 1), (57, 2), (4, 1)]
        {
            cases.push(Case::pick(row, n, &image[..]));
        }
    }
    for (row, n) in
        [(255, 0), (256, 0), (260, 0), (300, 0), (65_540, 0), (u32::MAX, 0), (4, u32::MAX), (4, 256), (4, 65_536)]
    {
        cases.push(Case::pick(row, n, &every_row[..]));
    }
    for joined in
        [[&whole[..], &every_row].concat(), [&former(&whole)[..], &report].concat(), [least, whole.clone()].concat()]
    {
        cases.extend(
            [(4, 0), (4, 1), (7, 1), (11, 0), (13, 0), (22, 0), (22, 1)]
                .map(|(row, n)| Case::pick(row, n, &joined[..])),
        );
    }
    cases.extend([0, 2, 5, 6, 20, 50, 67].map(|length| Case::pick(4, 0, &whole[..length])));
    for front in [&b"KTO\x00\x00"[..], b"KTO\x00\x03", b"KTO\x01\x00", b"KTO\x00\x02", b"KTO\x00\x01\x01"] {
        cases.push(Case::pick(4, 0, with_front(front, &whole)));
    }
    for kind in [0, 3, 255] {
        cases.push(Case::pick(4, 0, with_front(&[b"KTO\x00\x02", &[kind][..]].concat(), &whole)));
    }
    cases.push(Case::pick(300, 9, &whole[..67]));
    cases.push(Case::pick(4, 0, [&whole[..67], b"\x06"].concat()));
    cases
}
