//! Cases of every class, from a seed: the n-th case of a seed is always the same for the same ops.

use independent::house::resolve;
use independent::list::{Kind, STATEMENT};
use independent::LIMIT;
use std::sync::Arc;

use crate::feed::Case;
use crate::lane::{self, Topic};
use crate::message::chosen::{EVERY_ROW, REPORT_EVERY_ROW};
use crate::message::{damage, valid, Draft, Size, Style};
use crate::random::Random;
use crate::runs::{damaged, filled, former, image_of, with_microseconds, with_old_codes, Old, STATEMENT_FRONT};
use crate::{tidies, values, writes, xml};

/// What a case is for.
#[derive(Clone, Copy, PartialEq, Eq, PartialOrd, Ord, Debug, Hash)]
pub enum Class {
    ValidMessage,
    TightRoom,
    OneFault,
    SeveralFaults,
    BytesChanged,
    FaultsAndBytesChanged,
    NotUtf8,
    BrokenXml,
    XmlAlone,
    AtTheLimit,
    Run,
    JoinedRun,
    DamagedRun,
    Pick,
    PickFromDamaged,
    Write,
    WriteTightRoom,
    WriteFromDamaged,
    WriteAtTheLimit,
    Count,
    CountFromDamaged,
    CountAtTheLimit,
    Tidy,
    TidyTightRooms,
    TidyOfFaulty,
    TidyAtTheLimit,
    /// A file for the lane, as it is; no seed gives one.
    Lane(Topic),
    /// Its twin, for the exact passes alone.
    Exact(Topic),
}

impl Class {
    /// All classes that a seed gives, each with how often it comes: the shares of checks, reads and picks add up to a thousand.
    pub const ALL: [(Class, usize); 26] = [
        (Class::ValidMessage, 80),
        (Class::TightRoom, 60),
        (Class::OneFault, 170),
        (Class::SeveralFaults, 120),
        (Class::BytesChanged, 60),
        (Class::FaultsAndBytesChanged, 40),
        (Class::NotUtf8, 30),
        (Class::BrokenXml, 70),
        (Class::XmlAlone, 90),
        (Class::AtTheLimit, 1),
        (Class::Run, 30),
        (Class::JoinedRun, 20),
        (Class::DamagedRun, 140),
        (Class::Pick, 60),
        (Class::PickFromDamaged, 29),
        (Class::Write, 80),
        (Class::WriteTightRoom, 50),
        (Class::WriteFromDamaged, 60),
        (Class::WriteAtTheLimit, 1),
        (Class::Count, 20),
        (Class::CountFromDamaged, 60),
        (Class::CountAtTheLimit, 1),
        (Class::Tidy, 60),
        (Class::TidyTightRooms, 40),
        (Class::TidyOfFaulty, 20),
        (Class::TidyAtTheLimit, 1),
    ];

    /// The ops that its cases ask for.
    pub fn ops(self) -> &'static [u8] {
        match self {
            Class::AtTheLimit => &[0, 1, 2],
            Class::Run | Class::JoinedRun | Class::DamagedRun => &[1],
            Class::Pick | Class::PickFromDamaged => &[2],
            Class::Write | Class::WriteTightRoom | Class::WriteFromDamaged | Class::WriteAtTheLimit => &[3],
            Class::Count | Class::CountFromDamaged | Class::CountAtTheLimit => &[6],
            Class::Tidy | Class::TidyTightRooms | Class::TidyOfFaulty | Class::TidyAtTheLimit => &[8],
            _ => &[0],
        }
    }

    pub fn name(self) -> &'static str {
        match self {
            Class::ValidMessage => "valid message",
            Class::TightRoom => "valid message, tight room",
            Class::OneFault => "message with one fault",
            Class::SeveralFaults => "message with several faults",
            Class::BytesChanged => "message with bytes changed",
            Class::FaultsAndBytesChanged => "message with faults and bytes changed",
            Class::NotUtf8 => "message with bytes that are not UTF-8",
            Class::BrokenXml => "message that stops to be house XML",
            Class::XmlAlone => "text for house XML alone",
            Class::AtTheLimit => "file or run at the size limit",
            Class::Run => "image",
            Class::JoinedRun => "joined images",
            Class::DamagedRun => "damaged image",
            Class::Pick => "pick from an image",
            Class::PickFromDamaged => "pick from a damaged image",
            Class::Write => "write of an image",
            Class::WriteTightRoom => "write of an image, tight room",
            Class::WriteFromDamaged => "write of a damaged image",
            Class::WriteAtTheLimit => "write at the size limit",
            Class::Count => "count of an image",
            Class::CountFromDamaged => "count of a damaged image",
            Class::CountAtTheLimit => "count at the size limit",
            Class::Tidy => "tidying of a message",
            Class::TidyTightRooms => "tidying of a message, tight rooms",
            Class::TidyOfFaulty => "tidying of a message with faults",
            Class::TidyAtTheLimit => "tidying at the size limit",
            Class::Lane(Topic::Shape) => "good file in a shape that the lane takes",
            Class::Lane(Topic::OneByteOff) => "file one byte away from a good one",
            Class::Lane(Topic::OneElementOff) => "file one element away from a good one",
            Class::Lane(Topic::Boundary) => "file with a value at a boundary of its type",
            Class::Lane(Topic::End) => "text that ends where the file or the buffer does",
            Class::Exact(Topic::Shape) => "good file, by the exact passes",
            Class::Exact(Topic::OneByteOff) => "file one byte away from a good one, by the exact passes",
            Class::Exact(Topic::OneElementOff) => "file one element away from a good one, by the exact passes",
            Class::Exact(Topic::Boundary) => "file with a value at a boundary, by the exact passes",
            Class::Exact(Topic::End) => "text at an end, by the exact passes",
        }
    }
}

/// Room for the image of any file that is not at the limit on purpose.
const ROOMY: usize = LIMIT;

/// Where cases come from: a seed, and the classes that ask for these ops alone; or the fixed set for the lane.
#[derive(Clone, Debug)]
pub enum Source {
    Seed { classes: Vec<(Class, usize)>, seed: u64 },
    Lane(Arc<Vec<(Class, Case)>>),
}

impl Source {
    pub fn new(ops: &[u8], seed: u64) -> Source {
        let asks_known = |(class, _): &(Class, usize)| class.ops().iter().all(|op| ops.contains(op));
        Source::Seed { classes: Class::ALL.into_iter().filter(asks_known).collect(), seed }
    }

    pub fn lane() -> Source {
        Source::Lane(lane::fixed_set().into())
    }

    /// How many cases there are, where that is known.
    pub fn count(&self) -> Option<u64> {
        match self {
            Source::Seed { .. } => None,
            Source::Lane(cases) => Some(cases.len() as u64),
        }
    }

    /// The case of this number, from 0.
    pub fn case(&self, number: u64) -> (Class, Case) {
        match self {
            Source::Seed { classes, seed } => {
                let mut random = Random::new(seed ^ number.wrapping_mul(0xd134_2543_de82_ef95));
                let class = drawn(classes, &mut random);
                (class, make(class, &mut random))
            }
            Source::Lane(cases) => cases[number as usize].clone(),
        }
    }
}

/// One of the classes, by their shares.
fn drawn(classes: &[(Class, usize)], random: &mut Random) -> Class {
    let total: usize = classes.iter().map(|(_, share)| share).sum();
    let mut left = random.below(total);
    for (class, share) in classes {
        if left < *share {
            return *class;
        }
        left -= share;
    }
    unreachable!("the shares add up to the total")
}

fn make(class: Class, random: &mut Random) -> Case {
    match class {
        Class::ValidMessage => Case::check(ROOMY, file(random)),
        Class::TightRoom => tight_room(random),
        Class::OneFault => Case::check(any_room(random), faulty(random, 1)),
        Class::SeveralFaults => {
            let faults = random.between(2, 5);
            Case::check(any_room(random), faulty(random, faults))
        }
        Class::BytesChanged => Case::check(ROOMY, bytes_changed(file(random), random)),
        Class::FaultsAndBytesChanged => Case::check(ROOMY, bytes_changed(faulty(random, 2), random)),
        Class::NotUtf8 => Case::check(ROOMY, not_utf8(random)),
        Class::BrokenXml => Case::check(ROOMY, broken_xml(random)),
        Class::XmlAlone => Case::check(ROOMY, xml_alone(random)),
        Class::AtTheLimit => at_the_limit(random),
        Class::Run => Case::read(image(random)),
        Class::JoinedRun => Case::read(joined(random)),
        Class::DamagedRun => Case::read(damaged(&image(random), random)),
        Class::Pick => {
            let run = if random.once_in(3) { joined(random) } else { image(random) };
            pick(run, random)
        }
        Class::PickFromDamaged => {
            let run = damaged(&image(random), random);
            pick(run, random)
        }
        Class::Write => Case::write(ROOMY, if random.once_in(3) { joined(random) } else { image(random) }),
        Class::WriteTightRoom => {
            let run = image(random);
            let needed = writes::needed(&run);
            Case::write(about(needed, random), run)
        }
        Class::WriteFromDamaged => Case::write(any_room(random), damaged(&image(random), random)),
        Class::WriteAtTheLimit => writes::at_the_limit(image(random), random),
        Class::Count => Case::count(if random.once_in(3) { joined(random) } else { image(random) }),
        Class::CountFromDamaged => Case::count(damaged(&image(random), random)),
        Class::CountAtTheLimit => {
            let length = LIMIT - 1 + random.below(3);
            Case::count(filled(image(random), length))
        }
        Class::Tidy => Case::tidy(ROOMY, ROOMY, file(random)),
        Class::TidyTightRooms => {
            let file = file(random);
            let (room, space) = tidies::needed(&file);
            // Both rooms around what is needed, or one of them, so that each 14 comes.
            let room = if random.once_in(3) { ROOMY } else { about(room, random) };
            let space = if random.once_in(4) { ROOMY } else { about(space, random) };
            Case::tidy(room, space, file)
        }
        Class::TidyOfFaulty => {
            let faults = random.between(1, 3);
            Case::tidy(any_room(random), any_room(random), faulty(random, faults))
        }
        Class::TidyAtTheLimit => tidies::at_the_limit(file(random), random),
        Class::Lane(_) | Class::Exact(_) => unreachable!("no seed gives one"),
    }
}

fn draft(random: &mut Random) -> Draft {
    let size = match random.below(40) {
        0 => Size::Large,
        1..=9 => Size::Medium,
        _ => Size::Small,
    };
    valid(random, size)
}

fn file(random: &mut Random) -> Vec<u8> {
    let draft = draft(random);
    Style::any(random).write(&draft).into_bytes()
}

fn faulty(random: &mut Random, faults: usize) -> Vec<u8> {
    let mut draft = draft(random);
    (0..faults).for_each(|_| damage(&mut draft, random));
    Style::any(random).write(&draft).into_bytes()
}

fn bytes_changed(mut file: Vec<u8>, random: &mut Random) -> Vec<u8> {
    (0..random.between(1, 3)).for_each(|_| xml::mutate(&mut file, random));
    file
}

/// Mostly enough, now and then very little.
fn any_room(random: &mut Random) -> usize {
    if random.once_in(5) {
        random.below(200)
    } else {
        ROOMY
    }
}

/// Room for the image exactly, or for a little more or less.
fn tight_room(random: &mut Random) -> Case {
    let file = file(random);
    let needed = match independent::check::message(&file) {
        Ok(message) => independent::content::image(&message).len(),
        Err(_) => 0,
    };
    Case::check(about(needed, random), file)
}

/// What is needed, or a little more or less.
fn about(needed: usize, random: &mut Random) -> usize {
    match random.below(6) {
        0 | 1 => needed,
        2 | 3 => needed.saturating_sub(1),
        4 => needed + 1,
        _ => random.below(needed + 1),
    }
}

fn not_utf8(random: &mut Random) -> Vec<u8> {
    let sequences: [&[u8]; 10] = [
        b"\x80", b"\xc0\xaf", b"\xc3", b"\xe0\x80\x80", b"\xe2\x82", b"\xed\xa0\x80", b"\xf0\x9d\x84",
        b"\xf4\x90\x80\x80", b"\xf5", b"\xff",
    ];
    let mut file = if random.once_in(2) { file(random) } else { faulty(random, 1) };
    for _ in 0..random.between(1, 2) {
        let at = random.below(file.len() + 1);
        file.splice(at..at, random.one_of(&sequences).iter().copied());
    }
    file
}

/// A message with a piece of a chosen text put in, or cut off, or with one piece of markup changed.
fn broken_xml(random: &mut Random) -> Vec<u8> {
    let mut file = if random.once_in(2) { file(random) } else { faulty(random, 1) };
    match random.below(3) {
        0 => file.truncate(random.below(file.len() + 1)),
        1 => {
            let marks: Vec<usize> = (0..file.len()).filter(|at| b"<>/=\"'&;:".contains(&file[*at])).collect();
            let at = marks[random.below(marks.len())] + random.below(2);
            let new = random.one_of(&["<", ">", "/", " ", "]]>", "&", "x", ":", "<!--", "\u{1}", "\u{fffe}"]);
            file.splice(at..at, new.bytes());
        }
        _ => {
            let chosen = xml::chosen();
            let at = random.below(file.len() + 1);
            let piece = chosen[random.below(chosen.len())].clone();
            file.splice(at..at, piece);
        }
    }
    file
}

fn xml_alone(random: &mut Random) -> Vec<u8> {
    match random.below(4) {
        0 => xml::whole(random),
        1 => {
            let chosen = xml::chosen();
            chosen[random.below(chosen.len())].clone()
        }
        _ => xml::damaged(random),
    }
}

/// A file or an image filled up to the limit, to one byte less or one more; or a file full of entries.
fn at_the_limit(random: &mut Random) -> Case {
    let length = LIMIT - 1 + random.below(3);
    match random.below(4) {
        0 => Case::check(ROOMY, full_of_entries(random)),
        1 => Case::check(ROOMY, filled(file(random), length)),
        2 => Case::read(filled(image(random), length)),
        _ => {
            let run = filled(image(random), length);
            pick(run, random)
        }
    }
}

/// A message with every row and its entry as often as the limit allows, now and then with a byte changed.
fn full_of_entries(random: &mut Random) -> Vec<u8> {
    let (message, close) = if random.once_in(2) { (EVERY_ROW, "</Stmt>") } else { (REPORT_EVERY_ROW, "</Rpt>") };
    let start = message.find("<Ntry>").expect("an entry");
    let end = message.find(close).expect("the end of its statement or report");
    let entry = &message[start..end];
    let times = (LIMIT - message.len()) / entry.len();
    let mut file = [&message[..end], &entry.repeat(times), &message[end..]].concat().into_bytes();
    if random.once_in(2) {
        xml::mutate(&mut file, random);
    }
    file
}

/// An image of either kind, a third of the statements in version 1; one of five has old transaction codes.
fn image(random: &mut Random) -> Vec<u8> {
    let draft = draft(random);
    let file = Style::DENSE.write(&draft).into_bytes();
    if file.len() > LIMIT {
        return image(random);
    }
    let mut image = image_of(&file);
    if random.once_in(5) {
        image = with_old_codes(&image, |_| any_old_code(random));
    }
    if image.starts_with(STATEMENT_FRONT) && random.once_in(3) {
        image = former(&image);
    }
    match random.once_in(8) {
        true => with_microseconds(&image, any_microseconds(random)),
        false => image,
    }
}

/// Mostly an old transaction code, alone or beside the present one.
fn any_old_code(random: &mut Random) -> Option<(Old, String)> {
    let text = values::made::valid(Kind::Txt(35), random);
    let old = *random.one_of(&[&None, &Some(Old::Alone), &Some(Old::Beside)]);
    Some((old?, resolve(text.as_bytes()).expect("a good text")))
}

/// Microseconds that an image may hold: mostly more than a file can say.
fn any_microseconds(random: &mut Random) -> u32 {
    let microseconds = match random.below(5) {
        0 => random.below(1000),
        1 => random.below(100_000) * 10,
        2 => random.below(10_000) * 100,
        3 => random.below(1000) * 1000,
        _ => random.below(1_000_000),
    };
    microseconds as u32
}

fn joined(random: &mut Random) -> Vec<u8> {
    let count = random.between(2, 3);
    let mut run: Vec<u8> = (0..count).flat_map(|_| image(random)).collect();
    if random.once_in(3) {
        run.truncate(random.below(run.len() + 1));
    }
    run
}

fn pick(run: Vec<u8>, random: &mut Random) -> Case {
    let row = match random.below(10) {
        0 => random.one_of(&[&0, &58, &255, &256, &260, &300, &65_540, &u32::MAX]).to_owned(),
        1 | 2 => random.below(60) as u32,
        _ => {
            let leaves: Vec<u8> =
                STATEMENT.rows.iter().filter(|row| row.kind.is_leaf()).map(|row| row.number).collect();
            leaves[random.below(leaves.len())].into()
        }
    };
    let n = match random.below(10) {
        0 => random.below(1000) as u32,
        1 => u32::MAX,
        2..=4 => random.below(4) as u32,
        _ => 0,
    };
    Case::pick(row, n, run)
}

#[cfg(test)]
mod tests {
    use super::*;
    use crate::feed::{codes, ALL_OPS};
    use independent::Code;
    use std::collections::BTreeSet;

    /// Every code, and of each op only those that it is said to answer with.
    #[test]
    fn every_code_and_every_class_is_reached() {
        let source = Source::new(&ALL_OPS, 1);
        let mut reached = BTreeSet::new();
        let mut classes = BTreeSet::new();
        for number in 0..8000 {
            let (class, case) = source.case(number);
            let (op, code) = (case.op.number(), case.answer().0.code.number());
            assert!(class.ops().contains(&op), "{class:?}, op {op}");
            assert!(codes(op).contains(&code), "op {op}, code {code}");
            reached.insert(code);
            classes.insert(class);
        }
        assert_eq!(reached, Code::ALL.map(Code::number).into());
        assert_eq!(classes.len(), Class::ALL.len(), "{classes:?}");
    }

    /// What is asked of a unit that knows fewer ops doesn't hang on those that it doesn't know.
    #[test]
    fn only_the_ops_of_the_source_are_asked() {
        for ops in [&[0, 1, 2][..], &[3], &[1, 3]] {
            let source = Source::new(ops, 1);
            assert!((0..200).all(|number| ops.contains(&source.case(number).1.op.number())), "{ops:?}");
        }
    }

    #[test]
    fn valid_messages_are_accepted_and_their_images_read() {
        let mut random = Random::new(5);
        for _ in 0..500 {
            let file = file(&mut random);
            if file.len() > LIMIT {
                continue;
            }
            let mut room = vec![0; file.len()];
            let answer = independent::check(&file, &mut room);
            assert!(answer.is_accepted(), "{answer:?} {}", String::from_utf8_lossy(&file));
            let read = independent::read(&room[..answer.place]);
            assert_eq!((read.is_accepted(), read.place), (true, answer.place));
        }
    }

    #[test]
    fn a_seed_gives_the_same_cases_again() {
        let case = |seed| Source::new(&ALL_OPS, seed).case(14).1;
        assert_eq!(case(3), case(3));
        assert_ne!(case(3), case(4));
    }
}
