//! Files for the fast lane and for the exact passes behind it (D104): good files in every shape, files one byte or one element away from a
//! good one, every boundary of each type, and texts that end where the file or the buffer does.
//!
//! Each file is asked twice: as it is, and as its twin, with a blank in the root's tag. The lane leaves such a root to the exact passes, so
//! the twin is answered by them alone, and nothing else is another in its answer but the places behind the blank.

mod boundaries;
mod ends;
mod near;
mod roots;
mod shapes;

use independent::LIMIT;

use crate::any::Class;
use crate::feed::{Case, Op};
use crate::message::{valid, Size, Style};
use crate::random::Random;

/// What a file is for.
#[derive(Clone, Copy, PartialEq, Eq, PartialOrd, Ord, Debug, Hash)]
pub enum Topic {
    Shape,
    OneByteOff,
    OneElementOff,
    Boundary,
    End,
}

/// How many messages there are, and the seed that they are made from.
const MESSAGES: usize = 4000;

const MESSAGES_SEED: u64 = 25;

/// Room for any image of these files.
const ROOM: usize = LIMIT;

/// The good files in every shape that the lane takes.
pub fn shapes() -> Vec<Vec<u8>> {
    shapes::files()
}

/// Good messages from a seed, written without a blank inside a tag: with every row, type, optional element, count and hint.
pub fn messages() -> Vec<Vec<u8>> {
    let mut random = Random::new(MESSAGES_SEED);
    let mut one = || {
        let size = random.one_of(&[&Size::Small, &Size::Medium, &Size::Large]);
        let draft = valid(&mut random, *size);
        let style = Style { declaration: random.once_in(2), indented: random.once_in(3), odd: None };
        style.write(&draft).into_bytes()
    };
    (0..MESSAGES).map(|_| one()).collect()
}

/// All of them, each followed by its twin where it has one. The same each time.
pub fn fixed_set() -> Vec<(Class, Case)> {
    let roomy = |file: Vec<u8>| Case::check(ROOM, file);
    let topics: [(Topic, Vec<Case>); 5] = [
        (Topic::Shape, shapes().into_iter().map(roomy).collect()),
        (Topic::OneByteOff, near::by_a_byte().into_iter().map(roomy).collect()),
        (Topic::OneElementOff, near::by_an_element().into_iter().map(roomy).collect()),
        (Topic::Boundary, boundaries::files().into_iter().map(roomy).collect()),
        (Topic::End, [ends::cut_off().into_iter().map(roomy).collect(), ends::rooms()].concat()),
    ];
    let asked = topics.into_iter().flat_map(|(topic, cases)| cases.into_iter().map(move |case| (topic, case)));
    asked.flat_map(|(topic, case)| both(topic, case)).collect()
}

fn both(topic: Topic, case: Case) -> Vec<(Class, Case)> {
    let twin = twin(&case.bytes).map(|bytes| (Class::Exact(topic), Case { bytes, ..case.clone() }));
    [(Class::Lane(topic), case)].into_iter().chain(twin).collect()
}

/// The file with a blank at the end of its root's tag; none where no such tag can be found.
pub fn twin(file: &[u8]) -> Option<Vec<u8>> {
    let at = root_end(file)?;
    Some([&file[..at], b" ", &file[at..]].concat())
}

/// The place of `>` at the end of the root's tag: the first that stands in no quotes. It comes right after one where the tag is a good one.
fn root_end(file: &[u8]) -> Option<usize> {
    let name = b"<Document ";
    let start = file.windows(name.len()).position(|window| window == name)? + name.len();
    let mut quote = None;
    for (at, byte) in file.iter().enumerate().skip(start) {
        match (quote, byte) {
            (None, b'>') => return matches!(file[at - 1], b'"' | b'\'').then_some(at),
            (None, b'"' | b'\'') => quote = Some(byte),
            (Some(open), byte) if open == byte => quote = None,
            _ => {}
        }
    }
    None
}

/// The room that a case lends.
pub fn room(case: &Case) -> usize {
    match case.op {
        Op::Check { room } => room as usize,
        _ => 0,
    }
}

#[cfg(test)]
mod tests {
    use super::*;
    use crate::message::chosen::{REPORT_LEAST, WHOLE};
    use std::collections::BTreeMap;

    #[test]
    fn a_twin_has_a_blank_in_its_roots_tag() {
        assert_eq!(twin(b"<Document a='>' b=\"'>\">x"), Some(b"<Document a='>' b=\"'>\" >x".to_vec()));
        for file in ["<Document>", "<Document a='>", "<Document a=''/>", ""] {
            assert_eq!(twin(file.as_bytes()), None, "{file}");
        }
    }

    /// What makes the twins worth asking: another spelling of the same file, whose places lie one byte behind.
    #[test]
    fn a_twin_gets_the_same_answer() {
        let mut pairs = 0;
        let all = fixed_set();
        for pair in all.windows(2) {
            let [(Class::Lane(topic), one), (Class::Exact(_), other)] = pair else {
                continue;
            };
            let ((answer, image), (again, same)) = (one.answer(), other.answer());
            let blank = root_end(&one.bytes).expect("it has a twin");
            let moved = usize::from(![0, 14].contains(&answer.code.number()) && answer.place > blank);
            assert_eq!(
                (answer.code, answer.row, answer.place + moved),
                (again.code, again.row, again.place),
                "{topic:?}"
            );
            assert_eq!(image, same);
            pairs += 1;
        }
        assert!(pairs > 20_000, "{pairs}");
    }

    /// Of every topic many are good and, but for the shapes, many are not; every code of check comes, but for 1.
    #[test]
    fn every_topic_is_there_and_every_code() {
        let mut codes: BTreeMap<u8, usize> = BTreeMap::new();
        let mut topics: BTreeMap<Topic, (usize, usize)> = BTreeMap::new();
        for (class, case) in fixed_set() {
            let Class::Lane(topic) = class else {
                continue;
            };
            let code = case.answer().0.code.number();
            *codes.entry(code).or_default() += 1;
            let (good, bad) = topics.entry(topic).or_default();
            *(if code == 0 { good } else { bad }) += 1;
        }
        assert_eq!(
            codes.keys().copied().collect::<Vec<_>>(),
            [0, 2, 3, 4, 5, 6, 7, 8, 9, 10, 11, 12, 13, 14],
            "{codes:?}"
        );
        for (topic, (good, bad)) in topics {
            assert!(good > 50 && (bad > 50) == (topic != Topic::Shape), "{topic:?}: {good} good, {bad} bad");
        }
    }

    /// They are good, and a quarter of them have hints.
    #[test]
    fn the_messages_are_good() {
        let files = messages();
        let hinted = files.iter().filter(|file| file.windows(9).any(|part| part == b"xmlns:xsi")).count();
        assert!(hinted > MESSAGES / 5 && hinted < MESSAGES / 3, "{hinted}");
        for file in files {
            let case = Case::check(ROOM, file);
            assert_eq!(case.answer().0.code.number(), 0, "{}", String::from_utf8_lossy(&case.bytes));
        }
    }

    #[test]
    fn the_chosen_files_have_twins() {
        assert!([WHOLE, REPORT_LEAST].iter().all(|file| twin(file.as_bytes()).is_some()));
    }
}
