//! Realistic statements and reports of a rent account: so many entries, from a seed, good or damaged so that they get one chosen code.
//!
//! The texts are invented. The balances agree with the entries, and IBANs have their check digits.

mod account;
mod damage;
mod texts;

use independent::list::{List, REPORT};
use independent::{check, Answer, LIMIT};

use crate::message::Style;
use crate::random::Random;

/// What is wanted.
#[derive(Clone, Copy, PartialEq, Eq, Debug)]
pub struct Wanted {
    /// A statement or a report.
    pub list: &'static List,
    pub seed: u64,
    pub entries: usize,
    /// 0 for a good one, else the code that it must get.
    pub code: u8,
    /// Without a declaration and blanks between tags.
    pub dense: bool,
}

/// The codes that a file by itself can get: 14 hangs on the room.
pub const CODES: std::ops::RangeInclusive<u8> = 0..=13;

/// A statement, with the answer that it must get where there is room for its image.
#[derive(Clone, PartialEq, Eq, Debug)]
pub struct Statement {
    pub file: Vec<u8>,
    pub answer: Answer,
    /// What it is, in a few words.
    pub what: String,
}

/// Makes a statement. The independent program gives the answer; that its code is the one wanted is seen here. The error says why there is
/// no such statement.
pub fn make(wanted: Wanted) -> Result<Statement, String> {
    make_by(wanted, |file| Ok(file.to_vec()))
}

/// The same; a dense file whose message is good is what `written` makes of it. A damaged message has no image to be written from.
pub fn make_by(wanted: Wanted, written: impl FnOnce(&[u8]) -> Result<Vec<u8>, String>) -> Result<Statement, String> {
    let Wanted { list, seed, entries, code, dense } = wanted;
    if !CODES.contains(&code) {
        return Err(format!("no file gets code {code} by itself: the codes are 0 to 13"));
    }
    let mut random = Random::new(seed);
    let mut draft = account::message(list, entries, &mut random);
    let style = if dense { Style::DENSE } else { Style::USUAL };
    let period = if *list == REPORT { "the noon report" } else { "a month" };
    let mut what = format!("{period} of a rent account, {}", counted(entries));
    let damaged = damage::to_draft(code, &mut draft, &mut random)?;
    let is_good = damaged.is_none();
    what = damaged.unwrap_or(what);
    let mut file = style.write(&draft).into_bytes();
    if file.len() > LIMIT {
        return Err(format!("{} take {} bytes, over the limit of {LIMIT}", counted(entries), file.len()));
    }
    if dense && is_good {
        file = written(&file)?;
    }
    if let Some(done) = damage::to_file(code, &mut file, &mut random) {
        what = done;
    }
    let answer = check(&file, &mut vec![0; LIMIT]);
    match answer.code.number() == code {
        true => Ok(Statement { file, answer, what }),
        false => Err(format!("made for code {code}, it gets {}", answer.code.number())),
    }
}

fn counted(entries: usize) -> String {
    match entries {
        1 => "1 entry".to_string(),
        many => format!("{many} entries"),
    }
}

#[cfg(test)]
mod tests {
    use super::*;
    use independent::list::{LISTS, STATEMENT};
    use independent::read::first_image;

    #[test]
    fn every_code_from_many_seeds() {
        for seed in 0..40 {
            for code in CODES {
                let list = LISTS[seed as usize / 2 % 2];
                let wanted = Wanted { list, seed, entries: 1 + seed as usize % 9, code, dense: seed % 2 == 1 };
                let made = make(wanted).unwrap();
                assert_eq!(made, make(wanted).unwrap(), "the same again");
                assert_eq!(made.answer.code.number(), code);
            }
        }
    }

    #[test]
    fn a_good_one_has_so_many_entries() {
        for (list, entries) in LISTS.into_iter().flat_map(|list| [0, 1, 2, 50, 500].map(|entries| (list, entries))) {
            let made = make(Wanted { list, seed: 7, entries, code: 0, dense: entries > 100 }).unwrap();
            let mut room = vec![0; LIMIT];
            let length = check(&made.file, &mut room).place;
            let image = first_image(&room[..length]).unwrap();
            assert_eq!(image.list, list);
            assert_eq!(image.items.iter().filter(|item| item.row == 23).count(), entries);
        }
    }

    #[test]
    fn what_can_not_be_made_is_said() {
        let wanted = Wanted { list: &STATEMENT, seed: 1, entries: 0, code: 13, dense: false };
        assert_eq!(make(wanted).unwrap_err(), "code 13 takes an entry with details");
        assert!(make(Wanted { code: 14, ..wanted }).unwrap_err().starts_with("no file gets code 14"));
        assert!(make(Wanted { code: 0, entries: 5000, ..wanted }).unwrap_err().contains("over the limit"));
    }
}
