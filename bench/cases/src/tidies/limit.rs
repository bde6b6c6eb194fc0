//! Files within the limit whose tidied form is as long as may be, and longer: every `>` as it stands becomes an entity.

use independent::LIMIT;

use super::chosen::ODD_TIDIED;
use crate::feed::Case;
use crate::random::Random;
use crate::runs::filled;

/// What stands before the texts of the message below, and after them.
fn around() -> (&'static str, &'static str) {
    let start = ODD_TIDIED.find("<Ustrd>").expect("a text");
    let end = ODD_TIDIED.find("</RmtInf>").expect("its end");
    (&ODD_TIDIED[..start], &ODD_TIDIED[end..])
}

fn text(characters: &str) -> String {
    format!("<Ustrd>{characters}</Ustrd>")
}

/// A file whose tidied form has so many bytes: many texts of `>` as they stand, and some that make up the rest.
pub fn file_for_tidied_of(length: usize) -> String {
    let (before, after) = around();
    let (marks, last) = (text(&">".repeat(140)), text("x").len());
    let tidied = marks.len() + 3 * 140;
    let left = length - before.len() - after.len();
    let (times, more) = (left / tidied - 1, left % tidied + tidied);
    // What is left over is more than one text of marks and at most two: as texts of plain characters.
    let plain = (more + 140 + last - 2) / (140 + last - 1);
    let characters = more - plain * (last - 1);
    let each = (0..plain).map(|n| text(&"x".repeat(characters / plain + usize::from(n < characters % plain))));
    [before, &marks.repeat(times), &each.collect::<String>(), after].concat()
}

/// A file with the limit's length, or one byte less or more; or one whose tidied form is so long, with enough room for it and with
/// too little.
pub fn at_the_limit(file: Vec<u8>, random: &mut Random) -> Case {
    let about = LIMIT - 1 + random.below(3);
    match random.below(4) {
        0 => Case::tidy(LIMIT, LIMIT, filled(file, about)),
        1 => Case::tidy(LIMIT, LIMIT, file_for_tidied_of(LIMIT)),
        2 => Case::tidy(LIMIT, about - 1, file_for_tidied_of(about)),
        _ => Case::tidy(random.below(LIMIT), random.below(LIMIT), file_for_tidied_of(about)),
    }
}

#[cfg(test)]
mod tests {
    use super::*;

    #[test]
    fn tidied_forms_have_the_length_asked_for() {
        for length in (5_000..6_300).step_by(13).chain([LIMIT, LIMIT + 1]) {
            let file = file_for_tidied_of(length);
            assert!(file.len() < length);
            let answer = Case::tidy(LIMIT, LIMIT, file).answer().0;
            let code = if length > LIMIT { 19 } else { 0 };
            assert_eq!((answer.code.number(), answer.row, answer.place), (code, 0, length));
        }
    }
}
