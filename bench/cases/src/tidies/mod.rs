//! Files for tidying: odd ones with one content, every code, both rooms at their limits, and tidied files as long as may be.

mod chosen;
mod limit;

pub use chosen::{fixed_set, ODD, ODD_TIDIED};
pub use limit::{at_the_limit, file_for_tidied_of};

use independent::{tidy, Answer, LIMIT};

/// How many bytes the image of a file and its tidied form need; 0 and 0 where it is refused, 0 for a tidied form that is too long.
pub fn needed(file: &[u8]) -> (usize, usize) {
    let (mut image, mut out) = (vec![0; LIMIT], vec![0; LIMIT]);
    match (tidy(file, &mut image, &mut out), independent::read(&image)) {
        (Answer { place: space, .. }, read) if space <= LIMIT && read.is_accepted() => (read.place, space),
        (_, read) if read.is_accepted() => (read.place, 0),
        _ => (0, 0),
    }
}
