//! Runs for the writer: every kind of value, every code, rooms and files at their limits.

mod chosen;
mod limit;

pub use chosen::fixed_set;
pub use limit::{at_the_limit, image_for_file_of};

use independent::{write, Answer, Code};

/// How many bytes the file of a run's first image needs; 0 where the run begins with none.
pub fn needed(run: &[u8]) -> usize {
    match write(run, &mut []) {
        Answer { code: Code::NoRoom | Code::FileTooLong, place, .. } => place,
        _ => 0,
    }
}
