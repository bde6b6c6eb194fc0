//! The programs over standard input: what each writes for what it reads.

use crate::answer::{Answer, Code};
use crate::check::check;
use crate::read::{reading, Held};
use crate::tidy::tidy;
use crate::write::write;
use crate::LIMIT;

/// "The program reads at most 65,536 bytes".
pub const PROGRAM_LIMIT: usize = 65_536;

/// "a small program over both", `kto`: ".. and writes the image or one line. Empty input gives `refused 3 0 0` and LF, whole.
/// Longer input gives `refused 1 0 65536` and LF."
///
/// The room is the input's length: an image of the house list is never longer than its file.
pub fn program(input: &[u8]) -> Vec<u8> {
    if input.len() > PROGRAM_LIMIT {
        return refused(Answer::new(Code::TooLong, 0, PROGRAM_LIMIT));
    }
    said(input.len(), |room| check(input, room))
}

/// How much of its input one of the other programs reads: one byte over the limit tells a run or a file that is too long.
const MOST_OF_AN_INPUT: usize = LIMIT + 1;

/// The program `write`: the file of the image that the run begins with, or one line.
///
/// It has room for every file that is not over the limit, so 14 does not arise.
pub fn write_program(input: &[u8]) -> Vec<u8> {
    let run = &input[..input.len().min(MOST_OF_AN_INPUT)];
    said(LIMIT, |room| write(run, room))
}

/// The program `tidy`: the tidied file, or one line.
///
/// It has room for every image and for every file that is not over the limit, so 14 does not arise.
pub fn tidy_program(input: &[u8]) -> Vec<u8> {
    let file = &input[..input.len().min(MOST_OF_AN_INPUT)];
    let mut image = vec![0; LIMIT];
    said(LIMIT, |room| tidy(file, &mut image, room))
}

/// The program `images`: divides a run with the reader that holds its place. For each image a line, where it begins, how long it is
/// and how many items the reader took, "the closing 0 among them"; then nothing at the run's end, else the reader's answer to what is
/// left, "places counted from the start of that rest".
pub fn images_program(input: &[u8]) -> Vec<u8> {
    let run = &input[..input.len().min(MOST_OF_AN_INPUT)];
    let mut held = Held::new(run, 0);
    let mut lines = Vec::new();
    while held.place() < run.len() {
        let start = held.place();
        let answer = held.read();
        if !answer.is_accepted() {
            lines.extend(refused(answer));
            break;
        }
        let (_, items) = reading(&run[start..]);
        lines.extend(format!("{start} {} {items}\n", answer.place).into_bytes());
    }
    lines
}

/// What a call with so much room wrote, or the line of its refusal.
fn said(room: usize, call: impl FnOnce(&mut [u8]) -> Answer) -> Vec<u8> {
    let mut out = vec![0; room];
    let answer = call(&mut out);
    if !answer.is_accepted() {
        return refused(answer);
    }
    out.truncate(answer.place);
    out
}

fn refused(answer: Answer) -> Vec<u8> {
    format!("refused {} {} {}\n", answer.code.number(), answer.row, answer.place).into_bytes()
}
