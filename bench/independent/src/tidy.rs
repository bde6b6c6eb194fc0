//! "Tidying a file", section 12 of document 02: "Reading an accepted file and writing it with §1".

use crate::answer::Answer;
use crate::check::check;
use crate::write::write;

/// "Image and tidied file go into two lent buffers."
pub fn tidy(input: &[u8], image: &mut [u8], out: &mut [u8]) -> Answer {
    // "A file that document 01 refuses, code 14 included, changes neither"
    let checked = check(input, image);
    if !checked.is_accepted() {
        return checked;
    }
    // "then §1's answers and order apply, and where §1 refuses, the image stands and the other buffer stays": of the image alone,
    // not of what stands after it in its buffer
    write(&image[..checked.place], out)
}
