//! Images written as statement files.

use std::io::{self, Write};
use std::path::Path;

use cases::feed::Case;
use independent::list::STATEMENT;
use independent::read::first_image;
use independent::LIMIT;

use super::divide::{divide, Part};
use super::kept::keep;
use super::names::{code_in_words, row_in_words};
use crate::unit::{Line, Unit};

/// Writes each image of a run as a file, `NAME.xml` in the folder, a second and third with a number, and says so. True if the run is
/// images to its end and each was written.
pub fn write_files(unit: &Unit, path: &Path, run: &[u8], folder: &Path, out: &mut dyn Write) -> io::Result<bool> {
    let mut all_written = true;
    let left = divide(unit, run, |Part { number, start, bytes, .. }| {
        let Line { code, row, place, bytes: file, .. } = file_of(unit, bytes)?;
        let image = format!("{}: image {number} at byte {start}", path.display());
        if code != 0 {
            all_written = false;
            // Where the refusal has a row (26, 20), its place is that of the item in the image; of 19 it is a length.
            let list = first_image(bytes).map_or(&STATEMENT, |found| found.list);
            let why = match row_in_words(list, row) {
                Some(row) => format!("{row}, byte {}", start + place),
                None => format!("{place} bytes needed"),
            };
            return writeln!(out, "{image}: refused {}, {why}", code_in_words(code));
        }
        let written = keep(folder, path, "xml", &file)?;
        writeln!(out, "{image}: written as {}, {place} bytes", written.display())
    })?;
    match left {
        Ok(()) => Ok(all_written),
        Err(refused) => writeln!(out, "{}: {refused}", path.display()).map(|()| false),
    }
}

/// What the unit says to an image that it is to write, with room for every file.
pub fn file_of(unit: &Unit, image: &[u8]) -> io::Result<Line> {
    unit.ask(&Case::write(LIMIT, image))
}
