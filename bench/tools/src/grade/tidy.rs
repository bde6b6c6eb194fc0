//! Files tidied: each read, and written again from its image.

use std::io::{self, Write};
use std::path::Path;

use cases::feed::Case;
use independent::LIMIT;

use super::judge::read_file;
use super::kept::keep;
use super::names::code_in_words;
use super::report::{Outcome, Report};
use super::write::file_of;
use crate::unit::{Line, Unit};

/// `NAME.tidy.xml` for `NAME.xml`.
const ENDING: &str = "tidy.xml";

/// Writes a file's tidied form, `NAME.tidy.xml` in the folder, and says so; or says why there is none. The status: 0, 1 where it is
/// refused, 2 where it can't be read.
pub fn tidy_file(unit: &Unit, path: &Path, folder: &Path, out: &mut dyn Write) -> io::Result<u8> {
    let file = match read_file(path) {
        Ok(file) => file,
        Err(error) => return writeln!(out, "{}: can't be read: {error}", path.display()).map(|()| 2),
    };
    let line = tidied(unit, &file)?;
    match line.code {
        0 => {
            let written = keep(folder, path, ENDING, &line.bytes)?;
            let same = if line.bytes == file { ", as it was" } else { "" };
            writeln!(out, "{}: tidied as {}, {} bytes{same}", path.display(), written.display(), line.place)?;
            Ok(0)
        }
        // The file is good, and its tidied form too long: the place is a length.
        19 => {
            let why = code_in_words(line.code);
            writeln!(out, "{}: refused {why}, {} bytes needed", path.display(), line.place).map(|()| 1)
        }
        _ => {
            let outcome = Outcome::judged(&file, &line);
            write!(out, "{}", Report { path: path.to_path_buf(), outcome }).map(|()| 1)
        }
    }
}

/// What the unit says to a file that is to be tidied, with room for any: check's refusal, or what the writer says to its image.
fn tidied(unit: &Unit, file: &[u8]) -> io::Result<Line> {
    let checked = unit.ask(&Case::check(LIMIT, file))?;
    match checked.code {
        0 => file_of(unit, &checked.bytes),
        _ => Ok(checked),
    }
}
