//! Statements and reports made for tests, with the answer that each must get.

use std::fs::{self, File, OpenOptions};
use std::io::{self, Write};
use std::path::Path;

use cases::feed::Case;
use cases::statement::{make_by, Wanted};
use independent::list::List;
use independent::LIMIT;

use super::write::file_of;
use crate::output::named;
use crate::unit::{Line, Unit};

/// What is to be made.
pub struct Order {
    /// Statements or reports.
    pub list: &'static List,
    /// The first file's seed; each file has the next one.
    pub seed: u64,
    pub entries: usize,
    pub files: usize,
    /// The codes that the files must get, one after the other and over again.
    pub codes: Vec<u8>,
    pub dense: bool,
}

/// Writes the messages into a folder, and a table of their answers, `ANSWERS.txt`, in the form of that in `examples/`. No file is
/// written over; each stands in the table as soon as it is written. Dense ones are as the unit writes them.
pub fn make_files(unit: &Unit, order: &Order, folder: &Path, out: &mut dyn Write) -> io::Result<()> {
    fs::create_dir_all(folder).map_err(named(folder))?;
    let answers = folder.join("ANSWERS.txt");
    let head = format!(
        "# The answer that each file in this folder must give: code, row, place. An accepted file's place is its image's length.\n\
         # Made from seed {}. The answers are the independent program's.\n\
         # {:<24} {:>4} {:>4} {:>8}  what it is\n",
        order.seed, "file", "code", "row", "place"
    );
    let mut table = write_new(&answers, head.as_bytes())?;
    for (number, code) in (1..=order.files).zip(order.codes.iter().cycle()) {
        let seed = order.seed.wrapping_add(number as u64 - 1);
        let wanted = Wanted { list: order.list, seed, entries: order.entries, code: *code, dense: order.dense };
        let written = |file: &[u8]| written(unit, file).map_err(|error| error.to_string());
        let made = make_by(wanted, written).map_err(io::Error::other)?;
        let name = match code {
            0 => format!("{number:04}-good.xml"),
            code => format!("{number:04}-code-{code:02}.xml"),
        };
        write_new(&folder.join(&name), &made.file)?;
        let line = format!("{name:<26} {code:>4} {:>4} {:>8}  {}\n", made.answer.row, made.answer.place, made.what);
        write!(out, "{line}")?;
        table.write_all(line.as_bytes()).map_err(named(&answers))?;
    }
    writeln!(out, "the answers stand in {}", answers.display())
}

/// The file that the unit writes from the image that it makes of a good one.
fn written(unit: &Unit, file: &[u8]) -> io::Result<Vec<u8>> {
    let Line { code, bytes: image, .. } = unit.ask(&Case::check(LIMIT, file))?;
    let line = file_of(unit, &image)?;
    match (code, line.code) {
        (0, 0) => Ok(line.bytes),
        (checked, written) => Err(io::Error::other(format!("the unit refuses a good message: {checked}, {written}"))),
    }
}

/// A file that was not there before.
fn write_new(path: &Path, bytes: &[u8]) -> io::Result<File> {
    let mut file = OpenOptions::new().write(true).create_new(true).open(path).map_err(named(path))?;
    file.write_all(bytes).map_err(named(path))?;
    Ok(file)
}
