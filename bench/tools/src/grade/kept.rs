//! Files that are written beside or apart from those given. None is written over.

use std::fs;
use std::io;
use std::path::{Path, PathBuf};

/// Writes `FOLDER/NAME.ENDING` for a file `NAME.xml`, or whatever it ends in; a second file of the same name gets a number.
pub fn keep(folder: &Path, file: &Path, ending: &str, bytes: &[u8]) -> io::Result<PathBuf> {
    fs::create_dir_all(folder)?;
    let stem = file.file_stem().unwrap_or_default().to_string_lossy();
    let mut names = (1..).map(|n| if n == 1 { format!("{stem}.{ending}") } else { format!("{stem}-{n}.{ending}") });
    let path = names.find(|name| !folder.join(name).exists()).map(|name| folder.join(name));
    let path = path.expect("some number is free");
    fs::write(&path, bytes)?;
    Ok(path)
}
