//! The files to grade: those named, and those in the folders named.

use std::fs;
use std::io;
use std::path::{Path, PathBuf};

/// What the words on the command line lead to.
#[derive(Default)]
pub struct Found {
    pub files: Vec<PathBuf>,
    /// Files in folders that don't end in `.xml`.
    pub left_aside: usize,
    /// What can't be read, and why.
    pub unreadable: Vec<(PathBuf, io::Error)>,
}

/// A file that is named is taken as it is; of a folder, and the folders in it, every file that ends in `.xml`, in order.
pub fn find_files(words: &[PathBuf]) -> Found {
    let mut found = Found::default();
    for word in words {
        if word.is_dir() {
            take_folder(word, &mut found);
        } else {
            found.files.push(word.clone());
        }
    }
    found
}

fn take_folder(folder: &Path, found: &mut Found) {
    let entries = fs::read_dir(folder).and_then(|entries| entries.collect::<io::Result<Vec<_>>>());
    let mut paths: Vec<PathBuf> = match entries {
        Ok(entries) => entries.iter().map(|entry| entry.path()).collect(),
        Err(error) => return found.unreadable.push((folder.to_path_buf(), error)),
    };
    paths.sort();
    for path in paths {
        if path.is_dir() {
            take_folder(&path, found);
        } else if path.extension().is_some_and(|extension| extension.eq_ignore_ascii_case("xml")) {
            found.files.push(path);
        } else {
            found.left_aside += 1;
        }
    }
}
