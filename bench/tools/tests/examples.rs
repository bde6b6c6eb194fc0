//! The files in `examples/` give the answers that `examples/ANSWERS.txt` says.

use std::fs;
use std::path::{Path, PathBuf};

use cases::feed::Case;
use cases::runs::former;
use independent::LIMIT;
use tools::grade::find_files;

fn examples() -> PathBuf {
    Path::new(env!("CARGO_MANIFEST_DIR")).join("../../examples")
}

/// File, code, row and place of each line of the table.
fn answers() -> Vec<(String, u8, u8, usize)> {
    let table = fs::read_to_string(examples().join("ANSWERS.txt")).unwrap();
    let lines = table.lines().filter(|line| !line.starts_with('#') && !line.trim().is_empty());
    let taken_apart = lines.map(|line| {
        let words: Vec<&str> = line.split_whitespace().collect();
        (words[0].to_string(), words[1].parse().unwrap(), words[2].parse().unwrap(), words[3].parse().unwrap())
    });
    taken_apart.collect()
}

#[test]
fn every_file_gives_its_answer() {
    for (file, code, row, place) in answers() {
        let bytes = fs::read(examples().join(&file)).unwrap();
        let case = if file.ends_with(".kto") { Case::write(LIMIT, bytes) } else { Case::check(LIMIT, bytes) };
        let (answer, _) = case.answer();
        assert_eq!((answer.code.number(), answer.row, answer.place), (code, row, place), "{file}");
    }
}

/// Schema hints "belong to no content": the same statements with them have the same image.
#[test]
fn hints_change_no_image() {
    let image = |name: &str| Case::check(LIMIT, fs::read(examples().join(name)).unwrap()).answer().1;
    assert_eq!(image("schema-hints.xml"), image("several-statements.xml"));
}

/// "Two accepted files of one kind that both can be tidied end in the same bytes exactly when their contents are equal, and tidying a
/// tidied file changes no byte."
#[test]
fn every_spelling_is_tidied_to_what_is_written() {
    let read = |name: &str| fs::read(examples().join(name)).unwrap();
    let tidied = |file: Vec<u8>| Case::tidy(LIMIT, LIMIT, file).answer().1;
    for name in ["several-statements.xml", "schema-hints.xml", "odd-spelling.xml", "written/several-statements.xml"] {
        assert_eq!(tidied(read(name)), read("written/several-statements.xml"), "{name}");
    }
    assert_eq!(tidied(read("rent-account.xml")), read("written/rent-account.xml"));
    assert_ne!(tidied(read("midnight.xml")), read("written/rent-account.xml"));
}

/// "Stored images with rows 40 and 41 are still read and picked from, in both versions."
#[test]
fn images_with_old_transaction_codes_are_read() {
    for (name, version, codes) in [("rent-account", 2, 3), ("several-statements", 1, 1)] {
        let image = fs::read(examples().join("stored").join(name).with_extension("kto")).unwrap();
        assert_eq!((image[4], independent::read(&image).place), (version, image.len()));
        for n in 0..=codes {
            assert_eq!(independent::pick(&image, 41, n).0.is_accepted(), n < codes, "{name}");
        }
    }
}

/// "The reader takes versions 1 and 2; only 2 is written from now on": one stored image is of version 1.
#[test]
fn stored_images_are_those_of_the_files() {
    for name in ["rent-account", "intraday", "several-statements"] {
        let image = Case::check(LIMIT, fs::read(examples().join(name).with_extension("xml")).unwrap()).answer().1;
        let stored = fs::read(examples().join("written").join(name).with_extension("kto")).unwrap();
        match name {
            "several-statements" => assert_eq!(stored, former(&image)),
            _ => assert_eq!(stored, image, "{name}"),
        }
    }
}

#[test]
fn every_image_is_written_as_the_file_beside_it() {
    let mut images = 0;
    for entry in fs::read_dir(examples().join("written")).unwrap() {
        let path = entry.unwrap().path();
        if path.extension().is_some_and(|extension| extension == "kto") {
            let (answer, file) = Case::write(LIMIT, fs::read(&path).unwrap()).answer();
            assert!(answer.is_accepted(), "{path:?}");
            assert_eq!(file, fs::read(path.with_extension("xml")).unwrap(), "{path:?}");
            images += 1;
        }
    }
    assert!(images > 0);
}

#[test]
fn every_file_has_an_answer_and_every_code_of_a_file_an_example() {
    let answers = answers();
    let files = find_files(&[examples()]).files;
    let images = fs::read_dir(examples().join("stored")).unwrap().count();
    assert_eq!(files.len() + images, answers.len());
    for file in files {
        let name = file.strip_prefix(examples()).unwrap().to_str().unwrap().to_string();
        assert!(answers.iter().any(|answer| answer.0 == name), "{name}");
    }
    for code in 0..=13 {
        assert!(answers.iter().any(|answer| answer.1 == code), "code {code}");
    }
}
