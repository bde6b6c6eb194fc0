//! Reader, writer and checker: a run that the reader accepts is written as a file, and the checker accepts that file and gives
//! the same image, where the run's is of version 1 "the version 2 image of that content".
//!
//! So the reader accepts nothing but images of rule-meeting contents, and "The written file is accepted and gives the same
//! image." Written again it is the same file, and no blank of it could be left out. What has a finer fraction than a file says
//! "is still read", and of it that without what is finer is written; so is what has old transaction codes, with a present one for them.

use cases::any::{Class, Source};
use cases::runs::{self, FRONTS};
use independent::read::first_image;
use independent::{check, read, write, Code, LIMIT};

/// The file of an accepted run; none where it would be over the limit, a fraction is finer than a file says, or there is an old transaction
/// code.
fn written(run: &[u8]) -> Option<Vec<u8>> {
    let mut room = vec![0; LIMIT];
    let answer = write(run, &mut room);
    room.truncate(answer.place);
    answer.is_accepted().then_some(room)
}

/// An accepted file's image.
fn image(file: &[u8]) -> Option<Vec<u8>> {
    let mut room = vec![0; file.len()];
    let answer = check(file, &mut room);
    room.truncate(answer.place);
    answer.is_accepted().then_some(room)
}

/// Writes the file of an accepted run and has it checked, and the image of that written again.
fn examine(run: &[u8]) {
    let length = first_image(run).unwrap().length;
    if let Some(file) = written(run) {
        let text = String::from_utf8_lossy(&file);
        let expected = match run[4] {
            1 => [b"KTO\x00\x02\x01", &run[5..length]].concat(),
            _ => run[..length].to_vec(),
        };
        assert_eq!(image(&file), Some(expected), "{text}");
        assert_eq!(written(&run[..length]).unwrap(), file, "{text}");
        return;
    }
    match write(run, &mut []).code {
        Code::FinerThanAFile => examine(&runs::with_microseconds(&run[..length], 120_000)),
        Code::OldCode => examine(&without_old_codes(&run[..length])),
        _ => {}
    }
}

/// The image with a present transaction code for each old one that stands alone, and without the others.
fn without_old_codes(image: &[u8]) -> Vec<u8> {
    let domain = [&b"\x23"[..], b"\x24\x00\x01A", b"\x25", b"\x26\x00\x01B", b"\x27\x00\x01C"].map(<[u8]>::to_vec);
    let mut items: Vec<Vec<u8>> = Vec::new();
    for item in runs::take_apart(image) {
        let alone = items.last().is_some_and(|last| last[0] == 34);
        match item[0] {
            40 if alone => items.extend(domain.clone()),
            40 | 41 => {}
            _ => items.push(item),
        }
    }
    runs::put_together(runs::front_of(image), &items)
}

#[test]
fn accepted_runs_are_images_of_files() {
    let source = Source::new(&[1, 2, 3], 21);
    let (mut accepted, mut of_damaged, mut fronts, mut old) = (0, 0, [0; 3], [0; 3]);
    for number in 0..7_000 {
        let (class, case) = source.case(number);
        if !matches!(class, Class::AtTheLimit | Class::WriteAtTheLimit) && read(&case.bytes).is_accepted() {
            examine(&case.bytes);
            let front = FRONTS.iter().position(|(front, _)| case.bytes.starts_with(front)).unwrap();
            fronts[front] += 1;
            old[front] += usize::from(write(&case.bytes, &mut []).code == Code::OldCode);
            accepted += 1;
            of_damaged +=
                usize::from(matches!(class, Class::DamagedRun | Class::PickFromDamaged | Class::WriteFromDamaged));
        }
    }
    assert!(accepted > 2000 && of_damaged > 100, "{accepted} accepted, {of_damaged} of them after damage");
    assert!(fronts.iter().all(|count| *count > 400), "{fronts:?}: of version 1, and of each kind of version 2");
    assert!(old.iter().all(|count| *count > 40), "{old:?}: with old transaction codes");
}

#[test]
fn the_fixed_runs_too() {
    let runs = runs::fixed_set().into_iter().chain(cases::writes::fixed_set()).map(|case| case.bytes);
    let accepted = runs.filter(|run| run.len() < 100_000 && read(run).is_accepted());
    let count = accepted.map(|run| examine(&run)).count();
    assert!(count > 200, "{count} accepted");
}

/// "no blanks that could be left out": without it the file is refused or has another content.
#[test]
fn no_blank_could_be_left_out() {
    let source = Source::new(&[3], 22);
    let mut blanks = 0;
    for number in 0..300 {
        let run = source.case(number).1.bytes;
        let Some(file) = written(&run).filter(|file| file.len() < 10_000) else {
            continue;
        };
        assert!(file.starts_with(b"<Document xmlns=\"") && file.ends_with(b"</Document>"));
        let same = image(&file);
        for at in (0..file.len()).filter(|at| file[*at].is_ascii_whitespace()) {
            let without = [&file[..at], &file[at + 1..]].concat();
            assert_ne!(image(&without), same, "byte {at} of {}", String::from_utf8_lossy(&file));
            blanks += 1;
        }
    }
    assert!(blanks > 500, "{blanks} blanks");
}
