//! The reader's count of items, "the closing 0 among them", against other ways to it.
//!
//! An item is an element, so an image has as many as its file has opening tags, and the closing 0. "On code 17 it is the number of whole
//! items before the place": what stands before the place is a beginning of an image, which loses an item with each cut that takes its
//! last byte.

use cases::any::{Class, Source};
use cases::runs::{front_of, take_apart};
use independent::{check, read, reading, write, Code, LIMIT};

/// Runs of all classes that ask for one, but for the long ones.
fn runs(count: u64) -> impl Iterator<Item = Vec<u8>> {
    let source = Source::new(&[1, 3, 6], 61);
    let long = [Class::WriteAtTheLimit, Class::CountAtTheLimit];
    (0..count)
        .map(move |number| source.case(number))
        .filter(move |(class, _)| !long.contains(class))
        .map(|(_, case)| case.bytes)
}

#[test]
fn an_image_has_an_item_for_each_tag_of_its_file_and_one_more() {
    let mut counted = 0;
    let mut room = vec![0; LIMIT];
    for run in runs(4_000).filter(|run| read(run).is_accepted()) {
        let (answer, items) = reading(&run);
        let header = front_of(&run).len();
        assert!(items <= answer.place - header && items <= answer.place - 4, "at most the length less the header's");
        assert_eq!(items, take_apart(&run).len() + 1);
        let written = write(&run, &mut room);
        if written.is_accepted() {
            let file = &room[..written.place];
            let tags = (0..file.len() - 1).filter(|at| file[*at] == b'<' && file[at + 1] != b'/').count();
            assert_eq!(items, tags + 1, "{}", String::from_utf8_lossy(file));
            counted += 1;
        }
    }
    assert!(counted > 500, "{counted} counted");
}

/// The beginning of a run up to the place of 17 has the same answer, one byte less has one item less, and each of its cuts loses them one
/// by one.
#[test]
fn a_broken_image_has_the_items_before_its_place() {
    let mut broken = 0;
    for run in runs(6_000) {
        let (answer, items) = reading(&run);
        if answer.code != Code::NoWholeImage {
            assert!(answer.is_accepted() || items == 0, "on other refusals 0");
            continue;
        }
        assert_eq!(reading(&run[..answer.place]), (answer, items), "what stands after the place doesn't matter");
        let mut left = (answer.place, items);
        while left.1 > 0 {
            let (shorter, fewer) = reading(&run[..left.0 - 1]);
            assert_eq!((shorter.code, fewer), (Code::NoWholeImage, left.1 - 1));
            assert!(shorter.place < left.0);
            left = (shorter.place, fewer);
        }
        broken += 1;
    }
    assert!(broken > 1_000, "{broken} broken");
}

/// "a result buffer as long as the accepted file never gives 14": of made files, and of the shortest file of an image.
#[test]
fn a_buffer_as_long_as_the_file_is_enough() {
    let source = Source::new(&[0], 62);
    let files = (0..3_000).map(|number| source.case(number).1.bytes).filter(|file| file.len() < LIMIT);
    let mut room = vec![0; LIMIT];
    let mut accepted = 0;
    for file in files {
        let code = check(&file, &mut vec![0; file.len()]).code;
        assert_ne!(code, Code::NoRoom, "{}", String::from_utf8_lossy(&file));
        accepted += usize::from(code == Code::Accepted);
    }
    for run in runs(2_000) {
        let written = write(&run, &mut room);
        if written.is_accepted() {
            let file = &room[..written.place];
            assert!(check(file, &mut vec![0; file.len()]).is_accepted());
            accepted += 1;
        }
    }
    assert!(accepted > 700, "{accepted} accepted");
}
