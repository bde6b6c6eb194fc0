//! The writer against a second way to its files, from text to text: a made message, whatever its style, is written as the draft
//! of it without anything that could be left out, each raw text put in order by itself. No value is computed on this way.

use cases::message::{valid, Draft, Part, Size, Style};
use cases::random::Random;
use cases::runs::image_of;
use independent::list::{Kind, List, Row};
use independent::{tidy, write, LIMIT};

/// The draft with every leaf's raw text as document 02 wants it.
fn tidied(list: &List, row: &Row, draft: &Draft) -> Draft {
    let parts = draft.parts.iter().map(|part| match part {
        Part::Text(raw) => Part::Text(tidied_text(row.kind, raw)),
        Part::Child(child) => {
            let row = list.file_children(row.number).find(|row| row.name == child.name).expect("a made message");
            Part::Child(tidied(list, row, child))
        }
    });
    // Schema hints "belong to no content", and an attribute that stays has no colon.
    let attributes = draft.attributes.iter().filter(|(name, _)| !name.contains(':')).cloned();
    Draft { name: draft.name.clone(), attributes: attributes.collect(), parts: parts.collect() }
}

fn tidied_text(kind: Kind, raw: &str) -> String {
    match kind {
        Kind::Bool => match raw.trim() {
            "1" => "true".to_string(),
            "0" => "false".to_string(),
            word => word.to_string(),
        },
        Kind::Num => without_zeros_in_front(raw.trim()),
        Kind::Amt => tidied_amount(raw.trim().trim_start_matches(['+', '-'])),
        Kind::Date => raw.trim().to_string(),
        Kind::Dtm => tidied_time(raw.trim()),
        // The two quotes as they are, and every `>` as an entity; `&` and `<` are entities already.
        _ => raw.replace("&quot;", "\"").replace("&apos;", "'").replace('>', "&gt;"),
    }
}

fn without_zeros_in_front(digits: &str) -> String {
    match digits.trim_start_matches('0') {
        "" => "0".to_string(),
        digits => digits.to_string(),
    }
}

fn tidied_amount(unsigned: &str) -> String {
    let (whole, fraction) = unsigned.split_once('.').unwrap_or((unsigned, ""));
    let whole = without_zeros_in_front(whole);
    match fraction.trim_end_matches('0') {
        "" => whole,
        fraction => format!("{whole}.{fraction}"),
    }
}

fn tidied_time(time: &str) -> String {
    let (clock, zone) = match time.strip_suffix('Z') {
        Some(clock) => (clock, "Z"),
        None => time.split_at(time.len() - 6),
    };
    let zone = if zone.ends_with("00:00") { "Z" } else { zone };
    match clock.strip_suffix("T24:00:00") {
        Some(day) => format!("{}T00:00:00{zone}", day_after(day)),
        None => format!("{clock}{zone}"),
    }
}

/// The day after a day, which is not the last one of the calendar.
fn day_after(day: &str) -> String {
    let numbers: Vec<u32> = day.split('-').map(|number| number.parse().expect("a number")).collect();
    let (year, month, day) = (numbers[0], numbers[1], numbers[2]);
    let long = if year % 400 == 0 || year % 100 != 0 && year % 4 == 0 { 29 } else { 28 };
    let days = [31, long, 31, 30, 31, 30, 31, 31, 30, 31, 30, 31][month as usize - 1];
    let (day, carry) = if day == days { (1, 1) } else { (day + 1, 0) };
    let (month, carry) = if month + carry == 13 { (1, 1) } else { (month + carry, 0) };
    format!("{:04}-{month:02}-{day:02}", year + carry)
}

#[test]
fn written_files_are_tidied_drafts() {
    let mut random = Random::new(11);
    let mut room = vec![0; LIMIT];
    for number in 0..1500 {
        let size = if number % 10 == 0 { Size::Medium } else { Size::Small };
        let draft = valid(&mut random, size);
        let file = Style::any(&mut random).write(&draft);
        let answer = write(&image_of(file.as_bytes()), &mut room);
        assert!(answer.is_accepted());
        let list = draft.list().expect("a made message");
        let expected = Style::DENSE.write(&tidied(list, list.root(), &draft));
        assert_eq!(String::from_utf8_lossy(&room[..answer.place]), expected, "{file}");
    }
}

/// A file's tidied form.
fn tidied_file(file: &[u8]) -> Vec<u8> {
    let (mut image, mut out) = (vec![0; LIMIT], vec![0; LIMIT]);
    let answer = tidy(file, &mut image, &mut out);
    assert!(answer.is_accepted(), "{answer:?}");
    out.truncate(answer.place);
    out
}

/// "Two accepted files of one kind that both can be tidied end in the same bytes exactly when their contents are equal, and tidying a
/// tidied file changes no byte": of each made message two styles, and a neighbour of another content.
#[test]
fn tidied_files_tell_contents_and_stay() {
    let mut random = Random::new(12);
    let mut before: Option<(Vec<u8>, Vec<u8>)> = None;
    for _ in 0..500 {
        let draft = valid(&mut random, Size::Small);
        let [one, other] = [(); 2].map(|()| Style::any(&mut random).write(&draft).into_bytes());
        let once = tidied_file(&one);
        assert_eq!(tidied_file(&other), once);
        assert_eq!(tidied_file(&once), once);
        let image = image_of(&one);
        if let Some((last, tidied_last)) = before {
            assert_eq!(last == image, tidied_last == once);
        }
        before = Some((image, once));
    }
}
