//! Faults put into a copy of the independent program: the comparison must find each within the gate's number of cases.
//!
//! The first is tried in every run of the tests, all of them by `cargo test --test must_find -- --ignored`.

use std::fs;
use std::path::{Path, PathBuf};
use std::process::Command;
use std::sync::Mutex;

use cases::feed::ALL_OPS;
use tools::compare::{compare, Asked, What};
use tools::unit::Unit;

/// How many cases the gate compares.
const CASES: u64 = 20_000;

/// A file of the independent program, what stands in it once, and what is put in its place.
type Fault = (&'static str, &'static str, &'static str);

const FAULTS: &[Fault] = &[
    // A test order swapped: 8 before 11.
    (
        "walk.rs",
        "if contents.is_empty() {",
        "if contents.is_empty() && list.file_children(row.number).all(|child| !child.count.required) {",
    ),
    // A test order swapped: 3 before 2.
    (
        "check.rs",
        "std::str::from_utf8(input)",
        "std::str::from_utf8(if house::parse(input).is_err() { b\"\" } else { input })",
    ),
    // 6 not seen at a row that comes once.
    ("walk.rs", "if last > row.number {", "if last > row.number && row.count.repeats {"),
    // More attributes than Ccy.
    ("walk.rs", "(Kind::Amt, [only]) if only.name == b\"Ccy\"", "(Kind::Amt, [only, ..]) if only.name == b\"Ccy\""),
    // 10 at the beginning of the text instead of its first byte that is no blank.
    ("walk.rs", "text.at + offset", "text.at"),
    // The rule on row 43 only one way.
    ("walk.rs", "has(RULE_FIRST) != has(RULE_SECOND)", "has(RULE_FIRST) && !has(RULE_SECOND)"),
    // A count in the table.
    ("list.rs", "row(26, \"RvslInd\", 23, MAYBE, Bool)", "row(26, \"RvslInd\", 23, ONE, Bool)"),
    // A length in the table.
    ("list.rs", "row(41, \"Cd\", 40, ONE, Txt(35))", "row(41, \"Cd\", 40, ONE, Txt(34))"),
    // The order of two words.
    ("list.rs", "[\"CRDT\", \"DBIT\"]", "[\"DBIT\", \"CRDT\"]"),
    // 14 where the room is exactly enough.
    ("check.rs", "out.get_mut(..image.len())", "out.get_mut(..=image.len()).map(|room| &mut room[..image.len()])"),
    // Lengths in bytes.
    ("types/text.rs", "text.chars().count()", "text.len()"),
    // A reference that ends in a slash.
    ("types/reference.rs", "!text.ends_with('/')", "!text.ends_with(\"//\")"),
    // Trailing zeros that spend digits.
    ("types/amount.rs", "fraction.trim_end_matches('0')", "fraction.strip_suffix('0').unwrap_or(fraction)"),
    // Centuries that are leap years.
    ("types/date.rs", "year % 4 == 0 && year % 100 != 0", "year % 4 == 0"),
    // A sixteenth level refused.
    ("house/recogniser.rs", "pub const MOST_LEVELS: usize = 16;", "pub const MOST_LEVELS: usize = 15;"),
    // A single `]` in front of a `>` refused.
    (
        "house/recogniser.rs", "self.text[start..self.at].ends_with(b\"]]\")",
        "self.text[start..self.at].ends_with(b\"]\")",
    ),
    // Two colons in an attribute's name.
    ("house/recogniser.rs", "if self.next() == Some(b':') {", "while self.next() == Some(b':') {"),
    // Duplicates by what stands before the colon.
    (
        "house/recogniser.rs",
        "earlier.iter().any(|other| other.name == name)",
        "earlier.iter().any(|other| other.name.split(|b| *b == b':').next() == name.split(|b| *b == b':').next())",
    ),
    // A hint without its prefix.
    ("walk.rs", "(carried(LOCATION).is_none() || carried(PREFIX).is_some())", "true"),
    // Another prefix on the root.
    ("walk.rs", "name == PREFIX ||", "name.starts_with(b\"xmlns:\") ||"),
    // A hint below the root.
    ("walk.rs", "(_, []) => Ok(None),", "(_, others) if others.iter().all(|other| other.name == PREFIX) => Ok(None),"),
    // U+FFFF taken.
    ("house/characters.rs", "[0xef, 0xbf] => Some((0x80, 0xbd)),", "[0xef, 0xbf] => Some((0x80, 0xbf)),"),
    // A group closed without its required children.
    ("order.rs", "self.last != 0 && !self.lacks_between(list, self.last, u8::MAX)", "self.last != 0"),
    // 48 without 47 in an image.
    (
        "order.rs",
        "self.waits_for_second() == (row.number == RULE_SECOND)",
        "!self.waits_for_second() || row.number == RULE_SECOND",
    ),
    // Amounts in an image that are not canonical.
    ("types/amount.rs", "(self.scale == 0 || self.coefficient % 10 != 0)", "true"),
    // Picks counted from 1.
    ("read.rs", ".nth(n)", ".nth(n.saturating_sub(1))"),
    // 14 before 19.
    ("write.rs", "if file.len() > LIMIT {", "if file.len() > LIMIT && out.len() >= LIMIT {"),
    // 19 for a file of exactly the limit's length.
    ("write.rs", "if file.len() > LIMIT {", "if file.len() >= LIMIT {"),
    // 14 where the room is exactly enough.
    ("write.rs", "out.get_mut(..file.len())", "out.get_mut(..=file.len()).map(|room| &mut room[..file.len()])"),
    // The image's length as the place.
    (
        "write.rs",
        "None => Answer::new(Code::NoRoom, 0, file.len()),",
        "None => Answer::new(Code::NoRoom, 0, crate::read(run).place),",
    ),
    // `>` as it stands.
    ("write.rs", ".replace('>', \"&gt;\")", ""),
    // `<` first, so that its entity's `&` becomes one too.
    (
        "write.rs",
        "text.replace('&', \"&amp;\").replace('<', \"&lt;\")",
        "text.replace('<', \"&lt;\").replace('&', \"&amp;\")",
    ),
    // Quotes as entities.
    ("write.rs", ".replace('>', \"&gt;\")", ".replace('>', \"&gt;\").replace('\"', \"&quot;\")"),
    // No digit in front of the point.
    ("write.rs", "least = scale + 1", "least = scale"),
    // The point where there is no fraction.
    ("write.rs", "0 => whole.to_string(),", "0 => format!(\"{whole}.\"),"),
    // Five digits of six.
    ("write.rs", ".{microsecond:06}", ".{microsecond:05}"),
    // Zeros at the end of a fraction.
    ("write.rs", ".trim_end_matches('0').to_string()", ".to_string()"),
    // Finer fractions written.
    ("write.rs", "time.microsecond % 1000 != 0", "time.microsecond % 1000 > 1000"),
    // A fraction of zero.
    ("write.rs", "0 => String::new(),", "0 => \".000000\".to_string(),"),
    // Offset zero with hours and minutes.
    ("write.rs", "0 => \"Z\".to_string(),", "0 => \"+00:00\".to_string(),"),
    // The signs of offsets.
    ("write.rs", "if offset < 0 { '-' } else { '+' }", "if offset < 0 { '+' } else { '-' }"),
    // BOOL as a digit.
    ("write.rs", "Value::Bool(truth) => truth.to_string(),", "Value::Bool(truth) => u8::from(*truth).to_string(),"),
    // Years without their zeros.
    ("write.rs", "{:04}-{:02}-{:02}", "{}-{:02}-{:02}"),
    // A line for each element.
    ("write.rs", "*file += &format!(\"</{}>\", row.name);", "*file += &format!(\"</{}>\\n\", row.name);"),
    // The currency of every amount.
    ("write.rs", "amount.currency())", "\"EUR\")"),
    // The namespace of statements for a report.
    ("write.rs", "list.namespace)", "crate::list::STATEMENT.namespace)"),
    // The image gone where the file is not written.
    (
        "tidy.rs",
        "write(&image[..checked.place], out)",
        "{ let answer = write(&image[..checked.place], out); if !answer.is_accepted() { image.fill(0) }; answer }",
    ),
    // The image's length for the file's.
    (
        "tidy.rs",
        "write(&image[..checked.place], out)",
        "Answer { place: checked.place, ..write(&image[..checked.place], out) }",
    ),
    // Version 3 let through.
    ("read.rs", "// \"16 now means version neither 1 nor 2\"", "3 => Ok((version, &STATEMENT, 6)),"),
    // Version 1 with a kind byte.
    (
        "read.rs",
        "FORMER_VERSION => Ok((version, &STATEMENT, 5)),",
        "FORMER_VERSION => Ok((version, &STATEMENT, if run.get(5..7) == Some(&[1, 1]) { 6 } else { 5 })),",
    ),
    // The kind byte taken for an item.
    ("read.rs", "Some(list) => Ok((version, list, 6)),", "Some(list) => Ok((version, list, 5)),"),
    // A bad kind byte counted.
    (
        "read.rs",
        "None => Err(Answer::new(Code::NoWholeImage, 0, 5)),",
        "None => Err(Answer::new(Code::NoWholeImage, 0, run.len().min(6))),",
    ),
    // Item places from 5 in version 2.
    (
        "read.rs",
        "false => Err(Answer::new(Code::NoWholeImage, 0, at)),",
        "false => Err(Answer::new(Code::NoWholeImage, 0, at - usize::from(version == VERSION))),",
    ),
    // Version 1 written.
    ("content.rs", "&VERSION.to_be_bytes()", "&FORMER_VERSION.to_be_bytes()"),
    // The kind byte of statements for a report.
    ("content.rs", "&[message.list.byte]", "&[1]"),
    // The wrong list for a namespace.
    ("walk.rs", "List::of_namespace(space.raw)", "List::of_namespace(space.raw).map(|_| &crate::list::STATEMENT)"),
    // Pending entries in a statement.
    ("list.rs", "const BOOKED: Kind = Kind::Enum(&[\"BOOK\"]);", "const BOOKED: Kind = BOOKED_OR_PENDING;"),
    // A report that must have a balance.
    ("list.rs", "row(15, \"Bal\", 6, ANY, Group)", "row(15, \"Bal\", 6, MANY, Group)"),
    // The old transaction code still let in.
    ("walk.rs", "list.file_children(parent.number).find(named_so)", "list.children(parent.number).find(named_so)"),
    // The old code refused with its own row.
    (
        "walk.rs",
        "let not_a_child = Answer::new(Code::NotAChild, parent.number, child.at);",
        "let own = if child.name == b\"Prtry\" && parent.number == 34 { 40 } else { parent.number };
    let not_a_child = Answer::new(Code::NotAChild, own, child.at);",
    ),
    // The reader by the list of files.
    ("order.rs", "list.children(self.row).any(", "list.file_children(self.row).any("),
    (
        "read.rs",
        "let row = list.find(*run.get(at)?)?;",
        "let row = list.find(*run.get(at)?).filter(|row| row.number != 40)?;",
    ),
    // Not picked from.
    (
        "read.rs",
        ".filter(|item| u64::from(item.row) == row)",
        ".filter(|item| u64::from(item.row) == row && item.row != 41)",
    ),
    // The old code written.
    ("write.rs", "find(|item| item.row == OLD_CODE)", "find(|item| item.row == u8::MAX)"),
    // 26 after 20.
    (
        "write.rs",
        "if let Some(item) = image.items.iter().find(|item| item.row == OLD_CODE) {",
        "let finer = image.items.iter().any(is_finer);
    if let Some(item) = image.items.iter().find(|item| item.row == OLD_CODE && !finer) {",
    ),
    // 26 after 19.
    (
        "write.rs",
        "if let Some(item) = image.items.iter().find(|item| item.row == OLD_CODE) {",
        "let over = file(&message(&image)).len() > LIMIT;
    if let Some(item) = image.items.iter().find(|item| item.row == OLD_CODE && !over) {",
    ),
    // The last such item, the row of its value, the place of that.
    (
        "write.rs",
        "image.items.iter().find(|item| item.row == OLD_CODE)",
        "image.items.iter().rfind(|item| item.row == OLD_CODE)",
    ),
    ("write.rs", "Answer::new(Code::OldCode, OLD_CODE, item.at)", "Answer::new(Code::OldCode, 41, item.at)"),
    ("write.rs", "Answer::new(Code::OldCode, OLD_CODE, item.at)", "Answer::new(Code::OldCode, OLD_CODE, item.at + 1)"),
    // The order of a report's words.
    ("list.rs", "\"PRCD\", \"ITBD\"]", "\"ITBD\", \"PRCD\"]"),
    // The closing 0 not counted.
    ("read.rs", "take_items(list, run, start).items.len() + 1,", "take_items(list, run, start).items.len(),"),
    // A broken item counted, where one begins.
    (
        "read.rs",
        "(Code::NoWholeImage, Ok((_, list, start))) => take_items(list, run, start).items.len(),",
        "(Code::NoWholeImage, Ok((_, list, start))) => {
            take_items(list, run, start).items.len() + usize::from(run.len() > answer.place)
        }",
    ),
    // No count where the image is broken.
    ("read.rs", "(Code::NoWholeImage, Ok((_, list, start))) =>", "(Code::RuleBroken, Ok((_, list, start))) =>"),
    // A count with 16, and with a bad kind byte.
    (
        "read.rs",
        "        _ => 0,\n    };\n    (answer, count)",
        "        _ => answer.place,\n    };\n    (answer, count)",
    ),
    // The image's length for its count.
    ("read.rs", "    (answer, count)\n", "    (answer, if answer.is_accepted() { answer.place - 6 } else { count })\n"),
    // Leaves alone.
    (
        "read.rs",
        "take_items(list, run, start).items.len() + 1,",
        "take_items(list, run, start).items.iter().filter(|item| item.leaf.is_some()).count() + 1,",
    ),
];

#[test]
fn a_swapped_test_order_is_found() {
    find(0, "swapped");
}

#[test]
#[ignore = "builds a program for each fault: about a minute"]
fn every_fault_is_found() {
    (0..FAULTS.len()).for_each(|index| find(index, "fault"));
}

fn find(index: usize, label: &str) {
    let fault = FAULTS[index];
    let replay = build_with(fault, label);
    let asked = Asked { what: What::Seed { ops: ops(fault), seed: 1 }, first: 0, count: CASES };
    let found = compare(&Unit::Replay(replay), &asked).expect("replay runs");
    let difference = found.difference.unwrap_or_else(|| panic!("not found in {CASES} cases: {fault:?}"));
    println!("found after {} cases: {} in {}\n{difference}", found.compared, fault.2, fault.0);
}

/// The ops that are asked: all where the fault is the writer's, else those without it.
fn ops((file, ..): Fault) -> Vec<u8> {
    ALL_OPS.into_iter().filter(|op| *op != 3 || file == "write.rs").collect()
}

/// Builds the program `replay` of a copy of this workspace with the fault put in.
fn build_with((file, old, new): Fault, label: &str) -> PathBuf {
    let workspace = Path::new(env!("CARGO_MANIFEST_DIR")).parent().expect("the workspace");
    let place = Path::new(env!("CARGO_TARGET_TMPDIR")).join("must-find");
    let copy = place.join("copy");
    static ONE_AT_A_TIME: Mutex<()> = Mutex::new(());
    let _guard = ONE_AT_A_TIME.lock().unwrap();
    if copy.exists() {
        fs::remove_dir_all(&copy).unwrap();
    }
    for part in ["Cargo.toml", "Cargo.lock", "independent", "cases", "tools"] {
        copy_all(&workspace.join(part), &copy.join(part));
    }
    let path = copy.join("independent/src").join(file);
    let text = fs::read_to_string(&path).unwrap();
    assert_eq!(text.matches(old).count(), 1, "{old} stands once in {file}");
    fs::write(&path, text.replace(old, new)).unwrap();
    let built = place.join("built");
    let output = Command::new(env!("CARGO"))
        .args(["build", "--quiet", "--offline", "-p", "tools", "--bin", "replay"])
        .current_dir(&copy)
        .env("CARGO_TARGET_DIR", &built)
        .output()
        .expect("cargo");
    assert!(output.status.success(), "{}", String::from_utf8_lossy(&output.stderr));
    let kept = place.join(label);
    fs::copy(built.join("debug/replay"), &kept).unwrap();
    kept
}

fn copy_all(from: &Path, to: &Path) {
    if from.is_dir() {
        fs::create_dir_all(to).unwrap();
        for entry in fs::read_dir(from).unwrap() {
            let name = entry.unwrap().file_name();
            copy_all(&from.join(&name), &to.join(&name));
        }
    } else {
        fs::create_dir_all(to.parent().unwrap()).unwrap();
        fs::copy(from, to).unwrap();
    }
}
