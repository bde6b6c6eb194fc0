//! The program `grade`, with the independent program in place of the unit, on the files in `examples/` and on made ones.

use std::fs;
use std::io::{BufRead, BufReader};
use std::path::{Path, PathBuf};
use std::process::{Command, Stdio};

use cases::tidies::file_for_tidied_of;
use cases::writes::image_for_file_of;
use independent::LIMIT;

fn grade_command(words: &[&str]) -> Command {
    let examples = Path::new(env!("CARGO_MANIFEST_DIR")).join("../../examples");
    let mut command = Command::new(env!("CARGO_BIN_EXE_grade"));
    command.arg("--independent").args(words).current_dir(examples);
    command
}

/// Runs `grade`, and gives its status and what it said.
fn grade(words: &[&str]) -> (Option<i32>, String) {
    let output = grade_command(words).output().unwrap();
    (output.status.code(), String::from_utf8(output.stdout).unwrap())
}

/// A folder for one test, with nothing in it.
fn empty_folder(name: &str) -> PathBuf {
    let folder = Path::new(env!("CARGO_TARGET_TMPDIR")).join(name);
    if folder.exists() {
        fs::remove_dir_all(&folder).unwrap();
    }
    folder
}

/// What stands between two pieces of a text.
fn between<'a>(text: &'a str, before: &str, behind: &str) -> &'a str {
    let rest = text.split_once(before).unwrap_or_else(|| panic!("{before} in {text}")).1;
    rest.split_once(behind).unwrap_or_else(|| panic!("{behind} in {rest}")).0
}

#[test]
fn grade_says_what_is_wrong_where() {
    let (status, text) = grade(&["damaged/12-bad-value.xml"]);
    let expected = "\
judged by the independent program, not by the unit
damaged/12-bad-value.xml: refused 12 BAD_VALUE, value breaks its type, row 30 Document/BkToCstmrStmt/Stmt/Ntry/BookgDt/Dt, byte 20007, \
                    line 783, column 11
              <Dt>2024-02-30</Dt>
              ^
";
    assert_eq!((status, text.as_str()), (Some(1), expected));
}

#[test]
fn exit_status_by_the_worst_file() {
    assert_eq!(grade(&["rent-account.xml", "several-statements.xml"]).0, Some(0));
    assert_eq!(grade(&["."]).0, Some(1));
    let (status, text) = grade(&["no-such-file.xml", "rent-account.xml"]);
    assert_eq!(status, Some(2));
    assert!(text.contains("no-such-file.xml: can't be read"), "{text}");
    assert!(text.contains("rent-account.xml: accepted"), "the others go on: {text}");
    assert_eq!(grade(&[]).0, Some(2));
}

#[test]
fn images_are_kept_and_shown() {
    let folder = empty_folder("images");
    assert_eq!(grade(&["--write", folder.to_str().unwrap(), "."]).0, Some(1));
    let kept = ["rent-account.kto", "several-statements.kto"].map(|name| folder.join(name));
    assert_eq!(fs::read_dir(&folder).unwrap().count(), 9, "six files, and three as they are written");

    let (status, tree) = grade(&["show", kept[0].to_str().unwrap()]);
    assert_eq!(status, Some(0));
    for line in [
        "image 1 at byte 0, 3931 bytes, 649 items, version 2, statement (camt.053.001.08)",
        "      ElctrncSeqNb: 3",
        "                  Nm: Müller & Söhne OG",
    ] {
        assert!(tree.contains(&format!("\n{line}\n")), "{line} in {tree}");
    }

    let joined = folder.join("joined.kto");
    let images = kept.map(|path| fs::read(path).unwrap());
    fs::write(&joined, images.concat()).unwrap();
    let (status, tree) = grade(&["show", joined.to_str().unwrap()]);
    assert_eq!(status, Some(0));
    assert!(tree.contains("image 2 at byte 3931, 1183 bytes, 229 items, version 2"), "{tree}");

    fs::write(&joined, [&images[0][..], &images[1][..500]].concat()).unwrap();
    let (status, tree) = grade(&["show", joined.to_str().unwrap()]);
    assert_eq!(status, Some(1));
    assert!(
        tree.contains("image 2 at byte 3931: refused 17 BROKEN_IMAGE, no whole image, byte 4431, after 94 items"),
        "{tree}"
    );
}

#[test]
fn images_are_written_as_files_and_none_is_written_over() {
    let folder = empty_folder("written");
    let path = |name: &str| folder.join(name).to_str().unwrap().to_string();
    assert_eq!(grade(&["--write", &path("images"), "rent-account.xml", "several-statements.xml"]).0, Some(0));
    let images = ["images/rent-account.kto", "images/several-statements.kto"].map(|name| fs::read(path(name)).unwrap());
    fs::write(path("both.kto"), images.concat()).unwrap();
    assert_eq!(grade(&["write", &path("both.kto")]).0, Some(0), "beside the images");
    let (status, said) = grade(&["write", "--write", &path("more"), &path("both.kto"), &path("both.kto")]);
    assert_eq!(status, Some(0));
    assert!(said.contains("image 2 at byte 3931: written as"), "{said}");
    for (written, image) in [("both.xml", 0), ("both-2.xml", 1), ("more/both.xml", 0), ("more/both-4.xml", 1)] {
        let folder = format!("again/{written}");
        assert_eq!(grade(&["--write", &path(&folder), &path(written)]).0, Some(0));
        let kept = Path::new(&folder).join(Path::new(written).with_extension("kto").file_name().unwrap());
        assert_eq!(fs::read(path(kept.to_str().unwrap())).unwrap(), images[image], "{written}");
    }
    fs::write(path("cut.kto"), &images[0][..100]).unwrap();
    let (status, said) = grade(&["write", &path("cut.kto"), &path("no-such-file.kto")]);
    assert_eq!(status, Some(2));
    assert!(said.contains("cut.kto: image 1 at byte 0: refused 17") && said.contains("can't be read"), "{said}");
    assert!(!folder.join("cut.xml").exists());
}

/// 26 and 20 say the row of the old transaction code, or of the date-time, and where its item stands in the run; 19 how many bytes the file
/// would need.
#[test]
fn a_file_that_is_not_written_says_where_or_how_long() {
    let folder = empty_folder("not-written");
    fs::create_dir_all(&folder).unwrap();
    let examples = Path::new(env!("CARGO_MANIFEST_DIR")).join("../../examples/written");
    let image = |name: &str| fs::read(examples.join(name)).unwrap();
    let (before, mut finer) = (image("several-statements.kto"), image("rent-account.kto"));
    // The header has six bytes, three groups one each, MsgId its row, two of length and 17 of text: CreDtTm's item stands at 29, and its
    // microseconds after the row byte, the day and the time of day.
    finer[37..41].copy_from_slice(&123_456_u32.to_be_bytes());
    let run = folder.join("run.kto");
    fs::write(&run, [&before[..], &finer].concat()).unwrap();
    let (status, said) = grade(&["write", run.to_str().unwrap()]);
    assert_eq!(status, Some(1));
    assert!(said.contains("image 1 at byte 0: written as"), "{said}");
    let refused = "image 2 at byte 1182: refused 20 TOO_FINE, fraction finer than a file says, row 5 \
                   Document/BkToCstmrStmt/GrpHdr/CreDtTm, byte 1211\n";
    assert!(said.ends_with(refused), "{said}");
    assert_eq!(fs::read_dir(&folder).unwrap().count(), 2, "the run and the first image's file");

    let old = Path::new(env!("CARGO_MANIFEST_DIR")).join("../../examples/stored/rent-account.kto");
    let (status, said) = grade(&["write", "--write", folder.to_str().unwrap(), old.to_str().unwrap()]);
    assert_eq!(status, Some(1));
    let refused = "image 1 at byte 0: refused 26 RETIRED, retired transaction code, row 40 \
                   Document/BkToCstmrStmt/Stmt/Ntry/BkTxCd/Prtry, byte 2038\n";
    assert!(said.ends_with(refused), "{said}");
    let (status, said) = grade(&["show", old.to_str().unwrap()]);
    assert_eq!(status, Some(0));
    assert!(said.contains("\n            Cd: RLS-SPESEN\n"), "{said}");

    let large = folder.join("large.kto");
    fs::write(&large, image_for_file_of(LIMIT + 1)).unwrap();
    let (status, said) = grade(&["write", large.to_str().unwrap()]);
    assert_eq!(status, Some(1));
    assert!(said.contains("refused 19 TOO_LARGE") && said.ends_with(", 1048577 bytes needed\n"), "{said}");
}

/// Tidied files stand beside the others or in a folder, stay as they are when they are tidied again, and have the content of theirs.
#[test]
fn files_are_tidied_and_told_apart() {
    let folder = empty_folder("tidied");
    let path = |name: &str| folder.join(name).to_str().unwrap().to_string();
    let (status, said) = grade(&["tidy", "--write", &path("once"), "rent-account.xml", "intraday.xml"]);
    assert_eq!(status, Some(0), "{said}");
    assert!(said.contains("rent-account.xml: tidied as "), "{said}");
    let (status, said) = grade(&["tidy", &path("once/rent-account.tidy.xml")]);
    assert_eq!(status, Some(0));
    assert!(said.ends_with(" bytes, as it was\n"), "{said}");
    let read = |name: &str| fs::read(path(name)).unwrap();
    assert_eq!(read("once/rent-account.tidy.xml"), read("once/rent-account.tidy.tidy.xml"));
    for name in ["rent-account", "intraday"] {
        let (status, said) = grade(&["diff", &format!("{name}.xml"), &path(&format!("once/{name}.tidy.xml"))]);
        assert_eq!(status, Some(0), "{said}");
        assert!(said.ends_with(": one content\n"), "{said}");
    }

    let other = String::from_utf8(read("once/rent-account.tidy.xml"))
        .unwrap()
        .replacen("<Ntry><Amt Ccy=\"EUR\">", "<Ntry><Amt Ccy=\"EUR\">1", 1);
    fs::write(path("other.xml"), other).unwrap();
    let (status, said) = grade(&["diff", "rent-account.xml", &path("other.xml")]);
    assert_eq!(status, Some(1));
    assert!(
        said.contains(": they differ at Document/BkToCstmrStmt/Stmt[1]/Ntry[1]/Amt\n    rent-account.xml: EUR "),
        "{said}"
    );
    let (status, said) = grade(&["diff", "rent-account.xml", "intraday.xml"]);
    assert_eq!(status, Some(1));
    assert!(said.contains("they differ at the root's namespace\n"), "{said}");

    let (status, said) = grade(&["diff", "rent-account.xml", "damaged/12-bad-value.xml"]);
    assert_eq!(status, Some(2));
    assert!(said.contains("damaged/12-bad-value.xml: refused 12 BAD_VALUE"), "{said}");
    let (status, said) = grade(&["tidy", "--write", &path("none"), "damaged/12-bad-value.xml", "no-such-file.xml"]);
    assert_eq!(status, Some(2));
    assert!(
        said.contains("refused 12 BAD_VALUE") && said.contains("line 783, column 11") && said.contains("can't be read"),
        "{said}"
    );
    fs::write(path("large.xml"), file_for_tidied_of(LIMIT + 1)).unwrap();
    let (status, said) = grade(&["tidy", &path("large.xml")]);
    assert_eq!(status, Some(1));
    assert!(said.contains("refused 19 TOO_LARGE") && said.ends_with(", 1048577 bytes needed\n"), "{said}");
    assert!(!folder.join("none").exists() && !folder.join("large.tidy.xml").exists());
    for bad in [&["diff", "rent-account.xml"][..], &["diff", "a", "b", "c"], &["tidy"]] {
        assert_eq!(grade(bad).0, Some(2), "{bad:?}");
    }
}

/// A reader that has enough ends `grade` without a word.
#[test]
fn a_closed_pipe_ends_it_quietly() {
    let folder = empty_folder("pipe");
    assert_eq!(grade(&["--write", folder.to_str().unwrap(), "rent-account.xml"]).0, Some(0));
    let long = folder.join("long.kto");
    fs::write(&long, fs::read(folder.join("rent-account.kto")).unwrap().repeat(100)).unwrap();
    // Each says more than a pipe holds, so that none has ended when the reader goes.
    let many = ["."; 40];
    for words in [&["show", long.to_str().unwrap()][..], &many, &[&["--json"][..], &many].concat()] {
        let mut child = grade_command(words).stdout(Stdio::piped()).stderr(Stdio::piped()).spawn().unwrap();
        let mut first = String::new();
        BufReader::with_capacity(16, child.stdout.take().unwrap()).read_line(&mut first).unwrap();
        assert!(!first.is_empty());
        let output = child.wait_with_output().unwrap();
        let said = String::from_utf8(output.stderr).unwrap();
        assert_eq!(output.status.code(), Some(141), "{words:?}: {said}");
        assert!(!said.contains("panicked") && said.lines().count() <= 1, "{words:?}: {said}");
    }
}

#[test]
fn one_object_for_each_file() {
    let (status, said) = grade(&["--json", ".", "no-such-file.xml"]);
    assert_eq!(status, Some(2));
    assert_eq!(said.lines().count(), 41);
    assert!(said.lines().all(|line| line.starts_with("{\"file\":\"") && line.ends_with('}')), "{said}");
    assert!(
        said.contains("{\"file\":\"./rent-account.xml\",\"code\":0,\"name\":\"ACCEPTED\",\"meaning\":\"accepted\",\"row\":0,\"place\":3931,\"kind\":\"camt.053.001.08\"}")
    );
    let report = said.lines().find(|line| line.contains("./intraday.xml")).unwrap();
    assert!(report.ends_with("\"code\":0,\"name\":\"ACCEPTED\",\"meaning\":\"accepted\",\"row\":0,\"place\":1721,\"kind\":\"camt.052.001.08\"}"));
    let refused = said.lines().find(|line| line.contains("12-bad-value")).unwrap();
    assert_eq!(between(refused, "\"code\":", ",\"name\""), "12");
    assert_eq!(between(refused, "\"line\":", ",\"text\""), "783,\"column\":11");
    assert!(said.contains("{\"file\":\"no-such-file.xml\",\"error\":\""), "{said}");
}

#[test]
fn a_page_for_a_browser() {
    let folder = empty_folder("page");
    fs::create_dir_all(&folder).unwrap();
    let page = folder.join("report.html");
    assert_eq!(grade(&["--html", page.to_str().unwrap(), "."]).0, Some(1));
    let text = fs::read_to_string(&page).unwrap();
    assert_eq!(text.matches("<article>").count(), 31);
    assert_eq!(text.matches("<section id=\"code-").count(), 13);
    let section = between(&text, "<section id=\"code-12\">", "</section>");
    assert!(
        section.contains("line 783, column 11") && section.contains("<mark>&lt;</mark>Dt&gt;2024-02-30"),
        "{section}"
    );
    assert_eq!(grade(&["--html", "/no/such/folder/report.html", "."]).0, Some(2));
}

#[test]
fn made_statements_get_the_answers_of_their_table() {
    let folder = empty_folder("made");
    let path = folder.to_str().unwrap();
    let reports = folder.join("reports");
    let both = [(path, &[][..]), (reports.to_str().unwrap(), &["--report"])];
    for (path, more) in both {
        made_files_get_their_answers(path, more);
    }
    let (status, _) = grade(&["make", path]);
    assert_eq!(status, Some(2), "no file is written over");
    for bad in [&["make"][..], &["make", "--code", "14", path], &["--seed", "1", "."], &["make", "--code", "x", path]] {
        assert_eq!(grade(bad).0, Some(2), "{bad:?}");
    }
    assert_eq!(grade(&["--report", "."]).0, Some(2), "a word of make's");
}

fn made_files_get_their_answers(path: &str, more: &[&str]) {
    let words =
        [&["make", "--code", "all", "--seed", "77", "--entries", "7", "--files", "20"][..], more, &[path]].concat();
    let (status, said) = grade(&words);
    assert_eq!(status, Some(0), "{said}");
    let folder = Path::new(path);
    let table = fs::read_to_string(folder.join("ANSWERS.txt")).unwrap();
    let (_, judged) = grade(&["--json", path]);
    let lines: Vec<Vec<&str>> =
        table.lines().filter(|line| !line.starts_with('#')).map(|line| line.split_whitespace().collect()).collect();
    assert_eq!((lines.len(), judged.lines().count()), (20, 20));
    for (line, object) in lines.iter().zip(judged.lines()) {
        assert!(between(object, "\"file\":\"", "\"").ends_with(line[0]));
        let answer = [between(object, "\"code\":", ","), between(object, "\"row\":", ",")];
        assert_eq!(answer, line[1..3], "{object}");
        assert!(object.contains(&format!("\"place\":{}", line[3])), "{object}");
    }
    let kind = if more.is_empty() { "camt.053.001.08" } else { "camt.052.001.08" };
    assert!(judged.lines().next().unwrap().ends_with(&format!("\"kind\":\"{kind}\"}}")), "{judged}");
}

/// A dense file of a good message is the one that is written from its image: written once more, it is the same.
#[test]
fn dense_statements_are_as_the_writer_writes_them() {
    let folder = empty_folder("dense");
    let path = folder.to_str().unwrap();
    let (status, said) = grade(&["make", "--dense", "--seed", "5", "--entries", "9", "--code", "0", path]);
    assert_eq!(status, Some(0), "{said}");
    let file = folder.join("0001-good.xml");
    grade(&["--write", path, file.to_str().unwrap()]);
    let again = folder.join("again");
    let image = folder.join("0001-good.kto");
    let (status, said) = grade(&["write", "--write", again.to_str().unwrap(), image.to_str().unwrap()]);
    assert_eq!(status, Some(0), "{said}");
    assert_eq!(fs::read(file).unwrap(), fs::read(again.join("0001-good.xml")).unwrap());
}
