//! `grade FILE..` judges files of statements and reports with the unit and says what is wrong where; `grade tidy FILE..` writes them tidied,
//! `grade diff A B` says where two differ; `grade show IMAGE..` prints images, `grade write IMAGE..` writes them as files, `grade make DIR`
//! makes statements or reports. Exit status: 0 all accepted, 1 some refused, 2 a fault of its own; of `diff` 1 where the two differ.

use std::ffi::OsString;
use std::fs;
use std::io::{self, Write};
use std::path::{Path, PathBuf};
use std::process::ExitCode;

use cases::statement::CODES;
use independent::list::{REPORT, STATEMENT};
use tools::grade::{
    find_files, judge, keep, make_files, object, say_difference, show, tidy_file, write_files, Found, Order, Outcome,
    Page, Report, Tally,
};
use tools::output::{self, named};
use tools::unit::Unit;

const USAGE: &str =
    "usage: grade [OPTIONS] FILE..                 judge files of statements and reports, and the .xml files of folders
       grade tidy [--write DIR] FILE..        write files tidied, NAME.tidy.xml beside each file or in DIR
       grade diff A B                         whether two files have one content, or the first place where they differ
       grade show IMAGE..                     print images as trees
       grade write [--write DIR] IMAGE..      write images as files, NAME.xml beside each image or in DIR
       grade make [--report] [--seed S] [--entries N] [--files M] [--code C|all] [--dense] DIR
                                              make statements, and a table of the answers that they must get
options:
  --write DIR    keep the images of accepted files, as DIR/NAME.kto
  --json         one JSON object for each file, a line each, and nothing else
  --html FILE    also write a report that a browser shows
  --replay PATH  the proved program replay (crates/replay/out/replay, or what REPLAY names)
  --independent  ask the independent program instead of the unit
of make:
  --report       intraday reports (camt.052) instead of statements (camt.053)
  --seed S       the first file's seed, the next file has the next one (1)
  --entries N    how many entries each statement has (20)
  --files M      how many files (1; with --code all 14)
  --code C       the code that each must get, 0 to 13, or all of them in turn (0: good ones)
  --dense        no declaration and no blanks between tags; where the message is good, as the unit writes it";

#[derive(Clone, Copy, PartialEq)]
enum Verb {
    Judge,
    Tidy,
    Diff,
    Show,
    Write,
    Make,
}

struct Options {
    unit: Unit,
    verb: Verb,
    write: Option<PathBuf>,
    json: bool,
    html: Option<PathBuf>,
    /// What `make` is asked for; a word of its own belongs to no other verb.
    order: Order,
    of_make: bool,
    words: Vec<PathBuf>,
}

impl Options {
    fn new() -> Options {
        let path = std::env::var("REPLAY").unwrap_or("crates/replay/out/replay".to_string());
        Options {
            unit: Unit::Replay(path.into()),
            verb: Verb::Judge,
            write: None,
            json: false,
            html: None,
            order: Order { list: &STATEMENT, seed: 1, entries: 20, files: 0, codes: vec![0], dense: false },
            of_make: false,
            words: Vec::new(),
        }
    }

    /// Takes a word of the command line, and those that belong to it.
    fn take(&mut self, word: OsString, words: &mut impl Iterator<Item = OsString>) -> Option<()> {
        let is_first = self.words.is_empty() && self.verb == Verb::Judge;
        match word.to_str() {
            Some("--write") => self.write = Some(words.next()?.into()),
            Some("--json") => self.json = true,
            Some("--html") => self.html = Some(words.next()?.into()),
            Some("--replay") => self.unit = Unit::Replay(words.next()?.into()),
            Some("--independent") => self.unit = Unit::Independent,
            Some("tidy") if is_first => self.verb = Verb::Tidy,
            Some("diff") if is_first => self.verb = Verb::Diff,
            Some("show") if is_first => self.verb = Verb::Show,
            Some("write") if is_first => self.verb = Verb::Write,
            Some("make") if is_first => self.verb = Verb::Make,
            Some(option) if option.starts_with('-') => self.take_of_make(option, words)?,
            _ => self.words.push(word.into()),
        }
        Some(())
    }

    fn take_of_make(&mut self, option: &str, words: &mut impl Iterator<Item = OsString>) -> Option<()> {
        self.of_make = true;
        let mut value = || words.next()?.into_string().ok();
        match option {
            "--dense" => self.order.dense = true,
            "--report" => self.order.list = &REPORT,
            "--seed" => self.order.seed = value()?.parse().ok()?,
            "--entries" => self.order.entries = value()?.parse().ok()?,
            "--files" => self.order.files = value()?.parse().ok()?,
            "--code" => match value()?.as_str() {
                "all" => self.order.codes = CODES.collect(),
                code => self.order.codes = vec![code.parse().ok()?],
            },
            _ => return None,
        }
        Some(())
    }
}

impl Options {
    /// Where what is written for a file goes: the folder that was named, or beside the file.
    fn folder_for<'a>(&'a self, path: &'a Path) -> &'a Path {
        let beside = path.parent().unwrap_or(Path::new(""));
        self.write.as_deref().unwrap_or(beside)
    }
}

fn options() -> Option<Options> {
    let mut options = Options::new();
    let mut words = std::env::args_os().skip(1);
    while let Some(word) = words.next() {
        options.take(word, &mut words)?;
    }
    if options.order.files == 0 {
        options.order.files = options.order.codes.len();
    }
    let good = match options.verb {
        Verb::Make => options.words.len() == 1,
        Verb::Diff => options.words.len() == 2 && !options.of_make,
        _ => !options.words.is_empty() && !options.of_make,
    };
    good.then_some(options)
}

fn main() -> ExitCode {
    let Some(options) = options() else {
        eprintln!("{USAGE}");
        return ExitCode::from(2);
    };
    output::run("grade", |out| {
        if options.verb == Verb::Make {
            return make_files(&options.unit, &options.order, &options.words[0], out).map(|()| 0);
        }
        say_who(&options, out)?;
        match options.verb {
            Verb::Make => unreachable!("made above"),
            Verb::Judge => grade_all(&options, out),
            Verb::Tidy => tidy_all(&options, out),
            Verb::Diff => say_difference(&options.unit, &options.words[0], &options.words[1], out),
            Verb::Show => each_run(&options, out, |path, run, out| {
                writeln!(out, "{}", path.display())?;
                show(&options.unit, run, out)
            }),
            Verb::Write => each_run(&options, out, |path, run, out| {
                write_files(&options.unit, path, run, options.folder_for(path), out)
            }),
        }
    })
}

/// Nobody shall take the independent program's word for the unit's. Objects stand alone on standard output.
fn say_who(options: &Options, out: &mut dyn Write) -> io::Result<()> {
    const NOT_THE_UNIT: &str = "judged by the independent program, not by the unit";
    match options.unit {
        Unit::Replay(_) => Ok(()),
        Unit::Independent if options.json => writeln!(io::stderr(), "{NOT_THE_UNIT}"),
        Unit::Independent => writeln!(out, "{NOT_THE_UNIT}"),
    }
}

fn grade_all(options: &Options, out: &mut dyn Write) -> io::Result<u8> {
    let found = find_files(&options.words);
    let mut tally = Tally::default();
    let mut page = Page::new(match options.unit {
        Unit::Replay(_) => "the unit",
        Unit::Independent => "the independent program, not by the unit",
    });
    let mut take = |report: Report, image: &[u8]| {
        tally.add(&report.outcome);
        match options.json {
            true => writeln!(out, "{}", object(&report))?,
            false => write!(out, "{report}")?,
        }
        if let (Some(folder), Outcome::Accepted(_)) = (&options.write, &report.outcome) {
            keep(folder, &report.path, "kto", image)?;
        }
        if options.html.is_some() {
            page.add(report);
        }
        out.flush()
    };
    judge(&options.unit, &found.files, &mut take)?;
    for (path, error) in &found.unreadable {
        take(Report { path: path.clone(), outcome: Outcome::Unreadable(error.to_string()) }, &[])?;
    }
    if !options.json {
        say_all(&found, &tally, out)?;
    }
    if let Some(path) = &options.html {
        fs::write(path, page.text()).map_err(named(path))?;
    }
    Ok(match (tally.unreadable, tally.refused()) {
        (0, 0) => 0,
        (0, _) => 1,
        _ => 2,
    })
}

/// Tidies each file; those of folders are found as they are for judging.
fn tidy_all(options: &Options, out: &mut dyn Write) -> io::Result<u8> {
    let found = find_files(&options.words);
    let mut status = 0;
    for path in &found.files {
        status = status.max(tidy_file(&options.unit, path, options.folder_for(path), out)?);
        out.flush()?;
    }
    for (path, error) in &found.unreadable {
        writeln!(out, "{}: can't be read: {error}", path.display())?;
        status = 2;
    }
    Ok(status)
}

/// The tally where there are several files, and what was left aside.
fn say_all(found: &Found, tally: &Tally, out: &mut dyn Write) -> io::Result<()> {
    if found.files.len() > 1 {
        write!(out, "{tally}")?;
    }
    match found.left_aside {
        0 => Ok(()),
        1 => writeln!(out, "1 file whose name doesn't end in .xml was left aside; name it to have it judged"),
        many => {
            writeln!(out, "{many} files whose names don't end in .xml were left aside; name one to have it judged")
        }
    }
}

/// Does something with each run of images that is named; it says whether all is well with the run.
fn each_run(
    options: &Options,
    out: &mut dyn Write,
    act: impl Fn(&Path, &[u8], &mut dyn Write) -> io::Result<bool>,
) -> io::Result<u8> {
    let mut status = 0;
    for path in &options.words {
        let run = match fs::read(path) {
            Ok(run) => run,
            Err(error) => {
                writeln!(out, "{}: can't be read: {error}", path.display())?;
                status = 2;
                continue;
            }
        };
        if !act(path, &run, out)? {
            status = status.max(1);
        }
    }
    Ok(status)
}
