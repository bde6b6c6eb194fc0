//! `compare [--seed S] [--cases N] ..`: has the unit and the independent program answer the same cases, and shows the first
//! difference. Exit status: 0 none, 1 a difference, 2 a fault of its own.

use std::fs;
use std::io::{self, Write};
use std::path::PathBuf;
use std::process::ExitCode;
use std::time::{Instant, SystemTime, UNIX_EPOCH};

use cases::feed::ALL_OPS;
use tools::compare::{compare, Asked, What};
use tools::output::{self, named};
use tools::unit::{Unit, KNOWN_OPS};

struct Options {
    asked: Asked,
    keep: Option<PathBuf>,
    unit: Unit,
}

const USAGE: &str =
    "usage: compare [--seed S | --lane] [--cases N] [--first I] [--ops LIST] [--keep FILE] [--replay PATH | --independent]
  --seed S       the seed of the cases (a fresh one without it)
  --lane         in their place the files for the lane, each also for the exact passes alone: all, or N of them
  --cases N      how many (20000)
  --first I      the number of the first case (0)
  --ops LIST     the ops that are asked for, as 0,1,2 (those that the unit knows): 0 check, 1 read, 2 pick, 3 write
  --keep FILE    where to write the bytes of a case that differs
  --replay PATH  the proved program replay (crates/replay/out/replay, or what REPLAY names)
  --independent  the independent program in place of the unit, to try compare itself";

fn options() -> Option<Options> {
    let fresh = SystemTime::now().duration_since(UNIX_EPOCH).map_or(1, |time| time.as_nanos() as u64 % 1_000_000_000);
    let path = std::env::var("REPLAY").unwrap_or("crates/replay/out/replay".to_string());
    let (mut known, mut seed, mut lane, mut count) = (KNOWN_OPS.to_vec(), fresh, false, None);
    let asked = Asked { what: What::Lane, first: 0, count: 0 };
    let mut options = Options { asked, keep: None, unit: Unit::Replay(path.into()) };
    let mut words = std::env::args().skip(1);
    while let Some(word) = words.next() {
        match word.as_str() {
            "--seed" => seed = words.next()?.parse().ok()?,
            "--lane" => lane = true,
            "--cases" => count = Some(words.next()?.parse().ok()?),
            "--first" => options.asked.first = words.next()?.parse().ok()?,
            "--ops" => known = ops(&words.next()?)?,
            "--keep" => options.keep = Some(words.next()?.into()),
            "--replay" => options.unit = Unit::Replay(words.next()?.into()),
            "--independent" => options.unit = Unit::Independent,
            _ => return None,
        }
    }
    if !lane {
        options.asked.what = What::Seed { ops: known, seed };
    }
    options.asked.count = count.unwrap_or(if lane { u64::MAX } else { 20_000 });
    Some(options)
}

/// Ops that the independent program answers.
fn ops(list: &str) -> Option<Vec<u8>> {
    list.split(',').map(|op| op.parse().ok().filter(|op| ALL_OPS.contains(op))).collect()
}

fn main() -> ExitCode {
    let Some(options) = options() else {
        eprintln!("{USAGE}");
        return ExitCode::from(2);
    };
    output::run("compare", |out| compare_all(&options, out))
}

fn compare_all(Options { asked, keep, unit }: &Options, out: &mut dyn Write) -> io::Result<u8> {
    let who = match unit {
        Unit::Replay(path) => path.display().to_string(),
        Unit::Independent => "the independent program itself".to_string(),
    };
    match &asked.what {
        What::Seed { seed, .. } => writeln!(out, "seed {seed}, {} cases, asked: {who}", asked.count)?,
        What::Lane => writeln!(out, "the files for the lane, asked: {who}")?,
    }
    out.flush()?;
    let start = Instant::now();
    let found = compare(unit, asked)?;
    write!(out, "{found}")?;
    let seconds = start.elapsed().as_secs_f32();
    let Some(difference) = &found.difference else {
        writeln!(out, "{} cases, no difference, {seconds:.1} s", found.compared)?;
        if asked.first == 0 && asked.count >= 20_000 && !found.unreached().is_empty() {
            writeln!(out, "but these codes were never the answer: {:?}", found.unreached())?;
            return Ok(2);
        }
        return Ok(0);
    };
    writeln!(out, "a difference after {} cases, {seconds:.1} s", found.compared)?;
    write!(out, "{difference}")?;
    writeln!(out, "  again: compare {}", again(asked, difference.number))?;
    if let Some(path) = keep {
        fs::write(path, &difference.case.bytes).map_err(named(path))?;
        writeln!(out, "  its bytes are in {}", path.display())?;
    }
    Ok(1)
}

/// The words that ask for one case again.
fn again(asked: &Asked, number: u64) -> String {
    match &asked.what {
        What::Lane => format!("--lane --first {number} --cases 1"),
        What::Seed { ops, seed } if ops == KNOWN_OPS => format!("--seed {seed} --first {number} --cases 1"),
        What::Seed { ops, seed } => {
            let ops: Vec<String> = ops.iter().map(u8::to_string).collect();
            format!("--seed {seed} --first {number} --cases 1 --ops {}", ops.join(","))
        }
    }
}
