//! The unit and the independent program over many cases of one seed, or over those for the lane.

use std::collections::{BTreeMap, BTreeSet};
use std::fmt;
use std::io;
use std::ops::ControlFlow;

use cases::any::{Class, Source};
use cases::feed::codes;
use independent::Code;

use crate::difference::Difference;
use crate::unit::Unit;

/// What is compared, from the first case on, so many.
#[derive(Clone, Debug)]
pub struct Asked {
    pub what: What,
    pub first: u64,
    pub count: u64,
}

#[derive(Clone, PartialEq, Eq, Debug)]
pub enum What {
    /// The cases of a seed that ask for these ops.
    Seed { ops: Vec<u8>, seed: u64 },
    /// The fixed set of files for the lane and for the exact passes.
    Lane,
}

impl What {
    fn source(&self) -> Source {
        match self {
            What::Seed { ops, seed } => Source::new(ops, *seed),
            What::Lane => Source::lane(),
        }
    }

    /// The codes that can be the answer. No file for the lane is too long.
    fn codes(&self) -> BTreeSet<u8> {
        match self {
            What::Seed { ops, .. } => ops.iter().flat_map(|op| codes(*op)).copied().collect(),
            What::Lane => codes(0).iter().copied().filter(|code| *code != 1).collect(),
        }
    }
}

/// What a comparison found.
pub struct Comparison {
    source: Source,
    /// How many cases were compared, and equal but for the difference.
    pub compared: u64,
    pub difference: Option<Difference>,
    /// How often each code was the answer; each that the ops can answer with is there.
    codes: BTreeMap<u8, u64>,
    classes: BTreeMap<Class, u64>,
}

/// Compares case by case, and stops at the first difference.
pub fn compare(unit: &Unit, asked: &Asked) -> io::Result<Comparison> {
    let mut found = Comparison::new(&asked.what);
    let source = found.source.clone();
    let first = asked.first;
    let count = source.count().map_or(asked.count, |most| asked.count.min(most.saturating_sub(first)));
    unit.answer(
        count,
        |number| source.case(first + number).1,
        |number, line| {
            if number == count {
                let nothing = "no further line".to_string();
                found.difference = Some(found.differs(first + number - 1, line, Some(nothing)));
                return ControlFlow::Break(());
            }
            found.take(first + number, line)
        },
    )?;
    if found.difference.is_none() && found.compared < count {
        found.difference = Some(found.differs(first + found.compared, "no line".to_string(), None));
    }
    Ok(found)
}

impl Comparison {
    fn new(what: &What) -> Comparison {
        Comparison {
            source: what.source(),
            compared: 0,
            difference: None,
            codes: what.codes().into_iter().map(|code| (code, 0)).collect(),
            classes: BTreeMap::new(),
        }
    }

    /// Compares the unit's line with the independent program's.
    fn take(&mut self, number: u64, unit: String) -> ControlFlow<()> {
        let (class, case) = self.source.case(number);
        let independent = case.line();
        self.compared += 1;
        *self.classes.entry(class).or_default() += 1;
        let code = independent.split(' ').next().and_then(|code| code.parse().ok()).expect("a line begins with a code");
        *self.codes.entry(code).or_default() += 1;
        if unit == independent {
            return ControlFlow::Continue(());
        }
        self.difference = Some(self.differs(number, unit, Some(independent)));
        ControlFlow::Break(())
    }

    /// The difference at a case. Without the independent program's line it is asked once more.
    fn differs(&self, number: u64, unit: String, independent: Option<String>) -> Difference {
        let (class, case) = self.source.case(number);
        let independent = independent.unwrap_or_else(|| case.line());
        Difference { number, class: class.name(), case, unit, independent }
    }

    /// The codes that can be the answer and never were.
    pub fn unreached(&self) -> Vec<u8> {
        self.codes.iter().filter(|(_, count)| **count == 0).map(|(code, _)| *code).collect()
    }
}

/// How often each class was asked, and each code answered.
impl fmt::Display for Comparison {
    fn fmt(&self, f: &mut fmt::Formatter) -> fmt::Result {
        for (class, count) in &self.classes {
            writeln!(f, "  {count:>8}  {}", class.name())?;
        }
        writeln!(f, "by answer:")?;
        for (code, count) in &self.codes {
            writeln!(f, "  {count:>8}  {code:>2} {}", Code::from_number(*code).map_or("", Code::name))?;
        }
        Ok(())
    }
}

#[cfg(test)]
mod tests {
    use super::*;
    use cases::feed::ALL_OPS;

    fn asked(count: u64) -> Asked {
        Asked { what: What::Seed { ops: ALL_OPS.to_vec(), seed: 1 }, first: 0, count }
    }

    #[test]
    fn the_independent_program_agrees_with_itself() {
        let found = compare(&Unit::Independent, &asked(300)).unwrap();
        assert_eq!(found.compared, 300);
        assert!(found.difference.is_none());
        assert!(found.unreached().contains(&1), "300 cases have none over the limit");
    }

    #[test]
    fn the_cases_for_the_lane_end_and_reach_every_code() {
        let all = Asked { what: What::Lane, first: 0, count: u64::MAX };
        let found = compare(&Unit::Independent, &all).unwrap();
        assert_eq!(Some(found.compared), found.source.count());
        assert!(found.difference.is_none() && found.unreached().is_empty(), "{:?}", found.unreached());
        let last = compare(&Unit::Independent, &Asked { first: found.compared - 2, ..all.clone() }).unwrap();
        let behind = compare(&Unit::Independent, &Asked { first: found.compared + 1, ..all }).unwrap();
        assert_eq!((last.compared, behind.compared), (2, 0));
    }

    #[test]
    fn another_line_is_a_difference() {
        let mut found = Comparison::new(&asked(6).what);
        let right = found.source.case(5).1.line();
        assert!(found.take(5, right.clone()).is_continue());
        assert!(found.take(5, right + "00").is_break());
        assert_eq!(found.difference.unwrap().number, 5);
    }
}
