//! Valid messages made from a seed: every row, type, optional element and count.

use independent::list::{Kind, List, Row, REPORT, RULE_FIRST, RULE_SECOND, STATEMENT};

use super::draft::{Draft, Part};
use crate::random::Random;
use crate::values;

/// How large a made message is.
#[derive(Clone, Copy, PartialEq, Eq, Debug)]
pub enum Size {
    /// Mostly what is required.
    Small,
    /// Half of what is optional, a few of what repeats.
    Medium,
    /// Many of what repeats.
    Large,
}

/// A message of either kind that meets its list: of three, two are statements.
pub fn valid(random: &mut Random, size: Size) -> Draft {
    let list = if random.once_in(3) { &REPORT } else { &STATEMENT };
    let mut draft = group(list, list.root(), random, size).attribute("xmlns", list.namespace);
    if random.once_in(4) {
        hint("xmlns:xsi", &mut draft, random);
        if random.once_in(2) {
            hint("xsi:schemaLocation", &mut draft, random);
        }
    }
    draft
}

/// Puts a schema hint before, between or after the attributes of a root, "with any text".
pub fn hint(name: &str, root: &mut Draft, random: &mut Random) {
    let texts = [
        "http://www.w3.org/2001/XMLSchema-instance", "", "a b", " ", "&lt;xsi&gt;", "ä€", STATEMENT.namespace,
        REPORT.namespace, ":",
    ];
    let attribute = (name.to_string(), random.one_of(&texts).to_string());
    root.attributes.insert(random.below(root.attributes.len() + 1), attribute);
}

fn element(list: &List, row: &Row, random: &mut Random, size: Size) -> Draft {
    match row.kind {
        Kind::Group | Kind::Choice => group(list, row, random, size),
        Kind::Amt => {
            let currency = values::made::valid(Kind::Ccy, random);
            Draft::leaf(row.name, &values::made::valid(Kind::Amt, random)).attribute("Ccy", &currency)
        }
        kind => Draft::leaf(row.name, &values::made::valid(kind, random)),
    }
}

/// Every group gets at least one child, a choice exactly one, rows 47 and 48 come together or not at all.
fn group(list: &List, row: &Row, random: &mut Random, size: Size) -> Draft {
    let rows: Vec<&Row> = list.file_children(row.number).collect();
    let forced = random.below(rows.len());
    let both = chosen(random, size);
    let mut draft = Draft::new(row.name);
    for (index, child) in rows.iter().enumerate() {
        let count = match child.number {
            _ if row.kind == Kind::Choice => usize::from(index == forced),
            RULE_FIRST | RULE_SECOND => usize::from(both),
            _ => times(child, random, size),
        };
        for _ in 0..count {
            draft.parts.push(Part::Child(element(list, child, random, size)));
        }
    }
    if draft.parts.is_empty() {
        let only = rows.iter().find(|child| ![RULE_FIRST, RULE_SECOND].contains(&child.number));
        draft.parts.push(Part::Child(element(list, only.expect("an optional child"), random, size)));
    }
    draft
}

fn times(row: &Row, random: &mut Random, size: Size) -> usize {
    let least = usize::from(row.count.required);
    match (row.count.repeats, size) {
        (false, _) => least.max(usize::from(chosen(random, size))),
        (true, Size::Small) => least.max(usize::from(!random.once_in(3))),
        (true, Size::Medium) => least.max(random.below(3)),
        (true, Size::Large) => least.max(random.below(6)),
    }
}

fn chosen(random: &mut Random, size: Size) -> bool {
    random.once_in(if size == Size::Small { 4 } else { 2 })
}
