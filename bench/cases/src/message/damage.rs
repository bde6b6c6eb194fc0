//! Damage to a message's tree: one change that some code, or another, answers.

use independent::list::{Kind, Row, LISTS, STATEMENT};

use super::draft::{Draft, Part, Path};
use super::made::hint;
use crate::random::Random;
use crate::values;

/// Changes a draft in one place. Mostly a violation, now and then none.
pub fn damage(draft: &mut Draft, random: &mut Random) {
    let paths = draft.paths();
    let path = &paths[random.below(paths.len())];
    match random.below(20) {
        0 => leave_out(draft, path),
        1 => double(draft, path),
        2 => swap(draft, &paths, random),
        3 => rename(draft.at(path), random),
        4 => add_child(draft.at(path), random),
        5 => move_in(draft, &paths, path, random),
        6 => attributes(draft.at(path), random),
        7 => amount_attributes(draft, &paths, random),
        8 => text_in(draft.at(path), random),
        9 => empty(draft.at(path), random),
        10 | 11 => bad_value(draft, &paths, random),
        12..=14 => break_rule(draft, &paths, random),
        15 => second_choice(draft, &paths, random),
        16 if random.once_in(2) => root(draft, random),
        17 if random.once_in(2) => other_kind(draft, &paths, random),
        18 => old_code(draft, &paths, random),
        _ => leave_out_required(draft, &paths, random),
    }
}

/// Codes 8, 11 and 13.
fn leave_out(draft: &mut Draft, path: &Path) {
    if let Some((parts, index)) = draft.around(path) {
        parts.remove(index);
    }
}

/// Code 7, or nothing where the row repeats.
fn double(draft: &mut Draft, path: &Path) {
    if let Some((parts, index)) = draft.around(path) {
        let copy = parts[index].clone();
        parts.insert(index, copy);
    }
}

/// Code 6: two siblings of different names change places.
fn swap(draft: &mut Draft, paths: &[Path], random: &mut Random) {
    let mixed = |element: &Draft| names(element).any(|name| Some(name) != names(element).next());
    if let Some(path) = some_path(draft, paths, random, mixed) {
        let parts = &mut draft.at(&path).parts;
        let (one, other) = (random.below(parts.len()), random.below(parts.len()));
        parts.swap(one, other);
    }
}

/// The names of an element's children.
fn names(element: &Draft) -> impl Iterator<Item = &str> {
    element.parts.iter().filter_map(|part| match part {
        Part::Child(child) => Some(child.name.as_str()),
        Part::Text(_) => None,
    })
}

/// Codes 5, 6 and 7.
fn rename(element: &mut Draft, random: &mut Random) {
    element.name = any_name(random);
}

/// Code 5, also inside leaves; 6 and 7 where the name is one of the children's.
fn add_child(element: &mut Draft, random: &mut Random) {
    let name = any_name(random);
    let child = if random.once_in(2) { Draft::new(&name) } else { Draft::leaf(&name, "1") };
    element.parts.insert(random.below(element.parts.len() + 1), Part::Child(child));
}

/// Any of 5 to 9: an element from elsewhere.
fn move_in(draft: &mut Draft, paths: &[Path], path: &Path, random: &mut Random) {
    let copy = draft.at(&paths[random.below(paths.len())]).clone();
    let parts = &mut draft.at(path).parts;
    parts.insert(random.below(parts.len() + 1), Part::Child(copy));
}

/// Code 9, at the root 4.
fn attributes(element: &mut Draft, random: &mut Random) {
    let name = random.one_of(&["Ccy", "xmlns", "a", "ccy", "a:b", "xmlns:xsi", "xsi:schemaLocation", "xsi:type"]);
    let raw = random.one_of(&["EUR", "", STATEMENT.namespace, "&amp;"]);
    if element.attributes.iter().all(|(other, _)| other != name) {
        element.attributes.push((name.to_string(), raw.to_string()));
    }
}

/// Code 9 at an amount.
fn amount_attributes(draft: &mut Draft, paths: &[Path], random: &mut Random) {
    let Some(path) = some_path(draft, paths, random, |element| element.name == "Amt") else {
        return;
    };
    let attributes = &mut draft.at(&path).attributes;
    match random.below(5) {
        0 => attributes.clear(),
        1 => attributes.push((random.one_of(&["a", "xmlns:xsi"]).to_string(), "EUR".to_string())),
        2 => attributes.iter_mut().for_each(|attribute| attribute.0 = random.one_of(&["ccy", "a:Ccy"]).to_string()),
        _ => {
            let raw = random.one_of(&["", "EU", "EURO", "eur", " EUR", "EUR ", "E&amp;R", "ÄUR", "EU1", "€"]);
            attributes.iter_mut().for_each(|attribute| attribute.1 = raw.to_string());
        }
    }
}

/// Code 10 in a group; in a leaf more text, so 12 or nothing.
fn text_in(element: &mut Draft, random: &mut Random) {
    let text = random.one_of(&["x", " x", "\n\t €", "&amp;", "\u{a0}", "0", " ", "]]", ">"]);
    element.parts.insert(random.below(element.parts.len() + 1), Part::Text(text.to_string()));
}

/// Code 11, or blanks only: 11 in a group, 12 in a leaf.
fn empty(element: &mut Draft, random: &mut Random) {
    element.parts.clear();
    if random.once_in(3) {
        element.parts.push(Part::Text(" \n".to_string()));
    }
}

/// Code 12.
fn bad_value(draft: &mut Draft, paths: &[Path], random: &mut Random) {
    let Some(path) = some_path(draft, paths, random, Draft::is_leaf) else {
        return;
    };
    if let Some(row) = row_at(draft, &path).filter(|row| row.kind.is_leaf()) {
        draft.at(&path).parts = vec![Part::Text(values::made::doubtful(row.kind, random))];
    }
}

/// Code 13: one of the two left out, or put in where there is none.
fn break_rule(draft: &mut Draft, paths: &[Path], random: &mut Random) {
    let Some(path) = some_path(draft, paths, random, |element| element.name == "TxDtls") else {
        return leave_out_required(draft, paths, random);
    };
    let details = draft.at(&path);
    let first = random.once_in(2);
    if names(details).any(|name| name == "Amt") {
        let left_out = if first { "Amt" } else { "CdtDbtInd" };
        details.parts.retain(|part| !matches!(part, Part::Child(child) if child.name == left_out));
    } else {
        let alone =
            if first { Draft::leaf("Amt", "1").attribute("Ccy", "EUR") } else { Draft::leaf("CdtDbtInd", "CRDT") };
        let behind_references = usize::from(names(details).next() == Some("Refs"));
        details.parts.insert(behind_references, Part::Child(alone));
    }
}

/// Code 7 in the choice, or 5.
fn second_choice(draft: &mut Draft, paths: &[Path], random: &mut Random) {
    let is_choice = |row: Option<&Row>| row.is_some_and(|row| row.kind == Kind::Choice);
    let choices: Vec<&Path> = paths.iter().filter(|path| is_choice(row_at(draft, path))).collect();
    if choices.is_empty() {
        return;
    }
    let other = match random.below(3) {
        0 => Draft::leaf("IBAN", "AT611"),
        1 => Draft { parts: vec![Part::Child(Draft::leaf("Id", "9"))], ..Draft::new("Othr") },
        _ => Draft::leaf("Prtry", "9"),
    };
    let parts = &mut draft.at(choices[random.below(choices.len())]).parts;
    parts.insert(random.below(parts.len() + 1), Part::Child(other));
}

/// Code 4, but for a hint that the root may carry, or may be without.
fn root(draft: &mut Draft, random: &mut Random) {
    match random.below(10) {
        0 => draft.name = random.one_of(&["document", "Documen", "Documents", "BkToCstmrStmt"]).to_string(),
        1 => draft.attributes.clear(),
        2 => draft.attributes.push(("a".to_string(), "b".to_string())),
        3 => rename_attribute(draft, "XMLNS", random),
        4 if !draft.attributes.is_empty() => drop(draft.attributes.remove(random.below(draft.attributes.len()))),
        5 => other_hint("xsi:schemaLocation", draft, random),
        6 => {
            let near = ["xmlns:xs", "xmlns:x", "xsi:type", "xsi:noNamespaceSchemaLocation", "xsi", "schemaLocation"];
            let name = random.one_of(&near).to_string();
            other_hint(&name, draft, random);
        }
        7 => {
            let near =
                ["xmlns:XSI", "xmlns:xsi2", "x:schemaLocation", "xsi:schemalocation", "xsi:schemaLocation.", "xmlns"];
            let name = random.one_of(&near).to_string();
            rename_attribute(draft, &name, random);
        }
        // Code 5: the list of the other kind.
        8 => {
            let space = random.one_of(&LISTS.map(|list| list.namespace));
            draft.attributes.iter_mut().for_each(|attribute| attribute.1 = space.to_string());
        }
        _ => {
            let others = [
                "urn:iso:std:iso:20022:tech:xsd:camt.052.001.02",
                "urn:iso:std:iso:20022:tech:xsd:camt.052.001.080",
                "urn:iso:std:iso:20022:tech:xsd:camt.054.001.08",
                "urn:iso:std:iso:20022:tech:xsd:camt.053.001.02",
                "urn:iso:std:iso:20022:tech:xsd:camt.053.001.0",
                "urn:iso:std:iso:20022:tech:xsd:camt.053.001.080",
                " urn:iso:std:iso:20022:tech:xsd:camt.053.001.08",
                "",
            ];
            let raw = random.one_of(&others);
            draft.attributes.iter_mut().for_each(|attribute| attribute.1 = raw.to_string());
        }
    }
}

/// Code 5 or 12: a name, or a word, that the list of the other kind has in this place.
fn other_kind(draft: &mut Draft, paths: &[Path], random: &mut Random) {
    let names = [("BkToCstmrStmt", "BkToCstmrAcctRpt"), ("Stmt", "Rpt")];
    let other = |name: &str| {
        let found = names.iter().find(|(one, two)| [one, two].contains(&&name));
        found.map(|(one, two)| if *one == name { *two } else { *one })
    };
    match random.below(3) {
        0 => {
            let renamed = some_path(draft, paths, random, |element| ["Stmt", "Rpt"].contains(&element.name.as_str()));
            if let Some(element) = renamed.map(|path| draft.at(&path)) {
                element.name = other(&element.name).expect("one of the two").to_string();
            }
        }
        1 => {
            if let Some(Part::Child(body)) = draft.parts.first_mut() {
                body.name = other(&body.name).unwrap_or("BkToCstmrRpt").to_string();
            }
        }
        _ => {
            let word = random.one_of(&["ITBD", "PDNG"]);
            let is_word = |element: &Draft| element.name == "Cd" && element.is_leaf();
            if let Some(path) = some_path(draft, paths, random, is_word) {
                draft.at(&path).parts = vec![Part::Text(word.to_string())];
            }
        }
    }
}

/// Code 5: an old transaction code alone, or before or after the present one.
fn old_code(draft: &mut Draft, paths: &[Path], random: &mut Random) {
    let Some(path) = some_path(draft, paths, random, |element| element.name == "BkTxCd") else {
        return leave_out_required(draft, paths, random);
    };
    let code = Draft::leaf("Cd", &values::made::valid(Kind::Txt(35), random));
    let old = Draft { parts: vec![Part::Child(code)], ..Draft::new("Prtry") };
    let parts = &mut draft.at(&path).parts;
    if random.once_in(3) {
        parts.clear();
    }
    parts.insert(random.below(parts.len() + 1), Part::Child(old));
}

/// One attribute gets this name, if no other has it.
fn rename_attribute(element: &mut Draft, name: &str, random: &mut Random) {
    if element.attributes.iter().all(|(other, _)| other != name) && !element.attributes.is_empty() {
        let index = random.below(element.attributes.len());
        element.attributes[index].0 = name.to_string();
    }
}

/// An attribute of this name besides the others, if none of them has it.
fn other_hint(name: &str, root: &mut Draft, random: &mut Random) {
    if root.attributes.iter().all(|(other, _)| other != name) {
        hint(name, root, random);
    }
}

/// Code 8.
fn leave_out_required(draft: &mut Draft, paths: &[Path], random: &mut Random) {
    let required = |row: Option<&Row>| row.is_some_and(|row| row.count.required && row.number > 2);
    let candidates: Vec<&Path> = paths.iter().filter(|path| required(row_at(draft, path))).collect();
    if !candidates.is_empty() {
        leave_out(draft, candidates[random.below(candidates.len())]);
    }
}

/// A name of either list, or one that looks like it.
fn any_name(random: &mut Random) -> String {
    let list = random.one_of(&LISTS);
    match random.below(5) {
        0 => random.one_of(&["Xyz", "id", "Nm2", "Ccyy", "_", "Document", "Stmt", "Rpt"]).to_string(),
        _ => list.rows[random.below(list.rows.len())].name.to_string(),
    }
}

fn some_path(draft: &mut Draft, paths: &[Path], random: &mut Random, wanted: fn(&Draft) -> bool) -> Option<Path> {
    let found: Vec<&Path> = paths.iter().filter(|path| wanted(draft.at(path))).collect();
    if found.is_empty() {
        return None;
    }
    Some(found[random.below(found.len())].clone())
}

/// The row of an element by the names on its way, if it has one in the list that the root's namespace chooses.
fn row_at(draft: &Draft, path: &[usize]) -> Option<&'static Row> {
    let list = draft.list()?;
    let mut element = draft;
    let mut row = list.root();
    for index in path {
        let Part::Child(child) = &element.parts[*index] else {
            return None;
        };
        element = child;
        row = list.file_children(row.number).find(|row| row.name == element.name)?;
    }
    Some(row)
}
