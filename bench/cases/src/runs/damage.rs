//! Damage to runs, from a seed.

use independent::list::{List, RULE_FIRST, RULE_ROW, RULE_SECOND};
use independent::read::first_image;

use super::chosen::odd_values;
use super::{front_of, put_together, take_apart};
use crate::random::Random;
use crate::xml::mutate;

/// A run made of this image with one to three changes to its items, or to its bytes; now and then with another front.
pub fn damaged(image: &[u8], random: &mut Random) -> Vec<u8> {
    let list = first_image(image).expect("an image").list;
    let mut items = take_apart(image);
    if random.once_in(10) {
        return put_together(random.one_of(&FRONTS), &items);
    }
    let changes = random.between(1, 3);
    if random.once_in(3) {
        let mut run = image.to_vec();
        (0..changes).for_each(|_| change_bytes(&mut run, random));
        return run;
    }
    (0..changes).for_each(|_| change_items(list, &mut items, random));
    let mut run = put_together(front_of(image), &items);
    if random.once_in(6) {
        run.truncate(random.below(run.len() + 1));
    }
    run
}

/// Good fronts, of this version and kind or of another one, and bad ones.
const FRONTS: [&[u8]; 15] = [
    b"KTO\x00\x01", b"KTO\x00\x02\x01", b"KTO\x00\x02\x02", b"KTO\x00\x02", b"KTO\x00\x02\x00", b"KTO\x00\x02\x03",
    b"KTO\x00\x02\xff", b"KTO\x00\x01\x01", b"KTO\x00\x01\x02", b"KTO\x00\x00\x01", b"KTO\x00\x03\x01", b"KTO\x00\x03",
    b"KTO\x01\x00\x01", b"KTO\x01\x02\x02", b"KTo\x00\x02\x01",
];

fn change_items(list: &List, items: &mut Vec<Vec<u8>>, random: &mut Random) {
    if items.is_empty() {
        return;
    }
    let index = random.below(items.len());
    let other = random.below(items.len());
    match random.below(9) {
        0 => drop(items.remove(index)),
        1 => items.insert(index, items[other].clone()),
        2 => items.swap(index, other),
        3 if index + 1 < items.len() => items.swap(index, index + 1),
        4 => items.truncate(index),
        5 => items[index][0] = random.below(60) as u8,
        6 => items.insert(index, vec![random.below(256) as u8]),
        7 => break_rule(items, random),
        _ => odd_value(list, &mut items[index], random),
    }
}

/// Leaves out an amount or an indicator of a TxDtls, or puts one in behind its beginning.
fn break_rule(items: &mut Vec<Vec<u8>>, random: &mut Random) {
    let of_rule: Vec<usize> =
        (0..items.len()).filter(|at| [RULE_FIRST, RULE_SECOND].contains(&items[*at][0])).collect();
    if !of_rule.is_empty() && random.once_in(2) {
        items.remove(of_rule[random.below(of_rule.len())]);
    } else if let Some(details) = items.iter().rposition(|item| item[0] == RULE_ROW) {
        items.insert(details + 1, vec![RULE_SECOND, 1]);
    }
}

/// Puts a value at the edge of its kind into an item, if it is a leaf's.
fn odd_value(list: &List, item: &mut Vec<u8>, random: &mut Random) {
    let Some(row) = list.find(item[0]) else {
        return;
    };
    let values = odd_values(row.kind);
    if !values.is_empty() {
        item.truncate(1);
        item.extend(&values[random.below(values.len())]);
    }
}

fn change_bytes(run: &mut Vec<u8>, random: &mut Random) {
    if run.is_empty() {
        return;
    }
    let index = random.below(run.len());
    match random.below(5) {
        0 => run[index] = random.below(256) as u8,
        1 => run[index] = random.below(60) as u8,
        2 => run[random.below(6).min(index)] ^= 1 << random.below(8),
        3 => run.truncate(index),
        _ => mutate(run, random),
    }
}
