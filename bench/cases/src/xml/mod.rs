//! Texts for house XML alone: whole ones, and such that stop somewhere.

mod chosen;
mod made;

pub use chosen::{chosen, RICH};
pub use made::{mutate, whole};

use crate::random::Random;

/// The fixed set for programs in the gate: every prefix of [`RICH`], the chosen texts, and made ones, whole and damaged.
pub fn fixed_set() -> Vec<Vec<u8>> {
    let rich = RICH.as_bytes();
    let mut texts: Vec<Vec<u8>> = (0..=rich.len()).map(|length| rich[..length].to_vec()).collect();
    texts.extend(chosen());
    let mut random = Random::new(3);
    for _ in 0..20 {
        texts.push(whole(&mut random.branch()));
    }
    for _ in 0..150 {
        texts.push(damaged(&mut random.branch()));
    }
    texts
}

/// A made text with one to three mutations.
pub fn damaged(random: &mut Random) -> Vec<u8> {
    let mut text = whole(random);
    for _ in 0..random.between(1, 3) {
        mutate(&mut text, random);
    }
    text
}
