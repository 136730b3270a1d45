//! Lookup, an entry's word, and probing.

use crate::calls::{Caller, Outcome};
use crate::make::{self, Catalogue};
use crate::random::Random;

/// Bytes to look up: a word of the index, one beside it, or anything.
fn asked(random: &mut Random, catalogue: &Catalogue) -> Vec<u8> {
    let mut word = make::word(random);
    if !catalogue.words.is_empty() && !random.one_in(4) {
        word = random.pick(&catalogue.words).0.clone();
    }
    match random.below(10) {
        0 => word.truncate(word.len().saturating_sub(1)),
        1 => word.push(*random.pick(b"0aZ \n*")),
        2 => word.extend((0..random.below(40)).map(|_| b'a')),
        3 => word = random.pick(&[&b""[..], b"and", b"or", b"not", b" ", b"\0", b"\xff"]).to_vec(),
        4 if !word.is_empty() => *word.last_mut().unwrap() ^= 1 << random.below(8),
        5 => word = (0..random.below(40)).map(|_| random.cell() as u8).collect(),
        _ => {}
    }
    word
}

pub fn lookup(caller: &mut Caller, random: &mut Random) -> Outcome {
    let (catalogue, bytes) = make::index(random);
    let word = asked(random, &catalogue);
    caller.lookup(&bytes, &word)
}

/// An entry number: mostly one of the index, else just past it or far away.
pub fn entry(random: &mut Random, catalogue: &Catalogue) -> u32 {
    match random.below(8) {
        0 => catalogue.words.len() as u32 + random.below(2) as u32,
        1 if random.one_in(3) => random.cell(),
        _ => random.below(catalogue.words.len()) as u32,
    }
}

pub fn word(caller: &mut Caller, random: &mut Random) -> Outcome {
    let (catalogue, bytes) = make::index(random);
    let entry = entry(random, &catalogue);
    caller.word(&bytes, entry)
}

/// A bound of a probe: beside a bound of the list, or anything.
fn bound(random: &mut Random, catalogue: &Catalogue, entry: u32) -> u32 {
    match catalogue.words.get(entry as usize) {
        Some((_, list)) if !random.one_in(6) => {
            let (l, u) = *random.pick(list.intervals());
            let near = if random.one_in(2) { l } else { u };
            near.wrapping_add(random.below(3) as u32).wrapping_sub(1)
        }
        _ => random.cell(),
    }
}

pub fn probe(caller: &mut Caller, random: &mut Random) -> Outcome {
    let (catalogue, bytes) = make::index(random);
    for _ in 0..4 {
        let entry = entry(random, &catalogue);
        let (a, b) = (bound(random, &catalogue, entry), bound(random, &catalogue, entry));
        let (a, b) = if random.one_in(5) { (a, b) } else { (a.min(b), a.max(b)) };
        caller.probe(&bytes, entry, a, b)?;
    }
    Ok(())
}
