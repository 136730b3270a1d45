//! The families of cases. Each draws one case from a seed; `limits` and `rules` run a fixed table instead.

pub mod ask;
pub mod build;
pub mod convert;
pub mod entries;
pub mod join;
pub mod limits;
pub mod orders;
pub mod rules;

use crate::calls::{Caller, Outcome};
use crate::example::example;
use crate::make;
use crate::random::Random;
use crate::reference::question::{ask, RULES};
use crate::reference::set::Set;
use crate::reference::Answer;

pub struct Family {
    pub name: &'static str,
    /// Cases of a whole run; a family with a fixed table has one.
    pub cases: u64,
    pub run: fn(&mut Caller, &mut Random) -> Outcome,
}

pub static FAMILIES: [Family; 14] = [
    Family { name: "check", cases: 200_000, run: check },
    Family { name: "damage", cases: 200, run: damage },
    Family { name: "lookup", cases: 100_000, run: entries::lookup },
    Family { name: "word", cases: 60_000, run: entries::word },
    Family { name: "probe", cases: 100_000, run: entries::probe },
    Family { name: "union", cases: 100_000, run: join::union },
    Family { name: "intersection", cases: 100_000, run: join::intersection },
    Family { name: "uneven", cases: 5_000, run: join::uneven },
    Family { name: "ask", cases: 200_000, run: ask::run },
    Family { name: "orders", cases: orders::ORDERS, run: orders::run },
    Family { name: "convert", cases: 200_000, run: convert::run },
    Family { name: "build", cases: 100_000, run: build::run },
    Family { name: "limits", cases: 1, run: limits::run },
    Family { name: "rules", cases: 1, run: rules::run },
];

/// A room for an answer that takes so many elements, each so many at once: exact, one less, one more, none, plenty.
pub fn room(random: &mut Random, needed: usize, each: usize) -> usize {
    let exact = needed * each;
    match random.below(7) {
        0 => exact.saturating_sub(1),
        1 => exact + 1,
        2 => exact.saturating_sub(each),
        3 => random.below(exact + 1),
        4 => exact + random.below(40),
        _ => exact,
    }
}

/// Rooms of a fixed table for an answer of so many cells: exact, one more, one less, one interval less, none.
fn rooms(needed: usize) -> [usize; 5] {
    [needed, needed + 1, needed.saturating_sub(1), needed.saturating_sub(2), 0]
}

/// The cells that an answer takes.
fn needed(answer: Answer<Set>) -> usize {
    answer.map_or(0, |answer| answer.cells().len())
}

/// A question by both rules, with each of these rooms. By either it has the same refusal.
fn asked(caller: &mut Caller, index: &[u8], question: &[u8]) -> Outcome {
    let [one, two] = RULES.map(|rule| ask(index, rule, question));
    assert!(one.as_ref().err() == two.as_ref().err(), "by rule 1 {one:?}, by rule 2 {two:?}");
    for (rule, answer) in RULES.into_iter().zip([one, two]) {
        for room in rooms(needed(answer)) {
            caller.ask(index, rule, question, room)?;
        }
    }
    Ok(())
}

fn check(caller: &mut Caller, random: &mut Random) -> Outcome {
    caller.check(&make::doubtful_index(random))
}

/// Each bit of a small sound index flipped, one at a time, each byte set to its ends, each length cut: all calls over an index.
fn damage(caller: &mut Caller, random: &mut Random) -> Outcome {
    let mut bytes = if random.one_in(10) { example() } else { small(random) };
    caller.check(&bytes)?;
    for place in 0..bytes.len() {
        let old = bytes[place];
        let flips = (0..8).map(|bit| old ^ (1 << bit));
        for new in flips.chain([0, 255, b'A', b'z', b' ']) {
            bytes[place] = new;
            caller.check(&bytes)?;
        }
        one_of_each(caller, random, &bytes)?;
        bytes[place] = old;
    }
    for length in 0..bytes.len() {
        caller.check(&bytes[..length])?;
        caller.check(&bytes[bytes.len() - length..])?;
    }
    Ok(())
}

fn small(random: &mut Random) -> Vec<u8> {
    loop {
        let bytes = make::catalogue(random).encode();
        if (20..400).contains(&bytes.len()) {
            return bytes;
        }
    }
}

fn one_of_each(caller: &mut Caller, random: &mut Random, bytes: &[u8]) -> Outcome {
    let entry = random.below(5) as u32;
    caller.lookup(bytes, &make::word(random))?;
    caller.word(bytes, entry)?;
    caller.probe(bytes, entry, 2, 9)?;
    caller.join(bytes, crate::reference::join::Join::Union, &[0, entry], 9)?;
    caller.join(bytes, crate::reference::join::Join::Intersection, &[entry, 0], 9)?;
    RULES.iter().try_for_each(|&rule| caller.ask(bytes, rule, b"boats or a not (Z and A)", 64))
}
