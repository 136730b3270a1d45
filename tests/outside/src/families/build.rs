//! Building: what was drawn, and every way to refuse it.

use super::room;
use crate::calls::{Caller, Outcome};
use crate::make::{self, Catalogue};
use crate::random::Random;
use crate::reference::build::build;

struct Lent {
    highest: u32,
    words: Vec<Vec<u8>>,
    counts: Vec<u32>,
    numbers: Vec<u32>,
}

fn draw(random: &mut Random) -> Catalogue {
    loop {
        let catalogue = make::catalogue(random);
        if catalogue.words.iter().map(|(_, list)| list.records()).sum::<u64>() < 30_000 {
            return catalogue;
        }
    }
}

fn lend(catalogue: &Catalogue) -> Lent {
    Lent {
        highest: catalogue.highest,
        words: catalogue.words.iter().map(|(word, _)| [&word[..], b"\n"].concat()).collect(),
        counts: catalogue.words.iter().map(|(_, list)| list.records() as u32).collect(),
        numbers: catalogue.words.iter().flat_map(|(_, list)| list.numbers()).collect(),
    }
}

fn disturb_words(random: &mut Random, words: &mut Vec<Vec<u8>>) {
    let at = random.below(words.len());
    match random.below(8) {
        0 if !words.is_empty() => drop(words[at].pop()),
        1 if !words.is_empty() => words.insert(at, words[at].clone()),
        2 if words.len() > 1 => words.swap(0, at),
        3 if random.one_in(4) => words.insert(at, b"\n".to_vec()),
        3 => words.insert(at, [make::operator(random), b"\n".to_vec()].concat()),
        4 => words.insert(at, [vec![b'b'; 31 + random.below(4)], b"\n".to_vec()].concat()),
        5 if !words.is_empty() && !words[at].is_empty() => {
            let place = random.below(words[at].len());
            words[at][place] = *random.pick(b" @[`{/:\n\0\xff*A");
        }
        6 if !words.is_empty() => drop(words.remove(at)),
        _ => words.push(make::word(random)),
    }
}

fn disturb_counts(random: &mut Random, counts: &mut Vec<u32>) {
    let at = random.below(counts.len());
    match random.below(7) {
        0 if !counts.is_empty() => counts[at] = 0,
        1 if !counts.is_empty() => counts[at] = counts[at].wrapping_add(1),
        2 if !counts.is_empty() => counts[at] = counts[at].wrapping_sub(1),
        3 if !counts.is_empty() => counts[at] = random.cell(),
        4 if !counts.is_empty() => drop(counts.remove(at)),
        5 => counts.insert(at, random.below(3) as u32),
        _ => counts.push(random.below(3) as u32),
    }
}

fn disturb_numbers(random: &mut Random, numbers: &mut Vec<u32>) {
    let at = random.below(numbers.len());
    match random.below(6) {
        0 if !numbers.is_empty() => numbers[at] = random.cell(),
        1 if numbers.len() > 1 => numbers.swap(0, at),
        2 if at > 0 => numbers[at] = numbers[at - 1],
        3 if !numbers.is_empty() => drop(numbers.remove(at)),
        4 if !numbers.is_empty() => numbers[at] = 0,
        _ => numbers.push(1),
    }
}

fn disturb_highest(random: &mut Random, lent: &mut Lent) {
    lent.highest = match random.below(3) {
        0 => random.cell(),
        1 => lent.numbers.iter().copied().max().unwrap_or(1).wrapping_sub(1),
        _ => *random.pick(&[16_777_214, 16_777_215, 16_777_216, u32::MAX]),
    };
}

pub fn run(caller: &mut Caller, random: &mut Random) -> Outcome {
    let mut lent = lend(&draw(random));
    for _ in 0..*random.pick(&[0, 0, 1, 1, 1, 2, 3]) {
        match random.below(7) {
            0 | 1 => disturb_words(random, &mut lent.words),
            2 | 3 => disturb_counts(random, &mut lent.counts),
            4 | 5 => disturb_numbers(random, &mut lent.numbers),
            _ => disturb_highest(random, &mut lent),
        }
    }
    let words = lent.words.concat();
    let needed = build(lent.highest, &words, &lent.counts, &lent.numbers).map_or(30, |bytes| bytes.len());
    let room = room(random, needed, 1);
    caller.build(lent.highest, &words, &lent.counts, &lent.numbers, room)
}
