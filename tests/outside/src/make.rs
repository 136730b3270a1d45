//! Random sound indexes, and ways to damage them.

use crate::random::Random;
use crate::reference::build::{encode, encode_kept, Kept};
use crate::reference::question::RULES;
use crate::reference::set::Set;
use crate::reference::{is_small_operator, is_word, OPERATORS, RECORD_MAX};

const NO_WORDS: [&[u8]; 7] = [b"and", b"or", b"not", b"", b"a b", b"a\n", b"abcdefghijklmnopqrstuvwxyz0123456"];

/// Words and records of an index, before they are encoded.
pub struct Catalogue {
    pub highest: u32,
    pub words: Vec<(Vec<u8>, Set)>,
}

impl Catalogue {
    pub fn encode(&self) -> Vec<u8> {
        encode(self.highest, &self.words)
    }
}

const LETTERS: &[u8] = b"abABzZ09nort";
const NEAR_OPERATORS: [&[u8]; 6] = [b"an", b"ands", b"o", b"nots", b"andor", b"orr"];

/// The same letters, each small or capital.
fn spelt(random: &mut Random, word: &[u8]) -> Vec<u8> {
    word.iter().map(|b| if random.one_in(2) { b.to_ascii_uppercase() } else { *b }).collect()
}

/// An operator, in small letters or in any mixture.
pub fn operator(random: &mut Random) -> Vec<u8> {
    let operator = *random.pick(&OPERATORS);
    if random.one_in(2) {
        return operator.to_vec();
    }
    spelt(random, operator)
}

/// A word of an index: short over few letters, so that prefixes and equal words occur; at times 32 bytes, at times an operator with a capital letter, or
/// nearly an operator.
pub fn word(random: &mut Random) -> Vec<u8> {
    loop {
        let length = if random.one_in(12) { 30 + random.below(3) } else { 1 + random.below(5) };
        let mut word: Vec<u8> = (0..length).map(|_| *random.pick(LETTERS)).collect();
        match random.below(20) {
            0 => word = operator(random),
            1 => {
                let near = *random.pick(&NEAR_OPERATORS);
                word = spelt(random, near);
            }
            _ => {}
        }
        if is_word(&word, is_small_operator) {
            return word;
        }
    }
}

/// A number that is no rule's: beside theirs, the largest, or anything.
pub fn no_rule(random: &mut Random) -> u32 {
    loop {
        let number = if random.one_in(2) { *random.pick(&[0, 3, u32::MAX]) } else { random.cell() };
        if !RULES.contains(&number) {
            return number;
        }
    }
}

/// A record number, often beside the border of a window of 8,192 or at the end.
fn record(random: &mut Random, highest: u32) -> u32 {
    let border = 8192 * random.from_to(0, highest / 8192) + random.below(3) as u32;
    match random.below(6) {
        0 => border.saturating_sub(1).clamp(1, highest),
        1 => highest - random.below(3).min(highest as usize - 1) as u32,
        _ => random.from_to(1, highest),
    }
}

/// A set with at least one record of 1 to N (N at least 1): sparse singles, stretches, a mixture, or all.
pub fn set(random: &mut Random, highest: u32, size: usize) -> Set {
    let reach = *random.pick(&[1, 2, 3, 40, 9_000, highest]);
    let mut intervals = Vec::new();
    for _ in 0..1 + random.below(size) {
        let l = record(random, highest);
        let longest = if random.one_in(3) { reach } else { reach.min(5) };
        let u = if random.one_in(3) { l } else { l.saturating_add(random.below(longest as usize) as u32).min(highest) };
        intervals.push((l, u));
    }
    if random.one_in(40) {
        intervals.push((1, highest));
    }
    Set::of(intervals)
}

/// How large an index is drawn: N and the intervals of a list.
fn shape(random: &mut Random) -> (u32, usize) {
    match random.below(12) {
        0 => (random.below(3) as u32, 3),
        1..=5 => (1 + random.below(60) as u32, 12),
        6 | 7 => (*random.pick(&[8190, 8191, 8192, 8193, 16_383, 16_384, 16_385, 24_577]), 60),
        8 | 9 => (200_000, 300),
        10 => (RECORD_MAX, 40),
        _ => (RECORD_MAX, 400),
    }
}

pub fn catalogue(random: &mut Random) -> Catalogue {
    let (highest, size) = shape(random);
    let count = if highest == 0 { 0 } else { random.below(9) + if random.one_in(8) { 20 } else { 0 } };
    let mut words: Vec<Vec<u8>> = (0..count).map(|_| word(random)).collect();
    words.sort();
    words.dedup();
    Catalogue { highest, words: words.into_iter().map(|w| (w, set(random, highest, size))).collect() }
}

/// Eight words, whose lists have up to 3, 30, 300 and 3,000 intervals, two of each: long ones beside short ones.
pub fn uneven(random: &mut Random) -> Catalogue {
    let highest = *random.pick(&[20_000, RECORD_MAX]);
    let list = |i: u8| (vec![b'a' + i], set(random, highest, 3 * 10_usize.pow(u32::from(i) / 2)));
    Catalogue { highest, words: (0..8).map(list).collect() }
}

/// One damage: a bit, a byte, a cell of trailer, directory or lists, a cut, a surplus, or two entries exchanged.
pub fn damage(random: &mut Random, bytes: &mut Vec<u8>) {
    let (length, entries) = (bytes.len(), entries_of(bytes));
    match random.below(12) {
        0 if length > 0 => bytes[random.below(length)] ^= 1 << random.below(8),
        1 if length > 0 => bytes[random.below(length)] = random.next() as u8,
        2 if length > 0 => {
            let (from, cut) = (place_to_cut(random, length), 1 + random.below(24));
            bytes.drain(from..(from + cut).min(length));
        }
        3 => {
            let (at, more) = (place_to_cut(random, length), 1 + random.below(24));
            bytes.splice(at..at, (0..more).map(|_| random.next() as u8).collect::<Vec<u8>>());
        }
        4 if length >= 20 => bend(random, bytes, length - 20, 5),
        5..=8 if entries > 0 => bend(random, bytes, length - 20 - 20 * entries, 5 * entries),
        9 if entries > 1 => exchange(random, bytes, entries),
        _ if length >= 24 => bend(random, bytes, 0, (length - 20) / 4),
        _ => bytes.push(random.next() as u8),
    }
}

/// Mostly before the trailer, so that the edition still stands where it is read.
fn place_to_cut(random: &mut Random, length: usize) -> usize {
    if random.one_in(4) {
        random.below(length)
    } else {
        random.below(length.saturating_sub(19))
    }
}

/// The word count, where the directory that it speaks of lies within the bytes.
fn entries_of(bytes: &[u8]) -> usize {
    let Some(at) = bytes.len().checked_sub(12) else {
        return 0;
    };
    let count = u32::from_le_bytes(bytes[at..at + 4].try_into().unwrap()) as usize;
    if count <= bytes.len().saturating_sub(20) / 20 {
        count
    } else {
        0
    }
}

/// Changes one of `cells` cells from byte `start`: by little, or altogether.
fn bend(random: &mut Random, bytes: &mut [u8], start: usize, cells: usize) {
    let at = start + 4 * random.below(cells);
    let old = u32::from_le_bytes(bytes[at..at + 4].try_into().unwrap());
    let new = match random.below(4) {
        0 => old.wrapping_add(1),
        1 => old.wrapping_sub(1),
        2 => old.wrapping_add(random.cell()),
        _ => random.cell(),
    };
    bytes[at..at + 4].copy_from_slice(&new.to_le_bytes());
}

fn exchange(random: &mut Random, bytes: &mut [u8], entries: usize) {
    let directory = bytes.len() - 20 - 20 * entries;
    let (i, j) = (random.below(entries), random.below(entries));
    for k in 0..if random.one_in(2) { 20 } else { 8 } {
        bytes.swap(directory + 20 * i + k, directory + 20 * j + k);
    }
}

/// An index whose bytes agree with each other, but whose words or lists break their rules.
fn bent(random: &mut Random, catalogue: &Catalogue) -> Vec<u8> {
    let mut kept: Vec<Kept> = catalogue.words.iter().map(|(word, list)| Kept::of(word, list)).collect();
    let mut highest = catalogue.highest;
    for _ in 0..1 + random.below(2) {
        let at = random.below(kept.len());
        match random.below(8) {
            0 => highest = highest.saturating_sub(1),
            1..=3 if !kept.is_empty() => bend_word(random, &mut kept, at),
            _ if !kept.is_empty() => bend_list(random, &mut kept[at]),
            _ => {}
        }
    }
    encode_kept(highest, &kept)
}

fn bend_word(random: &mut Random, kept: &mut [Kept], at: usize) {
    let other = random.below(kept.len());
    match random.below(6) {
        0 if at > 0 => kept[at].word = kept[at - 1].word.clone(),
        1 if at > 0 => kept[at].word = kept[at - 1].word[..kept[at - 1].word.len().saturating_sub(1)].to_vec(),
        2 => kept[at].word = kept[other].word.clone(),
        3 => kept[at].word = random.pick(&NO_WORDS).to_vec(),
        4 => kept[at].word.push(*random.pick(b"0Zz @[`{/:")),
        _ => kept[at].word = word(random),
    }
}

/// A single beside, on or within another, bounds that are equal, exchanged or meet, lists out of order, and none at all.
fn bend_list(random: &mut Random, list: &mut Kept) {
    let numbers: Vec<u32> = [&list.singles[..], &list.lows, &list.highs].concat();
    if numbers.is_empty() {
        return;
    }
    let near = random.pick(&numbers).wrapping_add(random.below(5) as u32).wrapping_sub(2);
    let (s, q) = (random.below(list.singles.len()), random.below(list.lows.len()));
    match random.below(10) {
        0 => {
            let place = list.singles.partition_point(|&single| single < near);
            list.singles.insert(place, near);
        }
        1 => list.singles.push(near),
        2 if s > 0 => list.singles.swap(0, s),
        3 if q > 0 => {
            list.lows.swap(0, q);
            list.highs.swap(0, q);
        }
        4 if !list.lows.is_empty() => list.lows[q] = near,
        5 if !list.lows.is_empty() => list.highs[q] = near,
        6 if !list.lows.is_empty() => list.lows[q] = list.highs[q],
        7 if !list.lows.is_empty() => std::mem::swap(&mut list.lows[q], &mut list.highs[q]),
        8 if q > 0 => list.highs[q - 1] = list.lows[q].wrapping_sub(1),
        _ => {
            let all = random.one_in(2);
            list.singles.truncate(if all { 0 } else { s });
            list.lows.truncate(if all { 0 } else { q });
            list.highs.truncate(if all { 0 } else { q });
        }
    }
}

/// The bytes of an index: sound in three of four cases, else damaged or bent.
pub fn index(random: &mut Random) -> (Catalogue, Vec<u8>) {
    let catalogue = catalogue(random);
    let mut bytes = catalogue.encode();
    match random.below(8) {
        0 => (0..1 + random.below(2)).for_each(|_| damage(random, &mut bytes)),
        1 => bytes = bent(random, &catalogue),
        _ => {}
    }
    (catalogue, bytes)
}

/// The bytes of an index, sound in one of four cases.
pub fn doubtful_index(random: &mut Random) -> Vec<u8> {
    let (catalogue, mut bytes) = index(random);
    match random.below(4) {
        0 => damage(random, &mut bytes),
        1 | 2 => bytes = bent(random, &catalogue),
        _ => {}
    }
    bytes
}
