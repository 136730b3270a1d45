//! Building an index.

use super::convert::bad_number;
use super::set::{Interval, Set};
use super::{is_operator, is_word, refuse, Answer, INDEX_MAX, RECORD_MAX, WORDS_MAX};

/// A word with its list as an index keeps it: singles, lower bounds, upper bounds.
pub struct Kept {
    pub word: Vec<u8>,
    pub singles: Vec<u32>,
    pub lows: Vec<u32>,
    pub highs: Vec<u32>,
}

impl Kept {
    pub fn of(word: &[u8], list: &Set) -> Kept {
        let (singles, pairs): (Vec<Interval>, Vec<Interval>) = list.intervals().iter().copied().partition(|&(l, u)| l == u);
        let (lows, highs) = pairs.into_iter().unzip();
        Kept { word: word.to_vec(), singles: singles.into_iter().map(|single| single.0).collect(), lows, highs }
    }
}

/// The one index of these words with these records.
pub fn encode(highest: u32, words: &[(Vec<u8>, Set)]) -> Vec<u8> {
    encode_kept(highest, &words.iter().map(|(word, list)| Kept::of(word, list)).collect::<Vec<_>>())
}

/// Lists, words, directory and trailer of anything, sound or not.
pub fn encode_kept(highest: u32, words: &[Kept]) -> Vec<u8> {
    let (mut lists, mut letters, mut lines) = (Vec::new(), Vec::new(), Vec::new());
    for Kept { word, singles, lows, highs } in words {
        lines.push([letters.len() as u32, word.len() as u32, lists.len() as u32, singles.len() as u32, lows.len() as u32]);
        put(&mut lists, singles.iter().copied());
        put(&mut lists, lows.iter().copied());
        put(&mut lists, highs.iter().copied());
        letters.extend_from_slice(word);
    }
    let words_start = lists.len() as u32;
    let mut bytes = lists;
    bytes.extend_from_slice(&letters);
    let directory = bytes.len() as u32;
    for line in &mut lines {
        line[0] += words_start;
        put(&mut bytes, line.iter().copied());
    }
    put(&mut bytes, [words_start, directory, words.len() as u32, highest, 1].into_iter());
    bytes
}

fn put(bytes: &mut Vec<u8>, cells: impl Iterator<Item = u32>) {
    cells.for_each(|cell| bytes.extend_from_slice(&cell.to_le_bytes()));
}

/// Refusal 17: the words, each without the byte 10 behind it.
fn split(words: &[u8]) -> Answer<Vec<Vec<u8>>> {
    let mut found: Vec<Vec<u8>> = Vec::new();
    let mut rest = words;
    while !rest.is_empty() {
        let bad = refuse(17, found.len() as u64);
        if found.len() == WORDS_MAX {
            return bad;
        }
        let Some(end) = rest.iter().position(|&b| b == 10) else {
            return bad;
        };
        let word = rest[..end].to_vec();
        if !is_word(&word, is_operator) || found.last().is_some_and(|before| *before >= word) {
            return bad;
        }
        found.push(word);
        rest = &rest[end + 1..];
    }
    Ok(found)
}

/// Refusal 18: the smallest of all the ways in which the counts can be wrong.
fn bad_count(words: usize, counts: &[u32], numbers: usize) -> Option<usize> {
    let mut ways: Vec<usize> = counts.iter().position(|&c| c == 0).into_iter().collect();
    let mut sum = 0u64;
    let past = counts.iter().position(|&c| {
        sum += u64::from(c);
        sum > numbers as u64
    });
    ways.extend(past);
    if counts.len() < words {
        ways.push(counts.len());
    }
    let total: u64 = counts.iter().take(words).map(|&c| u64::from(c)).sum();
    if counts.len() > words || total < numbers as u64 {
        ways.push(words);
    }
    ways.into_iter().min()
}

/// Refusals 19 (0), 17, 18, 15, 19 (1): the bytes of the index.
pub fn build(highest: u32, words: &[u8], counts: &[u32], numbers: &[u32]) -> Answer<Vec<u8>> {
    if highest > RECORD_MAX {
        return refuse(19, 0);
    }
    let words = split(words)?;
    if let Some(count) = bad_count(words.len(), counts, numbers.len()) {
        return refuse(18, count as u64);
    }
    let (mut entries, mut start) = (Vec::new(), 0);
    for (word, &count) in words.into_iter().zip(counts) {
        let list = &numbers[start..start + count as usize];
        if let Some(place) = bad_number(list, highest) {
            return refuse(15, (start + place) as u64);
        }
        entries.push((word, Set::of_numbers(list)));
        start += count as usize;
    }
    let bytes = encode(highest, &entries);
    if bytes.len() > INDEX_MAX {
        return refuse(19, 1);
    }
    Ok(bytes)
}

/// Refusal 12 of a building.
pub fn fit(bytes: Vec<u8>, room: usize) -> Answer<Vec<u8>> {
    if bytes.len() > room {
        return refuse(12, bytes.len() as u64);
    }
    Ok(bytes)
}
