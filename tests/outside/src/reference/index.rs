//! The index (Reference 4, 5): the check, lookup, an entry's word, and probing.

use super::set::{Interval, Set};
use super::{is_small_operator, is_word, refuse, Answer, INDEX_MAX, INDEX_MIN, RECORD_MAX, WORDS_MAX};

pub struct Entry {
    pub word: Vec<u8>,
    pub start: usize,
    pub list: Set,
}

pub struct Index {
    pub entries: Vec<Entry>,
}

/// The five cells of a directory entry, widened so that no sum of them wraps.
struct Line {
    word_start: u64,
    word_length: u64,
    list_start: u64,
    singles: u64,
    pairs: u64,
}

fn cell(bytes: &[u8], at: usize) -> u32 {
    u32::from_le_bytes(bytes[at..at + 4].try_into().unwrap())
}

fn line(bytes: &[u8], directory: usize, i: usize) -> Line {
    let field = |k: usize| u64::from(cell(bytes, directory + 20 * i + 4 * k));
    Line { word_start: field(0), word_length: field(1), list_start: field(2), singles: field(3), pairs: field(4) }
}

/// Refusals 1 to 5; an index that has none of them is read whole.
pub fn read(bytes: &[u8]) -> Answer<Index> {
    if bytes.len() < INDEX_MIN || bytes.len() > INDEX_MAX {
        return refuse(1, bytes.len() as u64);
    }
    let trailer = |k: usize| u64::from(cell(bytes, bytes.len() - 20 + 4 * k));
    let (words, directory, count, highest, edition) = (trailer(0), trailer(1), trailer(2), trailer(3), trailer(4));
    if edition != 1 {
        return refuse(2, edition);
    }
    let length_holds = directory + 20 * count + 20 == bytes.len() as u64;
    if highest > u64::from(RECORD_MAX) || count > WORDS_MAX as u64 || words > directory || !length_holds {
        return refuse(3, 0);
    }
    let lines: Vec<Line> = (0..count as usize).map(|i| line(bytes, directory as usize, i)).collect();
    let found = read_words(bytes, words, directory, &lines)?;
    let mut entries = Vec::new();
    for (i, word) in found.into_iter().enumerate() {
        match read_list(bytes, &lines[i], highest as u32) {
            Some(list) => entries.push(Entry { word, start: lines[i].word_start as usize, list }),
            None => return refuse(5, i as u64),
        }
    }
    Ok(Index { entries })
}

/// The directory rule and the word rule together: the first entry at which either fails, then the two ends.
fn read_words(bytes: &[u8], words: u64, directory: u64, lines: &[Line]) -> Answer<Vec<Vec<u8>>> {
    let (mut word_end, mut list_end) = (words, 0);
    let mut found: Vec<Vec<u8>> = Vec::new();
    for (i, line) in lines.iter().enumerate() {
        let starts = line.word_start == word_end && line.list_start == list_end;
        word_end = line.word_start + line.word_length;
        list_end = line.list_start + 4 * (line.singles + 2 * line.pairs);
        let within = word_end <= directory && list_end <= words;
        if !starts || !within || line.singles + line.pairs == 0 {
            return refuse(4, i as u64);
        }
        let word = bytes[line.word_start as usize..word_end as usize].to_vec();
        if !is_word(&word, is_small_operator) || found.last().is_some_and(|before| *before >= word) {
            return refuse(4, i as u64);
        }
        found.push(word);
    }
    if word_end != directory || list_end != words {
        return refuse(4, lines.len() as u64);
    }
    Ok(found)
}

/// The walk by p and q (Reference 3.4): an interval is taken only where the list stays proper with it, and N is not passed.
fn read_list(bytes: &[u8], line: &Line, highest: u32) -> Option<Set> {
    let (s, m) = (line.singles as usize, line.pairs as usize);
    let at = |k: usize| cell(bytes, line.list_start as usize + 4 * k);
    let (mut p, mut q) = (0, 0);
    let mut walked: Vec<Interval> = Vec::new();
    while p < s || q < m {
        let (l, u) = if q == m || (p < s && at(p) < at(s + q)) {
            p += 1;
            (at(p - 1), at(p - 1))
        } else {
            q += 1;
            let (l, u) = (at(s + q - 1), at(s + m + q - 1));
            if l >= u {
                return None;
            }
            (l, u)
        };
        let least = walked.last().map_or(1, |before| u64::from(before.1) + 2);
        if u64::from(l) < least || u > highest {
            return None;
        }
        walked.push((l, u));
    }
    Some(Set::of(walked))
}

/// The number of the entry with these bytes; for all else, whatever the bytes, refusal 21 with how many words stand before them.
pub fn lookup(bytes: &[u8], word: &[u8]) -> Answer<u64> {
    let index = read(bytes)?;
    match index.entries.iter().position(|entry| entry.word == word) {
        Some(i) => Ok(i as u64),
        None => refuse(21, index.entries.iter().filter(|entry| entry.word[..] < *word).count() as u64),
    }
}

/// An entry's word: its start and length in the index.
pub fn word(bytes: &[u8], entry: u32) -> Answer<(u64, u64)> {
    let index = read(bytes)?;
    match index.entries.get(entry as usize) {
        Some(entry) => Ok((entry.start as u64, entry.word.len() as u64)),
        None => refuse(14, 0),
    }
}

/// The two counts of a probe (Reference 3.3).
pub fn probe(bytes: &[u8], entry: u32, a: u32, b: u32) -> Answer<(u64, u64)> {
    let index = read(bytes)?;
    let Some(entry) = index.entries.get(entry as usize) else {
        return refuse(14, 0);
    };
    if a == 0 || a > b || b > RECORD_MAX {
        return refuse(20, 0);
    }
    let count = |test: &dyn Fn(Interval) -> bool| entry.list.intervals().iter().filter(|&&i| test(i)).count() as u64;
    Ok((count(&|(_, u)| u < a), count(&|(l, u)| l <= b && u >= a)))
}
