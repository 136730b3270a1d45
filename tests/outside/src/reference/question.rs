//! Questions (Reference 6): the rule's number, the bytes and their tokens; each rule reads the tokens in a way of its own.

use super::index::{read, Index};
use super::set::Set;
use super::{and_first, from_left, is_word_byte, refuse, Answer, QUESTION_MAX, WORD_MAX};

/// The numbers of the rules by which what stands in a row is grouped (Reference 6.3).
pub const RULES: [u32; 2] = [1, 2];

/// A run of word bytes, or a bracket, with its start.
pub type Token<'a> = (usize, &'a [u8]);

/// Refusals 1 to 5, 22, then 6 to 11.
pub fn ask(bytes: &[u8], rule: u32, question: &[u8]) -> Answer<Set> {
    let index = read(bytes)?;
    answer(&index, rule, question)
}

/// Refusals 22 and 6 to 11 of a question to an index that is sound.
pub fn answer(index: &Index, rule: u32, question: &[u8]) -> Answer<Set> {
    let evaluate = match rule {
        1 => from_left::evaluate,
        2 => and_first::evaluate,
        _ => return refuse(22, u64::from(rule)),
    };
    if question.len() > QUESTION_MAX {
        return refuse(6, question.len() as u64);
    }
    if let Some(place) = question.iter().position(|&b| !is_word_byte(b) && !b" ()".contains(&b)) {
        return refuse(7, place as u64);
    }
    let tokens = tokens(question);
    if let Some(long) = tokens.iter().find(|(_, token)| token.len() > WORD_MAX) {
        return refuse(8, long.0 as u64);
    }
    evaluate(index, &tokens, question.len())
}

fn tokens(question: &[u8]) -> Vec<Token<'_>> {
    let mut found = Vec::new();
    let mut i = 0;
    while i < question.len() {
        let run = question[i..].iter().take_while(|&&b| is_word_byte(b)).count();
        let length = run.max(1);
        if question[i] != b' ' {
            found.push((i, &question[i..i + length]));
        }
        i += length;
    }
    found
}

/// The records of a word; those of one that the index does not have are none.
pub fn records_of(index: &Index, word: &[u8]) -> Set {
    index.entries.iter().find(|entry| entry.word == word).map(|entry| entry.list.clone()).unwrap_or_default()
}
