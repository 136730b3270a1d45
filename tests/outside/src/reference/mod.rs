//! docs/REFERENCE.md once more: plain, slow where that is shorter, and knowing nothing of the library.

mod and_first;
pub mod build;
pub mod convert;
mod from_left;
pub mod index;
pub mod join;
mod operator;
pub mod question;
pub mod set;

/// The largest record number, and the largest N.
pub const RECORD_MAX: u32 = 16_777_215;
pub const INDEX_MIN: usize = 20;
pub const INDEX_MAX: usize = 16_777_216;
pub const WORDS_MAX: usize = 65_535;
pub const WORD_MAX: usize = 32;
pub const QUESTION_MAX: usize = 256;
pub const QUESTION_WORDS_MAX: usize = 16;
pub const BRACKETS_MAX: usize = 8;
pub const LISTS_MAX: usize = 16;

/// A row of the table of refusals, with its value.
#[derive(Clone, Copy, Debug, PartialEq, Eq)]
pub struct Refusal {
    pub number: u64,
    pub value: u64,
}

pub type Answer<T> = Result<T, Refusal>;

pub fn refuse<T>(number: u64, value: u64) -> Answer<T> {
    Err(Refusal { number, value })
}

/// A digit or a letter of ASCII (Reference 2).
pub fn is_word_byte(byte: u8) -> bool {
    byte.is_ascii_alphanumeric()
}

/// The three operators, in small letters.
pub const OPERATORS: [&[u8]; 3] = [b"and", b"or", b"not"];

/// An operator in small letters: no word of an index.
pub fn is_small_operator(word: &[u8]) -> bool {
    OPERATORS.contains(&word)
}

/// An operator in any mixture of small and capital letters: what a question reads as one, and what cannot be built.
pub fn is_operator(word: &[u8]) -> bool {
    operator::Operator::of(word).is_some()
}

/// Length, bytes and nothing that is barred: what makes a word, its neighbours apart.
pub fn is_word(bytes: &[u8], is_barred: fn(&[u8]) -> bool) -> bool {
    (1..=WORD_MAX).contains(&bytes.len()) && bytes.iter().all(|&b| is_word_byte(b)) && !is_barred(bytes)
}
