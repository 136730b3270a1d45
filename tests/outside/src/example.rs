//! The reference against the example (Reference 4.4) and P1 to P12 (Reference 12), and its sets against plain tests on numbers.

use crate::random::Random;
use crate::reference::build::{build, encode};
use crate::reference::convert::{to_intervals, to_numbers};
use crate::reference::index::{lookup, probe, read};
use crate::reference::join::{join, Join};
use crate::reference::question::{ask, RULES};
use crate::reference::set::Set;
use crate::reference::Refusal;

const WORDS: &[u8] = b"boats\nharbour\nmaps\ntide\n";
const COUNTS: [u32; 4] = [4, 5, 4, 3];
const NUMBERS: [u32; 16] = [2, 3, 4, 8, 1, 2, 3, 6, 7, 5, 6, 7, 9, 3, 8, 9];

/// The example's index: N = 9.
pub fn example() -> Vec<u8> {
    build(9, WORDS, &COUNTS, &NUMBERS).unwrap()
}

/// Question, refusal, value, and the cells by rule 1 and by rule 2: P1 to P7.
pub const QUESTIONS: [(&str, u64, u64, [&[u32]; 2]); 7] = [
    ("boats or tide", 0, 0, [&[2, 4, 8, 9]; 2]),
    ("boats or maps", 0, 0, [&[2, 9]; 2]),
    ("harbour and maps not tide", 0, 0, [&[6, 7]; 2]),
    ("boats or harbour and maps", 0, 0, [&[6, 7], &[2, 4, 6, 8]]),
    ("boats or (harbour and maps)", 0, 0, [&[2, 4, 6, 8]; 2]),
    ("tide tables", 9, 5, [&[]; 2]),
    ("pier", 0, 0, [&[]; 2]),
];

pub fn expect(what: &str, holds: bool) -> usize {
    assert!(holds, "the reference is wrong: {what}");
    1
}

fn set(intervals: &[(u32, u32)]) -> Set {
    Set::of(intervals.to_vec())
}

fn index_of(lists: &[&[(u32, u32)]]) -> Vec<u8> {
    let words = lists.iter().enumerate().map(|(i, list)| (vec![b'a' + i as u8], set(list)));
    encode(9, &words.collect::<Vec<_>>())
}

pub fn refused<T>(result: Result<T, Refusal>, number: u64, value: u64) -> bool {
    result.is_err_and(|r| r == Refusal { number, value })
}

fn the_example() -> usize {
    let index = example();
    let cell = |k: usize| u32::from_le_bytes(index[152 + 4 * k..156 + 4 * k].try_into().unwrap());
    let mut done = expect("length 172", index.len() == 172);
    done += expect("W = 52, D = 72, n = 4, N = 9, edition 1", (0..5).map(cell).eq([52, 72, 4, 9, 1]));
    done += expect("lookup", lookup(&index, b"maps") == Ok(2) && refused(lookup(&index, b"pier"), 21, 3));
    done += expect("lookup at the ends", refused(lookup(&index, b""), 21, 0) && refused(lookup(&index, b"tides"), 21, 4));
    for (question, number, value, by_rule) in QUESTIONS {
        for (rule, cells) in RULES.into_iter().zip(by_rule) {
            let holds = match ask(&index, rule, question.as_bytes()) {
                Ok(answer) => number == 0 && answer.cells() == cells,
                Err(r) => r == Refusal { number, value },
            };
            done += expect(question, holds);
        }
    }
    done
}

fn the_corners() -> usize {
    let joined = |how, lists: &[&[(u32, u32)]], answer: &[(u32, u32)]| {
        let entries: Vec<u32> = (0..lists.len() as u32).collect();
        join(&index_of(lists), how, &entries).unwrap() == set(answer)
    };
    expect("P8", joined(Join::Union, &[&[(1, 3)], &[(4, 5)]], &[(1, 5)]))
        + expect("P9", joined(Join::Union, &[&[(1, 3)], &[(5, 6)]], &[(1, 3), (5, 6)]))
        + expect("P10", joined(Join::Intersection, &[&[(1, 3)], &[(3, 5)]], &[(3, 3)]))
        + expect("P11", joined(Join::Intersection, &[&[(1, 2)], &[(1, 9)], &[(4, 6)]], &[]))
        + expect("P12", probe(&index_of(&[&[(1, 4), (6, 6), (8, 9)]]), 0, 4, 6) == Ok((0, 2)))
        + expect("the empty question", RULES.iter().all(|&rule| refused(ask(&example(), rule, b""), 9, 0)))
        + expect("to intervals", to_intervals(&[1, 2, 5], 4) == Ok(vec![1, 2, 5, 5]))
        + expect("to numbers", to_numbers(&[1, 2, 5, 5], 3) == Ok(vec![1, 2, 5]))
        + expect("a lone last cell", refused(to_numbers(&[1, 2, 5], 3), 16, 1))
        + expect("no words", encode(7, &[]).len() == 20 && read(&encode(7, &[])).is_ok())
}

/// and, or, not of sets agree with and, or, not of membership, number by number.
fn the_sets() -> usize {
    let mut random = Random::new(1);
    let mut draw = || (1..60).filter(|_| random.one_in(2)).collect::<Vec<u32>>();
    for _ in 0..200 {
        let (a, b) = (draw(), draw());
        let (x, y) = (Set::of_numbers(&a), Set::of_numbers(&b));
        let kept = |test: &dyn Fn(bool, bool) -> bool| (1..60).filter(|n| test(a.contains(n), b.contains(n))).collect::<Vec<u32>>();
        expect("or", x.or(&y).numbers() == kept(&|p, q| p || q));
        expect("and", x.and(&y).numbers() == kept(&|p, q| p && q));
        expect("not", x.not(&y).numbers() == kept(&|p, q| p && !q));
        expect("records", x.records() == a.len() as u64);
    }
    4
}

/// Runs them all and says how many facts were held up.
pub fn run() -> usize {
    the_example() + the_corners() + the_sets()
}
