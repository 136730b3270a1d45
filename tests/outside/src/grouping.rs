//! The reference's two rules (Reference 6.3) against each other: brackets put by hand, rows of words read record by record, and refusals.

use crate::example::{example, expect, refused};
use crate::families::ask::question;
use crate::families::orders::{ordered, sixteen, ORDERS};
use crate::make;
use crate::random::Random;
use crate::reference::build::encode;
use crate::reference::index::read;
use crate::reference::question::{answer, ask, RULES};
use crate::reference::set::Set;
use crate::reference::OPERATORS;

const LETTERS: &[u8; 5] = b"abcde";
const RECORDS: u32 = 1 << LETTERS.len();

/// Whether a record of `every_case` has a word: of the five words each record has others.
fn has(record: u32, word: u8) -> bool {
    (record - 1) >> (word - b'a') & 1 == 1
}

/// An index of the words a to e in which each choice of them is that of one record: two questions that mean different things are answered differently.
pub fn every_case() -> Vec<u8> {
    let list = |word: u8| Set::of_numbers(&(1..=RECORDS).filter(|&record| has(record, word)).collect::<Vec<u32>>());
    encode(RECORDS, &LETTERS.map(|word| (vec![word], list(word))))
}

/// A question, and the same with a pair of brackets for each operator, as rule 1 and as rule 2 groups it.
pub const BY_HAND: [(&str, [&str; 2]); 16] = [
    ("a or b and c", ["((a or b) and c)", "(a or (b and c))"]),
    ("a or b not c", ["((a or b) not c)", "(a or (b not c))"]),
    ("a and b or c", ["((a and b) or c)", "((a and b) or c)"]),
    ("a not b or c", ["((a not b) or c)", "((a not b) or c)"]),
    ("a not b and c", ["((a not b) and c)", "((a not b) and c)"]),
    ("a and b not c", ["((a and b) not c)", "((a and b) not c)"]),
    ("a not b not c", ["((a not b) not c)", "((a not b) not c)"]),
    ("a or b and c not d", ["(((a or b) and c) not d)", "(a or ((b and c) not d))"]),
    ("a and b or c and d", ["(((a and b) or c) and d)", "((a and b) or (c and d))"]),
    ("a or b or c and d", ["(((a or b) or c) and d)", "((a or b) or (c and d))"]),
    ("a or b and c or d not e", ["((((a or b) and c) or d) not e)", "((a or (b and c)) or (d not e))"]),
    ("a not b and c or d not e", ["((((a not b) and c) or d) not e)", "(((a not b) and c) or (d not e))"]),
    ("a and (b or c and d) or e", ["((a and ((b or c) and d)) or e)", "((a and (b or (c and d))) or e)"]),
    ("a or (b or c and d) not e", ["((a or ((b or c) and d)) not e)", "(a or ((b or (c and d)) not e))"]),
    ("(a or b and c) and d or e", ["((((a or b) and c) and d) or e)", "(((a or (b and c)) and d) or e)"]),
    ("a Or b AND (c oR d nOT e)", ["((a or b) and ((c or d) not e))", "(a or (b and (c or (d not e))))"]),
];

fn brackets_by_hand() -> usize {
    let index = every_case();
    let asked = |rule: u32, question: &str| ask(&index, rule, question.as_bytes()).unwrap();
    for (question, bracketed) in BY_HAND {
        for (rule, text) in RULES.into_iter().zip(bracketed) {
            expect(question, RULES.iter().all(|&either| asked(either, text) == asked(rule, question)));
        }
    }
    BY_HAND.len()
}

/// Words of one letter in a row, with these operators between them.
pub fn row<T: AsRef<[u8]>>(words: &[u8], operators: &[T]) -> Vec<u8> {
    let linked = operators.iter().zip(&words[1..]).flat_map(|(operator, &word)| [b" ", operator.as_ref(), b" ", &[word]].concat());
    words[..1].iter().copied().chain(linked).collect()
}

/// Operators between a, b, c, d and e: each order of the three.
fn orders() -> impl Iterator<Item = Vec<&'static [u8]>> {
    let gaps = LETTERS.len() as u32 - 1;
    (0..3_usize.pow(gaps)).map(move |order| (0..gaps).map(|gap| OPERATORS[order / 3_usize.pow(gap) % 3]).collect())
}

/// Each word with the operator before it; a row begins as if it stood behind an `or`.
fn links<'a>(operators: &[&'a [u8]]) -> Vec<(&'a [u8], u8)> {
    [&b"or"[..]].iter().chain(operators).copied().zip(*LETTERS).collect()
}

/// Rule 1: from the left, with what holds so far.
fn satisfies_from_left(links: &[(&[u8], u8)], record: u32) -> bool {
    links.iter().fold(false, |so_far, &(operator, word)| match operator {
        b"and" => so_far && has(record, word),
        b"or" => so_far || has(record, word),
        _ => so_far && !has(record, word),
    })
}

/// Rule 2: a row is cut before each `or`, and some part has all its words but those behind `not`, and none of these.
fn satisfies_and_first(links: &[(&[u8], u8)], record: u32) -> bool {
    let begins = |place: &usize| links[*place].0 == b"or";
    let starts: Vec<usize> = (0..links.len()).filter(begins).chain([links.len()]).collect();
    starts.windows(2).any(|part| links[part[0]..part[1]].iter().all(|&(operator, word)| has(record, word) == (operator != b"not")))
}

fn rows() -> usize {
    let index = every_case();
    for operators in orders() {
        let (links, text) = (links(&operators), row(LETTERS, &operators));
        for (rule, satisfies) in RULES.into_iter().zip([satisfies_from_left, satisfies_and_first]) {
            let records: Vec<u32> = (1..=RECORDS).filter(|&record| satisfies(&links, record)).collect();
            expect(&String::from_utf8_lossy(&text), ask(&index, rule, &text).unwrap().numbers() == records);
        }
    }
    2
}

/// Refusals 9, 10 and 11 and their places are those of the other rule.
fn refusals() -> usize {
    let mut random = Random::new(1);
    let mut met = Vec::new();
    for _ in 0..40 {
        let catalogue = make::catalogue(&mut random);
        let index = read(&catalogue.encode()).unwrap();
        for _ in 0..100 {
            let asked = question(&mut random, &catalogue);
            let [one, two] = RULES.map(|rule| answer(&index, rule, &asked).err());
            expect(&String::from_utf8_lossy(&asked), one == two);
            met.extend(one.map(|refusal| refusal.number));
        }
    }
    expect("9, 10 and 11 are met", (9..=11).all(|number| met.contains(&number)))
}

/// Of the orders of `and` and `or` between sixteen words nearly all are answered otherwise by the other rule.
fn sixteen_words() -> usize {
    let index = read(&sixteen()).unwrap();
    let differs = |&order: &u64| {
        let [one, two] = RULES.map(|rule| answer(&index, rule, &ordered(order)).unwrap());
        one != two
    };
    let some: Vec<u64> = (0..ORDERS).step_by(61).collect();
    expect("the rules differ", 10 * some.iter().filter(|&order| differs(order)).count() > 9 * some.len())
}

fn numbers() -> usize {
    let (index, long) = (example(), [b'w'; 300]);
    expect("0 before 6", refused(ask(&index, 0, &long), 22, 0))
        + expect("3 before 9", refused(ask(&index, 3, b""), 22, 3))
        + expect("the largest number", refused(ask(&index, u32::MAX, b"boats"), 22, 4_294_967_295))
        + expect("6 by either rule", RULES.iter().all(|&rule| refused(ask(&index, rule, &long), 6, 300)))
        + expect("1 before 22", refused(ask(&index[..19], 0, &long), 1, 19))
}

/// Runs them all and says how many facts were held up.
pub fn run() -> usize {
    brackets_by_hand() + rows() + sixteen_words() + refusals() + numbers()
}
