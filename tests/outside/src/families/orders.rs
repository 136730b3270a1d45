//! Sixteen words in a row with fifteen operators between them: all orders of `and` and `or`, one a case, and some of all three.

use crate::calls::{Caller, Outcome};
use crate::grouping::row;
use crate::make;
use crate::random::Random;
use crate::reference::build::encode;
use crate::reference::question::RULES;
use crate::reference::set::Set;
use crate::reference::QUESTION_WORDS_MAX;

const WORDS: &[u8; QUESTION_WORDS_MAX] = b"abcdefghijklmnop";
const RECORDS: u32 = 40;
/// How many orders there are.
pub const ORDERS: u64 = 1 << (WORDS.len() - 1);

/// The words, and records of which one has most of them and another few: some tell of `and`, some of `or` and `not`.
pub fn sixteen() -> Vec<u8> {
    let mut random = Random::new(1);
    let mut lists = WORDS.map(|_| Vec::new());
    for record in 1..=RECORDS {
        let eighths = 1 + random.below(7);
        for list in &mut lists {
            if random.below(8) < eighths {
                list.push(record);
            }
        }
    }
    let words = WORDS.iter().zip(&lists).map(|(&word, list)| (vec![word], Set::of_numbers(list)));
    encode(RECORDS, &words.collect::<Vec<_>>())
}

/// The question of an order: its bits are the operators, from the left.
pub fn ordered(order: u64) -> Vec<u8> {
    let operators: Vec<&str> = (1..WORDS.len()).map(|gap| if order >> (gap - 1) & 1 == 0 { "and" } else { "or" }).collect();
    row(WORDS, &operators)
}

/// The seeds of a whole run are all orders, each once, since the factor is odd; with fewer the orders are spread.
pub fn run(caller: &mut Caller, random: &mut Random) -> Outcome {
    let mut questions = vec![ordered(caller.seed.wrapping_mul(20_077) % ORDERS)];
    if random.one_in(8) {
        let operators: Vec<Vec<u8>> = (1..WORDS.len()).map(|_| make::operator(random)).collect();
        questions.push(row(WORDS, &operators));
    }
    let index = sixteen();
    for question in questions {
        for rule in RULES {
            caller.ask(&index, rule, &question, 2 * RECORDS as usize)?;
        }
    }
    Ok(())
}
