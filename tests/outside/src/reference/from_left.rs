//! Rule 1 (Reference 6.3): equal ranks, grouped from the left, by one stack and no recursion.

use super::index::Index;
use super::operator::Operator;
use super::question::{records_of, Token};
use super::set::Set;
use super::{is_operator, refuse, Answer, BRACKETS_MAX, QUESTION_WORDS_MAX};

/// What stands to the left within one bracket: the records so far, and the operator that waits for its right side.
#[derive(Default)]
struct Level {
    left: Option<Set>,
    waiting: Option<Operator>,
}

impl Level {
    fn wants_operand(&self) -> bool {
        self.left.is_none() || self.waiting.is_some()
    }

    fn take(&mut self, right: Set) {
        self.left = Some(match (self.left.take(), self.waiting.take()) {
            (Some(left), Some(operator)) => operator.join(&left, &right),
            _ => right,
        });
    }
}

/// Refusals 9 to 11.
pub fn evaluate(index: &Index, tokens: &[Token], length: usize) -> Answer<Set> {
    let mut open = vec![Level::default()];
    let mut words = 0;
    for &(start, token) in tokens {
        let depth = open.len() - 1;
        let level = &mut open[depth];
        match (level.wants_operand(), token) {
            (true, b"(") if depth == BRACKETS_MAX => return refuse(11, start as u64),
            (true, b"(") => open.push(Level::default()),
            (false, b")") if depth > 0 => {
                let inner = open.pop().unwrap();
                open.last_mut().unwrap().take(inner.left.unwrap());
            }
            (_, b"(" | b")") => return refuse(9, start as u64),
            (wants, token) if is_operator(token) => {
                if wants {
                    return refuse(9, start as u64);
                }
                level.waiting = Operator::of(token);
            }
            (false, _) => return refuse(9, start as u64),
            (true, _) if words == QUESTION_WORDS_MAX => return refuse(10, start as u64),
            (true, word) => {
                words += 1;
                level.take(records_of(index, word));
            }
        }
    }
    if open.len() > 1 || open[0].wants_operand() {
        return refuse(9, length as u64);
    }
    Ok(open.pop().unwrap().left.unwrap())
}
