//! Rule 2 (Reference 6.3): `and` and `not` have a higher rank than `or`, so that a question is groups with `or` between them, and a group operands
//! with `and` and `not` between them; each is read by a function of its own.

use super::index::Index;
use super::operator::Operator;
use super::question::{records_of, Token};
use super::set::Set;
use super::{is_operator, refuse, Answer, BRACKETS_MAX, QUESTION_WORDS_MAX};

/// The tokens that are still to be read, and what was taken of those before.
struct Reader<'a> {
    index: &'a Index,
    rest: &'a [Token<'a>],
    length: usize,
    words: usize,
    open: usize,
}

/// Refusals 9 to 11.
pub fn evaluate(index: &Index, tokens: &[Token], length: usize) -> Answer<Set> {
    let mut reader = Reader { index, rest: tokens, length, words: 0, open: 0 };
    let answer = reader.groups()?;
    match reader.rest.first() {
        Some(&(start, _)) => refuse(9, start as u64),
        None => Ok(answer),
    }
}

impl<'a> Reader<'a> {
    fn groups(&mut self) -> Answer<Set> {
        let mut left = self.group()?;
        while let Some(operator) = self.operator(&[Operator::Or]) {
            left = operator.join(&left, &self.group()?);
        }
        Ok(left)
    }

    fn group(&mut self) -> Answer<Set> {
        let mut left = self.operand()?;
        while let Some(operator) = self.operator(&[Operator::And, Operator::Not]) {
            left = operator.join(&left, &self.operand()?);
        }
        Ok(left)
    }

    /// The next token where it is one of these operators; any other is left.
    fn operator(&mut self, rank: &[Operator]) -> Option<Operator> {
        let operator = Operator::of(self.rest.first()?.1).filter(|operator| rank.contains(operator))?;
        self.rest = &self.rest[1..];
        Some(operator)
    }

    fn operand(&mut self) -> Answer<Set> {
        let (start, token) = self.next()?;
        match token {
            b"(" if self.open == BRACKETS_MAX => refuse(11, start as u64),
            b"(" => self.bracketed(),
            b")" => refuse(9, start as u64),
            _ if is_operator(token) => refuse(9, start as u64),
            _ if self.words == QUESTION_WORDS_MAX => refuse(10, start as u64),
            word => {
                self.words += 1;
                Ok(records_of(self.index, word))
            }
        }
    }

    /// What stands behind an opening bracket, up to the closing one.
    fn bracketed(&mut self) -> Answer<Set> {
        self.open += 1;
        let inner = self.groups()?;
        match self.next()? {
            (_, b")") => self.open -= 1,
            (start, _) => return refuse(9, start as u64),
        }
        Ok(inner)
    }

    /// The next token, where the question must not end yet.
    fn next(&mut self) -> Answer<Token<'a>> {
        let Some((&token, rest)) = self.rest.split_first() else {
            return refuse(9, self.length as u64);
        };
        self.rest = rest;
        Ok(token)
    }
}
