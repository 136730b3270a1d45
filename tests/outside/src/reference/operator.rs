//! The three operators (Reference 2, 6.3).

use super::set::Set;
use super::OPERATORS;

#[derive(Clone, Copy, PartialEq, Eq)]
pub enum Operator {
    And,
    Or,
    Not,
}

impl Operator {
    /// The operator that a token is, in any mixture of small and capital letters.
    pub fn of(token: &[u8]) -> Option<Operator> {
        let place = OPERATORS.iter().position(|operator| token.eq_ignore_ascii_case(operator))?;
        Some([Operator::And, Operator::Or, Operator::Not][place])
    }

    /// What it makes of its two sides.
    pub fn join(self, left: &Set, right: &Set) -> Set {
        match self {
            Operator::And => left.and(right),
            Operator::Or => left.or(right),
            Operator::Not => left.not(right),
        }
    }
}
