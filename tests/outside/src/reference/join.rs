//! Union and intersection of entries of an index, and what every answer made of intervals reports.

use super::index::read;
use super::set::Set;
use super::{refuse, Answer, LISTS_MAX};

#[derive(Clone, Copy, Debug, PartialEq, Eq)]
pub enum Join {
    Union,
    Intersection,
}

/// Refusals 1 to 5, 13, 14.
pub fn join(bytes: &[u8], how: Join, entries: &[u32]) -> Answer<Set> {
    let index = read(bytes)?;
    if entries.is_empty() || entries.len() > LISTS_MAX {
        return refuse(13, entries.len() as u64);
    }
    if let Some(place) = entries.iter().position(|&e| e as usize >= index.entries.len()) {
        return refuse(14, place as u64);
    }
    let lists = entries.iter().map(|&e| index.entries[e as usize].list.clone());
    Ok(lists.reduce(|one, next| if how == Join::Union { one.or(&next) } else { one.and(&next) }).unwrap())
}

/// Refusal 12 of an answer: an interval needs two cells.
pub fn fit(answer: Set, cells: usize) -> Answer<Set> {
    if answer.intervals().len() > cells / 2 {
        return refuse(12, answer.intervals().len() as u64);
    }
    Ok(answer)
}
