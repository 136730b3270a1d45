//! Numbers to intervals and back.

use super::set::Set;
use super::{refuse, Answer, RECORD_MAX};

/// The first place whose number is 0, over the limit, or no larger than its predecessor.
pub fn bad_number(numbers: &[u32], limit: u32) -> Option<usize> {
    (0..numbers.len()).find(|&i| numbers[i] == 0 || numbers[i] > limit || (i > 0 && numbers[i] <= numbers[i - 1]))
}

/// Refusals 15, 12: the cells written.
pub fn to_intervals(numbers: &[u32], room: usize) -> Answer<Vec<u32>> {
    if let Some(place) = bad_number(numbers, RECORD_MAX) {
        return refuse(15, place as u64);
    }
    let cells = Set::of_numbers(numbers).cells();
    if cells.len() / 2 > room / 2 {
        return refuse(12, cells.len() as u64 / 2);
    }
    Ok(cells)
}

/// The first interval that is not proper; a lone last cell is one.
fn bad_interval(cells: &[u32]) -> Option<usize> {
    let mut least = 1;
    for (i, pair) in cells.chunks(2).enumerate() {
        match *pair {
            [l, u] if u64::from(l) >= least && l <= u && u <= RECORD_MAX => least = u64::from(u) + 2,
            _ => return Some(i),
        }
    }
    None
}

/// Refusals 16, 12: the numbers written.
pub fn to_numbers(cells: &[u32], room: usize) -> Answer<Vec<u32>> {
    if let Some(interval) = bad_interval(cells) {
        return refuse(16, interval as u64);
    }
    let set = Set::of(cells.chunks(2).map(|pair| (pair[0], pair[1])).collect());
    if set.records() > room as u64 {
        return refuse(12, set.records());
    }
    Ok(set.numbers())
}
