//! Numbers to intervals, and intervals to numbers.

use super::room;
use crate::calls::{Caller, Outcome};
use crate::make;
use crate::random::Random;
use crate::reference::set::Set;
use crate::reference::RECORD_MAX;

/// A small set anywhere in the range, often at its end.
fn draw(random: &mut Random) -> Set {
    let size = 1 + random.below(30);
    let highest = *random.pick(&[3, 60, 9_000]);
    let set = make::set(random, highest, size);
    let shift = if random.one_in(3) { RECORD_MAX - highest } else { 0 };
    let drawn = Set::of(set.intervals().iter().map(|&(l, u)| (l + shift, u + shift)).collect());
    if random.one_in(20) {
        Set::default()
    } else {
        drawn
    }
}

fn disturb(random: &mut Random, cells: &mut Vec<u32>) {
    let at = random.below(cells.len());
    match random.below(7) {
        0 if !cells.is_empty() => drop(cells.remove(at)),
        1 if !cells.is_empty() => cells.insert(at, cells[at]),
        2 if !cells.is_empty() => cells[at] = random.cell(),
        3 if !cells.is_empty() => cells[at] = cells[at].wrapping_add(1),
        4 if !cells.is_empty() => cells[at] = cells[at].wrapping_sub(1),
        5 if cells.len() > 1 => cells.swap(at, 0),
        _ => cells.push(random.cell()),
    }
}

pub fn run(caller: &mut Caller, random: &mut Random) -> Outcome {
    let set = draw(random);
    let (mut numbers, mut cells) = (set.numbers(), set.cells());
    if random.one_in(2) {
        disturb(random, &mut numbers);
        disturb(random, &mut cells);
    }
    let room_for_cells = room(random, set.intervals().len(), 2);
    caller.to_intervals(&numbers, room_for_cells)?;
    let room_for_numbers = room(random, set.records() as usize, 1);
    caller.to_numbers(&cells, room_for_numbers)
}
