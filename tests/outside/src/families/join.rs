//! Unions and intersections, each by both methods.

use super::entries::entry;
use super::room;
use crate::calls::{Caller, Outcome};
use crate::make;
use crate::random::Random;
use crate::reference::join::{join, Join};

pub fn union(caller: &mut Caller, random: &mut Random) -> Outcome {
    run(caller, random, Join::Union)
}

pub fn intersection(caller: &mut Caller, random: &mut Random) -> Outcome {
    run(caller, random, Join::Intersection)
}

/// A short list with long ones: what is kept of where a list was read goes on over many intervals, and lags where another list decides.
pub fn uneven(caller: &mut Caller, random: &mut Random) -> Outcome {
    let catalogue = make::uneven(random);
    let entries: Vec<u32> = (0..2 + random.below(4)).map(|_| random.below(catalogue.words.len()) as u32).collect();
    call(caller, random, Join::Intersection, &catalogue.encode(), &entries)
}

fn run(caller: &mut Caller, random: &mut Random, how: Join) -> Outcome {
    let (catalogue, bytes) = make::index(random);
    let count = match random.below(8) {
        0 => *random.pick(&[0, 15, 16, 17, 18, 40]),
        1 => 1 + random.below(16),
        _ => 1 + random.below(4),
    };
    let wild = random.one_in(4);
    let entries: Vec<u32> = (0..count).map(|_| if wild { entry(random, &catalogue) } else { random.below(catalogue.words.len()) as u32 }).collect();
    call(caller, random, how, &bytes, &entries)
}

fn call(caller: &mut Caller, random: &mut Random, how: Join, bytes: &[u8], entries: &[u32]) -> Outcome {
    let needed = join(bytes, how, entries).map_or(3, |answer| answer.intervals().len());
    let room = room(random, needed, 2);
    caller.join(bytes, how, entries, room)
}
