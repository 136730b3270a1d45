//! The independent implementation of docs/REFERENCE.md, the one that the outside tests hold the library to, as calls for C.

#![allow(dead_code)] // questions and joins are all that is asked of it here

use std::slice::{from_raw_parts, from_raw_parts_mut};

#[path = "../tests/outside/src/reference/mod.rs"]
mod reference;

use reference::join::{fit, join, Join};
use reference::set::Set;
use reference::Answer;

/// `struct engine_result` of engine.h.
#[repr(C)]
pub struct EngineResult {
    refusal: u64,
    value: u64,
    intervals: u64,
    records: u64,
}

/// The answer as intervals from cell 0 on, or its refusal.
fn written(answer: Answer<Set>, cells: &mut [u32]) -> EngineResult {
    match answer.and_then(|set| fit(set, cells.len())) {
        Ok(set) => {
            let written = set.cells();
            cells[..written.len()].copy_from_slice(&written);
            EngineResult { refusal: 0, value: 0, intervals: set.intervals().len() as u64, records: set.records() }
        }
        Err(refusal) => EngineResult { refusal: refusal.number, value: refusal.value, intervals: 0, records: 0 },
    }
}

/// # Safety
/// In each of these calls a pointer with the length behind it is a slice; the cells overlap no other.
#[no_mangle]
pub unsafe extern "C" fn reference_check(index: *const u8, length: usize) -> EngineResult {
    let checked = reference::index::read(from_raw_parts(index, length));
    written(checked.map(|_| Set::default()), &mut [])
}

/// # Safety
/// As `reference_check`.
#[no_mangle]
pub unsafe extern "C" fn reference_ask(
    index: *const u8,
    length: usize,
    rule: u32,
    question: *const u8,
    question_length: usize,
    cells: *mut u32,
    room: usize,
) -> EngineResult {
    let answer = reference::question::ask(from_raw_parts(index, length), rule, from_raw_parts(question, question_length));
    written(answer, from_raw_parts_mut(cells, room))
}

/// The two joins differ in what they ask of the lists alone.
macro_rules! join_call {
    ($name:ident, $how:expr) => {
        /// # Safety
        /// As `reference_check`.
        #[no_mangle]
        pub unsafe extern "C" fn $name(
            index: *const u8,
            length: usize,
            entries: *const u32,
            count: usize,
            cells: *mut u32,
            room: usize,
        ) -> EngineResult {
            let answer = join(from_raw_parts(index, length), $how, from_raw_parts(entries, count));
            written(answer, from_raw_parts_mut(cells, room))
        }
    };
}

join_call!(reference_union, Join::Union);
join_call!(reference_intersection, Join::Intersection);
