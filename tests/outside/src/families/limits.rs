//! The ends of every range, each limit and one more, and the borders of windows of 8,192 records.

use super::{asked, needed, rooms};
use crate::calls::{Caller, Outcome};
use crate::example::example;
use crate::random::Random;
use crate::reference::build::encode;
use crate::reference::join::{join, Join};
use crate::reference::question::RULES;
use crate::reference::set::{Interval, Set};
use crate::reference::{is_small_operator, INDEX_MAX, OPERATORS, RECORD_MAX};

pub fn run(caller: &mut Caller, _: &mut Random) -> Outcome {
    questions(caller)?;
    operators(caller)?;
    twice(caller)?;
    last_record(caller)?;
    borders(caller)?;
    conversions(caller)?;
    few_and_many_words(caller)?;
    missing_words(caller)?;
    longest_index(caller)
}

/// A join with each of the rooms.
fn joined(caller: &mut Caller, index: &[u8], entries: &[u32]) -> Outcome {
    for how in [Join::Union, Join::Intersection] {
        for room in rooms(needed(join(index, how, entries))) {
            caller.join(index, how, entries, room)?;
        }
    }
    Ok(())
}

fn questions(caller: &mut Caller) -> Outcome {
    let index = example();
    let words = |n: usize| vec!["boats"; n].join(" or ");
    let nested = |n: usize| format!("{}maps{}", "(".repeat(n), ")".repeat(n));
    let table = [
        String::new(),
        " ".to_string(),
        "   ".to_string(),
        "boats or ".to_string(),
        "(boats  ".to_string(),
        "()".to_string(),
        ")".to_string(),
        "a(b)".to_string(),
        "(boats)or(tide)".to_string(),
        "AND and AND".to_string(),
        "and".to_string(),
        "boats and and".to_string(),
        words(16),
        words(17),
        format!("{} tide", words(16)),
        format!("{} and", words(16)),
        nested(8),
        nested(9),
        format!("maps {}", nested(9)),
        "(maps) or ".repeat(15) + "(maps)",
        format!("{:<256}", "boats or tide"),
        format!("{:<257}", "boats or tide"),
        format!("{:>256}", "boats or tide"),
        format!("{:<256}", "boats or"),
        "w".repeat(32),
        "w".repeat(33),
        format!("boats ) {}", "w".repeat(33)),
        format!("{}\n", "w".repeat(33)),
        "w".repeat(256),
        "w".repeat(257),
    ];
    for question in table {
        asked(caller, &index, question.as_bytes())?;
    }
    Ok(())
}

/// Each mixture of small and capital letters.
fn spellings(operator: &[u8]) -> Vec<String> {
    let letter = |capitals: usize, i: usize| char::from(if capitals >> i & 1 == 1 { operator[i].to_ascii_uppercase() } else { operator[i] });
    (0..1 << operator.len()).map(|capitals| (0..operator.len()).map(|i| letter(capitals, i)).collect()).collect()
}

/// Where an operator can come, where it cannot, and where its letters are a part of a word: `?` stands for each spelling.
const PLACES: [&str; 22] = [
    "?",
    "? boats",
    "boats ?",
    "boats ? tide",
    " boats  ?  tide ",
    "(boats ? tide)",
    "(boats)?(tide)",
    "boats ? tide ? maps",
    "boats ? (tide ? maps)",
    "boats ? ? tide",
    "boats ? ?",
    "(?)",
    "(? boats)",
    "(boats ?)",
    "boats(?)",
    "boats or ?",
    "boats ?s",
    "?s ? x?",
    "boats?tide",
    "?1 or boats",
    "((((((((?",
    "(((((((((?",
];

/// Every spelling of the operators: in a question, as a word to build, and as a word of an index, which may hold those with a capital letter.
fn operators(caller: &mut Caller) -> Outcome {
    let all: Vec<String> = OPERATORS.iter().flat_map(|operator| spellings(operator)).collect();
    let capital = all.iter().map(|word| word.clone().into_bytes()).filter(|word| !is_small_operator(word));
    let mut words: Vec<Vec<u8>> = capital.chain([b"boats".to_vec(), b"maps".to_vec(), b"tide".to_vec()]).collect();
    words.sort();
    let holding: Vec<(Vec<u8>, Set)> = words.into_iter().zip(1..).map(|(word, i)| (word, set(&[(i, i + 2)]))).collect();
    let indexes = [example(), encode(30, &holding)];
    let many = |n: usize| vec!["boats"; n].join(" or ");
    let crowded = [(15, "? tide"), (16, "?"), (16, "? tide"), (16, "or ?"), (16, "? ?")].map(|(n, end)| format!("{} {end}", many(n)));
    for index in &indexes {
        caller.check(index)?;
        for spelling in &all {
            caller.lookup(index, spelling.as_bytes())?;
            for place in PLACES.iter().copied().chain(crowded.iter().map(String::as_str)) {
                asked(caller, index, place.replace('?', spelling).as_bytes())?;
            }
        }
    }
    all.iter().try_for_each(|spelling| one_operator(caller, spelling.as_bytes()))
}

/// One spelling as a word: alone and between two others, held and to be built, and with a letter more.
fn one_operator(caller: &mut Caller, spelling: &[u8]) -> Outcome {
    let longer = [spelling, b"b"].concat();
    for word in [spelling, &longer] {
        let others = [(b"Zz".to_vec(), set(&[(1, 1)])), (word.to_vec(), set(&[(2, 2)])), (b"tide".to_vec(), set(&[(1, 2)]))];
        let mut three = others.clone();
        three.sort_by(|a, b| a.0.cmp(&b.0));
        for words in [&others[1..2], &three] {
            let index = encode(2, words);
            caller.check(&index)?;
            caller.lookup(&index, word)?;
            asked(caller, &index, word)?;
            let lent: Vec<u8> = words.iter().flat_map(|(word, _)| [&word[..], b"\n"].concat()).collect();
            let counts: Vec<u32> = words.iter().map(|(_, list)| list.records() as u32).collect();
            let numbers: Vec<u32> = words.iter().flat_map(|(_, list)| list.numbers()).collect();
            caller.build(2, &lent, &counts, &numbers, index.len())?;
        }
    }
    Ok(())
}

fn twice(caller: &mut Caller) -> Outcome {
    let index = example();
    for entries in [&[0][..], &[2, 2], &[1, 3, 1], &[0; 16], &[0; 17], &[9; 17], &[], &[0, 4], &[u32::MAX, 4], &[3, 2, 1, 0]] {
        joined(caller, &index, entries)?;
    }
    Ok(())
}

fn set(intervals: &[Interval]) -> Set {
    Set::of(intervals.to_vec())
}

/// Three words over N.
fn three(highest: u32, lists: [&[Interval]; 3]) -> Vec<u8> {
    let words = [b"a", b"b", b"c"].iter().zip(lists).map(|(word, list)| (word.to_vec(), set(list)));
    encode(highest, &words.collect::<Vec<_>>())
}

const THREE: [&str; 12] = [
    "a",
    "b",
    "a or b",
    "a and b",
    "a not b",
    "b not a",
    "a or b and c",
    "a not (b or c)",
    "c not (a and b)",
    "(a or c) and (b or c)",
    "lacking or a",
    "a not lacking",
];

fn all_of_three(caller: &mut Caller, index: &[u8]) -> Outcome {
    caller.check(index)?;
    for question in THREE {
        asked(caller, index, question.as_bytes())?;
    }
    for entries in [&[0, 1][..], &[1, 2], &[0, 1, 2], &[2, 0, 2]] {
        joined(caller, index, entries)?;
    }
    Ok(())
}

fn last_record(caller: &mut Caller) -> Outcome {
    let last = RECORD_MAX;
    let index = three(last, [&[(1, 1), (last - 9, last)], &[(last, last)], &[(1, last)]]);
    all_of_three(caller, &index)?;
    all_of_three(caller, &three(last, [&[(last - 1, last)], &[(2, last - 2), (last, last)], &[(1, 1), (last, last)]]))?;
    for (a, b) in [(1, last), (last, last), (last, last + 1), (last - 10, last - 10), (0, 1), (2, 1), (1, u32::MAX)] {
        for entry in 0..4 {
            caller.probe(&index, entry, a, b)?;
        }
    }
    caller.check(&encode(last, &[]))?;
    caller.check(&encode(last + 1, &[]))
}

/// Lists that begin, end, meet or part beside the borders of windows.
fn borders(caller: &mut Caller) -> Outcome {
    for border in [8191, 8192, 8193, 16_384, 16_385] {
        for (x, y) in [(0, 0), (0, 1), (1, 1), (1, 2), (2, 3)] {
            let (l, u) = (border - 2 + x, border - 2 + y);
            let step: Vec<Interval> = (1..40_000).step_by(2).map(|n| (n, n)).collect();
            for highest in [border + 3, 40_000] {
                all_of_three(caller, &three(highest, [&[(l, u)], &[(1, l.max(2) - 1), (u + 1, highest)], &[(1, highest)]]))?;
            }
            all_of_three(caller, &three(40_000, [&[(l, u)], &[(u + 1, u + 8192)], &step]))?;
            all_of_three(caller, &three(40_000, [&[(1, u)], &[(l, 40_000)], &[(l, u), (u + 8192, u + 8192)]]))?;
        }
    }
    Ok(())
}

fn conversions(caller: &mut Caller) -> Outcome {
    let last = RECORD_MAX;
    for numbers in [&[][..], &[last], &[last - 1, last], &[last, last], &[last + 1], &[0], &[1, 0], &[2, 1], &[1, 2, 3, 5, u32::MAX]] {
        for room in 0..8 {
            caller.to_intervals(numbers, room)?;
        }
    }
    let lists: [&[u32]; 12] = [
        &[],
        &[1],
        &[1, 1],
        &[1, 1, 2],
        &[1, 1, 2, 2],
        &[1, 1, 3, 3],
        &[0, 1],
        &[2, 1],
        &[last, last],
        &[last, last + 1],
        &[1, 2, last, last],
        &[1, u32::MAX, 0, 0],
    ];
    for cells in lists {
        for room in 0..5 {
            caller.to_numbers(cells, room)?;
        }
    }
    caller.to_numbers(&[1, last], last as usize - 1)?;
    caller.to_numbers(&[1, last], last as usize)?;
    let all: Vec<u32> = (1..=last).collect();
    caller.to_intervals(&all, 2)?;
    caller.to_intervals(&all, 1)
}

fn few_and_many_words(caller: &mut Caller) -> Outcome {
    for n in [0, RECORD_MAX] {
        caller.check(&encode(n, &[]))?;
        asked(caller, &encode(n, &[]), b"pier")?;
        caller.lookup(&encode(n, &[]), b"pier")?;
        caller.lookup(&encode(n, &[]), b"")?;
        caller.build(n, b"", &[], &[], 20)?;
        caller.build(n, b"", &[], &[], 19)?;
    }
    caller.build(RECORD_MAX + 1, b"\n", &[0], &[0], 0)?;
    let name = |i: usize| format!("w{i:05}").into_bytes();
    let one = |i: usize| (name(i), set(&[(1 + i as u32 % 9, 1 + i as u32 % 9)]));
    let many: Vec<(Vec<u8>, Set)> = (0..65_536).map(one).collect();
    let most = encode(9, &many[..65_535]);
    caller.check(&most)?;
    caller.check(&encode(9, &many))?;
    for i in [0, 1, 32_767, 65_534, 65_535] {
        caller.lookup(&most, &name(i))?;
        caller.lookup(&most, &[&name(i)[..], b"0"].concat())?;
        caller.lookup(&most, &name(i)[..5])?;
        caller.word(&most, i as u32)?;
    }
    joined(caller, &most, &[0, 65_534, 5, 7])?;
    asked(caller, &most, b"w00000 or w65534 or w30001 not w00009")?;
    for n in [65_535, 65_536] {
        let words: Vec<u8> = many[..n].iter().flat_map(|(word, _)| [&word[..], b"\n"].concat()).collect();
        let numbers: Vec<u32> = many[..n].iter().map(|(_, list)| list.intervals()[0].0).collect();
        caller.build(9, &words, &vec![1; n], &numbers, most.len())?;
        caller.build(9, &words, &vec![1; n], &numbers, most.len() - 1)?;
        caller.build(9, &words[..words.len() - 1], &vec![1; n], &numbers, most.len())?;
    }
    Ok(())
}

/// What stands before all words, between any two, and behind the last: each byte alone, and beside each word its beginnings, longer ones, and the same
/// with another last byte; no bytes, and more than a word may have.
fn missing_words(caller: &mut Caller) -> Outcome {
    let index = example();
    for byte in 0..=255 {
        caller.lookup(&index, &[byte])?;
        for word in [&b"boats"[..], b"harbour", b"maps", b"tide"] {
            caller.lookup(&index, &[word, &[byte]].concat())?;
            caller.lookup(&index, &[&word[..word.len() - 1], &[byte]].concat())?;
            caller.lookup(&index, &word[..usize::from(byte) % word.len()])?;
        }
    }
    for length in [31, 32, 33, 64, 65_536] {
        for byte in [0, b'a', b'm', b'z', 255] {
            caller.lookup(&index, &vec![byte; length])?;
            caller.lookup(&index, &[&b"maps"[..], &vec![byte; length]].concat())?;
        }
    }
    Ok(())
}

/// An index of exactly 16,777,216 bytes, and what is longer.
fn longest_index(caller: &mut Caller) -> Outcome {
    let cells = (INDEX_MAX - 40 - 4) / 4;
    let numbers: Vec<u32> = (0..cells as u32 + 1).map(|i| 2 * i + 1).collect();
    let mut longest = encode(RECORD_MAX, &[(b"long".to_vec(), Set::of_numbers(&numbers[..cells]))]);
    assert!(longest.len() == INDEX_MAX);
    caller.check(&longest)?;
    for rule in RULES {
        caller.ask(&longest, rule, b"long not long", 0)?;
        caller.ask(&longest, rule, b"long", 2 * cells)?;
        caller.ask(&longest, rule, b"long", 2 * cells - 1)?;
    }
    caller.probe(&longest, 0, 1, RECORD_MAX)?;
    longest.push(0);
    caller.check(&longest)?;
    caller.ask(&longest, RULES[0], b"long", 4)?;
    built_too_long(caller, cells, numbers)
}

/// Refusal 19 with 1: from one byte and from one cell more than an index may have, before 12 and behind 15, 18, 17 and 19 with 0. The numbers are
/// one more than the singles that fit.
fn built_too_long(caller: &mut Caller, cells: usize, mut numbers: Vec<u32>) -> Outcome {
    let count = [cells as u32];
    caller.build(RECORD_MAX, b"long\n", &count, &numbers[..cells], INDEX_MAX)?;
    caller.build(RECORD_MAX, b"long\n", &count, &numbers[..cells], INDEX_MAX - 1)?;
    for room in [INDEX_MAX, INDEX_MAX + 1, 0] {
        caller.build(RECORD_MAX, b"longs\n", &count, &numbers[..cells], room)?;
    }
    let more = [cells as u32 + 1];
    for room in [INDEX_MAX, INDEX_MAX + 4, 0] {
        caller.build(RECORD_MAX, b"long\n", &more, &numbers, room)?;
    }
    caller.build(RECORD_MAX + 1, b"long\n", &more, &numbers, 0)?;
    caller.build(RECORD_MAX, b"or\n", &more, &numbers, 0)?;
    caller.build(RECORD_MAX, b"long\n", &[more[0] + 1], &numbers, 0)?;
    // A stretch at the end takes two cells, however many numbers it has, so the size is that after merging.
    numbers[cells - 1] = numbers[cells - 2] + 1;
    numbers[cells] = numbers[cells - 2] + 2;
    caller.build(RECORD_MAX, b"long\n", &more, &numbers, INDEX_MAX)?;
    caller.build(RECORD_MAX, b"longer\n", &more, &numbers, INDEX_MAX)?;
    for place in [cells, cells / 2, 0] {
        numbers[place] = 0;
        caller.build(RECORD_MAX, b"longer\n", &more, &numbers, 0)?;
    }
    Ok(())
}
