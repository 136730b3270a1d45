//! The rules by which a row is grouped (Reference 6.3): their numbers, and the questions whose answer shows the grouping.

use super::asked;
use crate::calls::{Caller, Outcome};
use crate::example::{example, QUESTIONS};
use crate::grouping::{every_case, BY_HAND};
use crate::random::Random;
use crate::reference::index::read;
use crate::reference::question::{answer, RULES};
use crate::reference::{BRACKETS_MAX, QUESTION_MAX, QUESTION_WORDS_MAX};

pub fn run(caller: &mut Caller, random: &mut Random) -> Outcome {
    numbers(caller)?;
    grouped(caller)?;
    nested(caller)?;
    most_brackets(caller)?;
    deep(caller, random)
}

/// No rule's: beside theirs, with a low byte or half of theirs, and the largest.
const NO_RULES: [u32; 10] = [0, 3, 4, 255, 257, 258, 65_537, 65_538, 0x8000_0001, u32::MAX];

/// The example, and beside it one that each of the refusals 1 to 5 is given.
fn indexes() -> [Vec<u8>; 6] {
    let changed = |place: usize, byte: u8| {
        let mut bytes = example();
        bytes[place] = byte;
        bytes
    };
    let all = [example(), example()[..19].to_vec(), changed(168, 2), changed(156, 73), changed(52, b' '), changed(8, 2)];
    let refusal = |bytes: &Vec<u8>| read(bytes).err().map_or(0, |refusal| refusal.number);
    assert!(all.iter().map(refusal).eq(0..6), "an index for each refusal");
    all
}

/// A question that is answered, and beside it one that each of the refusals 6 to 11 is given.
fn questions() -> [Vec<u8>; 7] {
    let all = [
        b"boats or harbour and maps".to_vec(),
        vec![b'w'; 300],
        b"boats or caf_".to_vec(),
        vec![b'w'; 33],
        b"tide tables".to_vec(),
        vec!["boats"; 17].join(" or ").into_bytes(),
        b"(((((((((boats".to_vec(),
    ];
    let index = read(&example()).unwrap();
    let refusal = |question: &Vec<u8>| answer(&index, RULES[0], question).err().map_or(0, |refusal| refusal.number);
    assert!(all.iter().map(refusal).eq([0, 6, 7, 8, 9, 10, 11]), "a question for each refusal");
    all
}

/// Refusal 22 with each refusal that comes before it and behind it; with no room for the answer, 12.
fn numbers(caller: &mut Caller) -> Outcome {
    for index in indexes() {
        for question in questions() {
            for &rule in RULES.iter().chain(&NO_RULES) {
                caller.ask(&index, rule, &question, 0)?;
                caller.ask(&index, rule, &question, 64)?;
            }
        }
    }
    Ok(())
}

/// The lines of the example, and what is bracketed by hand, with its brackets and without.
fn grouped(caller: &mut Caller) -> Outcome {
    for (question, ..) in QUESTIONS {
        asked(caller, &example(), question.as_bytes())?;
    }
    let index = every_case();
    for (question, bracketed) in BY_HAND {
        for text in [question, bracketed[0], bracketed[1]] {
            asked(caller, &index, text.as_bytes())?;
        }
    }
    Ok(())
}

/// What stands before a bracket, and what behind it.
const BEFORE: [&str; 7] = ["", "a or ", "b and ", "c not ", "a or b and ", "d and e or ", "c or d not "];
const BEHIND: [&str; 7] = ["", " or a", " and b", " not c", " or d and e", " and a or b", " not c or d"];
const INMOST: [&str; 2] = ["c", "a or b and c"];

/// In brackets, with something before and behind them unless these are too many words together. A word has one letter here, an operator more.
fn bracketed(text: &str, before: &str, behind: &str) -> String {
    let around = format!("{before}({text}){behind}");
    let words = around.split([' ', '(', ')']).filter(|run| run.len() == 1).count();
    if words <= QUESTION_WORDS_MAX {
        return around;
    }
    format!("({text})")
}

/// The same around each bracket, up to the eighth and one more: `a or b and (a or b and (..))`, `((..(a or b and c)..))` and the like.
fn nested(caller: &mut Caller) -> Outcome {
    let index = every_case();
    for (before, behind) in BEFORE.iter().flat_map(|before| BEHIND.iter().map(move |behind| (before, behind))) {
        for inmost in INMOST {
            let mut text = inmost.to_string();
            for _ in 0..=BRACKETS_MAX {
                text = bracketed(&text, before, behind);
                asked(caller, &index, text.as_bytes())?;
            }
        }
    }
    Ok(())
}

/// Eight brackets with something else around each, and one more.
fn deep(caller: &mut Caller, random: &mut Random) -> Outcome {
    let index = every_case();
    for _ in 0..3_000 {
        let mut text = random.pick(&INMOST).to_string();
        for _ in 0..BRACKETS_MAX {
            let around = (*random.pick(&BEFORE), *random.pick(&BEHIND));
            let (before, behind) = if random.one_in(4) { ("", "") } else { around };
            text = bracketed(&text, before, behind);
        }
        for rule in RULES {
            caller.ask(&index, rule, text.as_bytes(), 64)?;
            caller.ask(&index, rule, format!("({text})").as_bytes(), 64)?;
        }
    }
    Ok(())
}

/// Questions of 256 bytes that are nearly all brackets, eight deep again and again, and with one byte more.
fn most_brackets(caller: &mut Caller) -> Outcome {
    let index = every_case();
    let enclosed = |depth: usize, word: char| format!("{}{word}{}", "(".repeat(depth), ")".repeat(depth));
    for operators in [["or", "or"], ["and", "and"], ["not", "not"], ["or", "and"], ["and", "or"], ["or", "not"]] {
        let linked = operators.iter().cycle().zip("abcde".chars().cycle());
        let mut text = enclosed(BRACKETS_MAX, 'e');
        for (operator, word) in linked {
            let Some(left) = QUESTION_MAX.checked_sub(text.len() + operator.len() + "(a)".len()) else { break };
            text += operator;
            text += &enclosed(BRACKETS_MAX.min(1 + left / 2), word);
        }
        asked(caller, &index, format!("{text:<256}").as_bytes())?;
        asked(caller, &index, format!("{text:<257}").as_bytes())?;
    }
    Ok(())
}
