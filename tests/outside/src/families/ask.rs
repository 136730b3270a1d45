//! Questions: sound ones, token soup, and damaged ones, by both rules and by numbers that are no rule's.

use super::room;
use crate::calls::{Caller, Outcome};
use crate::make::{self, Catalogue};
use crate::random::Random;
use crate::reference::question::{ask, RULES};

type Tokens = Vec<Vec<u8>>;

fn operand(random: &mut Random, catalogue: &Catalogue) -> Vec<u8> {
    if catalogue.words.is_empty() || random.one_in(8) {
        return make::word(random);
    }
    random.pick(&catalogue.words).0.clone()
}

/// A question by the grammar, with at most so many words and brackets.
fn sound(random: &mut Random, catalogue: &Catalogue, words: &mut usize, brackets: usize, tokens: &mut Tokens) {
    let operands = 1 + random.below(5).min(words.saturating_sub(1));
    for i in 0..operands {
        if i > 0 {
            tokens.push(make::operator(random));
        }
        if brackets > 0 && *words > 0 && random.one_in(3) {
            tokens.push(b"(".to_vec());
            sound(random, catalogue, words, brackets - 1, tokens);
            tokens.push(b")".to_vec());
        } else {
            *words = words.saturating_sub(1);
            tokens.push(operand(random, catalogue));
        }
    }
}

/// Tokens without any order.
fn soup(random: &mut Random, catalogue: &Catalogue) -> Tokens {
    let token = |random: &mut Random| match random.below(6) {
        0 => b"(".to_vec(),
        1 => b")".to_vec(),
        2 | 3 => make::operator(random),
        _ => operand(random, catalogue),
    };
    (0..random.below(12)).map(|_| token(random)).collect()
}

/// Tokens in a row, brackets and the rest deeply nested: around 16 words and 8 brackets.
fn crowded(random: &mut Random, catalogue: &Catalogue) -> Tokens {
    let mut tokens = Tokens::new();
    let (words, brackets) = (14 + random.below(5), random.below(11));
    let mut open = 0;
    for i in 0..words {
        if i > 0 {
            tokens.push(make::operator(random));
        }
        while open < brackets && random.one_in(2) {
            tokens.push(b"(".to_vec());
            open += 1;
        }
        tokens.push(operand(random, catalogue));
        if open > 0 && random.one_in(6) {
            tokens.push(b")".to_vec());
            open -= 1;
        }
    }
    tokens.extend((0..open).map(|_| b")".to_vec()));
    tokens
}

/// Exchanges, drops, doubles or moves a token.
fn disturb(random: &mut Random, catalogue: &Catalogue, tokens: &mut Tokens) {
    let at = random.below(tokens.len());
    match random.below(5) {
        0 if !tokens.is_empty() => drop(tokens.remove(at)),
        1 if !tokens.is_empty() => tokens.insert(at, tokens[at].clone()),
        2 if random.one_in(2) => tokens.insert(at, make::operator(random)),
        2 => tokens.insert(at, random.pick(&[&b"("[..], b")"]).to_vec()),
        3 => tokens.insert(at, vec![b'w'; 31 + random.below(4)]),
        _ => tokens.push(operand(random, catalogue)),
    }
}

/// Lays tokens out: spaces where they are needed, and here and there where they are not.
fn lay_out(random: &mut Random, tokens: &Tokens) -> Vec<u8> {
    let mut text: Vec<u8> = Vec::new();
    let spread = random.below(4);
    for token in tokens {
        let meet = text.last().is_some_and(u8::is_ascii_alphanumeric) && token[0].is_ascii_alphanumeric();
        let spaces = if random.one_in(3) { random.below(spread + 1) } else { 0 };
        text.extend(vec![b' '; spaces.max(usize::from(meet))]);
        text.extend_from_slice(token);
    }
    text.extend(vec![b' '; if random.one_in(4) { random.below(5) } else { 0 }]);
    text
}

pub fn question(random: &mut Random, catalogue: &Catalogue) -> Vec<u8> {
    let mut tokens = Tokens::new();
    match random.below(10) {
        0 => tokens = soup(random, catalogue),
        1 => tokens = crowded(random, catalogue),
        _ => {
            let (mut words, brackets) = (1 + random.below(16), random.below(9));
            sound(random, catalogue, &mut words, brackets, &mut tokens);
        }
    }
    if random.one_in(4) {
        disturb(random, catalogue, &mut tokens);
    }
    let mut text = lay_out(random, &tokens);
    match random.below(16) {
        0 => text.resize(255 + random.below(3), b' '),
        1 if !text.is_empty() => {
            let place = random.below(text.len());
            text[place] = *random.pick(b"\n\r\0*@[`{/:!_-\xc3\xff\x7f");
        }
        2 if !text.is_empty() => {
            let place = random.below(text.len());
            text[place] = random.next() as u8;
        }
        _ => {}
    }
    text
}

pub fn run(caller: &mut Caller, random: &mut Random) -> Outcome {
    let (catalogue, bytes) = make::index(random);
    for _ in 0..2 {
        let asked = question(random, &catalogue);
        for rule in RULES {
            let needed = ask(&bytes, rule, &asked).map_or(2, |answer| answer.intervals().len());
            let room = room(random, needed, 2);
            caller.ask(&bytes, rule, &asked, room)?;
        }
        if random.one_in(4) {
            let (rule, room) = (make::no_rule(random), random.below(20));
            caller.ask(&bytes, rule, &asked, room)?;
        }
    }
    Ok(())
}
