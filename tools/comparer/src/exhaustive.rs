//! Every row of a few tokens, by every entry.

use crate::kind::*;
use crate::question::{Entry, MOST_FLAGS, Question, Row};
use crate::random::Random;
use crate::rows::{Sink, needed};

/// A kind with a value type.
pub type Token = (u8, u8);

/// From where a row is read.
#[derive(Debug, Clone, Copy, PartialEq, Eq)]
pub enum Cursors {
    Every,
    First,
}

/// Asks about every row of `length` tokens of the alphabet that begins with
/// the tokens `first`, EndOfSource added.
pub fn every_row(
    alphabet: &[Token],
    first: &[Token],
    length: usize,
    cursors: Cursors,
    sink: &mut dyn Sink,
) {
    let mut random = Random::new(0, length as u64, alphabet.len() as u64);
    let mut places = vec![0; length - first.len()];
    let mut kinds = vec![END_OF_SOURCE; length + 1];
    let mut types = vec![0; length + 1];
    loop {
        let rest = places.iter().map(|&place: &usize| alphabet[place]);
        for (slot, (kind, value_type)) in first.iter().copied().chain(rest).enumerate() {
            kinds[slot] = kind;
            types[slot] = value_type;
        }
        let row = Row {
            kinds: &kinds,
            types: &types,
        };
        sink.row(row);
        ask_all(length + 1, cursors, &mut random, sink);
        if !next(&mut places, alphabet.len()) {
            return;
        }
    }
}

/// The next places in the alphabet, the last one first; false after the last.
fn next(places: &mut [usize], size: usize) -> bool {
    for place in places.iter_mut().rev() {
        *place += 1;
        if *place < size {
            return true;
        }
        *place = 0;
    }
    false
}

/// Every entry, with a base below 4, about a row of so many tokens.
pub fn ask_all(tokens: usize, cursors: Cursors, random: &mut Random, sink: &mut dyn Sink) {
    let end = match cursors {
        Cursors::Every => tokens,
        Cursors::First => 1,
    };
    for entry in Entry::ALL {
        for cursor in 0..end {
            let base = random.below(4);
            let slots = base + needed(tokens) + random.below(3);
            sink.ask(Question {
                cursor: cursor as u32,
                base: base as u32,
                flags: random.below(MOST_FLAGS as usize + 1) as u32,
                start: random.below(tokens) as u32,
                word_kind: WORD8 + random.below(5) as u8,
                ..Question::new(entry, slots as u32)
            });
        }
    }
}

/// All 62 kinds, each with a value type of its own.
pub fn all_kinds() -> Vec<Token> {
    (0..=ERROR).map(|kind| (kind, kind % 15)).collect()
}

/// A dozen of kinds that expressions are made of.
pub fn of_expressions() -> Vec<Token> {
    const KINDS: [u8; 12] = [
        PAREN_LEFT,
        PAREN_RIGHT,
        BRACE_LEFT,
        BRACE_RIGHT,
        BRACKET_LEFT,
        BRACKET_RIGHT,
        PIPE,
        AMPERSAND,
        COMMA,
        DOTS,
        IDENTIFIER,
        SUFFIXED_INTEGER,
    ];
    with_types(&KINDS)
}

/// A dozen of kinds that operators and types are made of.
pub fn of_operators() -> Vec<Token> {
    const KINDS: [u8; 12] = [
        PAREN_LEFT,
        BRACKET_LEFT,
        BRACKET_RIGHT,
        AMPERSAND,
        PLUS,
        MINUS,
        TIMES,
        SHIFT_LEFT,
        AS,
        PIPE_FOR_TYPE,
        IDENTIFIER,
        NAKED_DECIMAL,
    ];
    with_types(&KINDS)
}

/// A dozen of kinds that declarations are made of.
pub fn of_declarations() -> Vec<Token> {
    const KINDS: [u8; 12] = [
        BRACE_LEFT,
        BRACE_RIGHT,
        BRACKET_LEFT,
        BRACKET_RIGHT,
        AMPERSAND,
        COLON,
        SEMICOLON,
        COMMA,
        ASSIGNMENT,
        VALUE_TYPE_KEYWORD,
        IDENTIFIER,
        STRING_LITERAL,
    ];
    with_types(&KINDS)
}

fn with_types(kinds: &[u8]) -> Vec<Token> {
    kinds.iter().map(|&kind| (kind, kind % 15)).collect()
}

/// The two kinds whose value type is read, with every value type, and a few
/// kinds around them.
pub fn value_types() -> Vec<Token> {
    let around = [PAREN_LEFT, AMPERSAND, PLUS, AS, IDENTIFIER].map(|kind| (kind, 7));
    let read = [VALUE_TYPE_KEYWORD, SUFFIXED_INTEGER];
    let typed = read
        .into_iter()
        .flat_map(|kind| (0..15).map(move |t| (kind, t)));
    around.into_iter().chain(typed).collect()
}
