//! Rows that are nested to a given depth.

use crate::kind::*;
use crate::question::Entry;
use crate::random::Random;

/// Tokens that open one more level, and those that stand after what is inside.
type Opening = (&'static [u8], &'static [u8]);

/// An expression with an expression inside.
pub const EXPRESSIONS: [Opening; 13] = [
    (&[PAREN_LEFT], &[PAREN_RIGHT]),
    (&[BRACKET_LEFT], &[BRACKET_RIGHT]),
    (&[IDENTIFIER, PAREN_LEFT], &[PAREN_RIGHT]),
    (&[BUILTIN, PAREN_LEFT], &[COMMA, PAREN_RIGHT]),
    (&[IDENTIFIER, BRACE_LEFT, IDENTIFIER, COLON], &[BRACE_RIGHT]),
    (&[IDENTIFIER, BRACKET_LEFT], &[BRACKET_RIGHT]),
    (&[AMPERSAND, IDENTIFIER, DOTS], &[]),
    (&[AMPERSAND, IDENTIFIER, BRACKET_LEFT], &[BRACKET_RIGHT]),
    (&[PIPE, IDENTIFIER, BRACKET_LEFT], &[BRACKET_RIGHT, PIPE]),
    (&[NAKED_DECIMAL, PLUS, PAREN_LEFT], &[PAREN_RIGHT]),
    (&[BRACKET_LEFT, NAKED_DECIMAL, COMMA], &[BRACKET_RIGHT]),
    (
        &[IDENTIFIER, PAREN_LEFT, IDENTIFIER, COMMA],
        &[COMMA, PAREN_RIGHT],
    ),
    (&[CAST, MINUS, PAREN_LEFT], &[PAREN_RIGHT]),
];

/// An inner type with an inner type inside.
pub const TYPES: [Opening; 7] = [
    (&[AMPERSAND], &[]),
    (&[PAREN_LEFT], &[PAREN_RIGHT]),
    (&[BRACKET_LEFT, BRACKET_RIGHT], &[]),
    (&[BRACKET_LEFT, NAKED_DECIMAL, BRACKET_RIGHT], &[]),
    (&[BRACKET_LEFT, IDENTIFIER, BRACKET_RIGHT], &[]),
    (&[BRACKET_LEFT, COLON, BRACKET_RIGHT], &[]),
    (&[BRACKET_LEFT, DOTS, BRACKET_RIGHT], &[]),
];

/// An expression with an inner type inside.
const TO_TYPES: [Opening; 2] = [(&[PIPE_FOR_TYPE], &[PIPE]), (&[NAKED_DECIMAL, AS], &[])];

/// So many numbers give each opening of each list equally often.
const ALL: usize = EXPRESSIONS.len() * TYPES.len() * TO_TYPES.len();

/// Which opening each level takes.
pub enum Choice<'a> {
    /// The one at this place, for all levels.
    Same(usize),
    /// The one at this place for so many expressions, then a type inside, whose levels take the one
    /// at this place too.
    Turning { place: usize, after: usize },
    /// Any, and now and then from expressions to types.
    Any(&'a mut Random),
}

/// Writes what an entry reads, `levels` expressions or inner types deep.
/// `levels` is at least 1.
pub fn entry(kinds: &mut Vec<u8>, entry: Entry, levels: usize, choice: Choice<'_>) {
    match entry {
        Entry::Expression => nest(kinds, false, levels, choice),
        Entry::Type => nest(kinds, true, levels, choice),
        Entry::Constant => constant(kinds, levels, choice),
        Entry::Struct | Entry::Word => {
            kinds.extend([IDENTIFIER, BRACE_LEFT, IDENTIFIER, COLON]);
            nest(kinds, true, levels, choice);
            kinds.extend([COMMA, BRACE_RIGHT]);
        }
    }
}

/// A constant whose type or whose value is so deep.
fn constant(kinds: &mut Vec<u8>, levels: usize, choice: Choice<'_>) {
    kinds.extend([IDENTIFIER, COLON]);
    let deep_type = match &choice {
        Choice::Same(place) => *place < TYPES.len(),
        Choice::Turning { .. } => false,
        Choice::Any(_) => levels.is_multiple_of(2),
    };
    if deep_type {
        nest(kinds, true, levels, choice);
        kinds.extend([ASSIGNMENT, NAKED_DECIMAL]);
    } else {
        kinds.extend([VALUE_TYPE_KEYWORD, ASSIGNMENT]);
        nest(kinds, false, levels, choice);
    }
    kinds.push(SEMICOLON);
}

fn nest(kinds: &mut Vec<u8>, mut in_type: bool, levels: usize, mut choice: Choice<'_>) {
    let mut closing: Vec<&[u8]> = Vec::new();
    for _ in 1..levels {
        let (open, close) = next(&mut in_type, &mut choice);
        kinds.extend(open);
        closing.push(close);
    }
    kinds.push(if in_type {
        VALUE_TYPE_KEYWORD
    } else {
        NAKED_DECIMAL
    });
    for close in closing.iter().rev() {
        kinds.extend(*close);
    }
}

fn next(in_type: &mut bool, choice: &mut Choice<'_>) -> Opening {
    let (turns, place) = match choice {
        Choice::Same(place) => (false, *place),
        Choice::Turning { place, after } => {
            let turns = *after == 0;
            *after = after.saturating_sub(1);
            (turns, *place)
        }
        Choice::Any(random) => (random.once_in(30), random.below(ALL)),
    };
    if *in_type {
        return TYPES[place % TYPES.len()];
    }
    if turns {
        *in_type = true;
        return TO_TYPES[place % TO_TYPES.len()];
    }
    EXPRESSIONS[place % EXPRESSIONS.len()]
}
