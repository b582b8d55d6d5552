//! Rows and questions on both sides of every limit of document 01.

use crate::deep::{self, Choice, EXPRESSIONS};
use crate::exhaustive::{Cursors, ask_all};
use crate::kind::*;
use crate::question::{Entry, MOST_OPEN, MOST_SLOTS, MOST_TOKENS, Question, Row};
use crate::random::Random;
use crate::rows::{Sink, needed};

/// The groups of limits, each a part that is run by itself.
pub const GROUPS: [fn(&mut Random, &mut dyn Sink); 11] = [
    tokens,
    slots,
    few_slots,
    nesting,
    mixed_nesting,
    ampersands,
    steps,
    flags_and_words,
    places,
    bad_tokens,
    order_of_checks,
];

/// A row without its EndOfSource, for each entry: short and whole.
fn short(entry: Entry) -> Vec<u8> {
    match entry {
        Entry::Expression => vec![IDENTIFIER, PAREN_LEFT, NAKED_DECIMAL, COMMA, PAREN_RIGHT],
        Entry::Type => vec![BRACKET_LEFT, BRACKET_RIGHT, AMPERSAND, IDENTIFIER],
        Entry::Constant => around(&[NAKED_DECIMAL, PLUS, BIT_INTEGER]),
        Entry::Struct | Entry::Word => members(&[AMPERSAND, IDENTIFIER]),
    }
}

/// A constant with this value.
fn around(value: &[u8]) -> Vec<u8> {
    let before = [IDENTIFIER, COLON, VALUE_TYPE_KEYWORD, ASSIGNMENT];
    [&before, value, &[SEMICOLON]].concat()
}

/// A struct or word with one member of this type.
fn members(of_type: &[u8]) -> Vec<u8> {
    let before = [IDENTIFIER, BRACE_LEFT, IDENTIFIER, COLON];
    [&before, of_type, &[COMMA, BRACE_RIGHT]].concat()
}

/// Gives a row, with EndOfSource added and value types of its own.
fn give(kinds: &[u8], sink: &mut dyn Sink) -> usize {
    let kinds = [kinds, &[END_OF_SOURCE]].concat();
    let types: Vec<u8> = (0..kinds.len()).map(|place| (place % 15) as u8).collect();
    sink.row(Row {
        kinds: &kinds,
        types: &types,
    });
    kinds.len()
}

/// Asks with a few bases, enough slots, and the most slots.
fn ask(entry: Entry, tokens: usize, sink: &mut dyn Sink) {
    for base in [0, 1, 100] {
        let slots = (base as usize + needed(tokens)).min(MOST_SLOTS as usize);
        let question = Question::new(entry, slots as u32);
        sink.ask(Question { base, ..question });
    }
}

/// About 65,535 tokens: long sums, lists, types and members, and rows that are
/// refused at their last token.
fn tokens(_: &mut Random, sink: &mut dyn Sink) {
    for length in MOST_TOKENS - 3..=MOST_TOKENS + 1 {
        for (entry, kinds) in long_rows(length - 1) {
            give(&kinds, sink);
            for slots in [MOST_SLOTS - 1, MOST_SLOTS] {
                let question = Question::new(entry, slots);
                for base in [0, 7, slots - 1, slots] {
                    sink.ask(Question { base, ..question });
                }
                sink.ask(Question {
                    cursor: length as u32 - 2,
                    start: length as u32 - 1,
                    ..question
                });
            }
        }
    }
}

/// Rows of so many tokens.
fn long_rows(length: usize) -> Vec<(Entry, Vec<u8>)> {
    let mut rows = vec![
        (
            Entry::Expression,
            repeated(&[], &[NAKED_DECIMAL, PLUS], &[], length),
        ),
        (
            Entry::Expression,
            repeated(&[], &[IDENTIFIER, TIMES], &[], length),
        ),
        (
            Entry::Expression,
            repeated(&[], &[STRING_LITERAL], &[], length),
        ),
        (Entry::Expression, repeated(&[], &[PAREN_LEFT], &[], length)),
        (
            Entry::Type,
            repeated(&[], &[AMPERSAND], &[IDENTIFIER], length),
        ),
    ];
    let call = [IDENTIFIER, PAREN_LEFT];
    let item = [NAKED_DECIMAL, COMMA];
    rows.push((
        Entry::Expression,
        repeated(&call, &item, &[PAREN_RIGHT], length),
    ));
    let array = [BRACKET_LEFT];
    rows.push((
        Entry::Expression,
        repeated(&array, &item, &[BRACKET_RIGHT], length),
    ));
    let before = [IDENTIFIER, COLON, VALUE_TYPE_KEYWORD, ASSIGNMENT];
    let sum = [NAKED_DECIMAL, PLUS];
    rows.push((
        Entry::Constant,
        repeated(&before, &sum, &[SEMICOLON], length),
    ));
    let member = [IDENTIFIER, COLON, VALUE_TYPE_KEYWORD, COMMA];
    let open = [IDENTIFIER, BRACE_LEFT];
    for entry in [Entry::Struct, Entry::Word] {
        rows.push((entry, repeated(&open, &member, &[BRACE_RIGHT], length)));
    }
    for entry in Entry::ALL {
        rows.push((entry, vec![ERROR; length]));
    }
    rows
}

/// `before`, then `middle` again and again, cut off so that with `after` there
/// are `length` tokens.
fn repeated(before: &[u8], middle: &[u8], after: &[u8], length: usize) -> Vec<u8> {
    let mut kinds = before.to_vec();
    kinds.extend(
        middle
            .iter()
            .cycle()
            .take(length - before.len() - after.len()),
    );
    kinds.extend(after);
    kinds
}

/// About 131,075 slots, and counts about as large; columns of two lengths.
fn slots(_: &mut Random, sink: &mut dyn Sink) {
    for entry in Entry::ALL {
        give(&short(entry), sink);
        for slots in [0, 1, 12, MOST_SLOTS - 1, MOST_SLOTS, MOST_SLOTS + 1] {
            let question = Question::new(entry, slots);
            for base in slots.saturating_sub(16)..=slots + 2 {
                sink.ask(Question { base, ..question });
            }
            for base in [u32::MAX / 2, u32::MAX - 1, u32::MAX] {
                sink.ask(Question { base, ..question });
            }
            for load_slots in [0, 11, 12, 13, MOST_SLOTS, MOST_SLOTS + 1] {
                sink.ask(Question {
                    load_slots,
                    ..question
                });
            }
        }
    }
}

/// Rows with every construct, with every number of slots up to what they need.
fn few_slots(_: &mut Random, sink: &mut dyn Sink) {
    for (entry, kinds) in rich_rows() {
        let tokens = give(&kinds, sink);
        for base in [0, 3] {
            for slots in base..=base + needed(tokens) as u32 {
                let question = Question::new(entry, slots);
                sink.ask(Question { base, ..question });
            }
        }
    }
}

/// A row for each construct of the rules.
fn rich_rows() -> Vec<(Entry, Vec<u8>)> {
    let values: [&[u8]; 17] = [
        // 1 + 2 * 'c' - true
        &[55, 14, 56, 16, 58, 15, 59],
        // a & -b & !c, and a << "s" "t"
        &[53, 10, 15, 53, 10, 12, 53],
        &[53, 28, 60, 60],
        // cast 1u8 as [4][N]T as &i32
        &[41, 57, 42, 5, 55, 6, 5, 53, 6, 53, 42, 10, 52],
        // |:[:]T| % |:[..]i32|
        &[31, 5, 19, 6, 53, 9, 18, 31, 5, 32, 6, 52, 9],
        // |a|, |&&a.b[1]|
        &[9, 53, 9],
        &[9, 10, 10, 53, 21, 53, 5, 55, 6, 9],
        // &a, &&a.b .. 1 + 2
        &[10, 53],
        &[10, 10, 53, 21, 53, 32, 55, 14, 55],
        // a[1][b].c
        &[53, 5, 55, 6, 5, 53, 6, 21, 53],
        // f(), f(1, a), f(1, a,)
        &[53, 1, 2],
        &[53, 1, 55, 22, 53, 2],
        &[54, 1, 55, 22, 53, 22, 2],
        // S { }, S { a, b: 1, c }
        &[53, 3, 4],
        &[53, 3, 53, 22, 53, 19, 55, 22, 53, 4],
        // [], [1, [2], (3),]
        &[5, 6],
        &[5, 55, 22, 5, 55, 6, 22, 1, 55, 2, 22, 6],
    ];
    let types: [&[u8]; 5] = [
        &[52],
        &[53],
        &[10, 1, 5, 6, 52, 2],
        &[5, 55, 6, 5, 53, 6, 5, 19, 6, 5, 32, 6, 53],
        &[1, 1, 10, 53, 2, 2],
    ];
    let mut rows = Vec::new();
    for value in values {
        rows.push((Entry::Expression, value.to_vec()));
        rows.push((Entry::Constant, around(value)));
    }
    for of_type in types {
        rows.push((Entry::Type, of_type.to_vec()));
        for entry in [Entry::Struct, Entry::Word] {
            rows.push((entry, members(of_type)));
        }
    }
    rows.push((Entry::Struct, vec![IDENTIFIER, SEMICOLON]));
    for entry in [Entry::Struct, Entry::Word] {
        rows.push((entry, vec![IDENTIFIER, BRACE_LEFT, BRACE_RIGHT]));
        // S { a: &T, b: i32, }, and without its last comma
        let two = [53, 3, 53, 19, 10, 53, 22, 53, 19, 52, 22, 4];
        rows.push((entry, two.to_vec()));
        rows.push((entry, [&two[..10], &[4]].concat()));
    }
    rows
}

/// Up to three levels too many, by each opening alone and by any; also with
/// the slots used up about where the level too many begins, and without the
/// ends.
fn nesting(random: &mut Random, sink: &mut dyn Sink) {
    for entry in Entry::ALL {
        for levels in 1..=MOST_OPEN as usize + 3 {
            for opening in 0..EXPRESSIONS.len() {
                let mut kinds = Vec::new();
                deep::entry(&mut kinds, entry, levels, Choice::Same(opening));
                ask_deep(entry, &kinds, sink);
            }
            for _ in 0..200 {
                let mut kinds = Vec::new();
                deep::entry(&mut kinds, entry, levels, Choice::Any(random));
                ask_deep(entry, &kinds, sink);
            }
        }
    }
}

/// About as many levels as allowed, of which the first are expressions and the
/// others inner types, with the turn at each level.
fn mixed_nesting(_: &mut Random, sink: &mut dyn Sink) {
    for entry in [Entry::Expression, Entry::Constant] {
        for levels in MOST_OPEN as usize - 2..=MOST_OPEN as usize + 3 {
            for after in 0..levels - 1 {
                for place in 0..EXPRESSIONS.len() {
                    let mut kinds = Vec::new();
                    deep::entry(&mut kinds, entry, levels, Choice::Turning { place, after });
                    ask_deep(entry, &kinds, sink);
                }
            }
        }
    }
}

fn ask_deep(entry: Entry, kinds: &[u8], sink: &mut dyn Sink) {
    for end in [kinds.len(), kinds.len() - 1, kinds.len() / 2] {
        let tokens = give(&kinds[..end], sink);
        ask(entry, tokens, sink);
        for slots in [0, 1, 10, 40, 80, 120, 160, 200] {
            sink.ask(Question::new(entry, slots));
        }
    }
}

/// 124 to 130 ampersands, before a name and between pipes.
fn ampersands(_: &mut Random, sink: &mut dyn Sink) {
    for count in 124..=130 {
        let many = vec![AMPERSAND; count];
        for after in [&[IDENTIFIER][..], &[], &[NAKED_DECIMAL], &[IDENTIFIER, DOT]] {
            ask_value(&[&many, after].concat(), sink);
            ask_value(&[&[PIPE], &many[..], after, &[PIPE]].concat(), sink);
            ask_value(&[&[PIPE], &many[..], after].concat(), sink);
        }
        // As a type, they are pointers.
        give(&[&many[..], &[IDENTIFIER]].concat(), sink);
        ask(Entry::Type, count + 2, sink);
    }
}

/// A value as an expression and in a constant.
fn ask_value(value: &[u8], sink: &mut dyn Sink) {
    let tokens = give(value, sink);
    ask(Entry::Expression, tokens, sink);
    let tokens = give(&around(value), sink);
    ask(Entry::Constant, tokens, sink);
}

/// 123 to 130 steps: members, elements and both, after each beginning.
fn steps(_: &mut Random, sink: &mut dyn Sink) {
    let member: &[u8] = &[DOT, IDENTIFIER];
    let element: &[u8] = &[BRACKET_LEFT, NAKED_DECIMAL, BRACKET_RIGHT];
    for count in 123..=130 {
        for (even, odd) in [(member, member), (element, element), (member, element)] {
            let many: Vec<u8> = (0..count)
                .flat_map(|step| if step % 2 == 0 { even } else { odd })
                .copied()
                .collect();
            for before in [&[IDENTIFIER][..], &[AMPERSAND, IDENTIFIER]] {
                for after in [&[][..], &[DOT], &[BRACKET_LEFT], &[PLUS, NAKED_DECIMAL]] {
                    ask_value(&[before, &many, after].concat(), sink);
                }
            }
            ask_value(&[&[PIPE, IDENTIFIER], &many[..], &[PIPE]].concat(), sink);
        }
    }
}

/// All flags up to 40 and a few large ones, all word kinds.
fn flags_and_words(_: &mut Random, sink: &mut dyn Sink) {
    for entry in Entry::ALL {
        for kinds in [short(entry), vec![IDENTIFIER, SEMICOLON], vec![COMMA]] {
            give(&kinds, sink);
            let question = Question::new(entry, 64);
            for flags in (0..=40).chain([255, 256, 65_536, u32::MAX]) {
                sink.ask(Question { flags, ..question });
            }
            for word_kind in 0..=255 {
                sink.ask(Question {
                    word_kind,
                    ..question
                });
            }
        }
    }
}

/// Every cursor and every start, some past the row.
fn places(random: &mut Random, sink: &mut dyn Sink) {
    for (entry, kinds) in rich_rows() {
        let tokens = give(&kinds, sink) as u32;
        ask_all(tokens as usize, Cursors::Every, random, sink);
        let question = Question::new(entry, needed(tokens as usize) as u32);
        for place in (0..tokens + 3).chain([65_535, 65_536, u32::MAX]) {
            sink.ask(Question {
                cursor: place,
                ..question
            });
            sink.ask(Question {
                start: place,
                ..question
            });
        }
    }
}

/// Every kind and every value type, at each place of a short row.
fn bad_tokens(_: &mut Random, sink: &mut dyn Sink) {
    for entry in Entry::ALL {
        let whole = [&short(entry)[..], &[END_OF_SOURCE]].concat();
        for place in 0..whole.len() {
            for byte in 0..=255 {
                let mut kinds = whole.clone();
                let mut types = vec![0; whole.len()];
                kinds[place] = byte;
                one_row(&kinds, &types, entry, sink);
                types[place] = byte;
                one_row(&whole, &types, entry, sink);
                one_row(&kinds, &types, entry, sink);
            }
        }
        for length in 0..=whole.len() + 1 {
            one_row(&whole, &vec![0; length], entry, sink);
            one_row(
                &whole[..length.min(whole.len())],
                &vec![0; length],
                entry,
                sink,
            );
        }
    }
}

fn one_row(kinds: &[u8], types: &[u8], entry: Entry, sink: &mut dyn Sink) {
    sink.row(Row { kinds, types });
    sink.ask(Question::new(entry, 64));
}

/// Every set of faults that are refused before parsing.
fn order_of_checks(_: &mut Random, sink: &mut dyn Sink) {
    for entry in Entry::ALL {
        for faults in 0..1 << 10 {
            faulty(entry, faults, sink);
        }
    }
}

/// A short row and its question with a set of faults, one a bit.
fn faulty(entry: Entry, faults: u32, sink: &mut dyn Sink) {
    let has = |bit: u32| faults >> bit & 1 == 1;
    let mut kinds = [&short(entry)[..], &[END_OF_SOURCE]].concat();
    let last = kinds.len() - 1;
    let mut types = vec![0; kinds.len()];
    let mut question = Question::new(entry, 40);
    if has(0) {
        types.push(0);
    }
    if has(1) {
        kinds[2] = ERROR + 1;
    }
    if has(2) {
        types[1] = 15;
    }
    if has(3) {
        kinds[last] = COMMA;
    }
    if has(4) {
        question.cursor = kinds.len() as u32;
    }
    if has(5) {
        question.start = kinds.len() as u32;
    }
    if has(6) {
        question.load_slots += 1;
    }
    if has(7) {
        question.base = 41;
    }
    if has(8) {
        question.flags = 32;
    }
    if has(9) {
        question.word_kind = WORD8 - 1;
    }
    sink.row(Row {
        kinds: &kinds,
        types: &types,
    });
    sink.ask(question);
}
