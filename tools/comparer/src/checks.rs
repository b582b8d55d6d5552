//! The refusals before parsing, from document 01. The Rust has no part in
//! them: its types cannot hold such input, or (36) it panics.

use crate::kind;
use crate::question::{Entry, MOST_FLAGS, MOST_SLOTS, MOST_TOKENS, Question, Reply, Row};

/// The first of refusals 1, 2, 3, 30, 31, 32, 35, 36 that the input meets.
/// They keep the cursor and the count that were given.
pub fn refusal(row: Row<'_>, question: &Question) -> Option<Reply> {
    let (number, start) = of_row(row).or_else(|| of_state(row, question).map(|n| (n, 0)))?;
    Some(Reply::Refused {
        number,
        start,
        end: start,
        cursor: question.cursor,
        count: question.base,
    })
}

/// Of the row: number and start.
fn of_row(row: Row<'_>) -> Option<(u32, u32)> {
    let Row { kinds, types } = row;
    if kinds.len() != types.len() || kinds.is_empty() || kinds.len() > MOST_TOKENS {
        return Some((1, 0));
    }
    let bad = |place: &usize| kinds[*place] > kind::ERROR || types[*place] > 14;
    if let Some(place) = (0..kinds.len()).find(bad) {
        return Some((2, place as u32));
    }
    let last = kinds.len() - 1;
    (kinds[last] != kind::END_OF_SOURCE).then_some((3, last as u32))
}

/// Of what is given with a good row; all of these start at 0.
fn of_state(row: Row<'_>, q: &Question) -> Option<u32> {
    let outside = |token: u32| token as usize >= row.kinds.len();
    if outside(q.cursor) || q.declares() && outside(q.start) {
        Some(30)
    } else if q.slots != q.load_slots || q.slots > MOST_SLOTS {
        Some(31)
    } else if q.base > q.slots {
        Some(32)
    } else if q.declares() && q.flags > MOST_FLAGS {
        Some(35)
    } else if q.entry == Entry::Word && !(kind::WORD8..=kind::WORD128).contains(&q.word_kind) {
        Some(36)
    } else {
        None
    }
}
