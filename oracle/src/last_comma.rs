//! Structs and words whose last member has no comma. The Rust panics at their
//! closing brace, which the port takes for the end of the list. What is right
//! is then what the Rust answers to the row with that comma.

use crate::{Buffer, Cause, Question, Reply, Row, Unaskable};

const BRACE_RIGHT: u8 = 4;
const COMMA: u8 = 22;

/// The place of the closing brace at which the Rust panicked, if it was one
/// that stood where a comma was expected.
pub fn dropped_comma(kinds: &[u8], question: &Question, reply: Reply) -> Option<u32> {
    let Reply::Panicked {
        cause: Cause::Unreachable,
        cursor,
        ..
    } = reply
    else {
        return None;
    };
    // Where the word's kind is none, nothing was read.
    let place = cursor
        .checked_sub(1)
        .filter(|&place| place > question.cursor)?;
    (kinds[place as usize] == BRACE_RIGHT).then_some(place)
}

/// The Rust's answer to the row with a comma at `place`, as one to the row
/// without it, which the Rust was asked about before: tokens behind the comma
/// have one less. The nodes need no change, since no token behind the comma is
/// in a node; the declaration's start is put into one as it is given.
pub fn ask_with_comma(
    kinds: &[u8],
    types: &[u8],
    place: u32,
    question: &Question,
    buffer: &mut Buffer,
) -> Result<Reply, Unaskable> {
    let with = |column: &[u8], token| {
        let (before, behind) = column.split_at(place as usize);
        [before, &[token], behind].concat()
    };
    let row = Row::of_any_length(&with(kinds, COMMA), &with(types, 0));
    Ok(without_comma(row.ask(question, buffer)?, place))
}

/// After the comma or the brace as many tokens are taken in both rows.
fn without_comma(reply: Reply, place: u32) -> Reply {
    let moved = |cursor: u32| cursor - u32::from(cursor > place + 1);
    match reply {
        Reply::Accepted {
            root,
            cursor,
            count,
        } => Reply::Accepted {
            root,
            cursor: moved(cursor),
            count,
        },
        Reply::Refused {
            number,
            start,
            end,
            cursor,
            count,
        } => Reply::Refused {
            number,
            start: moved(start),
            end: moved(end),
            cursor: moved(cursor),
            count,
        },
        Reply::Panicked {
            cause,
            cursor,
            count,
        } => Reply::Panicked {
            cause,
            cursor: moved(cursor),
            count,
        },
    }
}
