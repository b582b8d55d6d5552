//! Stand-in for the missing `string_literal.rs`. As a child of `parser` it may
//! call `parse_expression` and the other parse functions, which are private;
//! here the five entries run them.

use enumset::EnumSet;

use super::parse_node::{self, NodeId, U24};
use super::parse_tree::ParseBuffer;
use super::tokens::Tokens;
use super::{BaseToken, DeclarationFlag, ParsingError};
use crate::guard;
use crate::{Buffer, Reply, Row};

/// `process_imports` needs this name; no parse entry leads to it.
pub fn relex_string_literal(_source: &str) -> Vec<u8> {
    unimplemented!("imports are not processed here")
}

/// The five entries. Each call is one call of the Rust's own function, with
/// the row's tokens from the cursor on and the buffer's slots from its base on.
///
/// They need a cursor not above the number of tokens, flags below 32 and a
/// word kind below 62 (`Row::ask` checks these first).
impl Row {
    pub fn expression(&self, cursor: u32, buffer: &mut Buffer) -> Reply {
        run::<true>(self, cursor, buffer, super::parse_expression)
    }

    pub fn type_(&self, cursor: u32, buffer: &mut Buffer) -> Reply {
        run::<true>(self, cursor, buffer, super::parse_type)
    }

    pub fn constant(&self, cursor: u32, flags: u8, start: u32, buffer: &mut Buffer) -> Reply {
        run::<true>(self, cursor, buffer, constant(flags, start))
    }

    pub fn struct_(&self, cursor: u32, flags: u8, start: u32, buffer: &mut Buffer) -> Reply {
        run::<true>(self, cursor, buffer, struct_(flags, start))
    }

    pub fn word(
        &self,
        cursor: u32,
        flags: u8,
        start: u32,
        word_kind: u8,
        buffer: &mut Buffer,
    ) -> Reply {
        run::<true>(self, cursor, buffer, word(flags, start, word_kind))
    }
}

/// The same five, for measurements: nothing is set up to catch a panic, so a
/// panic of the Rust goes to the caller.
impl Row {
    pub fn expression_bare(&self, cursor: u32, buffer: &mut Buffer) -> Reply {
        run::<false>(self, cursor, buffer, super::parse_expression)
    }

    pub fn type_bare(&self, cursor: u32, buffer: &mut Buffer) -> Reply {
        run::<false>(self, cursor, buffer, super::parse_type)
    }

    pub fn constant_bare(&self, cursor: u32, flags: u8, start: u32, buffer: &mut Buffer) -> Reply {
        run::<false>(self, cursor, buffer, constant(flags, start))
    }

    pub fn struct_bare(&self, cursor: u32, flags: u8, start: u32, buffer: &mut Buffer) -> Reply {
        run::<false>(self, cursor, buffer, struct_(flags, start))
    }

    pub fn word_bare(
        &self,
        cursor: u32,
        flags: u8,
        start: u32,
        word_kind: u8,
        buffer: &mut Buffer,
    ) -> Reply {
        run::<false>(self, cursor, buffer, word(flags, start, word_kind))
    }
}

type Outcome = Result<NodeId, ParsingError>;

fn constant(
    flags: u8,
    start: u32,
) -> impl FnOnce(&mut Tokens<'_>, &mut ParseBuffer<'_>) -> Outcome {
    move |tokens, nodes| {
        super::parse_constant_declaration(tokens, nodes, token(start), flag_set(flags))
    }
}

fn struct_(
    flags: u8,
    start: u32,
) -> impl FnOnce(&mut Tokens<'_>, &mut ParseBuffer<'_>) -> Outcome {
    move |tokens, nodes| {
        super::parse_struct_declaration(tokens, nodes, token(start), flag_set(flags))
    }
}

fn word(
    flags: u8,
    start: u32,
    word_kind: u8,
) -> impl FnOnce(&mut Tokens<'_>, &mut ParseBuffer<'_>) -> Outcome {
    let kind = BaseToken::from_repr(word_kind).expect("a kind below 62");
    move |tokens, nodes| {
        super::parse_word_declaration(tokens, nodes, token(start), flag_set(flags), kind)
    }
}

fn token(number: u32) -> parse_node::TokenId {
    parse_node::TokenId(U24::new(number as usize))
}

fn flag_set(flags: u8) -> EnumSet<DeclarationFlag> {
    let mut set = EnumSet::new();
    for (bit, flag) in [
        (1, DeclarationFlag::Public),
        (2, DeclarationFlag::External),
        (4, DeclarationFlag::Main),
        (8, DeclarationFlag::Forward),
        (16, DeclarationFlag::OpaqueStruct),
    ] {
        if flags & bit != 0 {
            set.insert(flag);
        }
    }
    set
}

/// Runs a parse function and reads its outcome. Cursor and count are read from
/// the Rust's own state, after a refusal and after a panic too.
#[inline(always)]
fn run<const GUARDED: bool>(
    row: &Row,
    cursor: u32,
    buffer: &mut Buffer,
    parse: impl FnOnce(&mut Tokens<'_>, &mut ParseBuffer<'_>) -> Outcome,
) -> Reply {
    let tokens = Tokens::from(&row.tokens);
    let mut tokens = tokens.starting_from(token(cursor).into());
    let mut nodes = buffer.open();
    let outcome = if GUARDED {
        guard::catch(|| parse(&mut tokens, &mut nodes))
    } else {
        Ok(parse(&mut tokens, &mut nodes))
    };
    let cursor = usize::from(tokens.cursor()) as u32;
    let count = nodes.into_num_initialized_nodes();
    buffer.count = count;
    let count = count as u32;
    match outcome {
        Ok(Ok(NodeId(root))) => Reply::Accepted {
            root: root.into(),
            cursor,
            count,
        },
        Ok(Err(error)) => {
            let (number, start, end) = number_and_place(error);
            Reply::Refused {
                number,
                start,
                end,
                cursor,
                count,
            }
        }
        Err(cause) => Reply::Panicked {
            cause,
            cursor,
            count,
        },
    }
}

/// The number that document 01 gives a refusal, with its start and end.
#[cold]
fn number_and_place(error: ParsingError) -> (u32, u32, u32) {
    let place = |token| usize::from(token) as u32;
    match error {
        ParsingError::UnexpectedToken { token, expectation } => {
            let number = match expectation {
                "Expected assignment." => 10,
                "Expected opening brace." => 11,
                "Expected closing brace." => 12,
                "Expected closing bracket." => 13,
                "Expected opening parenthesis." => 14,
                "Expected closing parenthesis." => 15,
                "Expected pipe." => 16,
                "Expected semicolon." => 17,
                "Expected identifier." => 18,
                "Expected size literal or named constant." => 19,
                "Expected type keyword." => 20,
                "Expected literal or identifier." => 21,
                _ => panic!("no number for: {expectation}"),
            };
            (number, place(token), place(token))
        }
        ParsingError::MissingConstantType { unexpected_token } => {
            (22, place(unexpected_token), place(unexpected_token))
        }
        ParsingError::MissingMemberType { unexpected_token } => {
            (23, place(unexpected_token), place(unexpected_token))
        }
        ParsingError::MaximumParseDepthExceeded { start, end } => (24, place(start), place(end)),
        // Only statements and function heads give the others.
        _ => panic!("no number for: {error:?}"),
    }
}
