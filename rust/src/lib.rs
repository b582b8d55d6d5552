//! A parser of Penne expressions, types and declarations.
//!
//! It reads a row of tokens and appends nodes to two columns: of each node a kind and a load. The
//! parser itself is written in Rattle and proved: for every input its reply and the nodes are those
//! of the reading rules, and the nodes of an accepted parse are a tree. This package links it as a
//! static library and gives it types.
//!
//! ```
//! use penne_parser::{parse_expression, BaseToken, Nodes, ParseNode, TokenId, Tokens};
//!
//! // 1 + 2
//! let mut tokens = Tokens::new();
//! tokens.extend([BaseToken::NakedDecimal, BaseToken::Plus, BaseToken::NakedDecimal]);
//!
//! let mut nodes = Nodes::new();
//! nodes.reserve_for(tokens.row());
//! let parsed = parse_expression(tokens.row(), TokenId(0), &mut nodes)?;
//!
//! assert_eq!(parsed.cursor, TokenId(3));
//! assert_eq!(nodes.get(parsed.root), Some(ParseNode::Binary { token: TokenId(1) }));
//! let parts: Vec<_> = nodes.parts(parsed.root).filter_map(|part| nodes.get(part)).collect();
//! assert_eq!(parts.len(), 3);
//! assert_eq!(parts[2], ParseNode::UntypedIntegerLiteral { literal: TokenId(2) });
//! # Ok::<(), penne_parser::Refusal>(())
//! ```
//!
//! # Entries
//!
//! There are five: [`parse_expression`], [`parse_type`], [`parse_constant_declaration`],
//! [`parse_struct_declaration`] and [`parse_word_declaration`]. Each takes a [`Row`], the token to
//! start from, and [`Slots`] for nodes: a `&mut` [`Nodes`], which owns its slots, or slices of
//! one's own. Each gives [`Parsed`] or a [`Refusal`], whatever the input is.
//!
//! **An accepted parse need not have read the whole row.** `a & b | c` is accepted up to `b`, since
//! after `&` only `&` can follow, and `1 2` up to `1`. Whoever wants the rest to be an error asks
//! [`Parsed::is_at_end`].
//!
//! # Nodes
//!
//! [`NodesRef`] reads them: by number ([`get`](NodesRef::get)), by the parts of a node in their
//! order ([`parts`](NodesRef::parts)) or by what they are ([`name`](NodesRef::name),
//! [`items`](NodesRef::items), [`members`](NodesRef::members), [`operands`](NodesRef::operands),
//! [`value`](NodesRef::value), [`value_type`](NodesRef::value_type)), all of them
//! ([`iter`](NodesRef::iter)) or those of a tree ([`walk`](NodesRef::walk)), which can be drawn
//! ([`draw`](NodesRef::draw)). docs/MANUAL.md of the repository says which nodes each construct has.
//!
//! # Memory
//!
//! An entry allocates nothing. It reads the row and writes the slots that it was lent, and has no
//! buffer besides; nor does it keep anything from one call to the next. The stack that it uses is
//! bounded, since at most 40 expressions and inner types may be open at once: it is less than 16
//! KiB. Only [`Tokens`], [`Nodes`], [`Walk`] and [`Drawing`] allocate.
//!
//! The package is `no_std`. Without the feature `alloc`, which is on by default, these four are not
//! there, and rows and nodes are slices.

#![no_std]
#![deny(missing_docs)]
#![deny(unsafe_code)]

#[cfg(feature = "alloc")]
extern crate alloc;

/// The example of the README, so that it runs with the other examples.
#[cfg(all(doctest, feature = "alloc"))]
#[doc = include_str!("../README.md")]
struct Readme;

#[cfg(feature = "alloc")]
mod buffer;
mod codes;
mod flags;
mod ids;
mod named;
mod nodes;
mod parse_node;
pub mod raw;
mod refusal;
mod row;
#[cfg(feature = "alloc")]
mod tokens;
#[cfg(feature = "alloc")]
mod walk;
#[cfg(feature = "words")]
pub mod words;

#[cfg(feature = "alloc")]
pub use buffer::Nodes;
pub use codes::{BaseToken, BinaryOp, ComparisonOp, DeclarationFlag, UnaryOp, ValueTypeKeyword};
pub use flags::DeclarationFlags;
pub use ids::{NodeId, TokenId};
pub use named::Items;
pub use nodes::{MAX_SLOTS, NodesRef, Parts, Slots, unpack};
pub use parse_node::ParseNode;
pub use refusal::{Refusal, RefusalNumber};
pub use row::{MAX_TOKENS, Row};
#[cfg(feature = "alloc")]
pub use tokens::Tokens;
#[cfg(feature = "alloc")]
pub use walk::{Drawing, Walk};

use core::ops::Range;

use raw::Entry;

/// So many nodes are appended for a token at most: a lone name takes them.
#[cfg(feature = "alloc")]
const NODES_A_TOKEN: usize = 5;

/// What an accepted parse gives.
///
/// The cursor says how far it has read, which need not be the whole row: see
/// [`is_at_end`](Parsed::is_at_end).
#[derive(Clone, Copy, Debug, PartialEq, Eq, Hash)]
pub struct Parsed {
    /// The node that stands for what was read.
    pub root: NodeId,
    /// The token after what was read.
    pub cursor: TokenId,
    /// How many nodes there are now.
    pub count: u32,
}

impl Parsed {
    /// Whether the parse has read the row up to EndOfSource.
    ///
    /// ```
    /// use penne_parser::BaseToken::{Ampersand, Identifier, Pipe};
    /// use penne_parser::{parse_expression, Nodes, TokenId, Tokens};
    ///
    /// // a & b | c
    /// let tokens = [Identifier, Ampersand, Identifier, Pipe, Identifier];
    /// let tokens: Tokens = tokens.into_iter().collect();
    /// let mut nodes = Nodes::with_slots(30);
    /// let parsed = parse_expression(tokens.row(), TokenId(0), &mut nodes)?;
    /// assert!(!parsed.is_at_end(tokens.row()));
    /// assert_eq!(parsed.rest(tokens.row()), TokenId(3)..TokenId(5));
    /// # Ok::<(), penne_parser::Refusal>(())
    /// ```
    pub fn is_at_end(&self, row: Row<'_>) -> bool {
        usize::from(self.cursor) + 1 >= row.len()
    }

    /// The tokens of the row that the parse has not read, EndOfSource left out.
    pub fn rest(&self, row: Row<'_>) -> Range<TokenId> {
        let end = u32::try_from(row.len().saturating_sub(1)).unwrap_or(u32::MAX);
        self.cursor..TokenId(end.max(self.cursor.0))
    }
}

/// Asks an entry, and sets the count of the slots to that of the reply.
fn ask(
    entry: Entry,
    row: Row<'_>,
    TokenId(cursor): TokenId,
    slots: Slots<'_>,
) -> Result<Parsed, Refusal> {
    let Slots {
        kinds,
        loads,
        count,
    } = slots;
    let mut reply = [0; raw::PLACES];
    let lent = Slots {
        kinds,
        loads,
        count: &mut *count,
    };
    let done = raw::parse(entry, row, cursor, lent, &mut reply);
    assert!(done, "the reply has enough places");
    read(reply, count)
}

/// A reply by its places; the count of the slots becomes that of the reply.
fn read(reply: [u32; raw::PLACES], count: &mut u32) -> Result<Parsed, Refusal> {
    let [case, a, b, c, d, e] = reply;
    if case == raw::ACCEPTED {
        *count = c;
        return Ok(Parsed {
            root: NodeId(a),
            cursor: TokenId(b),
            count: c,
        });
    }
    *count = e;
    let number = u8::try_from(a).ok().and_then(RefusalNumber::from_repr);
    Err(Refusal {
        number: number.expect("the library gives only numbers that are known"),
        start: TokenId(b),
        end: TokenId(c),
        cursor: TokenId(d),
        count: e,
    })
}

/// Reads an expression from the cursor on.
///
/// ```
/// use penne_parser::BaseToken::{Identifier, ParenLeft, ParenRight};
/// use penne_parser::{parse_expression, Nodes, ParseNode, TokenId, Tokens};
///
/// // f()
/// let tokens: Tokens = [Identifier, ParenLeft, ParenRight].into_iter().collect();
/// let mut nodes = Nodes::with_slots(20);
/// let parsed = parse_expression(tokens.row(), TokenId(0), &mut nodes)?;
/// assert_eq!(nodes.get(parsed.root), Some(ParseNode::FunctionCall { is_builtin: false }));
/// assert_eq!(nodes.view().name(parsed.root), Some(TokenId(0)));
/// # Ok::<(), penne_parser::Refusal>(())
/// ```
pub fn parse_expression<'n>(
    row: Row<'_>,
    cursor: TokenId,
    nodes: impl Into<Slots<'n>>,
) -> Result<Parsed, Refusal> {
    ask(Entry::Expression, row, cursor, nodes.into())
}

/// Reads a type from the cursor on.
///
/// ```
/// use penne_parser::{parse_type, BaseToken, Nodes, ParseNode, TokenId, Tokens, ValueTypeKeyword};
///
/// // &i32
/// let mut tokens = Tokens::new();
/// tokens.push(BaseToken::Ampersand);
/// tokens.push_typed(BaseToken::ValueTypeKeyword, ValueTypeKeyword::Int32);
/// let mut nodes = Nodes::with_slots(10);
/// let parsed = parse_type(tokens.row(), TokenId(0), &mut nodes)?;
/// assert_eq!(nodes.get(parsed.root), Some(ParseNode::CompositeValueType { start: TokenId(0) }));
/// # Ok::<(), penne_parser::Refusal>(())
/// ```
pub fn parse_type<'n>(
    row: Row<'_>,
    cursor: TokenId,
    nodes: impl Into<Slots<'n>>,
) -> Result<Parsed, Refusal> {
    ask(Entry::Type, row, cursor, nodes.into())
}

/// Reads a constant from its name on. The caller has taken `const` and what stands before it; the
/// declaration began at the token `start_of_declaration`.
///
/// ```
/// use penne_parser::BaseToken::{Assignment, BoolLiteral, Colon, Const, Identifier, Pub, Semicolon};
/// use penne_parser::{
///     parse_constant_declaration, BaseToken, DeclarationFlag, Nodes, ParseNode, TokenId, Tokens,
///     ValueTypeKeyword,
/// };
///
/// // pub const C: bool = true;
/// let mut tokens: Tokens = [Pub, Const, Identifier, Colon].into_iter().collect();
/// tokens.push_typed(BaseToken::ValueTypeKeyword, ValueTypeKeyword::Bool);
/// tokens.extend([Assignment, BoolLiteral, Semicolon]);
///
/// let (cursor, start, flags) = (TokenId(2), TokenId(0), DeclarationFlag::Public.into());
/// let mut nodes = Nodes::with_slots(20);
/// let constant = parse_constant_declaration(tokens.row(), cursor, &mut nodes, start, flags)?.root;
/// let nodes = nodes.view();
/// assert_eq!(nodes.flags(constant), Some(flags));
/// assert_eq!(nodes.name(constant), Some(TokenId(2)));
/// let value = nodes.value(constant).and_then(|value| nodes.get(value));
/// assert_eq!(value, Some(ParseNode::BooleanLiteral { literal: TokenId(6) }));
/// # Ok::<(), penne_parser::Refusal>(())
/// ```
pub fn parse_constant_declaration<'n>(
    row: Row<'_>,
    cursor: TokenId,
    nodes: impl Into<Slots<'n>>,
    start_of_declaration: TokenId,
    flags: DeclarationFlags,
) -> Result<Parsed, Refusal> {
    let entry = Entry::Constant {
        start: start_of_declaration.0,
        flags: flags.bits(),
    };
    ask(entry, row, cursor, nodes.into())
}

/// Reads a struct from its name on. The caller has taken `struct` and what stands before it; the
/// declaration began at the token `start_of_declaration`. A struct without members in braces gets
/// the flag OpaqueStruct. The last member may drop its comma.
///
/// ```
/// use penne_parser::BaseToken::{Identifier, Semicolon, Struct};
/// use penne_parser::{
///     parse_struct_declaration, DeclarationFlag, DeclarationFlags, Nodes, TokenId, Tokens,
/// };
///
/// // struct S;
/// let tokens: Tokens = [Struct, Identifier, Semicolon].into_iter().collect();
/// let (cursor, start, flags) = (TokenId(1), TokenId(0), DeclarationFlags::EMPTY);
/// let mut nodes = Nodes::with_slots(10);
/// let parsed = parse_struct_declaration(tokens.row(), cursor, &mut nodes, start, flags)?;
/// let opaque = DeclarationFlag::OpaqueStruct.into();
/// assert_eq!(nodes.view().flags(parsed.root), Some(opaque));
/// assert_eq!(nodes.view().members(parsed.root).count(), 0);
/// # Ok::<(), penne_parser::Refusal>(())
/// ```
pub fn parse_struct_declaration<'n>(
    row: Row<'_>,
    cursor: TokenId,
    nodes: impl Into<Slots<'n>>,
    start_of_declaration: TokenId,
    flags: DeclarationFlags,
) -> Result<Parsed, Refusal> {
    let entry = Entry::Struct {
        start: start_of_declaration.0,
        flags: flags.bits(),
    };
    ask(entry, row, cursor, nodes.into())
}

/// Reads a word from its name on. The caller has taken the declaring token, Word8 to Word128, which
/// decides the word's size, and what stands before it; the declaration began at the token
/// `start_of_declaration`. The last member may drop its comma.
///
/// ```
/// use penne_parser::BaseToken::{BraceLeft, BraceRight, Colon, Comma, Identifier, Word32};
/// use penne_parser::{
///     parse_word_declaration, BaseToken, DeclarationFlags, Nodes, TokenId, Tokens, ValueTypeKeyword,
/// };
///
/// // word32 W { a: u32, }
/// let mut tokens: Tokens =
///     [Word32, Identifier, BraceLeft, Identifier, Colon].into_iter().collect();
/// tokens.push_typed(BaseToken::ValueTypeKeyword, ValueTypeKeyword::Uint32);
/// tokens.extend([Comma, BraceRight]);
///
/// let (cursor, start, flags) = (TokenId(1), TokenId(0), DeclarationFlags::EMPTY);
/// let mut nodes = Nodes::with_slots(20);
/// let word = parse_word_declaration(tokens.row(), cursor, &mut nodes, start, flags, Word32)?.root;
/// let nodes = nodes.view();
/// assert_eq!(nodes.word_size(word), Some(4));
/// assert!(nodes.members(word).map(|member| nodes.name(member)).eq([Some(TokenId(3))]));
/// # Ok::<(), penne_parser::Refusal>(())
/// ```
pub fn parse_word_declaration<'n>(
    row: Row<'_>,
    cursor: TokenId,
    nodes: impl Into<Slots<'n>>,
    start_of_declaration: TokenId,
    flags: DeclarationFlags,
    declaring_token: BaseToken,
) -> Result<Parsed, Refusal> {
    let entry = Entry::Word {
        start: start_of_declaration.0,
        flags: flags.bits(),
        declaring_token: declaring_token as u8,
    };
    ask(entry, row, cursor, nodes.into())
}
