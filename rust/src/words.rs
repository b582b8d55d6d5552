//! Nodes of one word each, as they go to the controllers: the kind in the low 8 bits, the load in the
//! upper 24.
//!
//! The entries are those of the package with the same names. They give the same replies, and words
//! that are the packing of the nodes that those append. They are a static library of their own,
//! which `rt lib` makes in `crates/penne_words_c`.
//!
//! ```
//! use penne_parser::BaseToken::{NakedDecimal, Plus};
//! use penne_parser::words::{self, WordNodes};
//! use penne_parser::{ParseNode, TokenId, Tokens};
//!
//! // 1 + 2
//! let tokens: Tokens = [NakedDecimal, Plus, NakedDecimal].into_iter().collect();
//! let mut nodes = WordNodes::with_slots(10);
//! let parsed = words::parse_expression(tokens.row(), TokenId(0), &mut nodes)?;
//! assert_eq!(nodes.view().get(parsed.root), Some(ParseNode::Binary { token: TokenId(1) }));
//! // A Binary is 21, and its operator the token 1.
//! assert_eq!(nodes.words(), [27, 27 + 256 * 2, 57, 22, 21 + 256]);
//! # Ok::<(), penne_parser::Refusal>(())
//! ```

#[cfg(feature = "alloc")]
use alloc::vec::Vec;

use crate::raw::{self, Entry};
use crate::{BaseToken, DeclarationFlags, Parsed, Refusal, Row, TokenId};
#[cfg(feature = "alloc")]
use crate::{MAX_SLOTS, NODES_A_TOKEN, NodesRef};

/// The largest load of a word.
pub const MAX_LOAD: u32 = (1 << 24) - 1;

/// The word of a node, or the refusal of a load above [`MAX_LOAD`].
///
/// ```
/// use penne_parser::RefusalNumber;
/// use penne_parser::words::{MAX_LOAD, pack};
///
/// assert_eq!(pack(21, 1), Ok(0x115));
/// assert_eq!(penne_parser::unpack(0x115), (21, 1));
/// let refusal = pack(21, MAX_LOAD + 1).unwrap_err();
/// assert_eq!(refusal.number, RefusalNumber::LoadTooLarge);
/// ```
pub fn pack(kind: u8, load: u32) -> Result<u32, Refusal> {
    let mut reply = [0; raw::PLACES];
    let done = raw::pack(kind, load, &mut reply);
    assert!(done, "the reply has enough places");
    crate::read(reply, &mut 0).map(|packed| packed.root.0)
}

/// Slots for nodes of a word each, lent to an entry, and how many nodes there are in them.
#[derive(Debug)]
pub struct WordSlots<'a> {
    /// The nodes.
    pub words: &'a mut [u32],
    /// How many there are.
    pub count: &'a mut u32,
}

/// A buffer of nodes of a word each, to which one parse after another may append. It is to words
/// what [`Nodes`](crate::Nodes) is to columns.
#[cfg(feature = "alloc")]
#[derive(Clone, Debug, Default)]
pub struct WordNodes {
    // As long as there are slots.
    words: Vec<u32>,
    count: u32,
}

#[cfg(feature = "alloc")]
impl WordNodes {
    /// A buffer without slots.
    pub fn new() -> WordNodes {
        WordNodes::default()
    }

    /// A buffer with so many slots, or with [`MAX_SLOTS`] if that is less.
    pub fn with_slots(slots: usize) -> WordNodes {
        let mut nodes = WordNodes::new();
        nodes.reserve(slots);
        nodes
    }

    /// Sees that so many more nodes can be appended, or as many as [`MAX_SLOTS`] leaves.
    pub fn reserve(&mut self, more: usize) {
        let slots = self.len().saturating_add(more).min(MAX_SLOTS);
        if slots > self.slots() {
            self.words.resize(slots, 0);
        }
    }

    /// Sees that the nodes of any parse of this row can be appended: five a token, or as many as
    /// [`MAX_SLOTS`] leaves.
    pub fn reserve_for(&mut self, row: Row<'_>) {
        self.reserve(row.len().saturating_mul(NODES_A_TOKEN));
    }

    /// How many slots there are, with nodes or without.
    pub fn slots(&self) -> usize {
        self.words.len()
    }

    /// How many nodes there are.
    pub fn len(&self) -> usize {
        self.count as usize
    }

    /// Whether there is no node.
    pub fn is_empty(&self) -> bool {
        self.count == 0
    }

    /// Takes all nodes away, and keeps the slots.
    pub fn clear(&mut self) {
        self.truncate(0);
    }

    /// Takes the nodes from this number on away, and keeps the slots.
    pub fn truncate(&mut self, count: u32) {
        self.count = self.count.min(count);
    }

    /// The nodes as words, to be sent.
    pub fn words(&self) -> &[u32] {
        &self.words[..self.len()]
    }

    /// The nodes, for reading.
    pub fn view(&self) -> NodesRef<'_> {
        NodesRef::of_words(self.words())
    }
}

#[cfg(feature = "alloc")]
impl<'a> From<&'a mut WordNodes> for WordSlots<'a> {
    fn from(nodes: &'a mut WordNodes) -> WordSlots<'a> {
        WordSlots {
            words: &mut nodes.words,
            count: &mut nodes.count,
        }
    }
}

/// Asks an entry, and sets the count of the slots to that of the reply.
fn ask(
    entry: Entry,
    row: Row<'_>,
    TokenId(cursor): TokenId,
    slots: WordSlots<'_>,
) -> Result<Parsed, Refusal> {
    let WordSlots { words, count } = slots;
    let mut reply = [0; raw::PLACES];
    let lent = WordSlots {
        words,
        count: &mut *count,
    };
    let done = raw::parse_words(entry, row, cursor, lent, &mut reply);
    assert!(done, "the reply has enough places");
    crate::read(reply, count)
}

/// Reads an expression from the cursor on: see [`parse_expression`](crate::parse_expression).
pub fn parse_expression<'n>(
    row: Row<'_>,
    cursor: TokenId,
    nodes: impl Into<WordSlots<'n>>,
) -> Result<Parsed, Refusal> {
    ask(Entry::Expression, row, cursor, nodes.into())
}

/// Reads a type from the cursor on: see [`parse_type`](crate::parse_type).
pub fn parse_type<'n>(
    row: Row<'_>,
    cursor: TokenId,
    nodes: impl Into<WordSlots<'n>>,
) -> Result<Parsed, Refusal> {
    ask(Entry::Type, row, cursor, nodes.into())
}

/// Reads a constant from its name on: see
/// [`parse_constant_declaration`](crate::parse_constant_declaration).
pub fn parse_constant_declaration<'n>(
    row: Row<'_>,
    cursor: TokenId,
    nodes: impl Into<WordSlots<'n>>,
    start_of_declaration: TokenId,
    flags: DeclarationFlags,
) -> Result<Parsed, Refusal> {
    let entry = Entry::Constant {
        start: start_of_declaration.0,
        flags: flags.bits(),
    };
    ask(entry, row, cursor, nodes.into())
}

/// Reads a struct from its name on: see
/// [`parse_struct_declaration`](crate::parse_struct_declaration).
pub fn parse_struct_declaration<'n>(
    row: Row<'_>,
    cursor: TokenId,
    nodes: impl Into<WordSlots<'n>>,
    start_of_declaration: TokenId,
    flags: DeclarationFlags,
) -> Result<Parsed, Refusal> {
    let entry = Entry::Struct {
        start: start_of_declaration.0,
        flags: flags.bits(),
    };
    ask(entry, row, cursor, nodes.into())
}

/// Reads a word from its name on: see [`parse_word_declaration`](crate::parse_word_declaration).
pub fn parse_word_declaration<'n>(
    row: Row<'_>,
    cursor: TokenId,
    nodes: impl Into<WordSlots<'n>>,
    start_of_declaration: TokenId,
    flags: DeclarationFlags,
    declaring_token: BaseToken,
) -> Result<Parsed, Refusal> {
    let entry = Entry::Word {
        start: start_of_declaration.0,
        flags: flags.bits(),
        declaring_token: declaring_token as u8,
    };
    ask(entry, row, cursor, nodes.into())
}
