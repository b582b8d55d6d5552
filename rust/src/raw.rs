//! The functions of the static library as they are, with numbers and slices.
//!
//! The rest of this package is made of them, and so are the tools that compare and time the parser.
//! Whoever wants types calls [`parse_expression`](crate::parse_expression) and the others.

#![allow(unsafe_code)]

#[cfg(feature = "words")]
use crate::words::WordSlots;
use crate::{Row, Slots};

/// The places of a reply: its case, and five numbers.
///
/// An acceptance has the root, the cursor, the count and two zeros; a refusal its number, start,
/// end, cursor and count.
pub const PLACES: usize = 6;

/// The case of an acceptance.
pub const ACCEPTED: u32 = 0;

/// The case of a refusal.
pub const REFUSED: u32 = 1;

/// The code of a part that the load names. Any other code is the number of places that the part
/// stands back.
pub const LINKED: u8 = 9;

/// A node has at most so many parts.
pub const MAX_PARTS: u8 = 4;

/// An entry, with what it is given besides the row, the cursor and the slots. Any numbers are
/// allowed.
#[derive(Clone, Copy, Debug, PartialEq, Eq, Hash)]
pub enum Entry {
    /// An expression.
    Expression,
    /// A type.
    Type,
    /// A constant, from its name on.
    Constant {
        /// The token with which the declaration begins.
        start: u32,
        /// The sum of its flags.
        flags: u32,
    },
    /// A struct, from its name on.
    Struct {
        /// The token with which the declaration begins.
        start: u32,
        /// The sum of its flags.
        flags: u32,
    },
    /// A word, from its name on.
    Word {
        /// The token with which the declaration begins.
        start: u32,
        /// The sum of its flags.
        flags: u32,
        /// The kind of its declaring token.
        declaring_token: u8,
    },
}

impl Entry {
    /// The entry with this number, 0 to 4 in the order above, given what it reads of the rest.
    pub fn numbered(number: u8, start: u32, flags: u32, declaring_token: u8) -> Option<Entry> {
        Some(match number {
            0 => Entry::Expression,
            1 => Entry::Type,
            2 => Entry::Constant { start, flags },
            3 => Entry::Struct { start, flags },
            4 => Entry::Word {
                start,
                flags,
                declaring_token,
            },
            _ => return None,
        })
    }
}

/// Declares the entries of a library. All begin with the row and the cursor, and end with the place
/// for the reply; the node columns or words, the count, and what else an entry is given stand
/// between. include/penne.h says what each does.
macro_rules! declare {
    ($($function:ident($($name:ident: $type:ty),*);)*) => {
        unsafe extern "C" {
            $(fn $function(
                kinds: *const u8,
                kinds_len: usize,
                types: *const u8,
                types_len: usize,
                cursor: u32,
                $($name: $type,)*
                reply: *mut u32,
                reply_len: usize,
            ) -> bool;)*
        }
    };
}

/// The entries over two columns.
macro_rules! declare_columns {
    ($($function:ident($($name:ident: $type:ty),*);)*) => {
        declare! {
            $($function(
                node_kinds: *mut u8,
                node_kinds_len: usize,
                node_loads: *mut u32,
                node_loads_len: usize,
                count: u32
                $(, $name: $type)*
            );)*
        }
    };
}

declare_columns! {
    penne_parse_expression();
    penne_parse_type();
    penne_parse_constant_declaration(start: u32, flags: u32);
    penne_parse_struct_declaration(start: u32, flags: u32);
    penne_parse_word_declaration(start: u32, flags: u32, declaring_token: u8);
}

/// The entries over words.
#[cfg(feature = "words")]
macro_rules! declare_words {
    ($($function:ident($($name:ident: $type:ty),*);)*) => {
        declare! {
            $($function(
                node_words: *mut u32,
                node_words_len: usize,
                count: u32
                $(, $name: $type)*
            );)*
        }
    };
}

#[cfg(feature = "words")]
declare_words! {
    penne_words_parse_expression();
    penne_words_parse_type();
    penne_words_parse_constant_declaration(start: u32, flags: u32);
    penne_words_parse_struct_declaration(start: u32, flags: u32);
    penne_words_parse_word_declaration(start: u32, flags: u32, declaring_token: u8);
}

unsafe extern "C" {
    safe fn penne_part(kind: u8, which: u8) -> u8;
}

#[cfg(feature = "words")]
unsafe extern "C" {
    fn penne_pack(kind: u8, load: u32, reply: *mut u32, reply_len: usize) -> bool;
    safe fn penne_unpack_kind(word: u32) -> u8;
    safe fn penne_unpack_load(word: u32) -> u32;
}

/// Asks an entry. The reply goes to the first [`PLACES`] places; if there are fewer, nothing is
/// done, and the answer is false. The count of the slots is read and left as it is.
#[inline]
pub fn parse(entry: Entry, row: Row<'_>, cursor: u32, slots: Slots<'_>, reply: &mut [u32]) -> bool {
    let Row { kinds, value_types } = row;
    let Slots {
        kinds: node_kinds,
        loads: node_loads,
        count,
    } = slots;
    macro_rules! call {
        ($function:ident($($more:expr),*)) => {
            // Safety: each pointer comes from a slice and goes with its length, so it is valid for
            // it, aligned and not null. The columns of the row are only read. The node columns and
            // the reply are written, and are borrowed exclusively, so that they overlap nothing
            // else that is passed. The library keeps no pointer, calls nothing and does not
            // unwind. Any values are allowed.
            unsafe {
                $function(
                    kinds.as_ptr(),
                    kinds.len(),
                    value_types.as_ptr(),
                    value_types.len(),
                    cursor,
                    node_kinds.as_mut_ptr(),
                    node_kinds.len(),
                    node_loads.as_mut_ptr(),
                    node_loads.len(),
                    *count,
                    $($more,)*
                    reply.as_mut_ptr(),
                    reply.len(),
                )
            }
        };
    }
    match entry {
        Entry::Expression => call!(penne_parse_expression()),
        Entry::Type => call!(penne_parse_type()),
        Entry::Constant { start, flags } => call!(penne_parse_constant_declaration(start, flags)),
        Entry::Struct { start, flags } => call!(penne_parse_struct_declaration(start, flags)),
        Entry::Word {
            start,
            flags,
            declaring_token,
        } => call!(penne_parse_word_declaration(start, flags, declaring_token)),
    }
}

/// Asks an entry over words, likewise.
#[cfg(feature = "words")]
#[inline]
pub fn parse_words(
    entry: Entry,
    row: Row<'_>,
    cursor: u32,
    slots: WordSlots<'_>,
    reply: &mut [u32],
) -> bool {
    let Row { kinds, value_types } = row;
    let WordSlots { words, count } = slots;
    macro_rules! call {
        ($function:ident($($more:expr),*)) => {
            // Safety: as in `parse`, with one column of words in place of two.
            unsafe {
                $function(
                    kinds.as_ptr(),
                    kinds.len(),
                    value_types.as_ptr(),
                    value_types.len(),
                    cursor,
                    words.as_mut_ptr(),
                    words.len(),
                    *count,
                    $($more,)*
                    reply.as_mut_ptr(),
                    reply.len(),
                )
            }
        };
    }
    match entry {
        Entry::Expression => call!(penne_words_parse_expression()),
        Entry::Type => call!(penne_words_parse_type()),
        Entry::Constant { start, flags } => {
            call!(penne_words_parse_constant_declaration(start, flags))
        }
        Entry::Struct { start, flags } => call!(penne_words_parse_struct_declaration(start, flags)),
        Entry::Word {
            start,
            flags,
            declaring_token,
        } => call!(penne_words_parse_word_declaration(
            start,
            flags,
            declaring_token
        )),
    }
}

/// The code of a part by the node's kind and the part's place, counted from 0, from the proved
/// table: k for the node k places back, [`LINKED`] for the node that the load names, 0 where there
/// is none.
#[inline]
pub fn part(kind: u8, which: u8) -> u8 {
    penne_part(kind, which)
}

/// Packs a node. The reply goes to the first [`PLACES`] places, with the word where an acceptance
/// has its root; if there are fewer, nothing is done, and the answer is false.
#[cfg(feature = "words")]
#[inline]
pub fn pack(kind: u8, load: u32, reply: &mut [u32]) -> bool {
    // Safety: the pointer comes from a slice and goes with its length. Only the reply is written,
    // and it is borrowed exclusively. Any numbers are allowed.
    unsafe { penne_pack(kind, load, reply.as_mut_ptr(), reply.len()) }
}

/// The kind and the load of a word.
#[cfg(feature = "words")]
#[inline]
pub fn unpack(word: u32) -> (u8, u32) {
    (penne_unpack_kind(word), penne_unpack_load(word))
}
