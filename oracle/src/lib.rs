//! The Delta parser of SLiV9/penne, unchanged, behind five entries that take a
//! row of token kinds and value types and give a reply and nodes, in the terms
//! of document 01. See README.md.
//!
//! ```
//! use oracle::{Buffer, Reply, Row};
//! let row = Row::new(&[55, 14, 55, 0], &[0, 0, 0, 0]).unwrap();
//! let mut buffer = Buffer::wide();
//! let reply = row.expression(0, &mut buffer);
//! assert_eq!(reply, Reply::Accepted { root: 4, cursor: 3, count: 5 });
//! assert_eq!(buffer.appended().last(), Some((21, 1)));
//! ```

// The parser's files hold much that the five entries do not use.
#[allow(dead_code)]
mod alpha;
#[allow(dead_code)]
#[rustfmt::skip]
mod delta;

mod buffer;
mod guard;
pub mod hexadecimal;
mod last_comma;
mod nesting;
mod node;
mod reply;

pub use buffer::{Buffer, WIDE};
pub use guard::Cause;
pub use last_comma::{ask_with_comma, dropped_comma};
pub use nesting::nesting;
pub use reply::{Numbers, Reply};

/// What the Rust cannot be asked: input that document 01 refuses with this
/// number before parsing.
#[derive(Debug, Clone, Copy, PartialEq, Eq)]
pub struct Unaskable {
    pub number: u32,
    pub start: u32,
}

/// A row of tokens, made ready for the parser once.
pub struct Row {
    tokens: delta::lexer::tokens::Tokens,
}

impl Row {
    /// Refusals 1 to 3 of document 01 are decided here, because the Rust has
    /// no tokens above 61, no value types above 14 and no limit of its own.
    pub fn new(kinds: &[u8], value_types: &[u8]) -> Result<Row, Unaskable> {
        let unaskable = |number, start: usize| {
            Err(Unaskable {
                number,
                start: start as u32,
            })
        };
        if kinds.len() != value_types.len() || kinds.is_empty() || kinds.len() > MOST_TOKENS {
            return unaskable(1, 0);
        }
        let mut tokens = kinds.iter().zip(value_types);
        if let Some(place) = tokens.position(|(&kind, &value_type)| kind > 61 || value_type > 14) {
            return unaskable(2, place);
        }
        if kinds.last() != Some(&0) {
            return unaskable(3, kinds.len() - 1);
        }
        Ok(Row::of_any_length(kinds, value_types))
    }

    /// A row that may have more tokens than document 01 allows; all else was
    /// checked.
    fn of_any_length(kinds: &[u8], value_types: &[u8]) -> Row {
        let tokens = delta::lexer::tokens::Tokens::from_row(kinds, value_types)
            .expect("kinds and value types were checked");
        Row { tokens }
    }

    /// The number of tokens, EndOfSource included.
    pub fn len(&self) -> usize {
        self.tokens.base_tokens().len()
    }

    /// A row is never empty; this is here because there is a `len`.
    pub fn is_empty(&self) -> bool {
        false
    }

    /// Asks one of the five entries, from the buffer's slots given in the
    /// question. What the Rust cannot be asked is told in document 01's order.
    pub fn ask(&self, question: &Question, buffer: &mut Buffer) -> Result<Reply, Unaskable> {
        let &Question {
            entry,
            cursor,
            base,
            slots,
            flags,
            start,
            word_kind,
        } = question;
        let unaskable = |number| Err(Unaskable { number, start: 0 });
        let declares = matches!(entry, Entry::Constant | Entry::Struct | Entry::Word);
        let inside = |token: u32| (token as usize) < self.len();
        if !inside(cursor) || declares && !inside(start) {
            return unaskable(30);
        }
        if slots.is_some_and(|slots| slots > MOST_SLOTS) {
            return unaskable(31);
        }
        if base > slots.unwrap_or(MOST_SLOTS) {
            return unaskable(32);
        }
        if declares && u32::from(flags) > MOST_FLAGS {
            return unaskable(35);
        }
        // A kind from 0 to 61 other than 47 to 51 is asked: the Rust panics.
        if entry == Entry::Word && word_kind > 61 {
            return unaskable(36);
        }
        let slots = slots.map_or(buffer.room(), |slots| slots as usize);
        buffer.set(base as usize, slots);
        Ok(match entry {
            Entry::Expression => self.expression(cursor, buffer),
            Entry::Type => self.type_(cursor, buffer),
            Entry::Constant => self.constant(cursor, flags, start, buffer),
            Entry::Struct => self.struct_(cursor, flags, start, buffer),
            Entry::Word => self.word(cursor, flags, start, word_kind, buffer),
        })
    }
}

/// The most tokens and slots that document 01 allows, all flags together, and
/// the expressions and inner types that may be open at once.
pub const MOST_TOKENS: usize = 65_535;
pub const MOST_SLOTS: u32 = 131_075;
pub const MOST_FLAGS: u32 = 31;
pub const MOST_OPEN: u32 = 40;

/// An entry with all that it is given besides the row.
#[derive(Debug, Clone, Copy, PartialEq, Eq)]
pub struct Question {
    pub entry: Entry,
    pub cursor: u32,
    /// The node count before the parse.
    pub base: u32,
    /// How many slots there are; `None` for all the room of the buffer.
    pub slots: Option<u32>,
    /// Used by the declarations only.
    pub flags: u8,
    /// The declaration start; used by the declarations only.
    pub start: u32,
    /// The declaring kind; used by the word declaration only.
    pub word_kind: u8,
}

impl Question {
    /// An entry at cursor 0, base 0, flags 0 and start 0, with all the room; a
    /// word is a `word8`.
    pub fn new(entry: Entry) -> Question {
        Question {
            entry,
            cursor: 0,
            base: 0,
            slots: None,
            flags: 0,
            start: 0,
            word_kind: 47,
        }
    }
}

/// The five entries, in the order of their numbers 0 to 4.
#[derive(Debug, Clone, Copy, PartialEq, Eq)]
pub enum Entry {
    Expression,
    Type,
    Constant,
    Struct,
    Word,
}

impl Entry {
    pub const ALL: [Entry; 5] = [
        Entry::Expression,
        Entry::Type,
        Entry::Constant,
        Entry::Struct,
        Entry::Word,
    ];
}

/// The row of a source text, by penne's own lexer: kinds and value types,
/// ending in one EndOfSource.
pub fn lex(source: &str) -> (Vec<u8>, Vec<u8>) {
    if source.is_empty() {
        // The lexer makes an error of this; as a row it is well formed.
        return (vec![0], vec![0]);
    }
    delta::lexer::lex(source.as_bytes(), "").into_row()
}

/// Runs `f` on a thread with a stack so large that the deepest nesting of
/// 65,535 tokens does not overflow it.
pub fn with_large_stack<T: Send>(f: impl FnOnce() -> T + Send) -> T {
    // The lexer's Tokens begin with room for 65,536 tokens and are then shrunk.
    // After a large block was freed, glibc takes such room from its heap;
    // before, it asks the system each time, which is a hundred times slower.
    drop(std::hint::black_box(Vec::<u8>::with_capacity(16 << 20)));
    std::thread::scope(|scope| {
        std::thread::Builder::new()
            .stack_size(512 << 20)
            .spawn_scoped(scope, f)
            .expect("a thread")
            .join()
            .unwrap_or_else(|message| std::panic::resume_unwind(message))
    })
}
