//! Replies, and the numbers in which they are compared and printed.

use std::fmt;

use crate::Cause;

/// What an entry answers. The meaning of the numbers is document 01's.
#[derive(Debug, Clone, Copy, PartialEq, Eq)]
pub enum Reply {
    Accepted {
        root: u32,
        cursor: u32,
        count: u32,
    },
    Refused {
        number: u32,
        start: u32,
        end: u32,
        cursor: u32,
        count: u32,
    },
    /// The Rust panicked. Cursor and count are those it had then, and the
    /// nodes up to the count can be read.
    Panicked {
        cause: Cause,
        cursor: u32,
        count: u32,
    },
}

impl Reply {
    pub fn cursor(&self) -> u32 {
        match *self {
            Reply::Accepted { cursor, .. }
            | Reply::Refused { cursor, .. }
            | Reply::Panicked { cursor, .. } => cursor,
        }
    }

    pub fn count(&self) -> u32 {
        match *self {
            Reply::Accepted { count, .. }
            | Reply::Refused { count, .. }
            | Reply::Panicked { count, .. } => count,
        }
    }

    /// The number of a refusal, 0 for all else.
    pub fn number(&self) -> u32 {
        match *self {
            Reply::Refused { number, .. } => number,
            Reply::Accepted { .. } | Reply::Panicked { .. } => 0,
        }
    }

    /// The reply that document 01 has where the Rust panics in a parse: 33 if
    /// the slots were used up, and 25 if a member is followed by no comma; see
    /// `dropped_comma` for the closing brace. None if the cause is not known.
    /// A word of another kind (36) is refused before.
    pub fn in_document_01(self) -> Option<Reply> {
        let Reply::Panicked {
            cause,
            cursor,
            count,
        } = self
        else {
            return Some(self);
        };
        let (number, start) = match cause {
            Cause::Slots => (33, cursor),
            Cause::Unreachable => (25, cursor - 1),
            Cause::Other => return None,
        };
        Some(Reply::Refused {
            number,
            start,
            end: start,
            cursor,
            count,
        })
    }

    /// The six numbers in which the proved library writes a reply: the case,
    /// then what that case holds. A panic, which it never writes, is case 2.
    pub fn numbers(&self) -> [u32; 6] {
        match *self {
            Reply::Accepted {
                root,
                cursor,
                count,
            } => [0, root, cursor, count, 0, 0],
            Reply::Refused {
                number,
                start,
                end,
                cursor,
                count,
            } => [1, number, start, end, cursor, count],
            Reply::Panicked { cursor, count, .. } => [2, cursor, count, 0, 0, 0],
        }
    }
}

/// `ok` or `no` with the numbers, or `panic` with its cause.
impl fmt::Display for Reply {
    fn fmt(&self, f: &mut fmt::Formatter<'_>) -> fmt::Result {
        let Reply::Panicked {
            cause,
            cursor,
            count,
        } = self
        else {
            return Numbers(self.numbers()).fmt(f);
        };
        let cause = match cause {
            Cause::Slots => "slots",
            Cause::Unreachable => "unreachable",
            Cause::Other => "other",
        };
        write!(f, "panic {cause} {cursor} {count}")
    }
}

/// A reply of six numbers, printed likewise.
pub struct Numbers(pub [u32; 6]);

impl fmt::Display for Numbers {
    fn fmt(&self, f: &mut fmt::Formatter<'_>) -> fmt::Result {
        match self.0 {
            [0, root, cursor, count, 0, 0] => write!(f, "ok {root} {cursor} {count}"),
            [1, number, start, end, cursor, count] => {
                write!(f, "no {number} {start} {end} {cursor} {count}")
            }
            other => write!(f, "no reply: {other:?}"),
        }
    }
}
