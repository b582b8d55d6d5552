//! Refusals.

use core::error::Error;
use core::fmt;
use core::ops::Range;

use crate::TokenId;

/// An enum of refusals with their numbers.
macro_rules! refusal_numbers {
    ($(#[$meta:meta])* $name:ident { $($(#[$doc:meta])* $variant:ident = $number:literal,)* }) => {
        $(#[$meta])*
        #[derive(Clone, Copy, Debug, PartialEq, Eq, PartialOrd, Ord, Hash)]
        #[repr(u8)]
        #[non_exhaustive]
        pub enum $name {
            $($(#[$doc])* $variant = $number,)*
        }

        impl $name {
            /// All of them, in the order of their numbers.
            pub const ALL: &'static [$name] = &[$($name::$variant,)*];
        }
    };
}

refusal_numbers! {
    /// Why a row was refused. `as u8` gives the number.
    RefusalNumber {
        /// The kinds and value types differ in number, or there is no token or too many.
        BadRow = 1,
        /// A kind above 61 or a value type above 14.
        BadToken = 2,
        /// The last token is not EndOfSource.
        NoEndOfSource = 3,
        /// No `=` where one was expected.
        ExpectedAssignment = 10,
        /// No `{` where one was expected.
        ExpectedBraceLeft = 11,
        /// No `}` where one was expected.
        ExpectedBraceRight = 12,
        /// No `]` where one was expected.
        ExpectedBracketRight = 13,
        /// No `(` where one was expected.
        ExpectedParenLeft = 14,
        /// No `)` where one was expected.
        ExpectedParenRight = 15,
        /// No `|` where one was expected.
        ExpectedPipe = 16,
        /// No `;` where one was expected.
        ExpectedSemicolon = 17,
        /// No identifier where one was expected.
        ExpectedIdentifier = 18,
        /// No array size after `[` in a type.
        ExpectedArraySize = 19,
        /// No type where one was expected.
        ExpectedType = 20,
        /// No primary expression where one was expected.
        ExpectedPrimary = 21,
        /// No `:` after the name of a constant.
        MissingConstantType = 22,
        /// No `:` after the name of a member.
        MissingMemberType = 23,
        /// Too many ampersands or reference steps.
        MaximumParseDepthExceeded = 24,
        /// Neither `,` nor `}` after a member.
        ExpectedComma = 25,
        /// The cursor or the start of the declaration is not in the row.
        BadCursor = 30,
        /// The node columns differ in length, or have too many slots.
        BadColumns = 31,
        /// The node count is above the number of slots.
        BadCount = 32,
        /// A node was to be appended and no slot was left.
        NoSlot = 33,
        /// Too many expressions and inner types are open at once.
        NestingExceeded = 34,
        /// The declaration flags are above 31.
        BadFlags = 35,
        /// The declaring token of a word is not `word8` to `word128`.
        BadWordKind = 36,
        /// A load does not fit a word.
        LoadTooLarge = 56,
    }
}

impl RefusalNumber {
    /// The refusal with this number, if there is one.
    pub fn from_repr(number: u8) -> Option<RefusalNumber> {
        let mut all = RefusalNumber::ALL.iter().copied();
        all.find(|&refusal| refusal as u8 == number)
    }

    /// What the token at the refusal's start should be, if that is what is wrong.
    fn expected(self) -> Option<&'static str> {
        use RefusalNumber::*;
        Some(match self {
            ExpectedAssignment => "an assignment `=`",
            ExpectedBraceLeft => "an opening brace `{`",
            ExpectedBraceRight => "a closing brace `}`",
            ExpectedBracketRight => "a closing bracket `]`",
            ExpectedParenLeft => "an opening parenthesis `(`",
            ExpectedParenRight => "a closing parenthesis `)`",
            ExpectedPipe => "a pipe `|`",
            ExpectedSemicolon => "a semicolon `;`",
            ExpectedIdentifier => "an identifier",
            ExpectedArraySize => "an array size: a naked decimal, an identifier, `]`, `:` or `..`",
            ExpectedType => "the start of a type",
            ExpectedPrimary => "the start of a primary expression",
            MissingConstantType => "the colon `:` after the name of a constant",
            MissingMemberType => "the colon `:` after the name of a member",
            ExpectedComma => "a comma `,` or a closing brace `}` after a member",
            _ => return None,
        })
    }

    /// The sentence of a refusal that is of no token.
    fn without_token(self) -> Option<&'static str> {
        use RefusalNumber::*;
        Some(match self {
            BadRow => {
                "The kinds and the value types differ in number, \
                 or there is no token, or more than 65,535."
            }
            BadCursor => {
                "The cursor or the start of the declaration is not below the number of tokens."
            }
            BadColumns => "The node columns differ in length, or have more than 131,075 slots.",
            BadCount => "The node count is above the number of slots.",
            BadFlags => "The declaration flags are above 31.",
            BadWordKind => "The kind given for a word declaration is not one of word8 to word128.",
            LoadTooLarge => "The load does not fit the 24 bits that a word has for it.",
            _ => return None,
        })
    }
}

/// A refusal: why, where, and what was done until then. It is shown as a sentence.
///
/// ```
/// use penne_parser::{parse_expression, BaseToken, Nodes, RefusalNumber, TokenId, Tokens};
///
/// // (1
/// let tokens: Tokens = [BaseToken::ParenLeft, BaseToken::NakedDecimal].into_iter().collect();
/// let mut nodes = Nodes::with_slots(10);
/// let refusal = parse_expression(tokens.row(), TokenId(0), &mut nodes).unwrap_err();
/// assert_eq!(refusal.number, RefusalNumber::ExpectedParenRight);
/// assert_eq!(refusal.start, TokenId(2));
/// assert_eq!(refusal.to_string(), "Token 2 should be a closing parenthesis `)`.");
/// ```
#[derive(Clone, Copy, Debug, PartialEq, Eq, Hash)]
pub struct Refusal {
    /// Why the row was refused.
    pub number: RefusalNumber,
    /// The token at which it was refused; 0 if the refusal is of no token.
    pub start: TokenId,
    /// The start, but for too many ampersands or reference steps, where it is the token after them.
    pub end: TokenId,
    /// Where the parse stopped: the token after the last one taken.
    pub cursor: TokenId,
    /// How many nodes there are. Those that were appended until the refusal are still there.
    pub count: u32,
}

impl Refusal {
    /// The tokens that the refusal is about, without the end; none if it is of no token.
    pub fn tokens(&self) -> Option<Range<TokenId>> {
        if self.number.without_token().is_some() {
            return None;
        }
        let end = TokenId(self.end.0.max(self.start.0.saturating_add(1)));
        Some(self.start..end)
    }
}

impl fmt::Display for Refusal {
    fn fmt(&self, f: &mut fmt::Formatter<'_>) -> fmt::Result {
        let TokenId(start) = self.start;
        let TokenId(end) = self.end;
        if let Some(expected) = self.number.expected() {
            return write!(f, "Token {start} should be {expected}.");
        }
        if let Some(sentence) = self.number.without_token() {
            return f.write_str(sentence);
        }
        match self.number {
            RefusalNumber::BadToken => write!(
                f,
                "Token {start} has a kind above 61 or a value type above 14."
            ),
            RefusalNumber::NoEndOfSource => {
                write!(f, "The last token, token {start}, is not EndOfSource.")
            }
            RefusalNumber::NoSlot => write!(
                f,
                "No slot is left for a node, with the cursor at token {start}."
            ),
            RefusalNumber::NestingExceeded => write!(
                f,
                "An expression or inner type begins at token {start}, and 40 are already open."
            ),
            _ => write!(
                f,
                "There are too many ampersands or reference steps: \
                 they begin at token {start} and end before token {end}."
            ),
        }
    }
}

impl Error for Refusal {}
