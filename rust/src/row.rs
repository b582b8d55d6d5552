//! Rows of tokens.

use crate::{BaseToken, TokenId, ValueTypeKeyword};

/// The most tokens of a row, EndOfSource included.
pub const MAX_TOKENS: usize = 65_535;

/// A row of tokens, lent: a kind and a value type for each, both as codes.
///
/// Anything can be in it, since an entry refuses what is wrong: columns of different lengths, codes
/// that are none, no EndOfSource at the end. The value type is read only of tokens of the kinds
/// ValueTypeKeyword and SuffixedInteger.
#[derive(Clone, Copy, Debug, PartialEq, Eq, Hash)]
pub struct Row<'a> {
    /// The kinds: codes of [`BaseToken`].
    pub kinds: &'a [u8],
    /// The value types: codes of [`ValueTypeKeyword`].
    pub value_types: &'a [u8],
}

impl<'a> Row<'a> {
    /// The row with these kinds and value types.
    pub fn new(kinds: &'a [u8], value_types: &'a [u8]) -> Row<'a> {
        Row { kinds, value_types }
    }

    /// How many tokens there are, by the kinds.
    pub fn len(&self) -> usize {
        self.kinds.len()
    }

    /// Whether there is no token, by the kinds.
    pub fn is_empty(&self) -> bool {
        self.kinds.is_empty()
    }

    /// A token's kind and value type, if the row has the token and both codes are known.
    pub fn get(&self, token: TokenId) -> Option<(BaseToken, ValueTypeKeyword)> {
        let kind = *self.kinds.get(usize::from(token))?;
        let value_type = *self.value_types.get(usize::from(token))?;
        Some((
            BaseToken::from_repr(kind)?,
            ValueTypeKeyword::from_repr(value_type)?,
        ))
    }
}
