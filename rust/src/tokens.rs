//! A row of tokens that grows.

use alloc::vec::Vec;

use crate::{BaseToken, Row, ValueTypeKeyword};

/// A row of tokens that grows. It always ends in EndOfSource.
///
/// ```
/// use penne_parser::{BaseToken, TokenId, Tokens, ValueTypeKeyword};
///
/// // 12u8 + x
/// let mut tokens = Tokens::new();
/// tokens.push_typed(BaseToken::SuffixedInteger, ValueTypeKeyword::Uint8);
/// tokens.push(BaseToken::Plus);
/// tokens.push(BaseToken::Identifier);
/// let first = (BaseToken::SuffixedInteger, ValueTypeKeyword::Uint8);
/// assert_eq!(tokens.row().get(TokenId(0)), Some(first));
/// let end = (BaseToken::EndOfSource, ValueTypeKeyword::NoKeyword);
/// assert_eq!(tokens.row().get(TokenId(3)), Some(end));
/// ```
#[derive(Clone, Debug, PartialEq, Eq, Hash)]
pub struct Tokens {
    kinds: Vec<u8>,
    value_types: Vec<u8>,
}

impl Tokens {
    /// No token but EndOfSource.
    pub fn new() -> Tokens {
        Tokens::with_capacity(0)
    }

    /// No token but EndOfSource, with room for so many more.
    pub fn with_capacity(tokens: usize) -> Tokens {
        let mut kinds = Vec::with_capacity(tokens + 1);
        let mut value_types = Vec::with_capacity(tokens + 1);
        kinds.push(BaseToken::EndOfSource as u8);
        value_types.push(ValueTypeKeyword::NoKeyword as u8);
        Tokens { kinds, value_types }
    }

    /// Adds a token without a value type before EndOfSource.
    pub fn push(&mut self, kind: BaseToken) {
        self.push_typed(kind, ValueTypeKeyword::NoKeyword);
    }

    /// Adds a token with a value type before EndOfSource.
    pub fn push_typed(&mut self, kind: BaseToken, value_type: ValueTypeKeyword) {
        let end = self.kinds.len() - 1;
        self.kinds[end] = kind as u8;
        self.value_types[end] = value_type as u8;
        self.kinds.push(BaseToken::EndOfSource as u8);
        self.value_types.push(ValueTypeKeyword::NoKeyword as u8);
    }

    /// Takes all tokens away but EndOfSource, and keeps the room.
    pub fn clear(&mut self) {
        self.kinds.truncate(1);
        self.value_types.truncate(1);
        self.kinds[0] = BaseToken::EndOfSource as u8;
        self.value_types[0] = ValueTypeKeyword::NoKeyword as u8;
    }

    /// The tokens as a row, EndOfSource included.
    pub fn row(&self) -> Row<'_> {
        Row::new(&self.kinds, &self.value_types)
    }
}

impl Default for Tokens {
    fn default() -> Tokens {
        Tokens::new()
    }
}

impl Extend<BaseToken> for Tokens {
    fn extend<T: IntoIterator<Item = BaseToken>>(&mut self, tokens: T) {
        tokens.into_iter().for_each(|token| self.push(token));
    }
}

impl Extend<(BaseToken, ValueTypeKeyword)> for Tokens {
    fn extend<T: IntoIterator<Item = (BaseToken, ValueTypeKeyword)>>(&mut self, tokens: T) {
        let tokens = tokens.into_iter();
        tokens.for_each(|(token, value_type)| self.push_typed(token, value_type));
    }
}

impl<T> FromIterator<T> for Tokens
where
    Tokens: Extend<T>,
{
    fn from_iter<I: IntoIterator<Item = T>>(tokens: I) -> Tokens {
        let mut row = Tokens::new();
        row.extend(tokens);
        row
    }
}
