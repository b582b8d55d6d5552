//! Stand-in for the missing `lexer/digits.rs`: the two digit readers that the
//! lexer calls, and, because a child of `lexer` may call `TokensBuffer::push`,
//! the making of `Tokens` from a row of kinds and value types and back.

use super::tokens::{TokenLocation, Tokens};
use super::{BaseToken, ValueTypeKeyword};

pub(super) fn parse_decimal_digit(x: u8) -> Option<u8> {
    match x {
        b'0'..=b'9' => Some(x - b'0'),
        _ => None,
    }
}

pub(super) fn parse_hex_digit(x: u8) -> Option<u8> {
    match x {
        b'0'..=b'9' => Some(x - b'0'),
        b'a'..=b'f' => Some(x - b'a' + 10),
        b'A'..=b'F' => Some(x - b'A' + 10),
        _ => None,
    }
}

impl Tokens {
    /// The `Tokens` of a row. `None` if a kind is above 61 or a value type
    /// above 14: the Rust has no such token.
    ///
    /// Every token is pushed with its value type, as `push` takes one for
    /// every kind; the parser asks for it only where the kind is
    /// ValueTypeKeyword or SuffixedInteger. Payloads and locations are left
    /// out: no parse entry reads them.
    pub(crate) fn from_row(kinds: &[u8], value_types: &[u8]) -> Option<Tokens> {
        // The second argument is the length of a source, of which the larger
        // of half and 65,536 is the room for tokens.
        let mut tokens = Tokens::empty(String::new(), 2 * kinds.len());
        let mut buffer = tokens.buffer();
        for (&kind, &value_type) in kinds.iter().zip(value_types) {
            let kind = BaseToken::from_repr(kind)?;
            let value_type = ValueTypeKeyword::from_repr(value_type)?;
            buffer
                .push(kind, Some(value_type), None, TokenLocation::dummy())
                .ok()?;
        }
        let count = buffer.into_num_initialized_tokens();
        // Safety: `count` is the result of `into_num_initialized_tokens`.
        unsafe { tokens.set_tokens_len(count) };
        Some(tokens)
    }

    /// Kinds and value types of lexed tokens. The lexer ends with
    /// EndOfSource twice; a row ends with it once.
    pub(crate) fn into_row(self) -> (Vec<u8>, Vec<u8>) {
        let mut ids = self.first_token_id();
        let mut kinds = Vec::new();
        let mut value_types = Vec::new();
        for &kind in self.base_tokens() {
            kinds.push(kind as u8);
            value_types.push(self.get_value_type_and_payload(ids).value_type() as u8);
            self.advance(&mut ids);
        }
        if kinds.ends_with(&[0, 0]) {
            kinds.pop();
            value_types.pop();
        }
        (kinds, value_types)
    }
}
