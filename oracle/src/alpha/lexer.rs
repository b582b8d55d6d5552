//! Stand-in: the lexing errors that the Delta lexer names.

#[derive(Debug, Clone, Copy, PartialEq, Eq)]
pub enum Error {
    UnexpectedZeroByteFile,
    TooManySourceBytes,
    TooManyTokens,
    InvalidIntegerLength,
    InvalidIntegerTypeSuffix,
    InvalidEscapeSequence,
    InvalidCharLiteral,
    UnexpectedTrailingBackslash,
    UnexpectedCharacter,
    MissingClosingQuote,
}
