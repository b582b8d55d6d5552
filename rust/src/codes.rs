//! Enums whose places are codes, as Penne's own parser has them.

use core::fmt;

/// A code is shown by its name, a value type as Penne spells it.
macro_rules! shown {
    (ValueTypeKeyword, $code:ident, $f:ident) => {
        $f.write_str(SPELLED[*$code as usize])
    };
    ($name:ident, $code:ident, $f:ident) => {
        fmt::Debug::fmt($code, $f)
    };
}

/// The value types as Penne spells them.
const SPELLED: [&str; 15] = [
    "NoKeyword",
    "void",
    "i8",
    "i16",
    "i32",
    "i64",
    "i128",
    "u8",
    "u16",
    "u32",
    "u64",
    "u128",
    "usize",
    "char8",
    "bool",
];

/// An enum with a code for each name: its place.
macro_rules! codes {
    ($(#[$meta:meta])* $name:ident { $($(#[$doc:meta])* $variant:ident,)* }) => {
        $(#[$meta])*
        #[derive(Clone, Copy, Debug, PartialEq, Eq, PartialOrd, Ord, Hash)]
        #[repr(u8)]
        pub enum $name {
            $($(#[$doc])* $variant,)*
        }

        impl $name {
            /// All of them, each at the place that is its code.
            pub const ALL: &'static [$name] = &[$($name::$variant,)*];

            /// The one with this code, if there is one.
            pub fn from_repr(code: u8) -> Option<$name> {
                Self::ALL.get(usize::from(code)).copied()
            }
        }

        impl fmt::Display for $name {
            fn fmt(&self, f: &mut fmt::Formatter<'_>) -> fmt::Result {
                shown!($name, self, f)
            }
        }
    };
}

codes! {
    /// A token's kind. `as u8` gives its code.
    BaseToken {
        /// The end of the row.
        EndOfSource,
        /// `(`
        ParenLeft,
        /// `)`
        ParenRight,
        /// `{`
        BraceLeft,
        /// `}`
        BraceRight,
        /// `[`
        BracketLeft,
        /// `]`
        BracketRight,
        /// `<`
        AngleLeft,
        /// `>`
        AngleRight,
        /// `|`
        Pipe,
        /// `&`
        Ampersand,
        /// `^`
        Caret,
        /// `!`
        Exclamation,
        /// `_`
        Placeholder,
        /// `+`
        Plus,
        /// `-`
        Minus,
        /// `*`
        Times,
        /// `/`
        Divide,
        /// `%`
        Modulo,
        /// `:`
        Colon,
        /// `;`
        Semicolon,
        /// `.`
        Dot,
        /// `,`
        Comma,
        /// `=`
        Assignment,
        /// `==`
        Equals,
        /// `!=`
        DoesNotEqual,
        /// `>=`
        IsGE,
        /// `<=`
        IsLE,
        /// `<<`
        ShiftLeft,
        /// `>>`
        ShiftRight,
        /// `->`
        Arrow,
        /// `|:`
        PipeForType,
        /// `..`
        Dots,
        /// `fn`
        Fn,
        /// `var`
        Var,
        /// `const`
        Const,
        /// `if`
        If,
        /// `goto`
        Goto,
        /// `loop`
        Loop,
        /// `return`
        Return,
        /// `else`
        Else,
        /// `cast`
        Cast,
        /// `as`
        As,
        /// `import`
        Import,
        /// `pub`
        Pub,
        /// `extern`
        Extern,
        /// `struct`
        Struct,
        /// `word8`
        Word8,
        /// `word16`
        Word16,
        /// `word32`
        Word32,
        /// `word64`
        Word64,
        /// `word128`
        Word128,
        /// A type such as `i32` or `bool`, which is the token's value type.
        ValueTypeKeyword,
        /// A name.
        Identifier,
        /// A name with `!` after it.
        Builtin,
        /// A decimal integer without a type.
        NakedDecimal,
        /// A hexadecimal or binary integer without a type.
        BitInteger,
        /// An integer with a type, as `12u8`, which is the token's value type.
        SuffixedInteger,
        /// A character in single quotes.
        CharLiteral,
        /// `true` or `false`
        BoolLiteral,
        /// A string in double quotes.
        StringLiteral,
        /// Text that is no token.
        Error,
    }
}

codes! {
    /// The value type of a token. `as u8` gives its code.
    ValueTypeKeyword {
        /// None.
        NoKeyword,
        /// `void`
        Void,
        /// `i8`
        Int8,
        /// `i16`
        Int16,
        /// `i32`
        Int32,
        /// `i64`
        Int64,
        /// `i128`
        Int128,
        /// `u8`
        Uint8,
        /// `u16`
        Uint16,
        /// `u32`
        Uint32,
        /// `u64`
        Uint64,
        /// `u128`
        Uint128,
        /// `usize`
        Usize,
        /// `char8`
        Char8,
        /// `bool`
        Bool,
    }
}

codes! {
    /// An operator between two operands.
    BinaryOp {
        /// `+`
        Add,
        /// `-`
        Subtract,
        /// `*`
        Multiply,
        /// `/`
        Divide,
        /// `%`
        Modulo,
        /// `&`
        BitwiseAnd,
        /// `|`
        BitwiseOr,
        /// `^`
        BitwiseXor,
        /// `<<`
        ShiftLeft,
        /// `>>`
        ShiftRight,
        /// `..` after a reference that begins with `&`
        AdvancePointer,
    }
}

codes! {
    /// An operator before its operand.
    UnaryOp {
        /// `-`
        Negative,
        /// `!`
        BitwiseComplement,
    }
}

codes! {
    /// An operator between two expressions that are compared.
    ComparisonOp {
        /// `==`
        Equals,
        /// `!=`
        DoesNotEqual,
        /// `>`
        IsGreater,
        /// `>=`
        IsGE,
        /// `<`
        IsLess,
        /// `<=`
        IsLE,
    }
}

codes! {
    /// A flag of a declaration. See [`DeclarationFlags`](crate::DeclarationFlags) for a set of
    /// them.
    DeclarationFlag {
        /// `pub`
        Public,
        /// `extern`
        External,
        /// The function where the program starts.
        Main,
        /// A function without a body.
        Forward,
        /// A struct without members in braces.
        OpaqueStruct,
    }
}
