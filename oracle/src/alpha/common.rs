//! Stand-in for `src/alpha/common.rs` of penne: the four enums that parse
//! nodes hold, their variants in the same order.

#[must_use]
#[derive(Debug, Clone, Copy, PartialEq, Eq)]
pub enum DeclarationFlag {
    Public,
    External,
    Main,
    Forward,
    OpaqueStruct,
}

impl enumset::EnumSetType for DeclarationFlag {
    #[inline]
    fn place(self) -> u8 {
        self as u8
    }
}

#[must_use]
#[derive(Debug, Clone, Copy, PartialEq, Eq)]
pub enum ComparisonOp {
    Equals,
    DoesNotEqual,
    IsGreater,
    IsGE,
    IsLess,
    IsLE,
}

#[must_use]
#[derive(Debug, Clone, Copy, PartialEq, Eq)]
pub enum BinaryOp {
    Add,
    Subtract,
    Multiply,
    Divide,
    Modulo,
    BitwiseAnd,
    BitwiseOr,
    BitwiseXor,
    ShiftLeft,
    ShiftRight,
    AdvancePointer,
}

#[must_use]
#[derive(Debug, Clone, Copy, PartialEq, Eq)]
pub enum UnaryOp {
    Negative,
    BitwiseComplement,
}
