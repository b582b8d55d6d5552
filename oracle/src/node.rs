//! Nodes read as a kind and a load, as document 01 defines them.

use crate::alpha::common::DeclarationFlag;
use crate::delta::parser::parse_node::{NodeId, ParseNode, TokenId};

/// The kind of a node is its place in `ParseNode`; its load is the number that
/// it holds, and 0 if it holds none.
#[rustfmt::skip]
pub(crate) fn kind_and_load(node: ParseNode) -> (u8, u32) {
    use ParseNode::*;
    let t = |TokenId(number): TokenId| u32::from(number);
    let n = |NodeId(number): NodeId| u32::from(number);
    match node {
        NoMoreItems => (0, 0),
        DeclarationFlags(flags) => {
            let flag = |flag, bit| if flags.contains(flag) { bit } else { 0 };
            let load = flag(DeclarationFlag::Public, 1)
                | flag(DeclarationFlag::External, 2)
                | flag(DeclarationFlag::Main, 4)
                | flag(DeclarationFlag::Forward, 8)
                | flag(DeclarationFlag::OpaqueStruct, 16);
            (1, load)
        }
        FunctionDeclaration { start_of_declaration } => (2, t(start_of_declaration)),
        ConstantDeclaration { start_of_declaration } => (3, t(start_of_declaration)),
        StructureDeclaration { start_of_declaration } => (4, t(start_of_declaration)),
        ImportDeclaration { start_of_declaration } => (5, t(start_of_declaration)),
        FunctionBody {} => (6, 0),
        StructuralType { size_in_bytes_if_word } => {
            (7, size_in_bytes_if_word.map_or(0, u32::from))
        }
        Identifier { identifier } => (8, t(identifier)),
        IdentifierAndType { identifier } => (9, t(identifier)),
        IdentifierAndExpression { identifier } => (10, t(identifier)),
        VariableDeclaration { identifier } => (11, t(identifier)),
        Assignment {} => (12, 0),
        Loop { token } => (13, t(token)),
        Goto { token } => (14, t(token)),
        Label { colon } => (15, t(colon)),
        MethodCall { is_builtin } => (16, u32::from(is_builtin)),
        FunctionCall { is_builtin } => (17, u32::from(is_builtin)),
        Parenthesized {} => (18, 0),
        Comparison { token } => (19, t(token)),
        ComparisonOp(op) => (20, op as u32),
        Binary { token } => (21, t(token)),
        BinaryOp(op) => (22, op as u32),
        Unary { token } => (23, t(token)),
        UnaryOp(op) => (24, op as u32),
        BooleanLiteral { literal } => (25, t(literal)),
        CharLiteral { literal } => (26, t(literal)),
        UntypedIntegerLiteral { literal } => (27, t(literal)),
        TypedIntegerLiteral { literal } => (28, t(literal)),
        SimpleStringLiteral { literal } => (29, t(literal)),
        CompositeStringLiteral { start } => (30, t(start)),
        ArrayLiteral { num_elements } => (31, u32::from(num_elements)),
        Structural { unresolved_struct_or_word } => (32, t(unresolved_struct_or_word)),
        Deref { start_of_reference } => (33, t(start_of_reference)),
        DerefAddressDepth { depth } => (34, u32::from(depth)),
        DerefStepElement {} => (35, 0),
        DerefStepMember { field_identifier } => (36, t(field_identifier)),
        BitCast { cast_keyword } => (37, t(cast_keyword)),
        TypeCast { start_of_type } => (38, t(start_of_type)),
        LengthOf {} => (39, 0),
        SizeOf {} => (40, 0),
        SimpleValueType(value_type) => (41, value_type as u32),
        CompositeValueType { start } => (42, t(start)),
        ArrayVT { fixed_length } => (43, t(fixed_length)),
        ArrayWithNamedLengthVT { named_length_identifier } => (44, t(named_length_identifier)),
        SliceVT {} => (45, 0),
        EndlessArrayVT {} => (46, 0),
        ArraylikeVT {} => (47, 0),
        UnresolvedStructOrWordVT { identifier } => (48, t(identifier)),
        PointerVT {} => (49, 0),
        ViewVT {} => (50, 0),
        EndOfSpan { end } => (51, t(end)),
        UnpatchedListItem => (52, 0),
        Then {} => (53, 0),
        ThenElse { then } => (54, n(then)),
        If { comparison } => (55, n(comparison)),
        Block { first } => (56, n(first)),
        Item { at } => (57, n(at)),
        List { first } => (58, n(first)),
        ListItem { next } => (59, n(next)),
        FunctionImpl { body } => (60, n(body)),
        StartPrivateZone { end } => (61, n(end)),
        EndPrivateZone { start } => (62, n(start)),
        EndlessPrivateZone => (63, 0),
    }
}

#[cfg(test)]
mod tests {
    use super::*;
    use crate::alpha::common;
    use crate::delta::lexer::ValueTypeKeyword;
    use crate::delta::parser::parse_node::U24;
    use enumset::EnumSet;

    /// The variants of ParseNode in the order of its text.
    fn names_in_the_text() -> Vec<&'static str> {
        let text = include_str!("delta/parser/parse_node.rs");
        let (_, rest) = text.split_once("pub enum ParseNode\n{\n").unwrap();
        let (body, _) = rest.split_once("\n}\n").unwrap();
        // A variant stands one tab deep and begins with a capital letter.
        body.lines()
            .filter_map(|line| line.strip_prefix('\t'))
            .filter(|line| line.starts_with(|c: char| c.is_ascii_uppercase()))
            .map(|line| {
                line.split(|c: char| !c.is_ascii_alphanumeric())
                    .next()
                    .unwrap()
            })
            .collect()
    }

    #[test]
    #[rustfmt::skip]
    fn kinds_are_places_and_loads_are_what_is_held() {
        use ParseNode::*;
        let t = || TokenId(U24::new(70_001));
        let n = || NodeId(U24::new(70_002));
        let mut flags = EnumSet::new();
        flags.insert(DeclarationFlag::External);
        flags.insert(DeclarationFlag::OpaqueStruct);
        // One node of each variant with the load expected of it.
        let samples = [
            (NoMoreItems, 0),
            (DeclarationFlags(flags), 18),
            (FunctionDeclaration { start_of_declaration: t() }, 70_001),
            (ConstantDeclaration { start_of_declaration: t() }, 70_001),
            (StructureDeclaration { start_of_declaration: t() }, 70_001),
            (ImportDeclaration { start_of_declaration: t() }, 70_001),
            (FunctionBody {}, 0),
            (StructuralType { size_in_bytes_if_word: Some(16) }, 16),
            (Identifier { identifier: t() }, 70_001),
            (IdentifierAndType { identifier: t() }, 70_001),
            (IdentifierAndExpression { identifier: t() }, 70_001),
            (VariableDeclaration { identifier: t() }, 70_001),
            (Assignment {}, 0),
            (Loop { token: t() }, 70_001),
            (Goto { token: t() }, 70_001),
            (Label { colon: t() }, 70_001),
            (MethodCall { is_builtin: true }, 1),
            (FunctionCall { is_builtin: true }, 1),
            (Parenthesized {}, 0),
            (Comparison { token: t() }, 70_001),
            (ComparisonOp(common::ComparisonOp::IsLE), 5),
            (Binary { token: t() }, 70_001),
            (BinaryOp(common::BinaryOp::AdvancePointer), 10),
            (Unary { token: t() }, 70_001),
            (UnaryOp(common::UnaryOp::BitwiseComplement), 1),
            (BooleanLiteral { literal: t() }, 70_001),
            (CharLiteral { literal: t() }, 70_001),
            (UntypedIntegerLiteral { literal: t() }, 70_001),
            (TypedIntegerLiteral { literal: t() }, 70_001),
            (SimpleStringLiteral { literal: t() }, 70_001),
            (CompositeStringLiteral { start: t() }, 70_001),
            (ArrayLiteral { num_elements: U24::new(70_003) }, 70_003),
            (Structural { unresolved_struct_or_word: t() }, 70_001),
            (Deref { start_of_reference: t() }, 70_001),
            (DerefAddressDepth { depth: 127 }, 127),
            (DerefStepElement {}, 0),
            (DerefStepMember { field_identifier: t() }, 70_001),
            (BitCast { cast_keyword: t() }, 70_001),
            (TypeCast { start_of_type: t() }, 70_001),
            (LengthOf {}, 0),
            (SizeOf {}, 0),
            (SimpleValueType(ValueTypeKeyword::Bool), 14),
            (CompositeValueType { start: t() }, 70_001),
            (ArrayVT { fixed_length: t() }, 70_001),
            (ArrayWithNamedLengthVT { named_length_identifier: t() }, 70_001),
            (SliceVT {}, 0),
            (EndlessArrayVT {}, 0),
            (ArraylikeVT {}, 0),
            (UnresolvedStructOrWordVT { identifier: t() }, 70_001),
            (PointerVT {}, 0),
            (ViewVT {}, 0),
            (EndOfSpan { end: t() }, 70_001),
            (UnpatchedListItem, 0),
            (Then {}, 0),
            (ThenElse { then: n() }, 70_002),
            (If { comparison: n() }, 70_002),
            (Block { first: n() }, 70_002),
            (Item { at: n() }, 70_002),
            (List { first: n() }, 70_002),
            (ListItem { next: n() }, 70_002),
            (FunctionImpl { body: n() }, 70_002),
            (StartPrivateZone { end: n() }, 70_002),
            (EndPrivateZone { start: n() }, 70_002),
            (EndlessPrivateZone, 0),
        ];
        let names = names_in_the_text();
        assert_eq!(names.len(), 64);
        assert_eq!(samples.len(), 64);
        for (place, (node, load)) in samples.into_iter().enumerate() {
            let debug = format!("{node:?}");
            let name = debug.split(|c: char| !c.is_ascii_alphanumeric()).next().unwrap();
            assert_eq!(name, names[place]);
            assert_eq!(kind_and_load(node), (place as u8, load), "{name}");
        }
        assert_eq!(kind_and_load(StructuralType { size_in_bytes_if_word: None }), (7, 0));
        // As with the real enumset, a node is four bytes.
        assert_eq!(std::mem::size_of::<ParseNode>(), 4);
    }
}
