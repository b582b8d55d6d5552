//! Parts by name, walks and drawings.

use std::fs;
use std::path::Path;

use penne_parser::{
    BaseToken, BinaryOp, DeclarationFlag, DeclarationFlags, NodeId, Nodes, NodesRef, ParseNode,
    TokenId, Tokens, UnaryOp, ValueTypeKeyword, parse_constant_declaration, parse_expression,
    parse_type, parse_word_declaration,
};

/// A row of these kinds; each value type is `i32`.
fn tokens(kinds: &[BaseToken]) -> Tokens {
    let kinds = kinds.iter();
    kinds.map(|&kind| (kind, ValueTypeKeyword::Int32)).collect()
}

fn expression(kinds: &[BaseToken]) -> (Nodes, NodeId) {
    let mut nodes = Nodes::with_slots(100);
    let parsed = parse_expression(tokens(kinds).row(), TokenId(0), &mut nodes);
    (nodes, parsed.expect("an expression").root)
}

/// The tokens of literals.
fn literals(nodes: NodesRef<'_>, found: impl Iterator<Item = NodeId>) -> Vec<u32> {
    let token = |node| match nodes.get(node) {
        Some(ParseNode::UntypedIntegerLiteral { literal }) => literal.0,
        other => panic!("{other:?}"),
    };
    found.map(token).collect()
}

use BaseToken::*;

#[test]
fn operands_and_operators() {
    // 1 - 2 * 3
    let (nodes, root) = expression(&[NakedDecimal, Minus, NakedDecimal, Times, NakedDecimal]);
    let nodes = nodes.view();
    assert_eq!(nodes.operator(root), Some(BinaryOp::Subtract));
    let operands: Vec<_> = nodes.operands(root).collect();
    assert_eq!(literals(nodes, operands[..1].iter().copied()), [0]);
    assert_eq!(nodes.operator(operands[1]), Some(BinaryOp::Multiply));
    assert_eq!(literals(nodes, nodes.operands(operands[1])), [2, 4]);
    // cast !(1) as i32
    let kinds = [
        Cast,
        Exclamation,
        ParenLeft,
        NakedDecimal,
        ParenRight,
        As,
        BaseToken::ValueTypeKeyword,
    ];
    let (nodes, root) = expression(&kinds);
    let nodes = nodes.view();
    let inner = |node| nodes.operands(node).next().expect("an operand");
    assert!(matches!(nodes.get(root), Some(ParseNode::TypeCast { .. })));
    let i32_type = Some(ParseNode::SimpleValueType(ValueTypeKeyword::Int32));
    assert_eq!(
        nodes.value_type(root).and_then(|node| nodes.get(node)),
        i32_type
    );
    assert!(matches!(
        nodes.get(inner(root)),
        Some(ParseNode::BitCast { .. })
    ));
    let unary = inner(inner(root));
    assert_eq!(nodes.prefix(unary), Some(UnaryOp::BitwiseComplement));
    assert_eq!(nodes.operator(unary), None);
    assert_eq!(literals(nodes, nodes.operands(inner(unary))), [3]);
}

#[test]
fn names_and_items() {
    // f(1, 2)
    let (nodes, call) = expression(&[
        Identifier,
        ParenLeft,
        NakedDecimal,
        Comma,
        NakedDecimal,
        ParenRight,
    ]);
    let nodes = nodes.view();
    assert_eq!(nodes.name(call), Some(TokenId(0)));
    assert_eq!(literals(nodes, nodes.items(call)), [2, 4]);
    assert_eq!(nodes.members(call).count(), 0);
    // S { a: 1, b }
    let kinds = [
        Identifier,
        BraceLeft,
        Identifier,
        Colon,
        NakedDecimal,
        Comma,
        Identifier,
        BraceRight,
    ];
    let (nodes, structural) = expression(&kinds);
    let nodes = nodes.view();
    assert_eq!(nodes.name(structural), Some(TokenId(0)));
    let fields: Vec<_> = nodes.items(structural).collect();
    assert_eq!(nodes.name(fields[0]), Some(TokenId(2)));
    assert_eq!(literals(nodes, nodes.value(fields[0]).into_iter()), [4]);
    let shorthand = nodes.value(fields[1]).expect("a value");
    assert_eq!(
        (nodes.name(fields[1]), nodes.name(shorthand)),
        (Some(TokenId(6)), Some(TokenId(6)))
    );
    // &a.b[1]
    let (nodes, deref) = expression(&[
        Ampersand,
        Identifier,
        Dot,
        Identifier,
        BracketLeft,
        NakedDecimal,
        BracketRight,
    ]);
    let nodes = nodes.view();
    assert_eq!(nodes.name(deref), Some(TokenId(1)));
    let steps: Vec<_> = nodes.items(deref).collect();
    assert_eq!(nodes.name(steps[0]), Some(TokenId(3)));
    assert_eq!(literals(nodes, nodes.operands(steps[1])), [5]);
}

#[test]
fn declarations() {
    let (at, flags) = (TokenId(0), DeclarationFlag::Public.into());
    let mut nodes = Nodes::with_slots(30);
    // c: &i32 = 1;
    let kinds = [
        Identifier,
        Colon,
        Ampersand,
        BaseToken::ValueTypeKeyword,
        Assignment,
        NakedDecimal,
        Semicolon,
    ];
    let row = tokens(&kinds);
    let constant = parse_constant_declaration(row.row(), at, &mut nodes, at, flags);
    let constant = constant.expect("a constant").root;
    let view = nodes.view();
    assert_eq!(
        (view.name(constant), view.flags(constant)),
        (Some(at), Some(flags))
    );
    assert_eq!(literals(view, view.value(constant).into_iter()), [5]);
    let composite = view.value_type(constant).expect("a type");
    let pointer = view.value_type(composite).expect("an inner type");
    assert_eq!(view.get(pointer), Some(ParseNode::PointerVT {}));
    assert_eq!(
        (view.word_size(constant), view.members(constant).count()),
        (None, 0)
    );
    nodes.clear();
    // W { m: i32, n: i32, }
    let member = [Identifier, Colon, BaseToken::ValueTypeKeyword, Comma];
    let row = tokens(
        &[
            &[Identifier, BraceLeft][..],
            &member,
            &member,
            &[BraceRight],
        ]
        .concat(),
    );
    let word = parse_word_declaration(row.row(), at, &mut nodes, at, flags, Word64);
    let word = word.expect("a word").root;
    let view = nodes.view();
    assert_eq!(view.word_size(word), Some(8));
    let names = view.members(word).map(|member| view.name(member));
    assert!(names.eq([Some(TokenId(2)), Some(TokenId(6))]));
    assert!(
        view.members(word)
            .all(|member| view.value_type(member).is_some())
    );
}

#[test]
fn what_a_node_does_not_have() {
    let mut nodes = Nodes::with_slots(5);
    parse_type(
        tokens(&[BaseToken::ValueTypeKeyword]).row(),
        TokenId(0),
        &mut nodes,
    )
    .expect("a type");
    let nodes = nodes.view();
    for node in [NodeId(0), NodeId(1), NodeId(u32::MAX)] {
        assert_eq!((nodes.name(node), nodes.flags(node)), (None, None));
        assert_eq!((nodes.value(node), nodes.value_type(node)), (None, None));
        assert_eq!((nodes.operator(node), nodes.prefix(node)), (None, None));
        assert_eq!(nodes.operands(node).count() + nodes.items(node).count(), 0);
    }
}

#[test]
fn a_walk_ends_in_any_columns() {
    // Items that link to themselves and to each other, a link to no node, and a part before all nodes.
    let nodes = NodesRef::new(&[57, 57, 57, 57], &[0, 2, 1, 99]);
    for root in 0..5 {
        assert!(nodes.walk(NodeId(root)).count() <= 4);
        assert!(nodes.draw(NodeId(root)).to_string().lines().count() <= 4);
    }
    let nodes = NodesRef::new(&[18, 200], &[0, 7]);
    assert_eq!(nodes.draw(NodeId(0)).to_string(), "0 Parenthesized");
    assert_eq!(nodes.draw(NodeId(1)).to_string(), "1 no node");
    assert!(
        nodes
            .iter()
            .map(|(_, node)| node.is_some())
            .eq([true, false])
    );
}

/// The drawings of tools/tree, the text of tokens left out.
#[test]
fn drawings() {
    let path = Path::new(env!("CARGO_MANIFEST_DIR")).with_file_name("tools/tests/drawings.txt");
    let text = fs::read_to_string(path).expect("the drawings");
    let mut drawn = 0;
    for block in text.split("== ").skip(1) {
        let (output, drawing) = block.split_once("--\n").expect("a drawing");
        let mut lines = output.lines().skip(1);
        let Some(reply) = lines.next().and_then(|line| line.strip_prefix("ok ")) else {
            continue;
        };
        let numbers = |line: &str| {
            line.split(' ')
                .map(|n| n.parse().unwrap())
                .collect::<Vec<u32>>()
        };
        let columns: Vec<_> = lines.map(numbers).collect();
        let kinds: Vec<_> = columns.iter().map(|node| node[1] as u8).collect();
        let loads: Vec<_> = columns.iter().map(|node| node[2]).collect();
        let nodes = NodesRef::new(&kinds, &loads);
        let root = NodeId(numbers(reply)[0]);
        let without_text = |line: &str| line.split(" `").next().unwrap().to_string();
        let expected: Vec<_> = drawing
            .lines()
            .skip(1)
            .filter(|line| !line.is_empty() && !line.starts_with("Token"))
            .map(without_text)
            .collect();
        assert_eq!(nodes.draw(root).to_string(), expected.join("\n"));
        assert_eq!(nodes.walk(root).count(), nodes.len());
        drawn += 1;
    }
    assert!(drawn > 15);
}

#[test]
fn flags_in_words() {
    assert_eq!(DeclarationFlags::EMPTY.to_string(), "no flag");
    let both = DeclarationFlag::Public | DeclarationFlag::External;
    assert_eq!(both.to_string(), "Public External");
}
