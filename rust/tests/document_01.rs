//! The rows of document 01 with their replies.

use penne_parser::{
    BaseToken, DeclarationFlag, DeclarationFlags, NodeId, Nodes, ParseNode, Parsed, Refusal,
    RefusalNumber, Row, Slots, TokenId, parse_constant_declaration, parse_expression,
    parse_struct_declaration, parse_type, parse_word_declaration,
};

const START: TokenId = TokenId(0);

const NO_FLAGS: DeclarationFlags = DeclarationFlags::EMPTY;

/// A row of these kinds with EndOfSource after them. All value types are i32.
struct Kinds(Vec<u8>, Vec<u8>);

impl Kinds {
    fn of(parts: &[&[u8]]) -> Kinds {
        let kinds = [&parts.concat()[..], &[0]].concat();
        let value_types = vec![4; kinds.len()];
        Kinds(kinds, value_types)
    }

    fn row(&self) -> Row<'_> {
        Row::new(&self.0, &self.1)
    }
}

fn accepted(root: u32, cursor: u32, count: u32) -> Result<Parsed, Refusal> {
    Ok(Parsed {
        root: NodeId(root),
        cursor: TokenId(cursor),
        count,
    })
}

fn refused(number: u8, start: u32, end: u32, cursor: u32, count: u32) -> Result<Parsed, Refusal> {
    Err(Refusal {
        number: RefusalNumber::from_repr(number).unwrap(),
        start: TokenId(start),
        end: TokenId(end),
        cursor: TokenId(cursor),
        count,
    })
}

fn expression(parts: &[&[u8]]) -> Result<Parsed, Refusal> {
    parse_expression(Kinds::of(parts).row(), START, &mut Nodes::with_slots(2000))
}

#[test]
fn expressions() {
    assert_eq!(expression(&[&[55, 14, 55]]), accepted(4, 3, 5));
    assert_eq!(expression(&[&[53, 10, 53, 9, 53]]), accepted(12, 3, 13));
    assert_eq!(expression(&[&[53, 1, 2]]), accepted(3, 3, 4));
    assert_eq!(expression(&[&[5, 55, 22, 6]]), accepted(4, 4, 5));
    assert_eq!(expression(&[&[60, 60]]), accepted(1, 2, 2));
    assert_eq!(expression(&[&[1, 55]]), refused(15, 2, 2, 3, 1));
}

#[test]
fn types() {
    let pointer = Kinds::of(&[&[10, 52]]);
    let mut nodes = Nodes::with_slots(9);
    assert_eq!(
        parse_type(pointer.row(), START, &mut nodes),
        accepted(3, 2, 4)
    );
    nodes.clear();
    let simple = Kinds::of(&[&[52]]);
    assert_eq!(
        parse_type(simple.row(), START, &mut nodes),
        accepted(0, 1, 1)
    );
}

#[test]
fn limits() {
    let steps = |n| expression(&[&[53], &[21, 53].repeat(n)]);
    assert_eq!(steps(127), refused(24, 1, 255, 255, 127 * 2));
    assert!(steps(126).is_ok());
    let ampersands = |n| expression(&[&[10].repeat(n), &[53]]);
    assert_eq!(ampersands(128), refused(24, 0, 128, 128, 0));
    assert!(ampersands(127).is_ok());
    let between_pipes = |n| expression(&[&[9], &[10].repeat(n), &[53, 9]]);
    assert_eq!(between_pipes(127), refused(24, 1, 128, 128, 0));
    assert!(between_pipes(126).is_ok());
    let nested = |n| expression(&[&[1].repeat(n), &[55], &[2].repeat(n)]);
    assert!(nested(39).is_ok());
    assert_eq!(nested(40), refused(34, 40, 40, 40, 0));
}

#[test]
fn input_that_is_refused() {
    let nodes = &mut Nodes::with_slots(10);
    let mut ask = |kinds: &[u8], types: &[u8], cursor| {
        parse_expression(Row::new(kinds, types), TokenId(cursor), &mut *nodes)
    };
    assert_eq!(ask(&[], &[], 0), refused(1, 0, 0, 0, 0));
    assert_eq!(ask(&[55, 0], &[0], 7), refused(1, 0, 0, 7, 0));
    assert_eq!(ask(&[0; 65_536], &[0; 65_536], 0), refused(1, 0, 0, 0, 0));
    assert_eq!(ask(&[55, 62, 0], &[0; 3], 0), refused(2, 1, 1, 0, 0));
    assert_eq!(ask(&[55, 0], &[15, 0], 0), refused(2, 0, 0, 0, 0));
    assert_eq!(ask(&[55, 55], &[0; 2], 0), refused(3, 1, 1, 0, 0));
    assert_eq!(ask(&[55, 0], &[0; 2], 2), refused(30, 0, 0, 2, 0));
}

#[test]
fn slots_that_are_refused() {
    let row = Kinds::of(&[&[55, 14, 55]]);
    let ask = |kinds: usize, loads: usize, mut count: u32| {
        let (mut kinds, mut loads) = (vec![7; kinds], vec![7; loads]);
        let slots = Slots {
            kinds: &mut kinds,
            loads: &mut loads,
            count: &mut count,
        };
        parse_expression(row.row(), START, slots)
    };
    assert_eq!(ask(4, 4, 0), refused(33, 3, 3, 3, 4));
    assert_eq!(ask(5, 5, 0), accepted(4, 3, 5));
    assert_eq!(ask(0, 0, 0), refused(33, 1, 1, 1, 0));
    assert_eq!(ask(5, 6, 0), refused(31, 0, 0, 0, 0));
    assert_eq!(ask(131_076, 131_076, 0), refused(31, 0, 0, 0, 0));
    assert_eq!(
        ask(131_075, 131_075, 131_070),
        accepted(131_074, 3, 131_075)
    );
    assert_eq!(ask(5, 5, 6), refused(32, 0, 0, 0, 6));
}

#[test]
fn declarations() {
    let nodes = &mut Nodes::with_slots(20);
    let opaque = Kinds::of(&[&[46, 53, 20]]);
    let reply = parse_struct_declaration(opaque.row(), TokenId(1), &mut *nodes, START, NO_FLAGS);
    assert_eq!(reply, accepted(5, 3, 6));
    let flags = DeclarationFlag::OpaqueStruct.into();
    let node = nodes.get(NodeId(4));
    assert_eq!(node, Some(ParseNode::DeclarationFlags(flags)));

    nodes.clear();
    let no_comma = Kinds::of(&[&[53, 3, 53, 19, 53, 4]]);
    let reply = parse_struct_declaration(no_comma.row(), START, &mut *nodes, START, NO_FLAGS);
    assert_eq!(reply, accepted(8, 6, 9));

    nodes.clear();
    let semicolon = Kinds::of(&[&[53, 3, 53, 19, 53, 20, 4]]);
    let reply = parse_struct_declaration(semicolon.row(), START, &mut *nodes, START, NO_FLAGS);
    assert_eq!(reply, refused(25, 5, 5, 6, 2));
    assert_eq!(nodes.len(), 2);
    nodes.truncate(0);

    let no_type = Kinds::of(&[&[53, 23, 55, 20]]);
    let reply = parse_constant_declaration(no_type.row(), START, &mut *nodes, START, NO_FLAGS);
    assert_eq!(reply, refused(22, 1, 1, 1, 0));
    let far = TokenId(5);
    let reply = parse_constant_declaration(no_type.row(), START, &mut *nodes, far, NO_FLAGS);
    assert_eq!(reply, refused(30, 0, 0, 0, 0));
}

#[test]
fn words() {
    let row = Kinds::of(&[&[53, 3, 4]]);
    for &token in BaseToken::ALL {
        let nodes = &mut Nodes::with_slots(9);
        let reply = parse_word_declaration(row.row(), START, &mut *nodes, START, NO_FLAGS, token);
        let size = match token as u8 {
            kind @ 47..=51 => 1 << (kind - 47),
            _ => {
                assert_eq!(reply, refused(36, 0, 0, 0, 0));
                continue;
            }
        };
        assert_eq!(reply, accepted(5, 3, 6));
        let structural_type = ParseNode::StructuralType {
            size_in_bytes_if_word: Some(size),
        };
        assert_eq!(nodes.get(NodeId(2)), Some(structural_type));
    }
}

#[test]
fn buffers_grow_when_asked() {
    let row = Kinds::of(&[&[53, 14, 53]]);
    let nodes = &mut Nodes::new();
    assert_eq!((nodes.slots(), nodes.is_empty()), (0, true));
    let reply = parse_expression(row.row(), START, &mut *nodes);
    assert_eq!(
        reply.map_err(|refusal| refusal.number),
        Err(RefusalNumber::NoSlot)
    );
    for round in 1..=3 {
        nodes.reserve_for(row.row());
        assert!(parse_expression(row.row(), START, &mut *nodes).is_ok());
        assert_eq!(nodes.len(), round * 13);
    }
    nodes.reserve(usize::MAX);
    assert_eq!(nodes.slots(), penne_parser::MAX_SLOTS);
    assert_eq!(Nodes::with_slots(usize::MAX).slots(), nodes.slots());
}
