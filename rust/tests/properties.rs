//! What document 01 says of every input and of every accepted parse, on random ones.

mod common;

use common::{Random, Writer, random, write_row};
use oracle::Entry;
use penne_parser::{
    BaseToken, DeclarationFlags, NodeId, Nodes, ParseNode, Parsed, Refusal, RefusalNumber, Row,
    Slots, TokenId, parse_constant_declaration, parse_expression, parse_struct_declaration,
    parse_type, parse_word_declaration,
};

/// Asks an entry. A declaration begins at the cursor.
fn ask<'n>(
    entry: Entry,
    row: Row<'_>,
    cursor: TokenId,
    nodes: impl Into<Slots<'n>>,
) -> Result<Parsed, Refusal> {
    let flags = DeclarationFlags::EMPTY;
    match entry {
        Entry::Expression => parse_expression(row, cursor, nodes),
        Entry::Type => parse_type(row, cursor, nodes),
        Entry::Constant => parse_constant_declaration(row, cursor, nodes, cursor, flags),
        Entry::Struct => parse_struct_declaration(row, cursor, nodes, cursor, flags),
        Entry::Word => parse_word_declaration(row, cursor, nodes, cursor, flags, BaseToken::Word64),
    }
}

/// An input of any sort, and the slots after the entry was asked.
struct Input {
    kinds: Vec<u8>,
    value_types: Vec<u8>,
    cursor: u32,
    node_kinds: Vec<u8>,
    node_loads: Vec<u32>,
    base: u32,
}

/// What stands in the slots before an entry is asked. It is no kind of a node.
const UNTOUCHED: (u8, u32) = (99, 99);

impl Input {
    fn random(random: &mut Random) -> Input {
        let size = random.below(8);
        let mut kinds = bytes(random, size, 61);
        if !random.once_in(8) {
            kinds.push(0);
        }
        let longer = usize::from(random.once_in(20));
        let value_types = bytes(random, kinds.len() + longer, 14);
        let farthest = if random.once_in(9) { 1 << 31 } else { size + 1 };
        let slots = random.below(30);
        let more = usize::from(random.once_in(20));
        let highest = if random.once_in(9) { 40 } else { slots };
        Input {
            kinds,
            value_types,
            cursor: random.below(farthest + 1) as u32,
            node_kinds: vec![UNTOUCHED.0; slots + more],
            node_loads: vec![UNTOUCHED.1; slots],
            base: random.below(highest + 1) as u32,
        }
    }

    /// Asks an entry, and gives its reply with the count that it has set.
    fn ask(&mut self, entry: Entry) -> (Result<Parsed, Refusal>, u32) {
        let mut count = self.base;
        let slots = Slots {
            kinds: &mut self.node_kinds,
            loads: &mut self.node_loads,
            count: &mut count,
        };
        let row = Row::new(&self.kinds, &self.value_types);
        (ask(entry, row, TokenId(self.cursor), slots), count)
    }

    /// The number and start of the refusal that document 01 gives before parsing, if any.
    fn refused_at_once(&self) -> Option<(u8, usize)> {
        let (kinds, types) = (&self.kinds, &self.value_types);
        let mut tokens = kinds.iter().zip(types);
        if kinds.len() != types.len() || kinds.is_empty() {
            Some((1, 0))
        } else if let Some(place) = tokens.position(|(&kind, &type_)| kind > 61 || type_ > 14) {
            Some((2, place))
        } else if kinds.last() != Some(&0) {
            Some((3, kinds.len() - 1))
        } else if self.cursor as usize >= kinds.len() {
            Some((30, 0))
        } else if self.node_kinds.len() != self.node_loads.len() {
            Some((31, 0))
        } else if self.base as usize > self.node_kinds.len() {
            Some((32, 0))
        } else {
            None
        }
    }

    /// Whether the slots from the given count up to this one were written, and no others.
    fn written_up_to(&self, count: u32) -> bool {
        let appended = self.base as usize..count as usize;
        let slots = self.node_kinds.iter().zip(&self.node_loads).enumerate();
        let mut right = slots.map(|(place, (&kind, &load))| {
            appended.contains(&place) != ((kind, load) == UNTOUCHED)
        });
        right.all(|right| right)
    }
}

/// So many bytes, most of them at most so large.
fn bytes(random: &mut Random, size: usize, most: usize) -> Vec<u8> {
    let mut byte = || {
        let limit = if random.once_in(60) { 256 } else { most + 1 };
        random.below(limit) as u8
    };
    (0..size).map(|_| byte()).collect()
}

#[test]
fn any_input_gets_a_reply() {
    let random = &mut random(4);
    let mut at_once = 0;
    for case in 0..100_000 {
        let mut input = Input::random(random);
        let (reply, count) = input.ask(Entry::ALL[case % 5]);
        let replied = reply.map_or_else(|refusal| refusal.count, |parsed| parsed.count);
        assert_eq!(count, replied);
        assert!(input.written_up_to(count));
        if let Some((number, start)) = input.refused_at_once() {
            at_once += 1;
            let start = TokenId(start as u32);
            let refusal = Refusal {
                number: RefusalNumber::from_repr(number).expect("a number"),
                start,
                end: start,
                cursor: TokenId(input.cursor),
                count: input.base,
            };
            assert_eq!(reply, Err(refusal));
        }
    }
    assert!((10_000..90_000).contains(&at_once), "{at_once}");
}

/// The numbers of the nodes that are met on the way from the root, each as often as it is met.
fn met(nodes: &Nodes, root: NodeId) -> Vec<u32> {
    let (mut met, mut waiting) = (Vec::new(), vec![root]);
    while let Some(node) = waiting.pop() {
        assert!(nodes.get(node).is_some() && met.len() <= nodes.len());
        met.push(node.0);
        waiting.extend(nodes.parts(node));
    }
    met.sort();
    met
}

#[test]
fn accepted_nodes_are_a_tree() {
    let mut writer = Writer::new(random(5));
    let nodes = &mut Nodes::new();
    let mut accepted = [0; 5];
    for case in 0..50_000 {
        let entry = Entry::ALL[case % 5];
        write_row(&mut writer, entry);
        writer.kinds.push(0);
        let types = vec![4; writer.kinds.len()];
        let row = Row::new(&writer.kinds, &types);
        nodes.truncate(case as u32 % 7);
        let base = nodes.len() as u32;
        nodes.reserve_for(row);
        if let Ok(parsed) = ask(entry, row, TokenId(0), &mut *nodes) {
            accepted[entry as usize] += 1;
            let appended: Vec<u32> = (base..parsed.count).collect();
            assert_eq!(met(nodes, parsed.root), appended);
            assert!(items_agree(nodes, base));
        }
    }
    assert!(accepted.iter().all(|&times| times > 1_000), "{accepted:?}");
}

/// Whether each array among the nodes has as many items as it says.
fn items_agree(nodes: &Nodes, base: u32) -> bool {
    let view = nodes.view();
    (base..nodes.len() as u32).all(|place| match nodes.get(NodeId(place)) {
        Some(ParseNode::ArrayLiteral { num_elements }) => {
            let list = nodes.parts(NodeId(place)).next().expect("a list");
            view.items(list).count() == num_elements as usize
        }
        _ => true,
    })
}
