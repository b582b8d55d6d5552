//! A buffer of nodes that owns its slots.

use alloc::vec::Vec;

use crate::{MAX_SLOTS, NODES_A_TOKEN, NodeId, NodesRef, ParseNode, Parts, Row, Slots};

impl<'a> From<&'a mut Nodes> for Slots<'a> {
    fn from(nodes: &'a mut Nodes) -> Slots<'a> {
        Slots {
            kinds: &mut nodes.kinds,
            loads: &mut nodes.loads,
            count: &mut nodes.count,
        }
    }
}

/// A buffer of nodes, to which one parse after another may append.
///
/// An entry never makes it larger. If the slots are used up the entry refuses with
/// [`NoSlot`](crate::RefusalNumber::NoSlot); [`reserve_for`](Nodes::reserve_for) before it gives
/// enough for any row that fits. Nodes that a refused parse has left can be taken away by
/// [`truncate`](Nodes::truncate).
///
/// ```
/// use penne_parser::BaseToken::{NakedDecimal, Plus};
/// use penne_parser::{parse_expression, Nodes, TokenId, Tokens};
///
/// let tokens: Tokens = [NakedDecimal, Plus, NakedDecimal].into_iter().collect();
/// let mut nodes = Nodes::new();
/// for _ in 0..3 {
///     nodes.clear();
///     nodes.reserve_for(tokens.row());
///     parse_expression(tokens.row(), TokenId(0), &mut nodes)?;
///     assert_eq!(nodes.len(), 5);
/// }
/// # Ok::<(), penne_parser::Refusal>(())
/// ```
#[derive(Clone, Debug, Default)]
pub struct Nodes {
    // Both are as long as there are slots.
    kinds: Vec<u8>,
    loads: Vec<u32>,
    count: u32,
}

impl Nodes {
    /// A buffer without slots.
    pub fn new() -> Nodes {
        Nodes::default()
    }

    /// A buffer with so many slots, or with [`MAX_SLOTS`] if that is less.
    pub fn with_slots(slots: usize) -> Nodes {
        let mut nodes = Nodes::new();
        nodes.reserve(slots);
        nodes
    }

    /// Sees that so many more nodes can be appended, or as many as [`MAX_SLOTS`] leaves.
    pub fn reserve(&mut self, more: usize) {
        let slots = self.len().saturating_add(more).min(MAX_SLOTS);
        if slots > self.slots() {
            self.kinds.resize(slots, 0);
            self.loads.resize(slots, 0);
        }
    }

    /// Sees that the nodes of any parse of this row can be appended: five a token, or as many as
    /// [`MAX_SLOTS`] leaves.
    pub fn reserve_for(&mut self, row: Row<'_>) {
        self.reserve(row.len().saturating_mul(NODES_A_TOKEN));
    }

    /// How many slots there are, with nodes or without.
    pub fn slots(&self) -> usize {
        self.kinds.len()
    }

    /// How many nodes there are.
    pub fn len(&self) -> usize {
        self.count as usize
    }

    /// Whether there is no node.
    pub fn is_empty(&self) -> bool {
        self.count == 0
    }

    /// Takes all nodes away, and keeps the slots.
    pub fn clear(&mut self) {
        self.truncate(0);
    }

    /// Takes the nodes from this number on away, and keeps the slots.
    pub fn truncate(&mut self, count: u32) {
        self.count = self.count.min(count);
    }

    /// The nodes, for reading.
    pub fn view(&self) -> NodesRef<'_> {
        NodesRef::new(&self.kinds[..self.len()], &self.loads[..self.len()])
    }

    /// A node. See [`NodesRef::get`].
    pub fn get(&self, node: NodeId) -> Option<ParseNode> {
        self.view().get(node)
    }

    /// The parts of a node. See [`NodesRef::parts`].
    pub fn parts(&self, node: NodeId) -> Parts {
        self.view().parts(node)
    }
}
