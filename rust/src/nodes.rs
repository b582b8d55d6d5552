//! Nodes: the slots that an entry fills, and reading. The buffer that owns slots is in buffer.rs.

use core::iter::FusedIterator;

use crate::raw::{self, LINKED, MAX_PARTS};
use crate::{NodeId, ParseNode};

/// The most slots that the node columns may have.
pub const MAX_SLOTS: usize = 131_075;

/// Slots for nodes, lent to an entry: two columns, and how many nodes there are in them.
///
/// The entry appends nodes after those that are there, and sets the count. It changes no node below
/// the count that it was given, and no slot from the new count on. Columns of different lengths, of
/// more than [`MAX_SLOTS`] slots or with a count above their length are refused.
///
/// ```
/// use penne_parser::BaseToken::{EndOfSource, NakedDecimal, Plus};
/// use penne_parser::{parse_expression, NodesRef, ParseNode, Row, Slots, TokenId};
///
/// // 1 + 2, with row and slots on the stack.
/// let tokens = [NakedDecimal, Plus, NakedDecimal, EndOfSource].map(|kind| kind as u8);
/// let row = Row::new(&tokens, &[0; 4]);
/// let (mut kinds, mut loads, mut count) = ([0; 8], [0; 8], 0);
/// let slots = Slots { kinds: &mut kinds, loads: &mut loads, count: &mut count };
/// let parsed = parse_expression(row, TokenId(0), slots)?;
/// let nodes = NodesRef::new(&kinds[..count as usize], &loads);
/// assert_eq!(nodes.len(), 5);
/// assert_eq!(nodes.get(parsed.root), Some(ParseNode::Binary { token: TokenId(1) }));
/// # Ok::<(), penne_parser::Refusal>(())
/// ```
#[derive(Debug)]
pub struct Slots<'a> {
    /// The kinds of the nodes.
    pub kinds: &'a mut [u8],
    /// The loads of the nodes.
    pub loads: &'a mut [u32],
    /// How many nodes there are.
    pub count: &'a mut u32,
}

/// Nodes that are lent for reading, from a [`Nodes`](crate::Nodes), from two columns, or from words.
///
/// ```
/// use penne_parser::BaseToken::{Minus, NakedDecimal, Plus};
/// use penne_parser::{
///     parse_expression, BinaryOp, NodeId, Nodes, NodesRef, ParseNode, TokenId, Tokens,
/// };
///
/// /// The value of a sum of digits, of which each token has one.
/// fn value(nodes: NodesRef, node: NodeId, digits: &[i64]) -> Option<i64> {
///     match nodes.get(node)? {
///         ParseNode::UntypedIntegerLiteral { literal } => {
///             digits.get(usize::from(literal)).copied()
///         }
///         ParseNode::Binary { .. } => {
///             let mut operands = nodes.operands(node).map(|operand| value(nodes, operand, digits));
///             let (left, right) = (operands.next()??, operands.next()??);
///             match nodes.operator(node)? {
///                 BinaryOp::Add => Some(left + right),
///                 BinaryOp::Subtract => Some(left - right),
///                 _ => None,
///             }
///         }
///         _ => None,
///     }
/// }
///
/// // 7 + 5 - 2
/// let tokens = [NakedDecimal, Plus, NakedDecimal, Minus, NakedDecimal];
/// let tokens: Tokens = tokens.into_iter().collect();
/// let mut nodes = Nodes::with_slots(20);
/// let parsed = parse_expression(tokens.row(), TokenId(0), &mut nodes)?;
/// assert_eq!(value(nodes.view(), parsed.root, &[7, 0, 5, 0, 2]), Some(10));
/// # Ok::<(), penne_parser::Refusal>(())
/// ```
#[derive(Clone, Copy, Debug)]
pub struct NodesRef<'a> {
    store: Store<'a>,
}

/// Where nodes are kept.
#[derive(Clone, Copy, Debug)]
enum Store<'a> {
    /// In two columns, as long as each other.
    Columns { kinds: &'a [u8], loads: &'a [u32] },
    /// In words, each with the kind in its low 8 bits and the load above.
    Words(&'a [u32]),
}

impl<'a> NodesRef<'a> {
    /// The nodes in these columns. If one is longer, the rest of it is left out.
    pub fn new(kinds: &'a [u8], loads: &'a [u32]) -> NodesRef<'a> {
        let count = kinds.len().min(loads.len());
        let store = Store::Columns {
            kinds: &kinds[..count],
            loads: &loads[..count],
        };
        NodesRef { store }
    }

    /// The nodes in these words.
    pub fn of_words(words: &'a [u32]) -> NodesRef<'a> {
        NodesRef {
            store: Store::Words(words),
        }
    }

    /// The kind and the load of a node, as they are stored.
    pub fn kind_and_load(&self, node: NodeId) -> Option<(u8, u32)> {
        let place = usize::from(node);
        match self.store {
            Store::Columns { kinds, loads } => Some((*kinds.get(place)?, *loads.get(place)?)),
            Store::Words(words) => words.get(place).copied().map(unpack),
        }
    }

    /// How many nodes there are.
    pub fn len(&self) -> usize {
        match self.store {
            Store::Columns { kinds, .. } => kinds.len(),
            Store::Words(words) => words.len(),
        }
    }

    /// Whether there is no node.
    pub fn is_empty(&self) -> bool {
        self.len() == 0
    }

    /// The node with this number. None if there is none, or if its kind and load are not those of a
    /// node.
    pub fn get(&self, node: NodeId) -> Option<ParseNode> {
        let (kind, load) = self.kind_and_load(node)?;
        ParseNode::from_columns(kind, load)
    }

    /// The parts of a node, in their order. A node that is not there has none.
    ///
    /// From the root of an accepted parse each of its nodes is reached by exactly one way of steps
    /// to parts. In other columns a part may have a number that no node has.
    pub fn parts(&self, node: NodeId) -> Parts {
        let Some((kind, load)) = self.kind_and_load(node) else {
            return Parts::default();
        };
        // In columns that no parse wrote a part could lie before the first node: there the parts
        // end.
        let there = |code| code == LINKED || code > 0 && u32::from(code) <= node.0;
        let mut parts = 0;
        while parts < MAX_PARTS && there(raw::part(kind, parts)) {
            parts += 1;
        }
        Parts {
            node,
            kind,
            load,
            next: 0,
            end: parts,
        }
    }

    /// All nodes with their numbers, in the order in which they were appended. A node is None if
    /// its kind and load are not those of a node.
    ///
    /// ```
    /// use penne_parser::BaseToken::{NakedDecimal, Plus};
    /// use penne_parser::{parse_expression, Nodes, ParseNode, TokenId, Tokens};
    ///
    /// let tokens: Tokens = [NakedDecimal, Plus, NakedDecimal].into_iter().collect();
    /// let mut nodes = Nodes::with_slots(10);
    /// parse_expression(tokens.row(), TokenId(0), &mut nodes)?;
    /// let is_literal = |node| matches!(node, Some(ParseNode::UntypedIntegerLiteral { .. }));
    /// assert_eq!(nodes.view().iter().filter(|&(_, node)| is_literal(node)).count(), 2);
    /// # Ok::<(), penne_parser::Refusal>(())
    /// ```
    pub fn iter(&self) -> impl Iterator<Item = (NodeId, Option<ParseNode>)> + use<'a> {
        let nodes = *self;
        (0..)
            .map(NodeId)
            .take(nodes.len())
            .map(move |node| (node, nodes.get(node)))
    }
}

/// The parts of a node: see [`NodesRef::parts`].
#[derive(Clone, Debug, Default)]
pub struct Parts {
    node: NodeId,
    kind: u8,
    load: u32,
    next: u8,
    end: u8,
}

impl Iterator for Parts {
    type Item = NodeId;

    fn next(&mut self) -> Option<NodeId> {
        if self.next == self.end {
            return None;
        }
        let code = raw::part(self.kind, self.next);
        self.next += 1;
        Some(match code {
            LINKED => NodeId(self.load),
            back => NodeId(self.node.0 - u32::from(back)),
        })
    }

    fn size_hint(&self) -> (usize, Option<usize>) {
        let left = usize::from(self.end - self.next);
        (left, Some(left))
    }
}

impl ExactSizeIterator for Parts {}

impl FusedIterator for Parts {}

/// Two views are equal if they have the same kinds and loads, however these are stored.
impl PartialEq for NodesRef<'_> {
    fn eq(&self, other: &NodesRef<'_>) -> bool {
        let same = |node| self.kind_and_load(node) == other.kind_and_load(node);
        self.len() == other.len() && (0..).take(self.len()).map(NodeId).all(same)
    }
}

impl Eq for NodesRef<'_> {}

/// The kind and the load that a word holds. Every word holds some.
pub fn unpack(word: u32) -> (u8, u32) {
    let [kind, ..] = word.to_le_bytes();
    (kind, word >> 8)
}
