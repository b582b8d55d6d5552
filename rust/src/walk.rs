//! A walk through a tree, and its drawing.

use alloc::vec;
use alloc::vec::Vec;
use core::fmt;
use core::iter::FusedIterator;

use crate::{NodeId, NodesRef};

impl<'a> NodesRef<'a> {
    /// The nodes of a tree: the root, then below it each part with its own tree, in turn. Each comes with how
    /// far it is below the root.
    ///
    /// ```
    /// use penne_parser::BaseToken::{NakedDecimal, Plus};
    /// use penne_parser::{parse_expression, NodeId, Nodes, TokenId, Tokens};
    ///
    /// let tokens: Tokens = [NakedDecimal, Plus, NakedDecimal].into_iter().collect();
    /// let mut nodes = Nodes::with_slots(10);
    /// let parsed = parse_expression(tokens.row(), TokenId(0), &mut nodes)?;
    /// let walk: Vec<_> = nodes.view().walk(parsed.root).map(|(depth, NodeId(node))| (depth, node)).collect();
    /// assert_eq!(walk, [(0, 4), (1, 3), (1, 2), (2, 0), (1, 1)]);
    /// # Ok::<(), penne_parser::Refusal>(())
    /// ```
    pub fn walk(&self, root: NodeId) -> Walk<'a> {
        let root = Waiting {
            node: root,
            depth: 0,
            is_last: true,
        };
        Walk {
            nodes: *self,
            waiting: vec![root],
            left: self.len(),
        }
    }

    /// A drawing of a tree, a line a node, as `tools/tree` draws it.
    ///
    /// ```
    /// use penne_parser::BaseToken::{NakedDecimal, Plus};
    /// use penne_parser::{parse_expression, Nodes, TokenId, Tokens};
    ///
    /// let tokens: Tokens = [NakedDecimal, Plus, NakedDecimal].into_iter().collect();
    /// let mut nodes = Nodes::with_slots(10);
    /// let parsed = parse_expression(tokens.row(), TokenId(0), &mut nodes)?;
    /// let drawing = "\
    /// 4 Binary token 1
    /// ├─ 3 BinaryOp Add
    /// ├─ 2 Item node 0
    /// │  └─ 0 UntypedIntegerLiteral token 0
    /// └─ 1 UntypedIntegerLiteral token 2";
    /// assert_eq!(nodes.view().draw(parsed.root).to_string(), drawing);
    /// # Ok::<(), penne_parser::Refusal>(())
    /// ```
    pub fn draw(&self, root: NodeId) -> Drawing<'a> {
        Drawing { nodes: *self, root }
    }
}

#[derive(Clone, Copy, Debug)]
struct Waiting {
    node: NodeId,
    depth: usize,
    /// Whether it is the last part of the node above it.
    is_last: bool,
}

/// The nodes of a tree: see [`NodesRef::walk`].
#[derive(Clone, Debug)]
pub struct Walk<'a> {
    nodes: NodesRef<'a>,
    waiting: Vec<Waiting>,
    /// A tree has no more nodes than there are; in columns that no parse wrote the walk ends there.
    left: usize,
}

impl Walk<'_> {
    fn step(&mut self) -> Option<Waiting> {
        let found = self.waiting.pop()?;
        if self.left == 0 || usize::from(found.node) >= self.nodes.len() {
            self.waiting.clear();
            return None;
        }
        self.left -= 1;
        let from = self.waiting.len();
        self.waiting
            .extend(self.nodes.parts(found.node).map(|node| Waiting {
                node,
                depth: found.depth + 1,
                is_last: false,
            }));
        if let Some(last) = self.waiting[from..].last_mut() {
            last.is_last = true;
        }
        self.waiting[from..].reverse();
        Some(found)
    }
}

impl Iterator for Walk<'_> {
    type Item = (usize, NodeId);

    fn next(&mut self) -> Option<(usize, NodeId)> {
        self.step().map(|found| (found.depth, found.node))
    }
}

impl FusedIterator for Walk<'_> {}

/// A drawing of a tree: see [`NodesRef::draw`].
#[derive(Clone, Copy, Debug)]
pub struct Drawing<'a> {
    nodes: NodesRef<'a>,
    root: NodeId,
}

impl fmt::Display for Drawing<'_> {
    fn fmt(&self, f: &mut fmt::Formatter<'_>) -> fmt::Result {
        // Of each node above, the root left out, whether it is the last part.
        let mut lasts = Vec::new();
        let mut walk = self.nodes.walk(self.root);
        while let Some(found) = walk.step() {
            if found.depth > 0 {
                lasts.truncate(found.depth - 1);
                f.write_str("\n")?;
                for &is_last in &lasts {
                    f.write_str(if is_last { "   " } else { "│  " })?;
                }
                f.write_str(if found.is_last { "└─ " } else { "├─ " })?;
                lasts.push(found.is_last);
            }
            write!(f, "{} ", found.node.0)?;
            match self.nodes.get(found.node) {
                Some(node) => write!(f, "{node}")?,
                None => f.write_str("no node")?,
            }
        }
        Ok(())
    }
}
