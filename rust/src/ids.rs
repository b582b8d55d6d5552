//! Numbers of tokens and of nodes, which are never taken for each other.

/// A token's number: its place in the row.
#[derive(Clone, Copy, Debug, Default, PartialEq, Eq, PartialOrd, Ord, Hash)]
pub struct TokenId(pub u32);

/// A node's number: its place in the node columns.
#[derive(Clone, Copy, Debug, Default, PartialEq, Eq, PartialOrd, Ord, Hash)]
pub struct NodeId(pub u32);

impl From<TokenId> for usize {
    fn from(id: TokenId) -> usize {
        id.0 as usize
    }
}

impl From<NodeId> for usize {
    fn from(id: NodeId) -> usize {
        id.0 as usize
    }
}
