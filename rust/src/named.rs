//! What a node is made of, by name.

use core::iter::FusedIterator;

use crate::{BinaryOp, DeclarationFlags, NodeId, NodesRef, ParseNode, TokenId, UnaryOp};

impl<'a> NodesRef<'a> {
    /// The token that names a node: of a declaration, a member, a field, a call, a reference, a
    /// struct or word in an expression, a type that is a name, a step to a member, or a name itself.
    pub fn name(&self, node: NodeId) -> Option<TokenId> {
        match self.get(node)? {
            ParseNode::Identifier { identifier }
            | ParseNode::IdentifierAndType { identifier }
            | ParseNode::IdentifierAndExpression { identifier }
            | ParseNode::UnresolvedStructOrWordVT { identifier } => Some(identifier),
            ParseNode::Structural {
                unresolved_struct_or_word,
            } => Some(unresolved_struct_or_word),
            ParseNode::DerefStepMember { field_identifier } => Some(field_identifier),
            ParseNode::ConstantDeclaration { .. }
            | ParseNode::StructureDeclaration { .. }
            | ParseNode::Deref { .. } => self.name(self.part(node, 1)?),
            ParseNode::FunctionCall { .. } => self.name(self.part(node, 0)?),
            _ => None,
        }
    }

    /// The flags of a declaration.
    pub fn flags(&self, node: NodeId) -> Option<DeclarationFlags> {
        match (self.get(node)?, self.get(self.part(node, 0)?)?) {
            (
                ParseNode::ConstantDeclaration { .. } | ParseNode::StructureDeclaration { .. },
                ParseNode::DeclarationFlags(flags),
            ) => Some(flags),
            _ => None,
        }
    }

    /// The size in bytes of a word that is declared; None for a struct, and for all else.
    pub fn word_size(&self, node: NodeId) -> Option<u8> {
        match (self.get(node)?, self.get(self.part(node, 2)?)?) {
            (
                ParseNode::StructureDeclaration { .. },
                ParseNode::StructuralType {
                    size_in_bytes_if_word,
                },
            ) => size_in_bytes_if_word,
            _ => None,
        }
    }

    /// The type of a constant, a member, a typed integer, `as` or a size, the inner type of a type of
    /// more than one token, and the type inside an array, slice, pointer or view type.
    pub fn value_type(&self, node: NodeId) -> Option<NodeId> {
        let part = match self.get(node)? {
            ParseNode::ConstantDeclaration { .. } => return self.linked(self.part(node, 2)?),
            ParseNode::IdentifierAndType { .. }
            | ParseNode::TypedIntegerLiteral { .. }
            | ParseNode::SizeOf {}
            | ParseNode::ArrayVT { .. }
            | ParseNode::ArrayWithNamedLengthVT { .. }
            | ParseNode::SliceVT {}
            | ParseNode::EndlessArrayVT {}
            | ParseNode::ArraylikeVT {}
            | ParseNode::PointerVT {}
            | ParseNode::ViewVT {} => 0,
            ParseNode::TypeCast { .. } | ParseNode::CompositeValueType { .. } => 1,
            _ => return None,
        };
        self.part(node, part)
    }

    /// The expression of a constant or of a field.
    pub fn value(&self, node: NodeId) -> Option<NodeId> {
        match self.get(node)? {
            ParseNode::ConstantDeclaration { .. } => self.part(node, 3),
            ParseNode::IdentifierAndExpression { .. } => self.part(node, 0),
            _ => None,
        }
    }

    /// The operands of an operator, left before right; and what stands in parentheses, before `as`,
    /// after `cast`, in the brackets of a step, or between the pipes of a length.
    pub fn operands(&self, node: NodeId) -> impl Iterator<Item = NodeId> + use<'a> {
        let part = |which| self.part(node, which);
        let both = match self.get(node) {
            Some(ParseNode::Binary { .. }) => [part(1), part(2)],
            Some(ParseNode::Unary { .. }) => [part(1), None],
            Some(
                ParseNode::Parenthesized {}
                | ParseNode::TypeCast { .. }
                | ParseNode::BitCast { .. }
                | ParseNode::DerefStepElement {}
                | ParseNode::LengthOf {},
            ) => [part(0), None],
            _ => [None, None],
        };
        let nodes = *self;
        let operands = both.into_iter().flatten();
        operands.filter_map(move |operand| nodes.linked(operand))
    }

    /// The operator of a Binary.
    pub fn operator(&self, node: NodeId) -> Option<BinaryOp> {
        match (self.get(node)?, self.get(self.part(node, 0)?)?) {
            (ParseNode::Binary { .. }, ParseNode::BinaryOp(operator)) => Some(operator),
            _ => None,
        }
    }

    /// The operator of a Unary.
    pub fn prefix(&self, node: NodeId) -> Option<UnaryOp> {
        match (self.get(node)?, self.get(self.part(node, 0)?)?) {
            (ParseNode::Unary { .. }, ParseNode::UnaryOp(operator)) => Some(operator),
            _ => None,
        }
    }

    /// The members of a struct or word that is declared.
    pub fn members(&self, node: NodeId) -> Items<'a> {
        match self.get(node) {
            Some(ParseNode::StructureDeclaration { .. }) => self.items(node),
            _ => Items {
                nodes: *self,
                next: None,
            },
        }
    }

    /// What the items of a list are, in their order, without the links between them: of a List, and
    /// of what has one (the arguments of a call, the elements of an array, the fields of a struct or
    /// word, the steps of a reference, the members of a declaration). Any other node has none.
    ///
    /// ```
    /// use penne_parser::BaseToken::{BracketLeft, BracketRight, Comma, NakedDecimal};
    /// use penne_parser::{parse_expression, Nodes, ParseNode, TokenId, Tokens};
    ///
    /// // [1, 2, 3]
    /// let tokens =
    ///     [BracketLeft, NakedDecimal, Comma, NakedDecimal, Comma, NakedDecimal, BracketRight];
    /// let tokens: Tokens = tokens.into_iter().collect();
    /// let mut nodes = Nodes::with_slots(20);
    /// let array = parse_expression(tokens.row(), TokenId(0), &mut nodes)?.root;
    /// let items: Vec<_> = nodes.view().items(array).filter_map(|item| nodes.get(item)).collect();
    /// let literal = |token| ParseNode::UntypedIntegerLiteral { literal: TokenId(token) };
    /// assert_eq!(items, [literal(1), literal(3), literal(5)]);
    /// # Ok::<(), penne_parser::Refusal>(())
    /// ```
    pub fn items(&self, node: NodeId) -> Items<'a> {
        let list = match self.get(node) {
            Some(ParseNode::List { .. }) => Some(node),
            Some(ParseNode::ArrayLiteral { .. } | ParseNode::Structural { .. }) => {
                self.part(node, 0)
            }
            Some(ParseNode::FunctionCall { .. }) => self.part(node, 1),
            Some(ParseNode::Deref { .. }) => self.part(node, 2),
            Some(ParseNode::StructureDeclaration { .. }) => self.part(node, 3),
            _ => None,
        };
        let next = match list.and_then(|list| self.get(list)) {
            Some(ParseNode::List { first }) => Some(first),
            _ => None,
        };
        Items { nodes: *self, next }
    }

    /// What an Item stands for; any other node stands for itself.
    pub fn linked(&self, node: NodeId) -> Option<NodeId> {
        match self.get(node)? {
            ParseNode::Item { at } => Some(at),
            _ => Some(node),
        }
    }

    fn part(&self, node: NodeId, which: usize) -> Option<NodeId> {
        self.parts(node).nth(which)
    }
}

/// What the items of a list are: see [`NodesRef::items`].
#[derive(Clone, Debug)]
pub struct Items<'a> {
    nodes: NodesRef<'a>,
    next: Option<NodeId>,
}

impl Iterator for Items<'_> {
    type Item = NodeId;

    fn next(&mut self) -> Option<NodeId> {
        let item = self.next.take()?;
        let ParseNode::ListItem { next } = self.nodes.get(item)? else {
            return None;
        };
        // Items stand in their order. In columns that no parse wrote, a link back ends the list.
        self.next = (next > item).then_some(next);
        self.nodes.parts(item).next()
    }
}

impl FusedIterator for Items<'_> {}
