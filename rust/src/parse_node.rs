//! Nodes, decoded from a kind and a load.

use core::fmt;

use crate::{BinaryOp, ComparisonOp, DeclarationFlags, NodeId, TokenId, UnaryOp, ValueTypeKeyword};

/// What a node can hold, as the number that stands in its load.
trait Load: Copy {
    fn to_load(self) -> u32;

    /// What this load stands for, if a node can hold it.
    fn from_load(load: u32) -> Option<Self>;

    /// The load in words.
    fn show(self, f: &mut fmt::Formatter<'_>) -> fmt::Result;
}

/// The load of a node by what it holds, 0 if it holds nothing.
macro_rules! load_of {
    () => {
        0
    };
    ($held:ident) => {
        $held.to_load()
    };
}

/// The node with this load: one that holds nothing has the load 0.
macro_rules! node_of {
    ($load:ident, $node:expr) => {
        if $load == 0 { Some($node) } else { None }
    };
    ($load:ident, $node:expr, $held:ident) => {
        match Load::from_load($load) {
            Some($held) => Some($node),
            None => None,
        }
    };
}

/// A space and the load in words, if the node holds something.
macro_rules! show_load {
    ($f:ident) => {
        Ok(())
    };
    ($f:ident, $held:ident) => {{
        $f.write_str(" ")?;
        $held.show($f)
    }};
}

/// The enum of nodes: of each its kind, its name, and what it holds.
macro_rules! parse_nodes {
    ($(#[$meta:meta])* $name:ident { $(
        $(#[$doc:meta])*
        $kind:literal $variant:ident
        $({ $($(#[$field_doc:meta])* $field:ident : $type:ty)? })?
        $(( $held:ident : $held_type:ty ))?,
    )* }) => {
        $(#[$meta])*
        #[derive(Clone, Copy, Debug, PartialEq, Eq, Hash)]
        pub enum $name { $(
            $(#[$doc])*
            $variant $({ $($(#[$field_doc])* $field : $type)? })? $(( $held_type ))?,
        )* }

        impl $name {
            /// The node with this kind and this load. None if there is no such kind, or no such
            /// load of it.
            pub fn from_columns(kind: u8, load: u32) -> Option<$name> {
                match kind {
                    $($kind => node_of!(
                        load,
                        $name::$variant $({ $($field)? })? $(( $held ))?
                        $($(, $field)?)? $(, $held)?
                    ),)*
                    _ => None,
                }
            }

            /// The node's kind: its place among the nodes.
            pub fn kind(self) -> u8 {
                match self {
                    $($name::$variant { .. } => $kind,)*
                }
            }

            /// The number that the node holds: of a token, of a node, a count or a code; 0 if it
            /// holds none.
            pub fn load(self) -> u32 {
                match self {
                    $($name::$variant $({ $($field)? })? $(( $held ))? => {
                        load_of!($($($field)?)? $($held)?)
                    })*
                }
            }

            /// The name of the node's kind.
            pub fn name(self) -> &'static str {
                match self {
                    $($name::$variant { .. } => stringify!($variant),)*
                }
            }
        }

        /// The name of the kind, and what the node holds: `Binary token 1`.
        impl fmt::Display for $name {
            fn fmt(&self, f: &mut fmt::Formatter<'_>) -> fmt::Result {
                f.write_str(self.name())?;
                match *self {
                    $($name::$variant $({ $($field)? })? $(( $held ))? => {
                        show_load!(f $($(, $field)?)? $(, $held)?)
                    })*
                }
            }
        }
    };
}

parse_nodes! {
    /// A node. What it holds is here; its parts, which are nodes too, are found by
    /// [`NodesRef::parts`](crate::NodesRef::parts). The comment of each variant names them in their
    /// order.
    ///
    /// Variants that the five entries never append are here too, since the kinds are numbered with
    /// them.
    ParseNode {
        /// The end of a list.
        0 NoMoreItems,
        /// The flags of a declaration.
        1 DeclarationFlags(flags: DeclarationFlags),
        /// Never appended.
        2 FunctionDeclaration {
            /// The token with which it begins.
            start_of_declaration: TokenId
        },
        /// Parts: DeclarationFlags, Identifier, Item of the type, expression.
        3 ConstantDeclaration {
            /// The token with which it begins.
            start_of_declaration: TokenId
        },
        /// A struct or a word. Parts: DeclarationFlags, Identifier, StructuralType, List of
        /// IdentifierAndType.
        4 StructureDeclaration {
            /// The token with which it begins.
            start_of_declaration: TokenId
        },
        /// Never appended.
        5 ImportDeclaration {
            /// The token with which it begins.
            start_of_declaration: TokenId
        },
        /// Never appended.
        6 FunctionBody {},
        /// Whether a structure is a struct or a word.
        7 StructuralType {
            /// None for a struct.
            size_in_bytes_if_word: Option<u8>
        },
        /// A name.
        8 Identifier {
            /// The name.
            identifier: TokenId
        },
        /// A member. Part: its type.
        9 IdentifierAndType {
            /// The name.
            identifier: TokenId
        },
        /// A field of a struct or word in an expression. Part: its expression.
        10 IdentifierAndExpression {
            /// The name.
            identifier: TokenId
        },
        /// Never appended.
        11 VariableDeclaration {
            /// The name.
            identifier: TokenId
        },
        /// Never appended.
        12 Assignment {},
        /// Never appended.
        13 Loop {
            /// The keyword.
            token: TokenId
        },
        /// Never appended.
        14 Goto {
            /// The keyword.
            token: TokenId
        },
        /// Never appended.
        15 Label {
            /// The colon.
            colon: TokenId
        },
        /// Never appended.
        16 MethodCall {
            /// Whether a builtin is called.
            is_builtin: bool
        },
        /// Parts: Identifier, List of arguments.
        17 FunctionCall {
            /// Whether a builtin is called.
            is_builtin: bool
        },
        /// Part: the expression in the parentheses.
        18 Parenthesized {},
        /// Never appended.
        19 Comparison {
            /// The operator.
            token: TokenId
        },
        /// Never appended.
        20 ComparisonOp(op: ComparisonOp),
        /// Parts: BinaryOp, Item of the left operand, right operand.
        21 Binary {
            /// The operator.
            token: TokenId
        },
        /// The operator of a Binary.
        22 BinaryOp(op: BinaryOp),
        /// Parts: UnaryOp, operand.
        23 Unary {
            /// The operator.
            token: TokenId
        },
        /// The operator of a Unary.
        24 UnaryOp(op: UnaryOp),
        /// `true` or `false`.
        25 BooleanLiteral {
            /// The literal.
            literal: TokenId
        },
        /// A character.
        26 CharLiteral {
            /// The literal.
            literal: TokenId
        },
        /// An integer without a type.
        27 UntypedIntegerLiteral {
            /// The literal.
            literal: TokenId
        },
        /// An integer with a type. Part: SimpleValueType.
        28 TypedIntegerLiteral {
            /// The literal.
            literal: TokenId
        },
        /// One string.
        29 SimpleStringLiteral {
            /// The literal.
            literal: TokenId
        },
        /// Adjacent strings. Part: EndOfSpan.
        30 CompositeStringLiteral {
            /// The first of the strings.
            start: TokenId
        },
        /// Part: List of elements.
        31 ArrayLiteral {
            /// How many elements there are.
            num_elements: u32
        },
        /// A struct or word in an expression. Part: List of IdentifierAndExpression.
        32 Structural {
            /// Its name.
            unresolved_struct_or_word: TokenId
        },
        /// A reference. Parts: DerefAddressDepth, Identifier, List of steps.
        33 Deref {
            /// The first ampersand, or the name.
            start_of_reference: TokenId
        },
        /// The ampersands before a name.
        34 DerefAddressDepth {
            /// How many there are; 0 between pipes.
            depth: u8
        },
        /// A step `[argument]`. Part: the argument.
        35 DerefStepElement {},
        /// A step `.name`.
        36 DerefStepMember {
            /// The name.
            field_identifier: TokenId
        },
        /// `cast` before an expression. Part: the expression.
        37 BitCast {
            /// The keyword.
            cast_keyword: TokenId
        },
        /// `as` with a type. Parts: Item of the expression, type.
        38 TypeCast {
            /// The first token of the type.
            start_of_type: TokenId
        },
        /// A reference between pipes. Part: Deref.
        39 LengthOf {},
        /// A type between `|:` and `|`. Part: the type.
        40 SizeOf {},
        /// A type that is a keyword.
        41 SimpleValueType(value_type: ValueTypeKeyword),
        /// A type of more than one token. Parts: EndOfSpan, the type.
        42 CompositeValueType {
            /// The first token of the type.
            start: TokenId
        },
        /// `[3]T`. Part: the element type.
        43 ArrayVT {
            /// The length.
            fixed_length: TokenId
        },
        /// `[N]T`. Part: the element type.
        44 ArrayWithNamedLengthVT {
            /// The name of the length.
            named_length_identifier: TokenId
        },
        /// `[:]T`. Part: the element type.
        45 SliceVT {},
        /// `[..]T`. Part: the element type.
        46 EndlessArrayVT {},
        /// `[]T`. Part: the element type.
        47 ArraylikeVT {},
        /// A type that is a name.
        48 UnresolvedStructOrWordVT {
            /// The name.
            identifier: TokenId
        },
        /// `&T`. Part: the type that is pointed to.
        49 PointerVT {},
        /// `(T)`. Part: the type that is viewed.
        50 ViewVT {},
        /// Where a span of tokens ends.
        51 EndOfSpan {
            /// The token after the span.
            end: TokenId
        },
        /// A list item without its successor yet; only a refusal leaves one.
        52 UnpatchedListItem,
        /// Never appended.
        53 Then {},
        /// Never appended.
        54 ThenElse {
            /// The statement of `then`.
            then: NodeId
        },
        /// Never appended.
        55 If {
            /// What is compared.
            comparison: NodeId
        },
        /// Never appended.
        56 Block {
            /// The first statement.
            first: NodeId
        },
        /// A link. Part: the node that is linked.
        57 Item {
            /// The node that is linked.
            at: NodeId
        },
        /// A list. Part: its first item, or its end if it is empty.
        58 List {
            /// The first item, or the end.
            first: NodeId
        },
        /// An item of a list. Parts: what the item is, and the next item or the end of the list.
        59 ListItem {
            /// The next item, or the end.
            next: NodeId
        },
        /// Never appended.
        60 FunctionImpl {
            /// The body.
            body: NodeId
        },
        /// Never appended.
        61 StartPrivateZone {
            /// Where the zone ends.
            end: NodeId
        },
        /// Never appended.
        62 EndPrivateZone {
            /// Where the zone starts.
            start: NodeId
        },
        /// Never appended.
        63 EndlessPrivateZone,
    }
}

impl Load for TokenId {
    fn to_load(self) -> u32 {
        self.0
    }

    fn from_load(load: u32) -> Option<TokenId> {
        Some(TokenId(load))
    }

    fn show(self, f: &mut fmt::Formatter<'_>) -> fmt::Result {
        write!(f, "token {}", self.0)
    }
}

impl Load for NodeId {
    fn to_load(self) -> u32 {
        self.0
    }

    fn from_load(load: u32) -> Option<NodeId> {
        Some(NodeId(load))
    }

    fn show(self, f: &mut fmt::Formatter<'_>) -> fmt::Result {
        write!(f, "node {}", self.0)
    }
}

impl Load for u32 {
    fn to_load(self) -> u32 {
        self
    }

    fn from_load(load: u32) -> Option<u32> {
        Some(load)
    }

    /// Only an array literal holds a number.
    fn show(self, f: &mut fmt::Formatter<'_>) -> fmt::Result {
        write!(f, "{self} element{}", if self == 1 { "" } else { "s" })
    }
}

impl Load for u8 {
    fn to_load(self) -> u32 {
        u32::from(self)
    }

    fn from_load(load: u32) -> Option<u8> {
        u8::try_from(load).ok()
    }

    /// Only a reference's ampersands are held so.
    fn show(self, f: &mut fmt::Formatter<'_>) -> fmt::Result {
        write!(f, "depth {self}")
    }
}

impl Load for Option<u8> {
    fn to_load(self) -> u32 {
        self.map_or(0, u32::from)
    }

    fn from_load(load: u32) -> Option<Option<u8>> {
        let size = u8::try_from(load).ok()?;
        Some((size != 0).then_some(size))
    }

    fn show(self, f: &mut fmt::Formatter<'_>) -> fmt::Result {
        match self {
            None => f.write_str("struct"),
            Some(1) => f.write_str("word of 1 byte"),
            Some(size) => write!(f, "word of {size} bytes"),
        }
    }
}

impl Load for bool {
    fn to_load(self) -> u32 {
        u32::from(self)
    }

    fn from_load(load: u32) -> Option<bool> {
        match load {
            0 => Some(false),
            1 => Some(true),
            _ => None,
        }
    }

    fn show(self, f: &mut fmt::Formatter<'_>) -> fmt::Result {
        f.write_str(if self { "builtin" } else { "not builtin" })
    }
}

impl Load for DeclarationFlags {
    fn to_load(self) -> u32 {
        self.bits()
    }

    fn from_load(load: u32) -> Option<DeclarationFlags> {
        DeclarationFlags::from_bits(load)
    }

    fn show(self, f: &mut fmt::Formatter<'_>) -> fmt::Result {
        write!(f, "{self}")
    }
}

/// The load that is a code of one of the enums.
macro_rules! load_is_code {
    ($($name:ident)*) => { $(
        impl Load for $name {
            fn to_load(self) -> u32 {
                self as u32
            }

            fn from_load(load: u32) -> Option<$name> {
                $name::from_repr(u8::try_from(load).ok()?)
            }

            fn show(self, f: &mut fmt::Formatter<'_>) -> fmt::Result {
                write!(f, "{self}")
            }
        }
    )* };
}

load_is_code!(BinaryOp UnaryOp ComparisonOp ValueTypeKeyword);
