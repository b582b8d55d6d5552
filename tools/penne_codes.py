"""Penne's codes by name, as document 01 has them.

A code is the place of its name in the list, unless a number stands beside the name. The tests compare all lists with
the constants in crates/codes/src.
"""

# Kinds of tokens: upstream's BaseToken, each with its spelling if it has only one.
BASE_TOKENS = [
    ("EndOfSource", None),
    ("ParenLeft", "("),
    ("ParenRight", ")"),
    ("BraceLeft", "{"),
    ("BraceRight", "}"),
    ("BracketLeft", "["),
    ("BracketRight", "]"),
    ("AngleLeft", "<"),
    ("AngleRight", ">"),
    ("Pipe", "|"),
    ("Ampersand", "&"),
    ("Caret", "^"),
    ("Exclamation", "!"),
    ("Placeholder", "_"),
    ("Plus", "+"),
    ("Minus", "-"),
    ("Times", "*"),
    ("Divide", "/"),
    ("Modulo", "%"),
    ("Colon", ":"),
    ("Semicolon", ";"),
    ("Dot", "."),
    ("Comma", ","),
    ("Assignment", "="),
    ("Equals", "=="),
    ("DoesNotEqual", "!="),
    ("IsGE", ">="),
    ("IsLE", "<="),
    ("ShiftLeft", "<<"),
    ("ShiftRight", ">>"),
    ("Arrow", "->"),
    ("PipeForType", "|:"),
    ("Dots", ".."),
    ("Fn", "fn"),
    ("Var", "var"),
    ("Const", "const"),
    ("If", "if"),
    ("Goto", "goto"),
    ("Loop", "loop"),
    ("Return", "return"),
    ("Else", "else"),
    ("Cast", "cast"),
    ("As", "as"),
    ("Import", "import"),
    ("Pub", "pub"),
    ("Extern", "extern"),
    ("Struct", "struct"),
    ("Word8", "word8"),
    ("Word16", "word16"),
    ("Word32", "word32"),
    ("Word64", "word64"),
    ("Word128", "word128"),
    ("ValueTypeKeyword", None),
    ("Identifier", None),
    ("Builtin", None),
    ("NakedDecimal", None),
    ("BitInteger", None),
    ("SuffixedInteger", None),
    ("CharLiteral", None),
    ("BoolLiteral", None),
    ("StringLiteral", None),
    ("Error", None),
]

KIND = {name: kind for kind, (name, _) in enumerate(BASE_TOKENS)}

SPELLED = {spelling: kind for kind, (_, spelling) in enumerate(BASE_TOKENS) if spelling is not None}

# Value types: upstream's ValueTypeKeyword, each with its spelling.
VALUE_TYPES = [
    ("NoKeyword", None),
    ("Void", "void"),
    ("Int8", "i8"),
    ("Int16", "i16"),
    ("Int32", "i32"),
    ("Int64", "i64"),
    ("Int128", "i128"),
    ("Uint8", "u8"),
    ("Uint16", "u16"),
    ("Uint32", "u32"),
    ("Uint64", "u64"),
    ("Uint128", "u128"),
    ("Usize", "usize"),
    ("Char8", "char8"),
    ("Bool", "bool"),
]

VALUE_TYPE = {name: code for code, (name, _) in enumerate(VALUE_TYPES)}

VALUE_TYPE_SPELLED = {spelling: code for code, (_, spelling) in enumerate(VALUE_TYPES) if spelling is not None}

# The value types that an integer can have at its end.
SUFFIXES = {spelling: code for spelling, code in VALUE_TYPE_SPELLED.items() if spelling[0] in "iu"}

BINARY_OPS = [
    "Add",
    "Subtract",
    "Multiply",
    "Divide",
    "Modulo",
    "BitwiseAnd",
    "BitwiseOr",
    "BitwiseXor",
    "ShiftLeft",
    "ShiftRight",
    "AdvancePointer",
]

UNARY_OPS = ["Negative", "BitwiseComplement"]

COMPARISON_OPS = ["Equals", "DoesNotEqual", "IsGreater", "IsGE", "IsLess", "IsLE"]

FLAGS = [("Public", 1), ("External", 2), ("Main", 4), ("Forward", 8), ("OpaqueStruct", 16)]

# What the load of a node is.
NONE, TOKEN, NODE = "none", "token", "node"
FLAG_SUM, WORD_SIZE, IS_BUILTIN, ELEMENTS, DEPTH = "flags", "word size", "is builtin", "elements", "depth"
BINARY_OP, UNARY_OP, COMPARISON_OP, TYPE = "binary operator", "unary operator", "comparison operator", "value type"

# The part that a load names. Any other part is the number of places that it stands back.
LINKED = 9

# Kinds of nodes: upstream's ParseNode, each with what its load is and with its parts in their order.
PARSE_NODES = [
    ("NoMoreItems", NONE, ()),
    ("DeclarationFlags", FLAG_SUM, ()),
    ("FunctionDeclaration", TOKEN, ()),
    ("ConstantDeclaration", TOKEN, (1, 2, 3, 4)),
    ("StructureDeclaration", TOKEN, (1, 2, 3, 4)),
    ("ImportDeclaration", TOKEN, ()),
    ("FunctionBody", NONE, ()),
    ("StructuralType", WORD_SIZE, ()),
    ("Identifier", TOKEN, ()),
    ("IdentifierAndType", TOKEN, (1,)),
    ("IdentifierAndExpression", TOKEN, (1,)),
    ("VariableDeclaration", TOKEN, ()),
    ("Assignment", NONE, ()),
    ("Loop", TOKEN, ()),
    ("Goto", TOKEN, ()),
    ("Label", TOKEN, ()),
    ("MethodCall", IS_BUILTIN, ()),
    ("FunctionCall", IS_BUILTIN, (1, 2)),
    ("Parenthesized", NONE, (1,)),
    ("Comparison", TOKEN, ()),
    ("ComparisonOp", COMPARISON_OP, ()),
    ("Binary", TOKEN, (1, 2, 3)),
    ("BinaryOp", BINARY_OP, ()),
    ("Unary", TOKEN, (1, 2)),
    ("UnaryOp", UNARY_OP, ()),
    ("BooleanLiteral", TOKEN, ()),
    ("CharLiteral", TOKEN, ()),
    ("UntypedIntegerLiteral", TOKEN, ()),
    ("TypedIntegerLiteral", TOKEN, (1,)),
    ("SimpleStringLiteral", TOKEN, ()),
    ("CompositeStringLiteral", TOKEN, (1,)),
    ("ArrayLiteral", ELEMENTS, (1,)),
    ("Structural", TOKEN, (1,)),
    ("Deref", TOKEN, (1, 2, 3)),
    ("DerefAddressDepth", DEPTH, ()),
    ("DerefStepElement", NONE, (1,)),
    ("DerefStepMember", TOKEN, ()),
    ("BitCast", TOKEN, (1,)),
    ("TypeCast", TOKEN, (1, 2)),
    ("LengthOf", NONE, (1,)),
    ("SizeOf", NONE, (1,)),
    ("SimpleValueType", TYPE, ()),
    ("CompositeValueType", TOKEN, (1, 2)),
    ("ArrayVT", TOKEN, (1,)),
    ("ArrayWithNamedLengthVT", TOKEN, (1,)),
    ("SliceVT", NONE, (1,)),
    ("EndlessArrayVT", NONE, (1,)),
    ("ArraylikeVT", NONE, (1,)),
    ("UnresolvedStructOrWordVT", TOKEN, ()),
    ("PointerVT", NONE, (1,)),
    ("ViewVT", NONE, (1,)),
    ("EndOfSpan", TOKEN, ()),
    ("UnpatchedListItem", NONE, ()),
    ("Then", NONE, ()),
    ("ThenElse", NODE, ()),
    ("If", NODE, ()),
    ("Block", NODE, ()),
    ("Item", NODE, (LINKED,)),
    ("List", NODE, (LINKED,)),
    ("ListItem", NODE, (1, LINKED)),
    ("FunctionImpl", NODE, ()),
    ("StartPrivateZone", NODE, ()),
    ("EndPrivateZone", NODE, ()),
    ("EndlessPrivateZone", NONE, ()),
]

# Refusals by number: the name in crates/codes, and a sentence in which {start} and {end} are places of tokens.
REFUSALS = {
    1: ("BadRow", "The kinds and the value types differ in number, or there is no token, or more than 65,535."),
    2: ("BadToken", "Token {start} has a kind above 61 or a value type above 14."),
    3: ("NoEndOfSource", "The last token, token {start}, is not EndOfSource."),
    10: ("ExpectedAssignment", "Token {start} should be an assignment `=`."),
    11: ("ExpectedBraceLeft", "Token {start} should be an opening brace `{{`."),
    12: ("ExpectedBraceRight", "Token {start} should be a closing brace `}}`."),
    13: ("ExpectedBracketRight", "Token {start} should be a closing bracket `]`."),
    14: ("ExpectedParenLeft", "Token {start} should be an opening parenthesis `(`."),
    15: ("ExpectedParenRight", "Token {start} should be a closing parenthesis `)`."),
    16: ("ExpectedPipe", "Token {start} should be a pipe `|`."),
    17: ("ExpectedSemicolon", "Token {start} should be a semicolon `;`."),
    18: ("ExpectedIdentifier", "Token {start} should be an identifier."),
    19: (
        "ExpectedArraySize",
        "Token {start} should be an array size: a naked decimal, an identifier, `]`, `:` or `..`.",
    ),
    20: ("ExpectedType", "Token {start} should be the start of a type."),
    21: ("ExpectedPrimary", "Token {start} should be the start of a primary expression."),
    22: ("MissingConstantType", "Token {start} should be the colon `:` after the name of a constant."),
    23: ("MissingMemberType", "Token {start} should be the colon `:` after the name of a member."),
    24: (
        "MaximumParseDepthExceeded",
        "There are too many ampersands or reference steps: they begin at token {start} and end before token {end}.",
    ),
    25: ("ExpectedComma", "Token {start} should be a comma `,` or a closing brace `}}` after a member."),
    30: ("BadCursor", "The cursor or the start of the declaration is not below the number of tokens."),
    31: ("BadColumns", "The node columns differ in length, or have more than 131,075 slots."),
    32: ("BadCount", "The node count is above the number of slots."),
    33: ("NoSlot", "No slot is left for a node, with the cursor at token {start}."),
    34: ("NestingExceeded", "An expression or inner type begins at token {start}, and 40 are already open."),
    35: ("BadFlags", "The declaration flags are above 31."),
    36: ("BadWordKind", "The kind given for a word declaration is not one of word8 to word128."),
    56: ("LoadTooLarge", "The load does not fit the 24 bits that a word has for it."),
}

# The limits of the program penne-nodes: tokens of its input, and slots for its nodes.
PROGRAM_TOKENS = 4096
PROGRAM_SLOTS = 8197

# The entries by their numbers. The program penne-nodes has the first two.
ENTRIES = ["expression", "type", "constant", "struct", "word"]
PROGRAM_ENTRIES = (0, 1)

# The functions of the library for C, one for each entry.
FUNCTIONS = [
    "penne_parse_expression",
    "penne_parse_type",
    "penne_parse_constant_declaration",
    "penne_parse_struct_declaration",
    "penne_parse_word_declaration",
]
