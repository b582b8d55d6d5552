//! Reads a struct and a constant, and looks at them by name.
//!
//!     cargo run --offline --example declarations

use penne_parser::BaseToken::{
    Assignment, BraceLeft, BraceRight, Colon, Comma, Const, Identifier, NakedDecimal, Plus, Pub,
    Semicolon, Struct, ValueTypeKeyword,
};
use penne_parser::ValueTypeKeyword::{Bool, Uint32};
use penne_parser::{
    BaseToken, DeclarationFlag, DeclarationFlags, NodeId, Nodes, NodesRef, Refusal, TokenId,
    Tokens, parse_constant_declaration, parse_struct_declaration,
};

/// The row of a source, with the text of each token. A lexer would make it.
struct Source {
    tokens: Tokens,
    texts: Vec<&'static str>,
}

impl Source {
    fn new() -> Source {
        Source {
            tokens: Tokens::new(),
            texts: Vec::new(),
        }
    }

    fn push(&mut self, kind: BaseToken, text: &'static str) {
        self.tokens.push(kind);
        self.texts.push(text);
    }

    fn push_type(&mut self, value_type: penne_parser::ValueTypeKeyword, text: &'static str) {
        self.tokens.push_typed(ValueTypeKeyword, value_type);
        self.texts.push(text);
    }

    fn text(&self, token: Option<TokenId>) -> &'static str {
        token.map_or("?", |token| self.texts[usize::from(token)])
    }
}

/// `struct Session { id: u32, open: bool, }`
fn session() -> Source {
    let mut source = Source::new();
    source.push(Struct, "struct");
    source.push(Identifier, "Session");
    source.push(BraceLeft, "{");
    source.push(Identifier, "id");
    source.push(Colon, ":");
    source.push_type(Uint32, "u32");
    source.push(Comma, ",");
    source.push(Identifier, "open");
    source.push(Colon, ":");
    source.push_type(Bool, "bool");
    source.push(Comma, ",");
    source.push(BraceRight, "}");
    source
}

/// `pub const CHARGE: u32 = 12 + 30;`
fn charge() -> Source {
    let mut source = Source::new();
    source.push(Pub, "pub");
    source.push(Const, "const");
    source.push(Identifier, "CHARGE");
    source.push(Colon, ":");
    source.push_type(Uint32, "u32");
    source.push(Assignment, "=");
    source.push(NakedDecimal, "12");
    source.push(Plus, "+");
    source.push(NakedDecimal, "30");
    source.push(Semicolon, ";");
    source
}

/// The node as it is shown, `SimpleValueType u32` for one.
fn shown(nodes: NodesRef<'_>, node: Option<NodeId>) -> String {
    let node = node.and_then(|node| nodes.get(node));
    node.map_or("?".into(), |node| node.to_string())
}

pub fn main() -> Result<(), Refusal> {
    let source = session();
    let row = source.tokens.row();
    let mut nodes = Nodes::new();
    nodes.reserve_for(row);
    // `struct` is taken: the cursor is at the name, and the declaration begins at token 0.
    let flags = DeclarationFlags::EMPTY;
    let parsed = parse_struct_declaration(row, TokenId(1), &mut nodes, TokenId(0), flags)?;
    assert!(parsed.is_at_end(row));
    let view = nodes.view();
    println!("struct {}", source.text(view.name(parsed.root)));
    for member in view.members(parsed.root) {
        let value_type = shown(view, view.value_type(member));
        println!("  {}: {value_type}", source.text(view.name(member)));
    }
    println!("{}\n", view.draw(parsed.root));

    let source = charge();
    let row = source.tokens.row();
    nodes.clear();
    nodes.reserve_for(row);
    let flags = DeclarationFlag::Public.into();
    let parsed = parse_constant_declaration(row, TokenId(2), &mut nodes, TokenId(0), flags)?;
    let view = nodes.view();
    let (name, value) = (view.name(parsed.root), view.value(parsed.root));
    println!("constant {} ({flags})", source.text(name));
    for operand in value.into_iter().flat_map(|value| view.operands(value)) {
        println!("  operand {}", shown(view, Some(operand)));
    }
    println!("{}", view.draw(parsed.root));
    Ok(())
}
