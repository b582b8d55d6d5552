//! Handles refusals, and a row that is accepted without being read to its end.
//!
//!     cargo run --offline --example refusal

use penne_parser::BaseToken::{Ampersand, Identifier, NakedDecimal, ParenLeft, Pipe, Plus};
use penne_parser::{BaseToken, Nodes, RefusalNumber, TokenId, Tokens, parse_expression};

/// Reads an expression that must be the whole row, and says what is wrong otherwise.
fn check(line: &str, kinds: &[BaseToken], nodes: &mut Nodes) {
    let tokens: Tokens = kinds.iter().copied().collect();
    let row = tokens.row();
    let before = nodes.len();
    match parse_expression(row, TokenId(0), &mut *nodes) {
        Ok(parsed) if parsed.is_at_end(row) => println!("`{line}`: {} nodes", nodes.len() - before),
        Ok(parsed) => {
            let rest = parsed.rest(row);
            println!("`{line}`: not read from token {} on", rest.start.0);
        }
        // Not a fault of the row: more slots, and once more.
        Err(refusal) if refusal.number == RefusalNumber::NoSlot => {
            nodes.truncate(before as u32);
            nodes.reserve_for(row);
            check(line, kinds, nodes);
        }
        Err(refusal) => {
            println!("`{line}`: {refusal}");
            // The nodes until the refusal are still there.
            nodes.truncate(before as u32);
        }
    }
}

pub fn main() {
    let nodes = &mut Nodes::new();
    check("1 + 2", &[NakedDecimal, Plus, NakedDecimal], nodes);
    check("(1", &[ParenLeft, NakedDecimal], nodes);
    check("1 +", &[NakedDecimal, Plus], nodes);
    let two_operators = [Identifier, Ampersand, Identifier, Pipe, Identifier];
    check("a & b | c", &two_operators, nodes);
}
