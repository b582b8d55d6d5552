//! Reads `1 + 2` with row and slots on the stack, without `alloc`.
//!
//!     cargo run --offline --example slices --no-default-features

use penne_parser::BaseToken::{EndOfSource, NakedDecimal, Plus};
use penne_parser::{NodesRef, Refusal, Row, Slots, TokenId, parse_expression};

pub fn main() -> Result<(), Refusal> {
    let kinds = [NakedDecimal, Plus, NakedDecimal, EndOfSource].map(|kind| kind as u8);
    let row = Row::new(&kinds, &[0; 4]);
    let (mut kinds, mut loads, mut count) = ([0; 20], [0; 20], 0);
    let slots = Slots {
        kinds: &mut kinds,
        loads: &mut loads,
        count: &mut count,
    };
    let parsed = parse_expression(row, TokenId(0), slots)?;
    let nodes = NodesRef::new(&kinds[..count as usize], &loads);
    for (id, node) in nodes.iter() {
        println!("{} {}", id.0, node.expect("an entry appends nodes only"));
    }
    for operand in nodes.operands(parsed.root) {
        println!("operand {}", operand.0);
    }
    Ok(())
}
