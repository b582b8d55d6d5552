//! How deep an accepted parse was nested, read from its nodes.
//!
//! The Rust does not limit nesting; document 01 does (refusal 34). Its counter
//! is the number of expressions and inner types that are open at once. In an
//! accepted parse each of them left a node, so the deepest can be found again.

use crate::{Buffer, Entry, Reply};

/// The most expressions and inner types that were open at once. `None` unless
/// the reply is an acceptance. The buffer must be as that parse left it.
pub fn nesting(entry: Entry, reply: Reply, buffer: &Buffer) -> Option<u32> {
    let Reply::Accepted { root, .. } = reply else {
        return None;
    };
    let level = match entry {
        Entry::Expression | Entry::Type => 1,
        Entry::Constant | Entry::Struct | Entry::Word => 0,
    };
    let mut deepest = 0;
    // Nodes still to be visited, each with the number of levels open there.
    let mut open = vec![(root, level)];
    while let Some((at, level)) = open.pop() {
        deepest = deepest.max(level);
        let (kind, load) = buffer.node(at as usize);
        let node = |back: u32| buffer.node((at - back) as usize);
        match kind {
            // Item, List: what they link.
            57 | 58 => open.push((load, level)),
            // ListItem: the content, then the next item. Fields, members and
            // steps open nothing themselves; other contents are expressions.
            59 => {
                let opened = !matches!(node(1).0, 9 | 10 | 35 | 36);
                open.push((at - 1, level + u32::from(opened)));
                open.push((load, level));
            }
            // IdentifierAndType, DerefStepElement, Parenthesized, SizeOf, and
            // the array, slice, pointer and view types.
            9 | 35 | 18 | 40 | 43..=47 | 49 | 50 => open.push((at - 1, level + 1)),
            // IdentifierAndExpression: a field without colon has no expression
            // of its own, and its Deref starts at the field's name.
            10 => {
                if node(1) != (33, load) {
                    open.push((at - 1, level + 1));
                }
            }
            // BitCast, LengthOf, Structural, ArrayLiteral.
            37 | 39 | 32 | 31 => open.push((at - 1, level)),
            // Unary, CompositeValueType, FunctionCall.
            23 | 42 | 17 => open.push((at - 2, level)),
            // Deref: its steps.
            33 => open.push((at - 3, level)),
            // Binary: what follows `..` (operator 10) is an expression.
            21 => {
                open.push((at - 2, level));
                open.push((at - 3, level + u32::from(node(1).1 == 10)));
            }
            // TypeCast.
            38 => {
                open.push((at - 1, level));
                open.push((at - 2, level + 1));
            }
            // ConstantDeclaration: the type, through its Item, and the value.
            3 => {
                open.push((at - 3, level + 1));
                open.push((at - 4, level + 1));
            }
            // StructureDeclaration: its members.
            4 => open.push((at - 4, level)),
            // Literals, names, simple types and ends have nothing inside.
            _ => {}
        }
    }
    Some(deepest)
}
