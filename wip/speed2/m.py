import re,sys
v=sys.argv[1]; f=f'/tmp/sp/{v}/crates/expressions/src/lib.rt'; s=open(f).read()
for w in sys.argv[2:]:
    if w=='m1':
        i=s.index("fn unary("); j=s.index("    finish_unary(\n",i)
        s=s[:j]+"    if from.0 == cursor.0 {\n        return operand;\n    }\n"+s[j:]
    if w=='m1b':
        i=s.index("fn unary("); j=s.index("    finish_unary(\n",i)
        s=s[:j]+"    let prefixed = is_prefix(token);\n    if !prefixed {\n        return operand;\n    }\n"+s[j:]
        s+="""
fn is_prefix(token: u8) -> bool {
    match token {
        BaseToken::Pipe => true,
        BaseToken::Exclamation => true,
        BaseToken::Minus => true,
        _ => false,
    }
}
"""
    if w=='m2':
        a=s.index("fn single("); b=s.index("// Rust: parse_addition.")
        s=s[:a]+"""fn single(kinds: &[u8], cursor: TokenId) -> u8 {
    let token = peek(kinds, cursor);
    if token < BaseToken::NakedDecimal {
        return ParseNode::NoMoreItems;
    }
    let at = cursor.0;
    let next = TokenId(at + 1);
    if ends(peek(kinds, next)) {
        match token {
            BaseToken::NakedDecimal => ParseNode::UntypedIntegerLiteral,
            BaseToken::BitInteger => ParseNode::UntypedIntegerLiteral,
            BaseToken::CharLiteral => ParseNode::CharLiteral,
            BaseToken::BoolLiteral => ParseNode::BooleanLiteral,
            BaseToken::StringLiteral => ParseNode::SimpleStringLiteral,
            _ => ParseNode::NoMoreItems,
        }
    } else {
        ParseNode::NoMoreItems
    }
}

"""+s[b:]
    if w=='m5':
        for fn in ('group','item','advance','step','field'):
            i=s.index("fn %s("%fn); j=s.index("parse_expression(kinds, types,",i)
            k=s.rindex("let ",i,j)
            s=s[:k]+"let row = kinds;\n    let value_types = types;\n    "+s[k:j]+"parse_expression(row, value_types,"+s[j+len("parse_expression(kinds, types,"):]
    if w=='m7':
        i=s.index("    finish_singular(\n"); j=s.index(")\n}",i)
        s=s[:i]+'''    let node = push_bit_cast(node_kinds, node_loads, after, used, root, found, cursor);
    let Parsed::Node {
        root: cast_root,
        cursor: end,
        count: more,
    } = node
    else {
        return node;
    };
    if peek(kinds, end) != BaseToken::As {
        return node;
    }
    parse_casts(
        kinds,
        types,
        node_kinds,
        node_loads,
        end,
        more,
        unused,
        cast_root,
    )
}'''+s[j+3:]
        s=s.replace("use casts::finish_singular;","use casts::push_bit_cast;\nuse casts::parse_casts;")
        g=f'/tmp/sp/{v}/crates/casts/src/lib.rt'; t=open(g).read()
        t=t.replace("\nfn push_bit_cast(","\npub fn push_bit_cast(").replace("\nfn parse_casts(","\npub fn parse_casts(")
        open(g,'w').write(t)
    if w=='m8': # E1
        g=f'/tmp/sp/{v}/crates/lists/src/lib.rt'; t=open('/tmp/sp/e1/crates/lists/src/lib.rt').read(); open(g,'w').write(t)
    if w=='m9': # names too
        a=s.index("    let kind = single(kinds, cursor);")
        s=s[:a]+'''    if peek(kinds, cursor) == BaseToken::Identifier {
        let at = cursor.0;
        let next = TokenId(at + 1);
        if ends(peek(kinds, next)) {
            return push_name(node_kinds, node_loads, next, count, cursor);
        }
    }
'''+s[a:]
open(f,'w').write(s)
