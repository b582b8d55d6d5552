import sys
def sub(v,crate,old,new,n=1):
    p=f'/tmp/sp/{v}/crates/{crate}/src/lib.rt'
    t=open(p).read()
    assert t.count(old)==n,(v,t.count(old),old)
    open(p,'w').write(t.replace(old,new))
U_OLD="""    if token == BaseToken::PipeForType {
        return parse_size_of(kinds, types, node_words, cursor, count, unused);
    }
"""
def U(v): sub(v,'expressions',U_OLD,U_OLD+"""    if token == BaseToken::NakedDecimal {
        let at = cursor.0;
        let next = TokenId(at + 1);
        let kind = ParseNode::UntypedIntegerLiteral;
        return push(node_words, next, count, kind, at);
    }
""")
def U1(v): sub(v,'expressions',U_OLD,"""    if token == BaseToken::NakedDecimal {
        let at = cursor.0;
        let next = TokenId(at + 1);
        let kind = ParseNode::UntypedIntegerLiteral;
        return push(node_words, next, count, kind, at);
    }
"""+U_OLD)
def L(v):
    sub(v,'penne',"""    let kind = largest(kinds);
    let value_type = largest(types);
    if kind <= BaseToken::Error && value_type <= ValueTypeKeyword::Bool {""","""    let mut kind: u8 = 0;
    let mut value_type: u8 = 0;
    let mut place: usize = 0;
    while place < kinds.len() {
        kind = larger(kind, kinds[place]);
        value_type = larger(value_type, types[place]);
        place = place + 1;
    }
    if kind <= BaseToken::Error && value_type <= ValueTypeKeyword::Bool {""")

PUSH='''        let at = cursor.0;
        let next = TokenId(at + 1);
        let kind = ParseNode::UntypedIntegerLiteral;
        return push(node_words, next, count, kind, at);
'''
def Ub(v):
    # after from is known
    sub(v,'expressions',"    let piped = token == BaseToken::Pipe;\n","    let piped = token == BaseToken::Pipe;\n    if token == BaseToken::NakedDecimal {\n"+PUSH+"    }\n")
def Uc(v):
    # in primary
    sub(v,'expressions',"    match parse_opening(kinds, cursor, count, piped) {\n","    if !piped && peek(kinds, cursor) == BaseToken::NakedDecimal {\n"+PUSH+"    }\n    match parse_opening(kinds, cursor, count, piped) {\n")
def Ud(v):
    # in singular before cast
    sub(v,'expressions',"    let operand = unary(kinds, types, node_words, from, count, unused);\n    if bare {\n        return operand;\n    }\n","    let operand = if peek(kinds, from) == BaseToken::NakedDecimal { push(node_words, TokenId(from.0+1), count, ParseNode::UntypedIntegerLiteral, from.0) } else { unary(kinds, types, node_words, from, count, unused) };\n    if bare {\n        return operand;\n    }\n")
def Ue(v):
    # in singular before cast: number with no as after
    sub(v,'expressions',"    let cast = optional_cast(kinds, cursor, bare);\n","    if lone_number(kinds, cursor) {\n"+PUSH+"    }\n    let cast = optional_cast(kinds, cursor, bare);\n")
    sub(v,'expressions',"// Rust: parse_singular_expression","fn lone_number(kinds: &[u8], cursor: TokenId) -> bool { if peek(kinds, cursor) == BaseToken::NakedDecimal { peek(kinds, TokenId(cursor.0 + 1)) != BaseToken::As } else { false } }\n// Rust: parse_singular_expression")
def Ug(v):
    sub(v,'expressions',"    let piped = token == BaseToken::Pipe;\n","    if token == BaseToken::NakedDecimal {\n"+PUSH+"    }\n    let piped = token == BaseToken::Pipe;\n")
def Uh(v):
    sub(v,'expressions',"    let piped = token == BaseToken::Pipe;\n","    if token == BaseToken::NakedDecimal || token == BaseToken::BitInteger {\n"+PUSH+"    }\n    let piped = token == BaseToken::Pipe;\n")
def Ui(v):
    # via parse_literal
    sub(v,'expressions',"    let piped = token == BaseToken::Pipe;\n","    if token == BaseToken::NakedDecimal {\n        return parse_literal(kinds, types, node_words, cursor, count, token);\n    }\n    let piped = token == BaseToken::Pipe;\n")
def Uj(v):
    sub(v,'expressions',"    let operand = primary(kinds, types, node_words, from, count, unused, piped);\n    if from.0 == cursor.0 {","    if token == BaseToken::NakedDecimal {\n"+PUSH+"    }\n    let operand = primary(kinds, types, node_words, from, count, unused, piped);\n    if !(token == BaseToken::Pipe || token == BaseToken::Exclamation || token == BaseToken::Minus) {")
def B4(v):
    seg="    if peek(kinds, after) != BaseToken::As {\n        return node;\n    }\n    parse_casts"
    new="    if peek(kinds, after) != BaseToken::As {\n        return Parsed::Node {\n            root,\n            cursor: after,\n            count: used,\n        };\n    }\n    parse_casts"
    sub(v,'casts',seg,new)
for e in sys.argv[2:]: globals()[e](sys.argv[1])
