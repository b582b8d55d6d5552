import sys
v=sys.argv[1]
p=f'/tmp/sp/{v}/crates/declarations/src/lib.rt'
t=open(p).read()
def sub(a,b):
    global t
    assert t.count(a)==1,(a,t.count(a)); t=t.replace(a,b)
OLD="""    match consume(kinds, cursor, count, BaseToken::Comma) {
        Consumed::Next {
            cursor: after,
            count: same,
        } => push_step(node_words, after, same, list, member),
        Consumed::Wrong { refusal } => Stepped::Refused { refusal },
    }
}
"""
LAST="""
fn push_last_member(
    node_words: &mut [u32],
    cursor: TokenId,
    count: u32,
    list: ActiveList,
    member: NodeId,
) -> Stepped
{
    match nodes::push_list_item(node_words, cursor, count, list) {
        nodes::Listed::List {
            list: whole,
            cursor: after,
            count: used,
        } => Stepped::Last {
            list: whole,
            cursor: after,
            count: used,
        },
        nodes::Listed::Full { refusal } => Stepped::Refused { refusal },
    }
}
"""
REF="""Stepped::Refused {
            refusal: Parsed::Refused {
                number: Refusal::ExpectedComma,
                start: cursor,
                end: cursor,
                cursor: next,
                count,
            },
        }"""
if v=='MA':
    sub(OLD,"""    let next = TokenId(cursor.0 + 1);
    match peek(kinds, cursor) {
        BaseToken::Comma => push_step(node_words, next, count, list, member),
        BaseToken::BraceRight => push_last_member(node_words, next, count, list, member),
        _ => """+REF+""",
    }
}
"""+LAST)
if v=='MB':
    sub(OLD,"""    let next = TokenId(cursor.0 + 1);
    let token = peek(kinds, cursor);
    let closing = token == BaseToken::BraceRight;
    if !closing && token != BaseToken::Comma {
        return """+REF+""";
    }
    match nodes::push_list_item(node_words, next, count, list) {
        nodes::Listed::List {
            list: grown,
            cursor: after,
            count: used,
        } => {
            if closing {
                return Stepped::Last { list: grown, cursor: after, count: used };
            }
            Stepped::More { list: grown, cursor: after, count: used }
        }
        nodes::Listed::Full { refusal } => Stepped::Refused { refusal },
    }
}
""")
if v=='MC':
    sub(OLD,"""    match consume(kinds, cursor, count, BaseToken::Comma) {
        Consumed::Next {
            cursor: after,
            count: same,
        } => push_step(node_words, after, same, list, member),
        Consumed::Wrong { refusal } => {
            if peek(kinds, cursor) == BaseToken::BraceRight {
                return push_last_member(node_words, TokenId(cursor.0 + 1), count, list, member);
            }
            Stepped::Refused { refusal }
        }
    }
}
"""+LAST)
if v=='MD':
    sub(OLD,"""    let closing = consume_optional(kinds, cursor, BaseToken::BraceRight);
    if closing.found {
        return push_last_member(node_words, closing.cursor, count, list, member);
    }
"""+OLD+LAST)
open(p,'w').write(t)
t=open(p).read()
PUSH="""    match nodes::push_list_item(node_words, next, count, list) {
        nodes::Listed::List {
            list: grown,
            cursor: after,
            count: used,
        } => {
            if more {
                return Stepped::More { list: grown, cursor: after, count: used };
            }
            Stepped::Last { list: grown, cursor: after, count: used }
        }
        nodes::Listed::Full { refusal } => Stepped::Refused { refusal },
    }
}
"""
if v=='ME':
    sub(OLD,"""    let next = TokenId(cursor.0 + 1);
    let token = peek(kinds, cursor);
    let more = token == BaseToken::Comma;
    if !more && token != BaseToken::BraceRight {
        return """+REF+""";
    }
"""+PUSH)
if v=='MF':
    sub(OLD,"""    let next = TokenId(cursor.0 + 1);
    let more = peek(kinds, cursor) == BaseToken::Comma;
    if !more {
        if peek(kinds, cursor) != BaseToken::BraceRight {
            return """+REF+""";
        }
    }
"""+PUSH)
if v=='MG':
    # the item is appended first in the code path of a comma; a brace is looked for by the caller
    sub(OLD,"""    let next = TokenId(cursor.0 + 1);
    let token = peek(kinds, cursor);
    if token == BaseToken::Comma {
        return push_step(node_words, next, count, list, member);
    }
    if token != BaseToken::BraceRight {
        return """+REF+""";
    }
    match push_step(node_words, next, count, list, member) {
        Stepped::More { list: whole, cursor: after, count: used } => Stepped::Last { list: whole, cursor: after, count: used },
        Stepped::Last { list: whole, cursor: after, count: used } => Stepped::Last { list: whole, cursor: after, count: used },
        Stepped::Refused { refusal } => Stepped::Refused { refusal },
    }
}
""")
open(p,'w').write(t)
