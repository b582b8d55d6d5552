import re,sys
def top(f,name,stmt='    let cursor = here(kinds, cursor);\n'):
    s=open(f).read()
    m=re.search(r'\nfn %s\(|\npub fn %s\('%(name,name),s)
    assert m,(f,name)
    i=s.index('\n{\n',m.end())+3
    s=s[:i]+stmt+s[i:]
    open(f,'w').write(s)
L='crates/%s/src/lib.rt'
s=open(L%'tokens').read()
s=s.replace('// The token at the cursor is taken.\n','''fn past_notes(kinds: &[u8], cursor: TokenId) -> TokenId
{
    let mut at = cursor.0;
    loop {
        if peek(kinds, TokenId(at)) != 62 { return TokenId(at); }
        at = at + 1;
    }
}

pub fn here(kinds: &[u8], cursor: TokenId) -> TokenId
{
    if peek(kinds, cursor) == 62 { past_notes(kinds, cursor) } else { cursor }
}

// The token at the cursor is taken.
''',1)
open(L%'tokens','w').write(s)
for n in ('take','consume','consume_optional'): top(L%'tokens',n)
for n in ('parse_array_size','start_inner_type','short_type','enclose','parse_type'): top(L%'types',n)
for n in ('after_name',): top(L%'openings',n)
for n in ('parse_expression','singular','unary','primary','step'): top(L%'expressions',n)
for n in ('parse_colon','parse_member_type','parse_member','finish_member'): top(L%'declarations',n)
s=open(L%'types').read()
s=s.replace('''            let element = short_type(kinds, types, next);''','''            let next = here(kinds, next);
            let element = short_type(kinds, types, next);''')
s=s.replace('''    let end = after.0;
    if start + 1 < end {
        push_span(node_words, after''','''    let after = here(kinds, after);
    let end = after.0;
    if here(kinds, TokenId(start + 1)).0 < end {
        push_span(node_words, after''') if False else s.replace('''    let end = after.0;
    if start + 1 < end {''','''    let after = here(kinds, after);
    let end = after.0;
    let one = here(kinds, TokenId(start + 1));
    if one.0 < end {''')
open(L%'types','w').write(s)
s=open(L%'operators').read()
s=s.replace('''    let op = factor_operator(peek(kinds, after));''','''    let after = here(kinds, after);
    let op = factor_operator(peek(kinds, after));''').replace('''    let op = next_operator(pending.op, peek(kinds, after));''','''    let after = here(kinds, after);
    let op = next_operator(pending.op, peek(kinds, after));''')
open(L%'operators','w').write(s)
s=open(L%'casts').read()
s=s.replace('''    if peek(kinds, after) != BaseToken::As {''','''    let after = here(kinds, after);
    if peek(kinds, after) != BaseToken::As {''')
open(L%'casts','w').write(s)
for c in ('types','openings','expressions','declarations','operators','casts'):
    s=open(L%c).read()
    s=s.replace('use tokens::','use tokens::here;\nuse tokens::',1)
    open(L%c,'w').write(s)
