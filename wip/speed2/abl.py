import sys
v,w=sys.argv[1:3]; f=f'/tmp/sp/{v}/crates/expressions/src/lib.rt'; s=open(f).read()
REF="""Parsed::Refused {
            number: Refusal::NestingExceeded,
            start: cursor,
            end: cursor,
            cursor,
            count,
        }"""
def body(fn,new):
    global s
    i=s.index("fn %s("%fn); j=s.index("{\n",s.index(") ->",i)); k=s.index("\n}\n",j)
    # body begins at first line that is just '{'
    j=s.index("\n{\n",i)+1
    s=s[:j]+"{\n    "+new+s[k:]
if w=='steps': body('deref_steps',REF)
if w=='advance': body('advance',REF)
if w=='reference': body('reference',REF)
if w=='field': body('field','Turn::Refused { refusal: '+REF+' }')
if w=='list': body('rest_of_list',REF)
if w=='size':
    s=s.replace("return parse_size_of(kinds, types, node_kinds, node_loads, cursor, count, unused);","return "+REF+";")
if w=='cast':
    i=s.index("    finish_singular(\n"); j=s.index(")\n}",i); s=s[:i]+"operand"+s[j+1:]
if w=='unarye': body('finish_unary','Parsed::Node { root, cursor, count }')
if w=='lit':
    s=s.replace("parse_literal(kinds, types, node_kinds, node_loads, cursor, count, token)",'push(node_kinds, node_loads, cursor, count, token, 0)')
if w=='fields': body('rest_of_fields',REF)
if w=='group': body('group',REF)
if w=='lone':
    i=s.index("    if lone_integer(kinds, cursor) {"); j=s.index("    let left = unused - 1;",i); s=s[:i]+s[j:]
open(f,'w').write(s)
