import re
p='crates/penne/src/lib.rt'
s=open(p).read()
i=s.index("// A type from the cursor on. The core writes words into the loads")
head=s[:i]
head=head.replace("ghost use Rattle·penne·specs.specs.Promise.{countOf, Type'};\nghost use Rattle·penne·specs.specs.Words.{TypeWords};\n","ghost use Rattle·penne·specs.specs.Promise.{countOf, Expression, Type', Constant, Struct, Word};\nghost use Rattle·penne·specs.specs.Words.{ExpressionWords, TypeWords, ConstantWords, StructWords, WordWords};\n")
E=[('parse_expression','Expression','ExpressionWords','An expression from the cursor on.','input','expressions',[] ),
   ('parse_type',"Type'",'TypeWords','A type from the cursor on.','input','types',[]),
   ('parse_constant_declaration','Constant','ConstantWords','A constant, from its name on. Its declaration, with these flags, begins at the token `start`.','declaration','declarations',['start','flags']),
   ('parse_struct_declaration','Struct','StructWords','A struct, from its name on. Its declaration, with these flags, begins at the token `start`.','declaration','declarations',['start','flags']),
   ('parse_word_declaration','Word','WordWords','A word, from its name on, by its declaring token. Its declaration, with these flags, begins at the token `start`.','word_declaration','declarations',['start','flags','declaring_token'])]
ty={'start':'TokenId','flags':'u32','declaring_token':'u8'}
gh={'start':'(start .0)','flags':'flags','declaring_token':'«declaring_token»'}
out=head
for fn,P,W,doc,chk,crate,extra in E:
    g=''.join(' '+gh[x] for x in extra)
    ps=''.join(f"    {x}: {ty[x]},\n" for x in extra)
    args=''.join(f", {x}" for x in extra)
    fail="""        Checked::Failed {
            number,
            start: place,
        } => Parsed::Refused {
            number,
            start: place,
            end: place,
            cursor,
            count,
        },
"""
    out+=f"""// {doc}
pub fn {fn}(
    kinds: &[u8],
    types: &[u8],
    cursor: TokenId,
    node_kinds: &mut [u8],
    node_loads: &mut [u32],
    count: u32,
{ps}) -> Parsed
    ensures {{ λ r. ⌜ {P} (row (now (kinds .entry)) (now (types .entry))) (cursor .0) (nodes (now («node_kinds» .entry)) (now («node_loads» .entry)) count){g} r (now («node_kinds» .exit)) (now («node_loads» .exit)) ⌝ }}
{{
    let slots = node_kinds.len();
    let loads = node_loads.len();
    match check_{chk}(kinds, types, cursor, slots, loads, count{args}) {{
        Checked::Passed => {{
            let unused = Limit::Nesting;
            let reply = {crate}::{fn}(kinds, types, node_loads, cursor, count, unused{args});
            split(node_kinds, node_loads, count, count_of(reply));
            reply
        }}
{fail}    }}
}}

"""
for fn,P,W,doc,chk,crate,extra in E:
    g=''.join(' '+gh[x] for x in extra)
    ps=''.join(f"    {x}: {ty[x]},\n" for x in extra)
    args=''.join(f", {x}" for x in extra)
    out+=f"""// The same as {fn} with a word a node.
pub fn {fn}_words(
    kinds: &[u8],
    types: &[u8],
    cursor: TokenId,
    node_words: &mut [u32],
    count: u32,
{ps}) -> Parsed
    ensures {{ λ r. ⌜ {W} (row (now (kinds .entry)) (now (types .entry))) (cursor .0){g} (now («node_words» .entry)) count r (now («node_words» .exit)) ⌝ }}
{{
    let slots = node_words.len();
    match check_{chk}(kinds, types, cursor, slots, slots, count{args}) {{
        Checked::Passed => {{
            let unused = Limit::Nesting;
            {crate}::{fn}(kinds, types, node_words, cursor, count, unused{args})
        }}
{fail}    }}
}}

"""
open(p,'w').write(out.rstrip("\n")+"\n")
# specs/Words
p='crates/penne/specs/Words.antt'
s=open(p).read()
s=s.replace("use Rattle·penne·specs.specs.Promise.{Type'}","use Rattle·penne·specs.specs.Promise.{Expression, Type', Constant, Struct, Word}")
a=s[s.index("abbrev pub TypeWords"):s.index("-- Job 12: columns")]
s=s.replace(a,"""module _ (row : Row) (c : ℕ) where
  abbrev pub ExpressionWords : List ℕ → ℕ → Parsed → List ℕ → Type 0
  ExpressionWords = Unpacked (Expression row c)

  abbrev pub TypeWords : List ℕ → ℕ → Parsed → List ℕ → Type 0
  TypeWords = Unpacked (Type' row c)

  module _ (start flags : ℕ) where
    abbrev pub ConstantWords : List ℕ → ℕ → Parsed → List ℕ → Type 0
    ConstantWords = Unpacked (λ o. Constant row c o start flags)

    abbrev pub StructWords : List ℕ → ℕ → Parsed → List ℕ → Type 0
    StructWords = Unpacked (λ o. Struct row c o start flags)

    abbrev pub WordWords : ℕ → List ℕ → ℕ → Parsed → List ℕ → Type 0
    WordWords kind = Unpacked (λ o. Word row c o start flags kind)

""")
open(p,'w').write(s)
