L='Rattle·penne·proofs.proofs.Laws'
uses={}
for n in 'first-passed first-failed bad-kind bad-type good-token good-tokens other-size no-token too-many row-checked ends-well ends-badly place-there place-past other-slots too-many-slots count-above count-fits flags-above flags-fit kind-below kind-above kind-fits two-checked three-checked five-checked input-sized declaration-sized word-sized check-refused rule-followed columns-sized all-left expression-followed type-followed constant-followed struct-followed word-followed'.split(): uses[n]=L
uses['length']='lib.ListN'; uses['refl']='mathlib.Core.Path'; uses['row']='Rattle·codes.specs.Answer'; uses['badToken']='Rattle·penne·specs.specs.Checks'
for n in 'types expressions constants structs words'.split(): uses[n]='Rattle·rules.proofs.Demand'
s=lambda *l:'search (needs, %s)'%', '.join(l)
answers={
'or_else':{'returns':s('first-passed'),'returns-2':s('first-failed')},
'check_flags':{'returns':s('flags-above'),'returns-2':s('flags-fit')},
'check_last':{'returns':s('ends-well'),'returns-2':'\n    let k = c .before .before .args .kinds .now in\n    ends-badly (row k k) (c .if1 .left)'},
'check_place':{'returns':s('place-there'),'returns-2':s('place-past')},
'check_slots':{'returns':s('other-slots'),'returns-2':s('too-many-slots'),'returns-3':s('count-above'),'returns-4':s('count-fits')},
'check_word':{'returns':s('kind-below'),'returns-2':s('kind-above'),'returns-3':s('kind-fits')},
'check_tokens':{'inv':'''abbrev Inv-loop : tie.InvT-loop
Inv-loop kinds types place₀ place =
    (place ≤ length kinds) ×
    (badToken (row kinds types) 0 (length kinds) ≡ badToken (row kinds types) place (length kinds - place))

abbrev μ-loop : tie.MeasureT-loop
μ-loop kinds types place₀ place = length kinds - place
''','loop-holds':'(search needs, search (needs, all-left))','returns':s('bad-kind'),'returns-2':s('bad-type'),'loop-again':'(search needs, search (needs, good-token))','returns-3':s('good-tokens')},

'check_row':{'returns':s('other-size'),'returns-2':s('no-token'),'returns-3':s('too-many'),'returns-4':s('row-checked')},
'check_input':{'returns':s('three-checked')},
'check_declaration':{'returns':s('five-checked')},
'check_word_declaration':{'returns':s('two-checked')},
'parse_expression':{'parse-expression-requires':s('input-sized'),'returns':s('expression-followed'),'returns-2':s('check-refused')},
'parse_type':{'parse-type-requires':s('input-sized'),'returns':s('type-followed'),'returns-2':s('check-refused')},
'parse_constant_declaration':{'parse-constant-declaration-requires':s('declaration-sized'),'returns':s('constant-followed'),'returns-2':s('check-refused')},
'parse_struct_declaration':{'parse-struct-declaration-requires':s('declaration-sized'),'returns':s('struct-followed'),'returns-2':s('check-refused')},
'parse_word_declaration':{'parse-word-declaration-requires':s('word-sized'),'returns':s('word-followed'),'returns-2':s('check-refused')},
}
