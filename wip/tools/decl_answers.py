L='Rattle·declarations·proofs.proofs.Laws'; B='Rattle·declarations·proofs.proofs.Bounds'; M='Rattle·declarations·proofs.proofs.Members'
uses={}
for n in 'colon-found colon-missing typed-unnamed typed-without-colon typed-read member-stopped member-read comma-missing comma-read members-end member-item-stopped member-item-read brace-missing members-read declaration-refused declaration-pushed structure-refused structure-pushed structured-stopped structured-read opaque-stopped opaque-pushed struct-unnamed word-unnamed word-read struct-opaque struct-read assignment-missing value-stopped semicolon-missing value-read constant-refused constant-pushed constant-stopped constant-value-stopped constant-value-read constant-read opaque-added opaque-there word-size no-word one two four eight'.split(): uses[n]=L
for n in 'consumed-sized past-name consumed-slots consumed-kept colon-sized typed-sized typed-slots members-slots value-slots past-value semicolon-sized semicolon-slots past-member member-slots member-kept none-fits'.split(): uses[n]=B
for n in 'Members first-member list-refused list-read turn-sized turn-fits turn-less next-member list-slots list-fits'.split(): uses[n]=M
uses['two-slots']='Rattle·nodes.proofs.Bounds'; uses['push-slots']='Rattle·nodes.proofs.Bounds'; uses['end-slots']='Rattle·nodes.proofs.Bounds'
uses['past-optional']='Rattle·tokens.proofs.Bounds'
uses['length']='lib.ListN'; uses['Sized']='Rattle·codes.specs.Answer'; uses['nodes']='Rattle·codes.specs.Answer'; uses['past']='Rattle·nodes.specs.Answer'; uses['refl']='mathlib.Core.Path'
s=lambda *l:'search (needs, %s)'%', '.join(l)
answers={
'parse_colon':{'returns':s('colon-found'),'returns-2':s('colon-missing')},
'parse_typed_name':{'parse-colon-requires':s('past-name'),'parse-type-requires':s('colon-sized'),'returns':s('typed-read'),'returns-2':s('typed-without-colon'),'returns-3':s('typed-unnamed')},
'parse_member':{'returns':s('member-stopped'),'push-requires':s('typed-slots'),'returns-2':s('member-read')},
'finish_member':{'push-step-requires':'(search (needs, consumed-slots), search (needs, consumed-kept))','returns':s('comma-read'),'returns-2':s('comma-missing')},
'parse_member_item':{'returns':s('members-end'),'parse-member-requires':s('past-optional'),'returns-2':s('member-item-stopped'),'finish-member-requires':'(search (needs, past-member), search (needs, member-slots), search (needs, member-kept))','returns-3':s('member-item-read')},
'parse_rest_of_members':{'inv':'''abbrev Inv-loop : tie.InvT-loop
Inv-loop kinds types node-kinds₀ node-loads₀ count unused list₀ place₀ used₀ node-kinds node-loads list place used =
    (length node-kinds ≡ length node-kinds₀) × (length node-loads ≡ length node-loads₀) ×
    Sized kinds types node-kinds node-loads place used × (past list ≤ used) ×
    Members kinds types unused place₀ (nodes node-kinds₀ node-loads₀ used₀) list place (nodes node-kinds node-loads used)

abbrev μ-loop : tie.MeasureT-loop
μ-loop kinds types node-kinds₀ node-loads₀ count unused list₀ place₀ used₀ node-kinds node-loads list place used =
    length kinds - place
''','loop-holds':'(refl, refl, search needs, search (needs, none-fits), search (needs, first-member))','parse-member-item-requires':'(search needs, search needs)','loop-less':s('turn-less'),'loop-again':'\n    (search needs, search needs, search (needs, turn-sized), search (needs, turn-fits), search (needs, next-member))','push-end-of-list-requires':'(search (needs, list-slots), search (needs, list-fits))','returns':s('list-read'),'returns-2':s('list-refused')},
'parse_struct_members':{'parse-rest-of-members-requires':s('consumed-sized'),'returns':s('members-read'),'returns-2':s('brace-missing')},
'push_declaration':{'returns':s('declaration-refused'),'push-requires':s('two-slots'),'returns-2':s('declaration-pushed')},
'push_structure':{'returns':s('structure-refused'),'push-declaration-requires':s('two-slots'),'returns-2':s('structure-pushed')},
'parse_structure':{'returns':s('structured-stopped'),'push-structure-requires':s('members-slots'),'returns-2':s('structured-read')},
'opaque_flags':{'returns':s('opaque-added'),'returns-2':s('opaque-there')},
'push_opaque_struct':{'push-end-of-list-requires':'(search needs, search (needs, none-fits))','returns':s('opaque-stopped'),'push-structure-requires':s('end-slots'),'returns-2':s('opaque-pushed')},
'parse_struct_declaration':{'consume-optional-requires':s('past-name'),'push-opaque-struct-requires':s('semicolon-slots'),'parse-structure-requires':s('semicolon-sized'),'returns':s('struct-opaque'),'returns-2':s('struct-read'),'returns-3':s('struct-unnamed')},
'size_of_word':{'returns':s('word-size','one'),'returns-2':s('word-size','two'),'returns-3':s('word-size','four'),'returns-4':s('word-size','eight'),'returns-5':s('no-word')},
'parse_word_declaration':{'parse-structure-requires':s('consumed-sized'),'returns':s('word-read'),'returns-2':s('word-unnamed')},
'parse_value':{'parse-expression-requires':s('consumed-sized'),'returns':s('value-stopped'),'consume-requires-2':s('past-value'),'returns-2':s('value-read'),'returns-3':s('semicolon-missing'),'returns-4':s('assignment-missing')},
'push_constant':{'returns':s('constant-refused'),'push-declaration-requires':s('push-slots'),'returns-2':s('constant-pushed')},
'parse_rest_of_constant':{'returns':s('constant-value-stopped'),'push-constant-requires':s('value-slots'),'returns-2':s('constant-value-read')},
'parse_constant_declaration':{'returns':s('constant-stopped'),'parse-rest-of-constant-requires':s('typed-sized'),'returns-2':s('constant-read')},
}
