entries=[('expression',0),('type',0),('constant_declaration',2),('struct_declaration',2),('word_declaration',3)]
out=[]
for name,extra in entries:
    args=[('s','kinds'),('s','types'),('i32','c'),('s','w'),('i32','n')]+[('i32','st'),('i32','fl')][:min(extra,2)]+([('i8','k')] if extra==3 else [])+[('s','r')]
    params=[];body=[];call=[];a=0;r=0
    for t,_ in args:
        if t=='s':
            params+= [f'ptr noundef %a{a}',f'i64 noundef %a{a+1}']
            body+= [f'  %s{r} = alloca [16 x i8], align 8',f'  store ptr %a{a}, ptr %s{r}, align 8',f'  %t{r} = getelementptr i8, ptr %s{r}, i64 8',f'  store i64 %a{a+1}, ptr %t{r}, align 8']
            call.append(f'ptr %s{r}'); r+=1; a+=2
        else:
            params.append(f'{t} noundef {"zeroext " if t=="i8" else ""}%a{a}'); call.append(f'{t} %a{a}'); a+=1
    out.append(f'define noundef zeroext i1 @penne_words_parse_{name}('+', '.join(params)+') #0 {\nstart:\n'+'\n'.join(body)+f'\n  %res = call i1 @"penne_words_c::penne_words_parse_{name}"('+', '.join(call)+')\n  ret i1 %res\n}\n')
open('/tmp/sp/wrappersw.ll','w').write('\n'.join(out))
