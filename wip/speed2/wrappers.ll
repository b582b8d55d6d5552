define noundef zeroext i1 @penne_parse_constant_declaration(ptr noundef %a0, i64 noundef %a1, ptr noundef %a2, i64 noundef %a3, i32 noundef %a4, ptr noundef %a5, i64 noundef %a6, ptr noundef %a7, i64 noundef %a8, i32 noundef %a9, i32 noundef %a10, i32 noundef %a11, ptr noundef %a12, i64 noundef %a13) #0 {
start:
  %r0 = alloca [16 x i8], align 8
  store ptr %a0, ptr %r0, align 8
  %r1 = getelementptr i8, ptr %r0, i64 8
  store i64 %a1, ptr %r1, align 8
  %r2 = alloca [16 x i8], align 8
  store ptr %a2, ptr %r2, align 8
  %r3 = getelementptr i8, ptr %r2, i64 8
  store i64 %a3, ptr %r3, align 8
  %r4 = alloca [16 x i8], align 8
  store ptr %a5, ptr %r4, align 8
  %r5 = getelementptr i8, ptr %r4, i64 8
  store i64 %a6, ptr %r5, align 8
  %r6 = alloca [16 x i8], align 8
  store ptr %a7, ptr %r6, align 8
  %r7 = getelementptr i8, ptr %r6, i64 8
  store i64 %a8, ptr %r7, align 8
  %r8 = alloca [16 x i8], align 8
  store ptr %a12, ptr %r8, align 8
  %r9 = getelementptr i8, ptr %r8, i64 8
  store i64 %a13, ptr %r9, align 8
  %r10 = call i1 @"penne_c::penne_parse_constant_declaration"(ptr %r0, ptr %r2, i32 %a4, ptr %r4, ptr %r6, i32 %a9, i32 %a10, i32 %a11, ptr %r8)
  ret i1 %r10
}

define noundef zeroext i1 @penne_parse_expression(ptr noundef %a0, i64 noundef %a1, ptr noundef %a2, i64 noundef %a3, i32 noundef %a4, ptr noundef %a5, i64 noundef %a6, ptr noundef %a7, i64 noundef %a8, i32 noundef %a9, ptr noundef %a10, i64 noundef %a11) #0 {
start:
  %r0 = alloca [16 x i8], align 8
  store ptr %a0, ptr %r0, align 8
  %r1 = getelementptr i8, ptr %r0, i64 8
  store i64 %a1, ptr %r1, align 8
  %r2 = alloca [16 x i8], align 8
  store ptr %a2, ptr %r2, align 8
  %r3 = getelementptr i8, ptr %r2, i64 8
  store i64 %a3, ptr %r3, align 8
  %r4 = alloca [16 x i8], align 8
  store ptr %a5, ptr %r4, align 8
  %r5 = getelementptr i8, ptr %r4, i64 8
  store i64 %a6, ptr %r5, align 8
  %r6 = alloca [16 x i8], align 8
  store ptr %a7, ptr %r6, align 8
  %r7 = getelementptr i8, ptr %r6, i64 8
  store i64 %a8, ptr %r7, align 8
  %r8 = alloca [16 x i8], align 8
  store ptr %a10, ptr %r8, align 8
  %r9 = getelementptr i8, ptr %r8, i64 8
  store i64 %a11, ptr %r9, align 8
  %r10 = call i1 @"penne_c::penne_parse_expression"(ptr %r0, ptr %r2, i32 %a4, ptr %r4, ptr %r6, i32 %a9, ptr %r8)
  ret i1 %r10
}

define noundef zeroext i1 @penne_parse_struct_declaration(ptr noundef %a0, i64 noundef %a1, ptr noundef %a2, i64 noundef %a3, i32 noundef %a4, ptr noundef %a5, i64 noundef %a6, ptr noundef %a7, i64 noundef %a8, i32 noundef %a9, i32 noundef %a10, i32 noundef %a11, ptr noundef %a12, i64 noundef %a13) #0 {
start:
  %r0 = alloca [16 x i8], align 8
  store ptr %a0, ptr %r0, align 8
  %r1 = getelementptr i8, ptr %r0, i64 8
  store i64 %a1, ptr %r1, align 8
  %r2 = alloca [16 x i8], align 8
  store ptr %a2, ptr %r2, align 8
  %r3 = getelementptr i8, ptr %r2, i64 8
  store i64 %a3, ptr %r3, align 8
  %r4 = alloca [16 x i8], align 8
  store ptr %a5, ptr %r4, align 8
  %r5 = getelementptr i8, ptr %r4, i64 8
  store i64 %a6, ptr %r5, align 8
  %r6 = alloca [16 x i8], align 8
  store ptr %a7, ptr %r6, align 8
  %r7 = getelementptr i8, ptr %r6, i64 8
  store i64 %a8, ptr %r7, align 8
  %r8 = alloca [16 x i8], align 8
  store ptr %a12, ptr %r8, align 8
  %r9 = getelementptr i8, ptr %r8, i64 8
  store i64 %a13, ptr %r9, align 8
  %r10 = call i1 @"penne_c::penne_parse_struct_declaration"(ptr %r0, ptr %r2, i32 %a4, ptr %r4, ptr %r6, i32 %a9, i32 %a10, i32 %a11, ptr %r8)
  ret i1 %r10
}

define noundef zeroext i1 @penne_parse_type(ptr noundef %a0, i64 noundef %a1, ptr noundef %a2, i64 noundef %a3, i32 noundef %a4, ptr noundef %a5, i64 noundef %a6, ptr noundef %a7, i64 noundef %a8, i32 noundef %a9, ptr noundef %a10, i64 noundef %a11) #0 {
start:
  %r0 = alloca [16 x i8], align 8
  store ptr %a0, ptr %r0, align 8
  %r1 = getelementptr i8, ptr %r0, i64 8
  store i64 %a1, ptr %r1, align 8
  %r2 = alloca [16 x i8], align 8
  store ptr %a2, ptr %r2, align 8
  %r3 = getelementptr i8, ptr %r2, i64 8
  store i64 %a3, ptr %r3, align 8
  %r4 = alloca [16 x i8], align 8
  store ptr %a5, ptr %r4, align 8
  %r5 = getelementptr i8, ptr %r4, i64 8
  store i64 %a6, ptr %r5, align 8
  %r6 = alloca [16 x i8], align 8
  store ptr %a7, ptr %r6, align 8
  %r7 = getelementptr i8, ptr %r6, i64 8
  store i64 %a8, ptr %r7, align 8
  %r8 = alloca [16 x i8], align 8
  store ptr %a10, ptr %r8, align 8
  %r9 = getelementptr i8, ptr %r8, i64 8
  store i64 %a11, ptr %r9, align 8
  %r10 = call i1 @"penne_c::penne_parse_type"(ptr %r0, ptr %r2, i32 %a4, ptr %r4, ptr %r6, i32 %a9, ptr %r8)
  ret i1 %r10
}

define noundef zeroext i1 @penne_parse_word_declaration(ptr noundef %a0, i64 noundef %a1, ptr noundef %a2, i64 noundef %a3, i32 noundef %a4, ptr noundef %a5, i64 noundef %a6, ptr noundef %a7, i64 noundef %a8, i32 noundef %a9, i32 noundef %a10, i32 noundef %a11, i8 noundef %a12, ptr noundef %a13, i64 noundef %a14) #0 {
start:
  %r0 = alloca [16 x i8], align 8
  store ptr %a0, ptr %r0, align 8
  %r1 = getelementptr i8, ptr %r0, i64 8
  store i64 %a1, ptr %r1, align 8
  %r2 = alloca [16 x i8], align 8
  store ptr %a2, ptr %r2, align 8
  %r3 = getelementptr i8, ptr %r2, i64 8
  store i64 %a3, ptr %r3, align 8
  %r4 = alloca [16 x i8], align 8
  store ptr %a5, ptr %r4, align 8
  %r5 = getelementptr i8, ptr %r4, i64 8
  store i64 %a6, ptr %r5, align 8
  %r6 = alloca [16 x i8], align 8
  store ptr %a7, ptr %r6, align 8
  %r7 = getelementptr i8, ptr %r6, i64 8
  store i64 %a8, ptr %r7, align 8
  %r8 = alloca [16 x i8], align 8
  store ptr %a13, ptr %r8, align 8
  %r9 = getelementptr i8, ptr %r8, i64 8
  store i64 %a14, ptr %r9, align 8
  %r10 = call i1 @"penne_c::penne_parse_word_declaration"(ptr %r0, ptr %r2, i32 %a4, ptr %r4, ptr %r6, i32 %a9, i32 %a10, i32 %a11, i8 %a12, ptr %r8)
  ret i1 %r10
}
