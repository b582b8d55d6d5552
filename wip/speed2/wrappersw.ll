define noundef zeroext i1 @penne_words_parse_expression(ptr noundef %a0, i64 noundef %a1, ptr noundef %a2, i64 noundef %a3, i32 noundef %a4, ptr noundef %a5, i64 noundef %a6, i32 noundef %a7, ptr noundef %a8, i64 noundef %a9) #0 {
start:
  %s0 = alloca [16 x i8], align 8
  store ptr %a0, ptr %s0, align 8
  %t0 = getelementptr i8, ptr %s0, i64 8
  store i64 %a1, ptr %t0, align 8
  %s1 = alloca [16 x i8], align 8
  store ptr %a2, ptr %s1, align 8
  %t1 = getelementptr i8, ptr %s1, i64 8
  store i64 %a3, ptr %t1, align 8
  %s2 = alloca [16 x i8], align 8
  store ptr %a5, ptr %s2, align 8
  %t2 = getelementptr i8, ptr %s2, i64 8
  store i64 %a6, ptr %t2, align 8
  %s3 = alloca [16 x i8], align 8
  store ptr %a8, ptr %s3, align 8
  %t3 = getelementptr i8, ptr %s3, i64 8
  store i64 %a9, ptr %t3, align 8
  %res = call i1 @"penne_words_c::penne_words_parse_expression"(ptr %s0, ptr %s1, i32 %a4, ptr %s2, i32 %a7, ptr %s3)
  ret i1 %res
}

define noundef zeroext i1 @penne_words_parse_type(ptr noundef %a0, i64 noundef %a1, ptr noundef %a2, i64 noundef %a3, i32 noundef %a4, ptr noundef %a5, i64 noundef %a6, i32 noundef %a7, ptr noundef %a8, i64 noundef %a9) #0 {
start:
  %s0 = alloca [16 x i8], align 8
  store ptr %a0, ptr %s0, align 8
  %t0 = getelementptr i8, ptr %s0, i64 8
  store i64 %a1, ptr %t0, align 8
  %s1 = alloca [16 x i8], align 8
  store ptr %a2, ptr %s1, align 8
  %t1 = getelementptr i8, ptr %s1, i64 8
  store i64 %a3, ptr %t1, align 8
  %s2 = alloca [16 x i8], align 8
  store ptr %a5, ptr %s2, align 8
  %t2 = getelementptr i8, ptr %s2, i64 8
  store i64 %a6, ptr %t2, align 8
  %s3 = alloca [16 x i8], align 8
  store ptr %a8, ptr %s3, align 8
  %t3 = getelementptr i8, ptr %s3, i64 8
  store i64 %a9, ptr %t3, align 8
  %res = call i1 @"penne_words_c::penne_words_parse_type"(ptr %s0, ptr %s1, i32 %a4, ptr %s2, i32 %a7, ptr %s3)
  ret i1 %res
}

define noundef zeroext i1 @penne_words_parse_constant_declaration(ptr noundef %a0, i64 noundef %a1, ptr noundef %a2, i64 noundef %a3, i32 noundef %a4, ptr noundef %a5, i64 noundef %a6, i32 noundef %a7, i32 noundef %a8, i32 noundef %a9, ptr noundef %a10, i64 noundef %a11) #0 {
start:
  %s0 = alloca [16 x i8], align 8
  store ptr %a0, ptr %s0, align 8
  %t0 = getelementptr i8, ptr %s0, i64 8
  store i64 %a1, ptr %t0, align 8
  %s1 = alloca [16 x i8], align 8
  store ptr %a2, ptr %s1, align 8
  %t1 = getelementptr i8, ptr %s1, i64 8
  store i64 %a3, ptr %t1, align 8
  %s2 = alloca [16 x i8], align 8
  store ptr %a5, ptr %s2, align 8
  %t2 = getelementptr i8, ptr %s2, i64 8
  store i64 %a6, ptr %t2, align 8
  %s3 = alloca [16 x i8], align 8
  store ptr %a10, ptr %s3, align 8
  %t3 = getelementptr i8, ptr %s3, i64 8
  store i64 %a11, ptr %t3, align 8
  %res = call i1 @"penne_words_c::penne_words_parse_constant_declaration"(ptr %s0, ptr %s1, i32 %a4, ptr %s2, i32 %a7, i32 %a8, i32 %a9, ptr %s3)
  ret i1 %res
}

define noundef zeroext i1 @penne_words_parse_struct_declaration(ptr noundef %a0, i64 noundef %a1, ptr noundef %a2, i64 noundef %a3, i32 noundef %a4, ptr noundef %a5, i64 noundef %a6, i32 noundef %a7, i32 noundef %a8, i32 noundef %a9, ptr noundef %a10, i64 noundef %a11) #0 {
start:
  %s0 = alloca [16 x i8], align 8
  store ptr %a0, ptr %s0, align 8
  %t0 = getelementptr i8, ptr %s0, i64 8
  store i64 %a1, ptr %t0, align 8
  %s1 = alloca [16 x i8], align 8
  store ptr %a2, ptr %s1, align 8
  %t1 = getelementptr i8, ptr %s1, i64 8
  store i64 %a3, ptr %t1, align 8
  %s2 = alloca [16 x i8], align 8
  store ptr %a5, ptr %s2, align 8
  %t2 = getelementptr i8, ptr %s2, i64 8
  store i64 %a6, ptr %t2, align 8
  %s3 = alloca [16 x i8], align 8
  store ptr %a10, ptr %s3, align 8
  %t3 = getelementptr i8, ptr %s3, i64 8
  store i64 %a11, ptr %t3, align 8
  %res = call i1 @"penne_words_c::penne_words_parse_struct_declaration"(ptr %s0, ptr %s1, i32 %a4, ptr %s2, i32 %a7, i32 %a8, i32 %a9, ptr %s3)
  ret i1 %res
}

define noundef zeroext i1 @penne_words_parse_word_declaration(ptr noundef %a0, i64 noundef %a1, ptr noundef %a2, i64 noundef %a3, i32 noundef %a4, ptr noundef %a5, i64 noundef %a6, i32 noundef %a7, i32 noundef %a8, i32 noundef %a9, i8 noundef zeroext %a10, ptr noundef %a11, i64 noundef %a12) #0 {
start:
  %s0 = alloca [16 x i8], align 8
  store ptr %a0, ptr %s0, align 8
  %t0 = getelementptr i8, ptr %s0, i64 8
  store i64 %a1, ptr %t0, align 8
  %s1 = alloca [16 x i8], align 8
  store ptr %a2, ptr %s1, align 8
  %t1 = getelementptr i8, ptr %s1, i64 8
  store i64 %a3, ptr %t1, align 8
  %s2 = alloca [16 x i8], align 8
  store ptr %a5, ptr %s2, align 8
  %t2 = getelementptr i8, ptr %s2, i64 8
  store i64 %a6, ptr %t2, align 8
  %s3 = alloca [16 x i8], align 8
  store ptr %a11, ptr %s3, align 8
  %t3 = getelementptr i8, ptr %s3, i64 8
  store i64 %a12, ptr %t3, align 8
  %res = call i1 @"penne_words_c::penne_words_parse_word_declaration"(ptr %s0, ptr %s1, i32 %a4, ptr %s2, i32 %a7, i32 %a8, i32 %a9, i8 %a10, ptr %s3)
  ret i1 %res
}
