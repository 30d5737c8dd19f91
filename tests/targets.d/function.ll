define internal noundef i64 @"core::num::wrapping_add_u64"(i64 noundef %a0, i64 noundef %a1) #0 {
start:
  %r0 = alloca i64, align 8
  %r1 = alloca i64, align 8
  %r2 = getelementptr i8, ptr %r0, i64 8
  %r6 = sub nuw i64 -1, %a1
  store i64 %r6, ptr %r1, align 8
  %r7 = load i64, ptr %r1, align 8
  %r8 = add nuw i64 %r7, %a0
  call void @llvm.memmove.p0.p0.i64(ptr %r0, ptr %r1, i64 8, i1 false)
  ret i64 %r8
}
