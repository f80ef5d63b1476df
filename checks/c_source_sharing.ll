; A module for checks/c_source: functions that answer wrongly if bin/ll2c puts two locals in one place that must lie apart, or
; makes a result where its argument still lies. checks/c_source_sharing.c calls them.
target triple = "aarch64-unknown-linux-gnu"

define internal noundef i8 @"she_aes::choice::chosen"() #0 {
start:
  %r0 = alloca i8, align 1
  store i8 0, ptr %r0, align 1
  %r1 = load i8, ptr %r0, align 1
  ret i8 %r1
}

; two bytes, the other way round: the second byte of the source is read after the first one of the result is written
define internal void @"turned"(ptr noundef %a0, ptr noundef %a1) #0 {
start:
  %r0 = getelementptr i8, ptr %a1, i64 1
  %r1 = load i8, ptr %r0, align 1
  store i8 %r1, ptr %a0, align 1
  %r2 = load i8, ptr %a1, align 1
  %r3 = getelementptr i8, ptr %a0, i64 1
  store i8 %r2, ptr %r3, align 1
  ret void
}

; the same, made in a local and then copied
define internal void @"made_in_a_local"(ptr noundef %a0, ptr noundef %a1) #0 {
start:
  %r0 = alloca [2 x i8], align 1
  call void @"turned"(ptr %r0, ptr %a1)
  call void @llvm.memmove.p0.p0.i64(ptr %a0, ptr %r0, i64 2, i1 false)
  ret void
}

; two bytes as they are
define internal void @"copied"(ptr noundef %a0, ptr noundef %a1) #0 {
start:
  call void @llvm.memmove.p0.p0.i64(ptr %a0, ptr %a1, i64 2, i1 false)
  ret void
}

; the first of the two bytes that are turned, which are made in a local
define internal void @"first_of_turned"(ptr noundef %a0, ptr noundef %a1) #0 {
start:
  %r0 = alloca [2 x i8], align 1
  call void @"turned"(ptr %r0, ptr %a1)
  call void @llvm.memmove.p0.p0.i64(ptr %a0, ptr %r0, i64 1, i1 false)
  ret void
}

; the first of the two bytes that are turned, which are made in a local
define internal void @"first_of_turned_too"(ptr noundef %a0, ptr noundef %a1) #0 {
start:
  %r0 = alloca [2 x i8], align 1
  call void @"turned"(ptr %r0, ptr %a1)
  call void @llvm.memmove.p0.p0.i64(ptr %a0, ptr %r0, i64 1, i1 false)
  ret void
}

; a byte as it is
define internal void @"one_byte"(ptr noundef %a0, ptr noundef %a1) #0 {
start:
  %r0 = load i8, ptr %a1, align 1
  store i8 %r0, ptr %a0, align 1
  ret void
}

; a call reads one local and writes the other
define noundef i32 @a_call_touches_both(ptr noundef %a0, ptr noundef %a1) #0 {
start:
  %r0 = alloca [2 x i8], align 1
  %r1 = alloca [2 x i8], align 1
  call void @"copied"(ptr %r0, ptr %a0)
  call void @"turned"(ptr %r1, ptr %r0)
  call void @"copied"(ptr %a1, ptr %r1)
  ret i32 0
}

; the result is the argument, too
define noundef i32 @the_result_is_the_argument(ptr noundef %a0, ptr noundef %a1) #0 {
start:
  %r0 = alloca [2 x i8], align 1
  call void @"copied"(ptr %r0, ptr %a0)
  call void @"made_in_a_local"(ptr %r0, ptr %r0)
  call void @"copied"(ptr %a1, ptr %r0)
  ret i32 0
}

; the byte behind a result is still to be written, by a copy of a local that is there before
define noundef i32 @a_local_is_wanted_behind_a_result(ptr noundef %a0, ptr noundef %a1) #0 {
start:
  %r0 = alloca [2 x i8], align 1
  %r1 = alloca [1 x i8], align 1
  %r2 = getelementptr i8, ptr %a0, i64 1
  call void @"one_byte"(ptr %r1, ptr %r2)
  call void @"first_of_turned"(ptr %r0, ptr %a0)
  %r3 = getelementptr i8, ptr %r0, i64 1
  call void @llvm.memmove.p0.p0.i64(ptr %r3, ptr %r1, i64 1, i1 false)
  call void @"copied"(ptr %a1, ptr %r0)
  ret i32 0
}

; the byte behind a result is wanted as it was
define noundef i32 @a_byte_stays_behind_a_result(ptr noundef %a0, ptr noundef %a1) #0 {
start:
  %r0 = alloca [2 x i8], align 1
  call void @"copied"(ptr %r0, ptr %a0)
  call void @"first_of_turned_too"(ptr %r0, ptr %a0)
  call void @"copied"(ptr %a1, ptr %r0)
  ret i32 0
}

declare void @llvm.memmove.p0.p0.i64(ptr writeonly captures(none), ptr readonly captures(none), i64, i1 immarg) #1

attributes #0 = { nounwind }
attributes #1 = { nocallback nofree nounwind willreturn memory(argmem: readwrite) }
