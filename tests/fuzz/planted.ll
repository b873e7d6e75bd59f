; Promises of two forms, which hold but for certain arguments. See faults.h.
target datalayout = "e-m:e-p270:32:32-p271:32:32-p272:64:64-i64:64-i128:128-f80:128-n8:16:32:64-S128"
target triple = "x86_64-unknown-linux-gnu"

define i64 @planted_sum(i64 %number) #0 {
  %sum = add nuw i64 %number, 1
  ret i64 %sum
}

define i64 @planted_flag(ptr %place) #0 {
  %flag = load i8, ptr %place, align 1, !range !0, !noundef !1
  %number = zext i8 %flag to i64
  ret i64 %number
}

attributes #0 = { nounwind }

!0 = !{i8 0, i8 2}
!1 = !{}
