; A value is returned that is of another type than the function's result.
define i64 @half(i64 %x) {
  %low = trunc i64 %x to i32
  ret i32 %low
}
