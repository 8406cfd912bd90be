define i64 @unused(i64 %x) {
  ret i64 %x
}
define i32 @main() {
  ret i32 -7
}
