define i32 @answer() {
  ret i32 42
}
define i64 @nothing(i64 %x) {
  ret i64 0
}
