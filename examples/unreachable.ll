; No path comes to the second block, so it is dropped.
define i64 @seven() {
  ret i64 7
never:
  ret i64 8
}
