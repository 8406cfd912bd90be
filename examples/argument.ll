define i64 @second(i64 %first, i64 %second, i64 %third) {
  ret i64 %second
}
