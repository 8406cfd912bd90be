; Only one of the two paths to the last block passes the definition of %twice.
define i64 @pick(i1 %c, i64 %x) {
entry:
  br i1 %c, label %double, label %join
double:
  %twice = add i64 %x, %x
  br label %join
join:
  ret i64 %twice
}
