; A function and a variable of one name: the later one of the text is told.
define i32 @answer() {
  ret i32 42
}

@answer = global i32 42
