; The start of a program is the linker's to define.
define void @_start() {
  ret void
}
