#!/bin/sh
# Reading a large module takes no more machine instructions than LLVM's `opt` takes to read and verify it, and checking it no
# more than reading it. The memory is at most 20 times its text; that of a long initialiser at most 30 times. Instructions are
# counted where valgrind and LLVM are installed.
cd "$(dirname "$0")/.." || exit 1
exec python3 checks/reading.py
