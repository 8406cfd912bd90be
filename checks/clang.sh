#!/bin/sh
# What clang writes of the programs beside it, at two levels of optimisation, with what debuggers want and without, is
# read: llc compiles it, or says of a line that it is not built yet. Where clang and LLVM aren't installed, nothing is
# checked.
cd "$(dirname "$0")/.." || exit 1
if ! command -v clang >/dev/null || ! command -v opt >/dev/null; then
  echo "clang: clang and opt are not here, so nothing is checked"; exit 0
fi
made=$(mktemp -d) || exit 1
trap 'rm -rf "$made"' EXIT

# Compilers before LLVM 15 write the types that pointers point to, which opt takes away.
text_of() {
  if grep -q '[0-9}]\*' "$1"; then opt -S --opaque-pointers -o - "$1"; else cat "$1"; fi
}

read_texts=0
for program in checks/clang/*.c; do
  for options in -O0 -O2 '-O0 -g' '-O2 -g'; do
    # Types of vectors are left out, so loops stay as they are written.
    # shellcheck disable=SC2086
    clang -S -emit-llvm $options -fno-vectorize -fno-slp-vectorize -o "$made/written.ll" "$program" \
      && text_of "$made/written.ll" > "$made/text.ll" || { echo "clang: $program $options: no text"; exit 1; }
    ./llc compile < "$made/text.ll" > "$made/out" 2> "$made/err"
    status=$?
    case "$status $(cat "$made/err")" in
      '0 ' | '1 llc: refused 18 NotYet '*) read_texts=$((read_texts + 1)) ;;
      *) echo "clang: $program $options: status $status, $(cat "$made/err")"; exit 1 ;;
    esac
  done
done
echo "clang: $read_texts texts are read"
