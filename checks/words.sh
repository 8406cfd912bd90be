#!/bin/sh
# The words that the tests of the encoding and of operations name beside their assembly are those that GNU as for RISC-V
# gives, or LLVM's assembler where that is what is here; and it takes the assembly of the examples. Where neither is
# installed, nothing is checked.
cd "$(dirname "$0")/.." || exit 1
made=$(mktemp -d) || exit 1
trap 'rm -rf "$made"' EXIT

# Assembles $1 into $2: the words of its instructions, one a line.
if as=$(command -v riscv64-linux-gnu-as || command -v riscv64-unknown-elf-as); then
  objcopy=${as%-as}-objcopy
  assemble() {
    "$as" -march=rv64im -mno-relax -o "$made/object" "$1" && "$objcopy" -O binary -j .text "$made/object" "$made/bytes" \
      && od -An -v -tx4 -w4 "$made/bytes" | tr -d ' ' > "$2"
  }
elif command -v llvm-mc >/dev/null && llvm-mc --version | grep -q riscv64; then
  assemble() {
    sed -E 's/\.\+([0-9]+)$/\1/; s/\.(-[0-9]+)$/\1/' "$1" > "$made/distances.s"  # of a branch or a jump
    llvm-mc --triple=riscv64 --mattr=+m --show-encoding "$made/distances.s" > "$made/encoding" \
      && sed -nE 's/.*encoding: \[0x(..),0x(..),0x(..),0x(..)\].*/\4\3\2\1/p' "$made/encoding" > "$2"
  }
else
  echo "words: no assembler for RISC-V is here, so nothing is checked"; exit 0
fi

cat crates/machine_tests/src/encoding.rt crates/machine_tests/src/operations.rt | tr '\n' ' ' \
  | grep -oE '\( *0x[0-9a-f_]+, *"[^"]+"' | sed -E 's/^\( *0x([0-9a-f_]+), *"([^"]+)"/\1 \2/' > "$made/table"
sed -E 's/^[^ ]+ //' "$made/table" > "$made/code.s"
sed -E 's/ .*//; s/_//g' "$made/table" > "$made/expected"
[ -s "$made/table" ] || { echo "words: the tests name none"; exit 1; }
assemble "$made/code.s" "$made/words" || exit 1
cmp -s "$made/expected" "$made/words" || { echo "words: the assembler gives others:"; diff "$made/expected" "$made/words"; exit 1; }
for part in examples/*.s; do
  assemble "$part" "$made/words" || { echo "words: $part is refused"; exit 1; }
done
echo "words: $(wc -l < "$made/table") words agree"
