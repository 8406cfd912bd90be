#!/bin/sh
# Each example compiles to the assembly that stands beside it, and where a `.run` stands there too, a run of
# it puts nothing and tells that line. Where a `.refused` stands beside it, it is refused with that line.
cd "$(dirname "$0")/.." || exit 1
made=$(mktemp -d) || exit 1
trap 'rm -rf "$made"' EXIT

same() {
  cmp -s "$1" "$2" || { echo "$3: this is not $1:"; diff "$1" "$2"; exit 1; }
}

refused() {
  ./llc compile < "$1" > "$made/out" 2> "$made/err"
  status=$?
  [ "$status" = 1 ] || { echo "$1: llc ended with status $status"; exit 1; }
  same /dev/null "$made/out" "$1"
  same "$2" "$made/err" "$1"
}

for module in examples/*.ll; do
  example=${module%.ll}
  if [ -e "$example.refused" ]; then
    refused "$module" "$example.refused"
    continue
  fi
  ./llc compile < "$module" > "$made/text" || { echo "$module: llc ended with status $?"; exit 1; }
  same "$example.s" "$made/text" "$module"
  [ -e "$example.run" ] || continue
  ./llc run < "$module" > "$made/out" 2> "$made/err" || { echo "$module: its run ended with status $?"; exit 1; }
  same /dev/null "$made/out" "$module"
  same "$example.run" "$made/err" "$module"
done
