#!/bin/sh
# Each clause that docs/claims.md names stands in the code: a line `- \`crate::function\`: \`clause\`, ..`
# names clauses of a function, and \`-\` stands for a lone clause without a name.
cd "$(dirname "$0")/.." || exit 1
exec python3 checks/claims.py docs/claims.md
