"""Fails where a clause that the page names does not stand on the function that it names."""
import re
import sys
from pathlib import Path

CLAIM = re.compile(r"^- `(?P<crate>[a-z0-9_]+)::(?P<function>[A-Za-z0-9_:]+)`: (?P<clauses>`[^`]+`(?:, `[^`]+`)*)")


def functions(crate):
    """Each function of a crate with its clauses, and `TYPE::function` for one of an impl."""
    found = {}
    for source in sorted(Path("crates", crate, "src").rglob("*.rt")):
        owner = None
        lines = source.read_text().splitlines()
        for number, line in enumerate(lines):
            head = re.match(r"^(?:impl|pub trait)\b(.*)", line)
            if head:
                owner = re.sub(r"<[^<>]*(?:<[^<>]*>[^<>]*)*>", "", head.group(1).split(" for ")[-1]).split()[0].strip("{:")
            elif line.startswith("}"):
                owner = None
            name = re.match(r"^\s*(?:pub(?:\([a-z]+\))? )?fn ([a-z0-9_]+)", line)
            if not name:
                continue
            clauses = set()
            for after in lines[number:]:
                clause = re.match(r"^\s*ensures(?: ([a-z0-9_]+))? \{", after)
                if clause:
                    clauses.add(clause.group(1) or "-")
                if re.match(r"^\s*\{\s*\}?$", after) or after.rstrip().endswith("};") or (after is lines[number] and after.endswith("{")):
                    break
            names = [name.group(1)] + ([f"{owner}::{name.group(1)}"] if owner else [])
            for key in names:
                found.setdefault(key, set()).update(clauses)
    return found


def main(page):
    known, missing, count = {}, [], 0
    for number, line in enumerate(Path(page).read_text().splitlines(), 1):
        claim = CLAIM.match(line)
        if not claim:
            if line.startswith("- `") and "::" in line.split("`")[1]:
                missing.append(f"{page}:{number}: this claim is not in the form of the page")
            continue
        crate, function = claim.group("crate"), claim.group("function")
        clauses = known.setdefault(crate, functions(crate)).get(function)
        for clause in re.findall(r"`([^`]+)`", claim.group("clauses")):
            count += 1
            if clauses is None or clause not in clauses:
                missing.append(f"{page}:{number}: {crate}::{function} has no clause {clause}")
    print("\n".join(missing) if missing else f"claims: {count} clauses stand")
    return 1 if missing or not count else 0


sys.exit(main(sys.argv[1]))
