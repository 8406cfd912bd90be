#!/usr/bin/env python3
"""Tells what proving each crate costs, in processor seconds.

usage: checks/costs.py [--write] COMMAND ..      for example: checks/costs.py --write rt ci --anew

It runs the command, looks twice a second at the prover's processes below it, and prints a table of the crates: what
their proofs, their proofs with tests and their must-fail edits took, and all else under `other`. A process's last half
second may be missed. `--write` puts the table into docs/proving.md, between its two marks.
"""
import collections
import os
import re
import subprocess
import sys
import time

TICKS = os.sysconf("SC_CLK_TCK")
TOP = os.path.dirname(os.path.dirname(os.path.realpath(__file__)))
PAGE, BEGIN, END = f"{TOP}/docs/proving.md", "<!-- costs: begin -->\n", "<!-- costs: end -->\n"
KINDS = ["proof", "tests", "edits"]


def kind_of(words, folder):
    """What a prover's process is for, and its crate; none of one that only prints or lays out."""
    if "--crate-name" not in words or words[1] not in ("build", "check"):
        return None
    crate = words[words.index("--crate-name") + 1]
    if "/rt-edit" in folder or any("/rt-edit" in it for it in words):
        return crate, "edits"
    return crate, "tests" if "--test" in words else "proof"


def parents():
    """Each process's parent, by their numbers."""
    found = {}
    for name in os.listdir("/proc"):
        if name.isdigit():
            try:
                with open(f"/proc/{name}/stat") as it:
                    found[int(name)] = int(it.read().rpartition(")")[2].split()[1])
            except OSError:
                continue
    return found


def is_below(number, top, parent_of):
    """Whether a process was started by another, or by one that this other started, and so on."""
    while number in parent_of and number != top:
        number = parent_of[number]
    return number == top


def processes(top):
    """The prover's processes below one: for each its number with its start, what it is for, and its processor seconds."""
    parent_of = parents()
    for name in os.listdir("/proc"):
        if not name.isdigit() or not is_below(int(name), top, parent_of):
            continue
        try:
            with open(f"/proc/{name}/cmdline", "rb") as it:
                words = it.read().decode(errors="replace").split("\0")
            if os.path.basename(words[0]) != "rattle":
                continue
            with open(f"/proc/{name}/stat") as it:
                fields = it.read().rpartition(")")[2].split()
            what = kind_of(words, os.readlink(f"/proc/{name}/cwd"))
        except (OSError, IndexError):
            continue
        if what:
            yield (name, fields[19]), what, (int(fields[11]) + int(fields[12])) / TICKS


def table(seen, total):
    """The rows of the crates, the most expensive first, and what is left of the total."""
    by = collections.Counter()
    for what, seconds in seen.values():
        by[what] += seconds
    crates = sorted({crate for crate, _ in by}, key=lambda c: -sum(by[c, k] for k in KINDS))
    rows = ["| Crate | Proof | With its tests | Must-fail edits | In all |", "|---|---|---|---|---|"]
    for crate in crates:
        parts = [by[crate, kind] for kind in KINDS]
        rows.append(f"| `{crate}` | " + " | ".join(f"{it:.0f}" for it in [*parts, sum(parts)]) + " |")
    sums = [sum(by[crate, kind] for crate in crates) for kind in KINDS]
    rows.append("| all | " + " | ".join(f"{it:.0f}" for it in [*sums, sum(sums)]) + " |")
    rows.append(f"| other | | | | {max(0.0, total - sum(sums)):.0f} |")
    return "\n".join(rows) + "\n"


def main():
    words = sys.argv[1:]
    writes = words[:1] == ["--write"]
    words = words[writes:]
    if not words:
        print(__doc__.strip())
        return 2
    seen = {}
    run = subprocess.Popen(words, cwd=TOP)
    while run.poll() is None:
        for key, what, seconds in processes(run.pid):
            seen[key] = what, seconds
        time.sleep(0.5)
    spent = os.times()
    text = table(seen, spent.children_user + spent.children_system)
    print(text, end="")
    if writes:
        with open(PAGE) as it:
            page = it.read()
        if BEGIN not in page or END not in page:
            print(f"{PAGE} lacks the marks", file=sys.stderr)
            return 1
        page = page[: page.index(BEGIN) + len(BEGIN)] + text + page[page.index(END) :]
        with open(PAGE, "w") as it:
            it.write(page)
    return run.returncode


sys.exit(main())
