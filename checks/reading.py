#!/usr/bin/env python3
"""Counts what reading and checking take: machine instructions, side by side with LLVM's `opt`, and memory.

The modules are made here: 4,096 functions of ordinary instructions, and one variable with a long initialiser. `llc`
reads each of them whole, checks it, and then refuses it as not built yet, or compiles it. A name that is not defined, at the
end of a module, has it refused before it is checked.
"""
import os
import re
import shutil
import subprocess
import sys
import tempfile

PROGRAM = "crates/llc/out/llc"
OPERATIONS = ["add", "sub", "mul", "and", "or", "xor", "udiv", "urem"]
MOST_TIMES = 20
MOST_TIMES_INITIALISER = 30


class Numbers:
    """A linear congruential generator (Knuth's MMIX constants)."""

    def __init__(self, start):
        self.state = start

    def below(self, bound):
        self.state = (6364136223846793005 * self.state + 1442695040888963407) % 2**64
        return (self.state >> 33) % bound


def function(number, numbers):
    """A function of three blocks that calls one before it."""
    lines = [f"define i64 @f{number}(i64 %v0, i32 %y) {{", "e:", "  %v1 = zext i32 %y to i64"]
    for at in range(2, 10):
        operation = OPERATIONS[numbers.below(8)]
        left, right = numbers.below(at), numbers.below(at)
        lines.append(f"  %v{at} = {operation} i64 %v{left}, %v{right}")
    lines.append(f"  %p = getelementptr [16 x i64], ptr @g, i64 0, i64 {numbers.below(16)}")
    lines += ["  %q = load i64, ptr %p", "  store i64 %v9, ptr %p", "  %c = icmp ult i64 %v9, %q"]
    lines += ["  br i1 %c, label %t, label %u", "t:"]
    if number:
        lines.append(f"  %s = call i64 @f{numbers.below(number)}(i64 %v9, i32 %y)")
    else:
        lines.append("  %s = add i64 %v9, 1")
    return lines + ["  ret i64 %s", "u:", "  ret i64 %v8", "}"]


def functions(count):
    """A module of so many functions."""
    numbers, lines = Numbers(7), ["@g = internal global [16 x i64] zeroinitializer"]
    for number in range(count):
        lines += function(number, numbers)
    return "\n".join(lines) + "\n"


def undefined(text):
    """The module with a function behind it that calls one which is not there."""
    return text + "define void @last() {\n  call void @nowhere()\n  ret void\n}\n"


def initialiser(count):
    """A module of one variable of so many elements."""
    return f"@g = global [{count} x i8] [" + ", ".join(["i8 1"] * count) + "]\n"


def counted(words, stdin):
    """The machine instructions that a command takes, as valgrind counts them."""
    tool = ["valgrind", "--tool=cachegrind", "--cache-sim=no", "--cachegrind-out-file=/dev/null"]
    with open(stdin, "rb") as text:
        said = subprocess.run([*tool, *words], stdin=text, stdout=subprocess.DEVNULL, stderr=subprocess.PIPE, text=True).stderr
    found = re.search(r"I\s+refs:\s+([\d,]+)", said)
    return int(found[1].replace(",", "")) if found else None


# Runs a command and tells its greatest memory in KiB on its last line. A process of its own, since a child's greatest
# memory begins with that of the process that started it, and this one holds the texts.
WATCH = "import resource, subprocess, sys; r = subprocess.run(sys.argv[1:], stdout=subprocess.DEVNULL); print(resource.getrusage(resource.RUSAGE_CHILDREN).ru_maxrss); sys.exit(r.returncode)"


def memory(stdin):
    """The greatest memory of the program while it reads a text, in bytes."""
    with open(stdin, "rb") as text:
        run = subprocess.run([sys.executable, "-c", WATCH, PROGRAM, "compile"], stdin=text, capture_output=True, text=True)
    if run.returncode != 0 and not run.stderr.startswith("llc: refused 18 NotYet"):
        sys.exit(f"reading: the text is not read: {run.stderr}")
    return 1024 * int(run.stdout.split()[-1])


def opt_words():
    """How `opt` reads and verifies a module from standard input, or none where it is not here."""
    opt = shutil.which("opt")
    if not opt:
        return None
    version = re.search(r"version (\d+)", subprocess.run([opt, "--version"], capture_output=True, text=True).stdout)
    opaque = ["--opaque-pointers"] if version and int(version[1]) < 15 else []
    return [opt, *opaque, "-disable-output", "-passes="]


def main():
    if subprocess.run(["./llc"], stdin=subprocess.DEVNULL, capture_output=True).returncode != 2:
        sys.exit("reading: the program could not be built")
    failed = False
    with tempfile.TemporaryDirectory() as room:
        module, variable, refused = f"{room}/module.ll", f"{room}/variable.ll", f"{room}/refused.ll"
        texts = [(module, functions(4096)), (variable, initialiser(2_700_000)), (refused, undefined(functions(4096)))]
        for file, text in texts:
            with open(file, "w") as it:
                it.write(text)
        for what, file, most in [("4,096 functions", module, MOST_TIMES), ("2,700,000 elements", variable, MOST_TIMES_INITIALISER)]:
            times = memory(file) / os.path.getsize(file)
            print(f"reading: {what}: {os.path.getsize(file):,} bytes, memory of {times:.1f} times the text")
            failed |= times > most
        other = opt_words()
        if not shutil.which("valgrind") or not other:
            print("reading: valgrind or opt are not here, so no instructions are counted")
            return failed
        read, whole, theirs = counted([PROGRAM, "compile"], refused), counted([PROGRAM, "compile"], module), counted(other, module)
        if not read or not whole or not theirs:
            sys.exit("reading: valgrind counted nothing")
        print(f"reading: 4,096 functions: {read:,} machine instructions, opt {theirs:,} to read and verify: {read / theirs:.2f} of it")
        print(f"reading: 4,096 functions: {whole - read:,} more to check them, {whole / theirs:.2f} of opt together")
        failed |= whole > theirs or whole - read > read
    return failed


sys.exit(main())
