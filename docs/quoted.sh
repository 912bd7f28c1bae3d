#!/bin/sh
# Holds the README's quick start to the program that is compiled: each quoted block of Rattle stands in it, line for line.
set -eu
cd "$(dirname "$0")/.."
python3 - <<'END'
import sys
program = [line.strip() for line in open("crates/quickstart/src/main.rt", encoding="utf-8")]
part = open("README.md", encoding="utf-8").read().split("**Rattle.**")[1].split("**C.**")[0]
blocks, block = [], []
for line in part.split("\n"):
    if line.startswith("    "):
        block.append(line.strip())
    elif block:
        blocks.append(block)
        block = []
for block in blocks:
    if not any(program[k : k + len(block)] == block for k in range(len(program))):
        sys.exit("quoted.sh: the README quotes what crates/quickstart does not have:\n" + "\n".join(block))
print(f"the README quotes {len(blocks)} parts of crates/quickstart as they are")
END
