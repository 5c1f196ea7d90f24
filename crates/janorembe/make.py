#!/usr/bin/env python3
"""make.py: writes `stdout` of this crate from its `stdin`: the streams of the model (its `check`, with mandatory
variables only), a program that was written from document 01 by itself."""
import os
import sys

HERE = os.path.dirname(os.path.abspath(__file__))
sys.dont_write_bytecode = True
sys.path.insert(0, os.path.join(HERE, "../../tools"))
from modelled import load  # noqa: E402


def main():
    if sys.argv[1:]:
        sys.exit(__doc__)
    model = load()
    with open(os.path.join(HERE, "stdin"), "rb") as f:
        text = f.read()
    number, place, frames, diags = model.check(text, 16384, 4194304, 36864)
    if number:
        sys.exit(f"number {number} at {place}")
    kinds = {diags[i + 4] for i in range(0, len(diags), 18)}
    print(f"{len(frames)} frame bytes, {len(diags)} diagnostics bytes, kinds {sorted(kinds)}")
    with open(os.path.join(HERE, "stdout"), "wb") as f:
        f.write(frames + diags)


main()
