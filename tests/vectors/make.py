#!/usr/bin/env python3
"""Makes the cases of the vectors, and what must be printed for them.

usage: make.py                 writes crates/vectors/stdin and stdout, of the gate's program
       make.py --check         fails where they are not what it makes
       make.py --outside DIR   writes DIR/cases and DIR/lines, of the program that runs the rest through the static library
"""
import pathlib
import sys

import boot
import digests
import layers
import records
from cases import CASE, Cases, GateCases

HERE = pathlib.Path(__file__).resolve().parents[2] / "crates" / "vectors"


def of_gate():
    cases = GateCases()
    records.add_records(cases)
    layers.add_all(cases)
    digests.add_all(cases)
    check = "--check" in sys.argv
    for name, content in (("stdin", bytes(cases.cases)), ("stdout", ("\n".join(cases.lines) + "\n").encode())):
        if not check:
            (HERE / name).write_bytes(content)
        elif (HERE / name).read_bytes() != content:
            sys.exit(f"crates/vectors/{name} is not what tests/vectors/make.py makes")
    print(f"vectors: {len(cases.lines)} cases")


def outside(folder):
    cases = Cases()
    records.add_sectors(cases)
    layers.add_repeated_lists(cases)
    digests.add_whole(cases)
    boots, rewrites = boot.add_all(cases)
    (folder / "cases").write_bytes(bytes(cases.cases))
    (folder / "lines").write_text("\n".join(cases.lines) + "\n")
    print(f"vectors from outside: {len(cases.cases) // CASE} cases, {boots} boots and all cuts of {rewrites} rewrites among them")


if __name__ == "__main__":
    if "--outside" in sys.argv:
        outside(pathlib.Path(sys.argv[sys.argv.index("--outside") + 1]))
    else:
        of_gate()
