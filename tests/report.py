#!/usr/bin/env python3
"""Runs the compiled program `report` on dumps of otadata, and compares what it prints with the rules: document 01's, and of why a sector
is empty document 02's; and on the samples, with what README shows of them.

usage: report.py PROGRAM     The expected text is made here, independent of the Rattle code.
"""
import pathlib
import re
import subprocess
import sys

ROOT = pathlib.Path(__file__).resolve().parents[1]
sys.path.insert(0, str(ROOT / "tests" / "vectors"))
import records as rules

NAMES = {0: "new", 1: "pending", 2: "valid", 3: "invalid", 4: "aborted", rules.LAST: "undefined"}
REASONS = {2: "blank", 3: "bad sequence", 4: "bad check", 5: "bad state"}  # by the code of the reader's answer
EXAMPLE = """otadata report
sector 0 seq 1 state undefined
sector 1 blank
active 0
"""
FF = b"\xff"


def expected(dump):
    if len(dump) != 8192:
        return "refused 2\n"
    sectors = (dump[:4096], dump[4096:])
    lines = ["otadata report"]
    for number, sector in enumerate(sectors):
        _, code, sequence, state = rules.sector_answer(sector)
        lines.append(f"sector {number} " + (f"seq {sequence} state {NAMES[state]}" if code == 1 else REASONS[code]))
    holder = rules.active(sectors)
    lines.append("active " + ("none" if holder is None else str(holder)))
    return "\n".join(lines) + "\n"


def sector(rec, fill=0xFF):
    return rec + bytes([fill]) * 4064


def dumps():
    label = b"vat row 7".ljust(20, b"\0")
    good = lambda sequence, state: sector(rules.record(sequence, state, label), 0x5A)
    blank = FF * 4096
    example = sector(rules.record(1, rules.LAST)) + blank
    assert expected(example) == EXAMPLE
    yield "document 01's example", example
    yield "blank", blank + blank
    yield "zero", bytes(8192)
    for first in rules.STATES:
        for second in rules.STATES:
            yield f"states {NAMES[first]}, {NAMES[second]}", good(41, first) + good(42, second)
            yield f"a tie, {NAMES[first]}, {NAMES[second]}", good(42, first) + good(42, second)
    yield "largest sequences", good(rules.LAST - 1, 2) + good(rules.LAST - 2, 2)
    yield "sequences that no good record has", good(0, 2) + good(rules.LAST, 2)
    yield "an active none", good(9, 3) + good(10, 4)
    damaged = bytearray(good(9, 2) + good(10, 2))
    damaged[4096 + 28] ^= 1
    yield "a wrong check word", bytes(damaged)
    faulty = {f"faults: {faults or 'none'}": rec for faults, rec, _ in rules.with_faults()}
    faulty |= {"blank": rules.BLANK, "zero": bytes(32), "an erased sequence": FF * 4 + rules.record(9, 2, label)[4:]}
    for name, rec in faulty.items():
        yield f"{name}, in sector 0", sector(rec) + good(42, 2)
        yield f"{name}, in sector 1", good(42, 2) + sector(rec, 0)
        for other, second in faulty.items():
            yield f"{name}; {other}", sector(rec) + sector(second)
    for place in range(32):
        rec = FF * place + b"\xef" + FF * (31 - place)
        yield f"blank but for a bit of byte {place}", sector(rec) + sector(rec, 0x5A)
    for length in (0, 1, 4096, 8191):
        yield f"{length} bytes", example[:length]
    yield "8,193 bytes", example + FF
    yield "16,384 bytes", example + example
    for sample in sorted((ROOT / "samples").iterdir()):
        yield sample.name, sample.read_bytes()


def check_readme():
    """The reports that README shows are those of the samples."""
    shown = re.findall(r"(?m)^\$ \./report *(samples/\S+)?.*\n((?:(?!```|\$).+\n)+)", (ROOT / "README.md").read_text())
    assert len(shown) == 2, shown
    for sample, text in shown:
        dump = (ROOT / (sample or "samples/otadata.bin")).read_bytes()
        assert text == expected(dump), f"README shows of {sample or 'the first sample'}:\n{text}"


def main():
    program, count = sys.argv[1], 0
    check_readme()
    for name, dump in dumps():
        got = subprocess.run([program], input=dump, stdout=subprocess.PIPE, check=True).stdout.decode()
        if got != expected(dump):
            sys.exit(f"report of {name}: printed\n{got}and should print\n{expected(dump)}")
        count += 1
    print(f"report: {count} dumps right")


if __name__ == "__main__":
    main()
