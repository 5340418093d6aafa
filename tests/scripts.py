#!/usr/bin/env python3
"""Tests what a newcomer sees of the scripts report, library, bench/run and bench/picture, with a stand-in for rt that proves nothing."""
import os
import pathlib
import pty
import re
import shutil
import subprocess
import sys
import tempfile
import xml.etree.ElementTree

ROOT = pathlib.Path(__file__).resolve().parents[1]
# Builds what the scripts use next, in the folder of a crate, and fails at the command and crate that it is told to.
RT = """#!/bin/sh
crate=$(basename "$PWD")
mkdir -p out
case "$* $crate" in
"$FAILING") echo "not proved" && exit 1 ;;
"run report") printf '#!/bin/sh\\nwc -c\\n' >out/report && chmod +x out/report && ./out/report ;;
"lib c_api_c") : >out/libc_api_c.a ;;
esac
"""
FIRST = "report: proving and building it first, which takes some minutes\n"
# What bench/picture needs of the bench's output.
GROWTH = """
## Growth, {}, GB/s

Some words.

| Size | Checksum: library | Rust | fastest Rust | Digest: library | Rust | fastest Rust | Reading alone |
|---|---:|---:|---:|---:|---:|---:|---:|
| 64 KiB | 99.5 | 102 | 102 | 0.382 | 0.277 | 0.391 | 209 |
| 1 MiB | 64.9 | 64.1 | 60.7 | 0.376 | 0.274 | 0.385 | 74.3 |
"""
BANDWIDTH = "\nMemory bandwidth: one core 25.7 GB/s, all 2 cores 28.0 GB/s.\n"


def drained(end):
    """All that was written to the other end of a pipe or terminal; that of a terminal ends with an error."""
    said = b""
    try:
        while part := os.read(end, 4096):
            said += part
    except OSError:
        pass
    os.close(end)
    return said.decode().replace("\r\n", "\n")


def run(root, *words, terminal=False, failing="nothing", fresh=True):
    """Runs a script, as in a fresh clone or not. Gives its status, its standard output, and its standard error, a pipe or a terminal."""
    if fresh:
        for folder in (root / "target", *root.glob("crates/*/out")):
            shutil.rmtree(folder, ignore_errors=True)
    env = dict(os.environ, PATH=f"{root / 'bin'}:{os.environ['PATH']}", FAILING=failing)
    ours, theirs = pty.openpty() if terminal else os.pipe()
    ended = subprocess.run(words, cwd=root, env=env, stdin=subprocess.DEVNULL, stdout=subprocess.PIPE, stderr=theirs)
    os.close(theirs)
    return ended.returncode, ended.stdout.decode(), drained(ours)


def expect(what, got, wanted):
    if got != wanted:
        sys.exit(f"{what}: {got!r}, and should be {wanted!r}")


def shown(*lines):
    """Lines that stand on a terminal one after the other, in the same place."""
    return "".join(f"\r\033[K{line}" for line in lines)


def test_help(root):
    for script in ("./report", "./library", "bench/run", "bench/picture"):
        for word in ("-h", "--help"):
            status, out, said = run(root, script, word)
            expect(f"{script} {word}", (status, out.startswith(f"usage: {script}"), said), (0, True, ""))


def test_report(root):
    expect("report of a directory", run(root, "./report", "samples"), (1, "", "report: cannot read samples: it is a directory\n"))
    expect("report of a missing file", run(root, "./report", "nowhere"), (1, "", "report: cannot read nowhere\n"))
    expect("report", run(root, "./report"), (0, "8192\n", FIRST))
    expect("report once more", run(root, "./report", fresh=False), (0, "8192\n", ""))
    os.utime(root / "crates/report/out/report", (0, 0))
    expect("report with a newer source file", run(root, "./report", fresh=False), (0, "8192\n", FIRST))
    expect("report after that", run(root, "./report", fresh=False), (0, "8192\n", ""))
    lines = [f"report: proving {k} of 4: {name}" for k, name in enumerate(("otadata", "sectors", "report_text", "report"), 1)]
    expect("report on a terminal", run(root, "./report", terminal=True), (0, "8192\n", FIRST + shown(*lines, "")))
    fault = "not proved\nreport: failed: rt lib in crates/sectors\n"
    got = run(root, "./report", terminal=True, failing="lib sectors")
    expect("report, not proved, on a terminal", got, (1, "", FIRST + shown(*lines[:2], fault)))


def test_library(root):
    expect("library", run(root, "./library"), (0, "target/staticlib/libota.a\n", ""))
    expect("the archive", (root / "target/staticlib/libota.a").is_file(), True)
    status, out, said = run(root, "./library", terminal=True)
    lines = said.split("\r\033[K")
    expect("library on a terminal", (status, out, lines[0], lines[-1]), (0, "target/staticlib/libota.a\n", "", ""))
    expect("the first line of library", bool(re.fullmatch(r"library: proving 1 of \d+: otadata", lines[1])), True)
    expect("the last line of library", bool(re.fullmatch(r"library: proving (\d+) of \1: c_api_c", lines[-2])), True)
    fault = "not proved\nlibrary: failed: rt lib in crates/c_api_c\n"
    expect("library, not proved", run(root, "./library", failing="lib c_api_c"), (1, "", fault))


def test_picture(root):
    tables = GROWTH.format("warm") + GROWTH.format("from memory")
    (root / "whole.md").write_text(tables + BANDWIDTH)
    status, out, said = run(root, "bench/picture", "whole.md")
    expect("picture", (status, said), (0, ""))
    svg = xml.etree.ElementTree.fromstring(out)
    classes = [element.get("class") for element in svg.iter()]
    expect("the root of the picture", svg.tag, "{http://www.w3.org/2000/svg}svg")
    expect("the curves of the picture", (classes.count("curve"), classes.count("bandwidth")), (13, 1))
    expect("the larger bandwidth", "memory bandwidth: 28.0 GB/s" in out, True)
    expect("picture once more", run(root, "bench/picture", "whole.md"), (0, out, ""))
    for text, fault in (
        (BANDWIDTH, "no heading Growth, warm, GB/s"),
        (GROWTH.format("warm") + BANDWIDTH, "no heading Growth, from memory, GB/s"),
        (tables, "no line of the memory bandwidth"),
        (tables.replace("| Rust |", "| C |") + BANDWIDTH, "no table of two sizes or more under Growth, warm, GB/s, with the columns of bench/run"),
        (tables.replace("64.9", "fast") + BANDWIDTH, "a cell of the table Growth, warm, GB/s is not a size or a number"),
        (tables.replace(" | 74.3", "") + BANDWIDTH, "a row of the table Growth, warm, GB/s lacks a speed"),
    ):
        (root / "part.md").write_text(text)
        expect("picture of a part", run(root, "bench/picture", "part.md"), (1, "", f"picture: part.md: {fault}\n"))
    expect("picture of a missing file", run(root, "bench/picture", "nowhere"), (1, "", "picture: cannot read nowhere\n"))
    drawn = subprocess.run([ROOT / "bench" / "picture"], stdout=subprocess.PIPE, check=True).stdout.decode()
    expect("docs/growth.svg is the picture of docs/BENCH.md", drawn == (ROOT / "docs" / "growth.svg").read_text(), True)


def main():
    with tempfile.TemporaryDirectory() as folder:
        root = pathlib.Path(folder)
        for name in ("report", "library", "crates.txt", "bench/run", "bench/picture", "samples/otadata.bin", "tools/proving.sh"):
            (root / name).parent.mkdir(exist_ok=True)
            shutil.copy(ROOT / name, root / name)
        for name in re.findall(r"(?m)^(\w+)", (root / "crates.txt").read_text()):
            (root / "crates" / name / "src").mkdir(parents=True)
            (root / "crates" / name / "src" / "lib.rt").write_text("")
        (root / "bin").mkdir()
        (root / "bin" / "rt").write_text(RT)
        (root / "bin" / "rt").chmod(0o755)
        test_help(root)
        test_report(root)
        test_library(root)
        test_picture(root)
    print("scripts: report, library, bench/run and bench/picture say what they must")


if __name__ == "__main__":
    main()
