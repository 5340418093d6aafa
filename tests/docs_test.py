#!/usr/bin/env python3
"""Tests the script tests/docs.py: on made-up pages it must tell a link that is right from each kind that is not."""
import pathlib
import shutil
import subprocess
import sys
import tempfile

SCRIPT = pathlib.Path(__file__).resolve().parent / "docs.py"

FILES = {
    "crates/one/specs/Law.antt": "-- the law of a sum\nuse lib.ListN.{take}\n\nrecordIn : ℕ\nrecordIn = 1 -- a record\n\nreading-law : list-drop recordIn\n",
    "crates/one/src/lib.rt": "// Nothing to_do.\nghost use lib.Path.{sym};\nuse other::part;\npub use other::give;\n\npub fn read_at(bytes: &[u8]) {} // see top\n",
    "include/one.h": "/* of a node */\nuint32_t one_boot(uint32_t *list);\n",
    "crates/one/wrong/traced.edit": "",
    "docs/TRACE.md": "[traced](../crates/one/wrong/traced.edit)\n",
}
# A page's text, and what is said of it; nothing where it is right.
PAGES = {
    "[`recordIn`, `reading-law`](../crates/one/specs/Law.antt)": "",
    "[`recordIn = 1`, `: ℕ`](../crates/one/specs/Law.antt)": "",
    "[`read_at`, `give`](../crates/one/src/lib.rt), [`read_at(bytes: &[u8])`](../crates/one/src/lib.rt)": "",
    "[`one_boot`, `node`](../include/one.h), [`one.h`](../include/one.h), [any words](../include/one.h), [web](https://a.b/c)": "",
    "[`record`](../crates/one/specs/Law.antt)": "no record in ../crates/one/specs/Law.antt",
    "[`law`](../crates/one/specs/Law.antt)": "no law in ../crates/one/specs/Law.antt",
    "[`drop`](../crates/one/specs/Law.antt)": "no drop in ../crates/one/specs/Law.antt",
    "[`ordIn = 1`](../crates/one/specs/Law.antt)": "no ordIn = 1 in ../crates/one/specs/Law.antt",
    "[`sum`](../crates/one/specs/Law.antt)": "no sum in ../crates/one/specs/Law.antt",
    "[`take`](../crates/one/specs/Law.antt)": "no take in ../crates/one/specs/Law.antt",
    "[`to_do`](../crates/one/src/lib.rt)": "no to_do in ../crates/one/src/lib.rt",
    "[`top`](../crates/one/src/lib.rt)": "no top in ../crates/one/src/lib.rt",
    "[`part`](../crates/one/src/lib.rt)": "no part in ../crates/one/src/lib.rt",
    "[`sym`](../crates/one/src/lib.rt)": "no sym in ../crates/one/src/lib.rt",
    "[`read`](../crates/one/src/lib.rt)": "no read in ../crates/one/src/lib.rt",
    "[`boot`](../include/one.h)": "no boot in ../include/one.h",
    "[words](../include/two.h)": "no file ../include/two.h",
}


def write(root, name, text):
    (root / name).parent.mkdir(parents=True, exist_ok=True)
    (root / name).write_text(text)


def expect(root, what, fault):
    """Runs the script: it must say this fault alone, or none."""
    ended = subprocess.run([sys.executable, root / "tests" / "docs.py"], stdout=subprocess.PIPE, stderr=subprocess.PIPE)
    got = ended.returncode, ended.stderr.decode()
    wanted = (1, f"{fault}\n") if fault else (0, "")
    if got != wanted:
        sys.exit(f"tests/docs.py, {what}: {got!r}, and should be {wanted!r}")


def main():
    with tempfile.TemporaryDirectory() as folder:
        root = pathlib.Path(folder)
        for name, text in FILES.items():
            write(root, name, text)
        write(root, "README.md", "")
        write(root, "tests/docs.py", "")
        shutil.copy(SCRIPT, root / "tests")
        for text, fault in PAGES.items():
            write(root, "docs/PAGE.md", text)
            expect(root, text, fault and f"PAGE.md: {fault}")
        write(root, "docs/PAGE.md", "")
        write(root, "crates/one/wrong/new.edit", "")
        expect(root, "an edit without a link", "TRACE.md: no link to crates/one/wrong/new.edit")
    print(f"tests/docs.py: tells {len(PAGES)} made-up pages apart")


if __name__ == "__main__":
    main()
