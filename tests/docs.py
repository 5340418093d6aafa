#!/usr/bin/env python3
"""Checks the documents: each link leads to a file of the repository, and each `name` in a link's text is that file's own or stands in it as
a whole word, in .antt and .rt files outside of comments and imports; docs/TRACE.md links every wrong version, in must-fail/ and in wrong/,
and few are left to the gate."""
import pathlib
import re
import sys

ROOT = pathlib.Path(__file__).resolve().parents[1]
LINK = re.compile(r"\[([^\]]*)\]\(([^)#]+)[^)]*\)")
# A character that a name of Rattle, Antt, C, Rust or Python can have. A word ends where none follows.
OF_NAME = r"[\w'·-]"
COMMENT = {".antt": "--", ".rt": "//"}
MOST_IN_GATE = 45


def said(file):
    """The text of a file, without comments and imports where it is .antt or .rt."""
    text = file.read_text(errors="replace")
    mark = COMMENT.get(file.suffix)
    return re.sub(rf"(?m)^(?:ghost )?use .*|(?<!\S){mark}.*", "", text) if mark else text


def stands(name, text):
    """Whether a name stands in a text as a whole word."""
    before = rf"(?<!{OF_NAME})" if re.match(OF_NAME, name) else ""
    after = rf"(?!{OF_NAME})" if re.match(OF_NAME, name[-1]) else ""
    return re.search(before + re.escape(name) + after, text) is not None


def faults(page):
    text = page.read_text()
    for words, target in LINK.findall(text):
        if "://" in target:
            continue
        file = (page.parent / target).resolve()
        if not file.is_file():
            yield f"{page.name}: no file {target}"
            continue
        content = said(file)
        for name in re.findall(r"`([^`]+)`", words):
            if name != file.name and not stands(name, content):
                yield f"{page.name}: no {name} in {target}"


def untraced():
    traced = (ROOT / "docs" / "TRACE.md").read_text()
    for folder in ("must-fail", "wrong"):
        for file in sorted(ROOT.glob(f"crates/*/{folder}/*")):
            name = file.relative_to(ROOT)
            if file.suffix != ".edit":
                yield f"{name}: not an edit"
            elif f"(../{name})" not in traced:
                yield f"TRACE.md: no link to {name}"


def main():
    pages = [ROOT / "README.md"] + sorted((ROOT / "docs").rglob("*.md"))
    cold = len(list(ROOT.glob("crates/*/must-fail/*.edit")))
    warm = len(list(ROOT.glob("crates/*/wrong/*.edit")))
    found = [fault for page in pages for fault in faults(page)] + list(untraced())
    if cold > MOST_IN_GATE:
        found.append(f"{cold} edits in must-fail/, and at most {MOST_IN_GATE} are wanted")
    if found:
        sys.exit("\n".join(found))
    print(f"documents: the links of {len(pages)} pages are right, and all wrong versions are traced, {cold} in must-fail/ and {warm} in wrong/")


if __name__ == "__main__":
    main()
