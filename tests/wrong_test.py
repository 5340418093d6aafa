#!/usr/bin/env python3
"""Tests the script tests/wrong: in a made-up repository it must tell a refused wrong version from each kind that is not refused."""
import hashlib
import os
import pathlib
import re
import shutil
import subprocess
import sys
import tempfile

SCRIPT = pathlib.Path(__file__).resolve().parent / "wrong"

LOWER = """#![tactic(auto)]

// Gives back what it takes.
ghost use Rattle.std.specs.Prelude.{◌≡◌};

pub fn echo(x: usize) -> usize
    ensures { result ≡ x }
{
    x
}
"""
UPPER = """#![tactic(auto)]

// Small functions, each with its contract.
ghost use Rattle.std.specs.Prelude.{◌≡◌};
ghost use Rattle.upper.specs.Calendar.{Relayed, length_of};

pub fn relay(x: usize) -> usize
    ensures { Relayed x result }
{
    lower::echo(x)
}

// The number of days.
pub fn seven() -> usize
    ensures { result ≡ 7 }
{
    7
}

// The days of a month, in a leap year or not.
pub fn days(leap: u32) -> usize
    ensures { result ≡ length_of leap }
{
    if leap == 0 { 28 } else { 29 }
}
"""
CALENDAR = """-- What the contracts say.
use Rattle.std.specs.Prelude.{ℕ, ◌≡◌, cond, eqb}

unfoldable pub week : ℕ
week = 7

-- what is relayed is what was given
pub record Relayed (x r : ℕ) : Type 0 where
  pub same : r ≡ x

-- the days of February, in a leap year where leap is not 0
unfoldable pub length_of : ℕ → ℕ
length_of leap = cond (eqb leap 0) 28 29
"""
LENGTHS = """-- The two values of length_of.
use Prim.Native.Nat.{ℕ}
use mathlib.Core.Path.{◌≡◌}
use borrow.Author.Tests.{eq-eqb, ne_eqb}
use Rattle.upper.specs.Calendar.{length_of}

pub in_no_leap_year : (leap : ℕ) → leap ≡ 0 → 28 ≡ length_of leap
unfolding length_of
in_no_leap_year leap e = simp (eq-eqb _ _ e)

pub in_a_leap_year : (leap : ℕ) → (leap ≡ 0 → ⊥) → 29 ≡ length_of leap
unfolding length_of
in_a_leap_year leap n = simp (ne_eqb _ _ n)
"""
RELAY = """use Rattle.upper.proofs.relay.Goals as goal

pub returns : goal.returns
returns c = record { same = c.echo.ensures }
"""
DAYS = """use Rattle.upper.proofs.Lengths.{in_no_leap_year, in_a_leap_year}
use Rattle.upper.proofs.days.Goals as goal

pub returns-then-leap-eq0 : goal.returns-then-leap-eq0
returns-then-leap-eq0 c = search in_no_leap_year

pub returns-else-leap-eq0 : goal.returns-else-leap-eq0
returns-else-leap-eq0 c = search in_a_leap_year
"""
BROKEN = """#![tactic(auto)]

// Its function is not proved.
ghost use Rattle.std.specs.Prelude.{◌≡◌};

pub fn nine() -> usize
    ensures { result ≡ 9 }
{
    8
}
"""
ABOVE = """#![tactic(auto)]

// Nothing.
pub fn nothing() {}
"""
FILES = {
    "crates.txt": "# made up\nlower:\nupper: lower\nbroken:\nabove: broken\n",
    "crates/lower/src/lib.rt": LOWER,
    "crates/upper/src/lib.rt": UPPER,
    "crates/upper/proofs/relay/Answers.antt": RELAY,
    "crates/upper/proofs/days/Answers.antt": DAYS,
    "crates/upper/proofs/Lib.antt": "pub mod Lengths\n",
    "crates/upper/proofs/Lengths.antt": LENGTHS,
    "crates/upper/specs/Lib.antt": "pub mod Calendar\n",
    "crates/upper/specs/Calendar.antt": CALENDAR,
    "crates/broken/src/lib.rt": BROKEN,
    "crates/above/src/lib.rt": ABOVE,
}
# Each edit, and words of the line that must be printed of it.
EDITS = {
    "upper/eight": ("file: src/lib.rt\nold:     7\nnew:     8\n", "first at crates/upper/src/lib.rt:"),
    "upper/two_pairs": ("# both\nfile: src/lib.rt\nold: number of days\nnew: nights\nold:     7\nnew:     6\n", "first at crates/upper/src/lib.rt:"),
    "upper/thirty": ("file: src/lib.rt\nold: 29\nnew: 30\n", "first at crates/upper/proofs/days/Answers.antt:"),
    "upper/definition": ("file: specs/Calendar.antt\nold: 28 29\nnew: 28 30\n", "first at crates/upper/proofs/Lengths.antt:"),
    "upper/absent": ("file: src/lib.rt\nold: sixteen\nnew: 16\n", "NOT REFUSED: its 'old:' text stands 0 times in src/lib.rt"),
    "upper/twice": ("file: src/lib.rt\nold: ensures\nnew: requires\n", "NOT REFUSED: its 'old:' text stands 3 times in src/lib.rt"),
    "upper/outside": ("file: src/../../lower/src/lib.rt\nold: echo\nnew: say\n", "NOT REFUSED: no such file in"),
    "upper/empty": ("file: src/lib.rt\nold: days\n", "NOT REFUSED: it has no pair"),
    "upper/another_type": ("file: src/lib.rt\nold:     7\nnew:     true\n", "NOT REFUSED: it does not reach the prover (status 1)"),
    "upper/same": ("file: src/lib.rt\nold: number of days\nnew: nights\n", "NOT REFUSED: the crate is still proved with this edit"),
    "upper/no_call": ("file: src/lib.rt\nold: lower::echo(x)\nnew: x\n", "NOT REFUSED: no fact fails, the proof only no longer fits"),
    "upper/left_over": (
        "file: src/lib.rt\nold: if leap == 0 { 28 } else { 29 }\nnew: if leap != 0 { 29 } else { 28 }\n",
        "NOT REFUSED: no fact fails, the proof only no longer fits: crates/upper/proofs/days/Answers.antt:",
    ),
    "upper/left_over_and_wrong": (
        "file: src/lib.rt\nold: if leap == 0 { 28 } else { 29 }\nnew: if leap != 0 { 28 } else { 29 }\n",
        "NOT REFUSED: no fact fails, the proof only no longer fits: crates/upper/proofs/days/Answers.antt:",
    ),
    "upper/no_name": ("file: proofs/days/Answers.antt\nold: search in_no_leap_year\nnew: search nowhere\n", "NOT REFUSED: no fact fails, the proof only no longer fits"),
    "upper/no_path": ("file: proofs/relay/Answers.antt\nold: c.echo\nnew: d.echo\n", "NOT REFUSED: no fact fails, the proof only no longer fits"),
    "upper/no_field": ("file: proofs/relay/Answers.antt\nold: c.echo\nnew: c.shout\n", "NOT REFUSED: no fact fails, the proof only no longer fits"),
    "upper/unread": ("file: proofs/relay/Answers.antt\nold: c.echo\nnew: (c.echo\n", "NOT REFUSED: no fact fails, the prover cannot read"),
    "upper/unclosed": ("file: specs/Calendar.antt\nold: week = 7\nnew: week = (7\n", "NOT REFUSED: no fact fails, the edited definition is not"),
    "upper/ill_typed": ("file: specs/Calendar.antt\nold: week = 7\nnew: week = ℕ\n", "NOT REFUSED: no fact fails, the edited definition is not"),
    "broken/seven": ("file: src/lib.rt\nold:     8\nnew:     7\n", "NOT REFUSED: the crate is not proved without the edit either"),
    "above/something": ("file: src/lib.rt\nold: nothing\nnew: something\n", "NOT REFUSED: a crate that it uses is not proved"),
}


def write(root):
    for name, text in FILES.items():
        (root / name).parent.mkdir(parents=True, exist_ok=True)
        (root / name).write_text(text)
    for name, (text, _) in EDITS.items():
        crate, edit = name.split("/")
        (root / "crates" / crate / "wrong").mkdir(parents=True, exist_ok=True)
        (root / "crates" / crate / "wrong" / f"{edit}.edit").write_text(text)
    (root / "tests").mkdir()
    shutil.copy(SCRIPT, root / "tests")


def state(root):
    """All files of the repository, with their bytes and when they were written."""
    files = [path for path in root.rglob("*") if path.is_file()]
    return {path: (path.stat().st_mtime_ns, hashlib.sha256(path.read_bytes()).digest()) for path in files}


def tried(root, *words):
    """Runs the script. Gives its status, its last line, and the line of each edit."""
    env = dict(os.environ, XDG_CACHE_HOME=str(root.parent / "cache"))
    ended = subprocess.run([root / "tests" / "wrong", *words], env=env, stdout=subprocess.PIPE, stderr=subprocess.PIPE)
    lines = ended.stdout.decode().splitlines()
    named = {line.split(": ")[0].removeprefix("wrong "): line for line in lines if line.startswith("wrong ")}
    return ended.returncode, "".join(lines[-1:]), named


def expect(what, got, wanted):
    if got != wanted:
        sys.exit(f"tests/wrong, {what}: {got}, and should be {wanted}")


def check(root, crates, refused, status):
    """Tries the wrong versions of some crates: each line, the last one and the status must be right."""
    wanted = {name: words for name, (_, words) in EDITS.items() if name.split("/")[0] in crates}
    got, last, named = tried(root, *crates)
    expect("the edits tried", sorted(named), sorted(wanted))
    for name, words in wanted.items():
        expect(name, words in named[name] or named[name], True)
    expect("the last line", last, f"{refused} wrong versions refused, {len(wanted) - refused} not")
    expect("the status", got, status)


def main():
    with tempfile.TemporaryDirectory() as folder:
        root = pathlib.Path(folder) / "repository"
        write(root)
        subprocess.run(["rt", "check"], cwd=root / "crates" / "lower", check=True, stdout=subprocess.DEVNULL, stderr=subprocess.DEVNULL)
        before = state(root)
        check(root, ["upper", "broken", "above"], 4, 1)
        for words, how in (([], "kept"), (["--anew"], r"\d+ s")):
            status, last, named = tried(root, *words, "upper/eight")
            expect("one edit", (status, last), (0, "1 wrong versions refused, 0 not"))
            expect("how it was judged", bool(re.search(rf": refused \({how}; first at ", named["upper/eight"])), True)
        expect("an unknown crate", tried(root, "middle")[:2], (2, ""))
        expect("the work tree is as it was", state(root) == before, True)
    print(f"tests/wrong: tells {len(EDITS)} made-up edits apart")


if __name__ == "__main__":
    main()
