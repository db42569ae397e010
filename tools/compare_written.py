#!/usr/bin/env python3
"""compare_written.py [SEED [COUNT]]: the definitions of `written`, `scan` and `draw` against the independent program, on generated calls.

The program prints calls with what they answer and leave (tests/oracle/examples/rows.rs), and the prover computes the same calls from the
definitions, in a copy of the repository. Last line: 'N passed, M failed'."""
import shutil
import subprocess
import sys
import tempfile
from pathlib import Path

ROOT = Path(__file__).resolve().parent.parent
CHUNK = 60

HEAD = """-- Generated calls, computed.
use Rattle.std.specs.Prelude.{ℕ, refl, List, [], ◌∷◌, ◌++◌}
use Rattle.draw.specs.declared.Drawn.{Drawn}
use Rattle.draw.specs.Draw.{choice_of, heads_of}
use Rattle.draw.specs.Even.{even_of}
use Rattle.scan.specs.declared.Told.{Told}
use Rattle.scan.specs.Scan.{scan, passed, cursor_at, told_of}
use Rattle.written.specs.declared.Counts.{Counts}
use Rattle.written.specs.declared.Order.{Order}
use Rattle.written.specs.Limits.{Limits}
use Rattle.written.specs.Tables.{Tables, lent}
use Rattle.written.specs.Outcomes.{Leaves, Values, reading_of, numbered_of, walk_of, flips_of, pin_of, lift_of, read_values, walk_values, flip_values}
use Rattle.written.specs.Program.{run_of}
use Rattle.written.specs.Computing.{computing, Example, ◌tells◌, Tells}

-- what a call answers and leaves: of a run, its three numbers, the tables, the marks and the buffer; of a reader's steps, their numbers
pub record Seen : Type 0 where
  pub numbers : List ℕ
  pub tables : Tables
  pub marks : List ℕ
  pub buffer : List ℕ

abbrev limits : Limits
limits = record { text = 120; terms = 5; clauses = 7; literals = 16; list = 9 }

abbrev counts : ℕ → ℕ → ℕ → ℕ → Counts
counts t c l u = record { terms = t; clauses = c; literals = l; uncovered = u }

abbrev order : ℕ → ℕ → ℕ → ℕ → ℕ → Order
order s f w b e = record { seed = s; flips = f; walks = w; bias = b; even = e }

abbrev seen : ℕ → ℕ → ℕ → ℕ → ℕ → Counts → Tables → List ℕ → Seen
seen r e l w f n t ms =
    record {
      numbers = r ∷ e ∷ l ∷ w ∷ f ∷ n.terms ∷ n.clauses ∷ n.literals ∷ n.uncovered ∷ [];
      tables = t;
      marks = ms;
      buffer = [];
    }

abbrev shown : Values → Tables → List ℕ → Seen
shown v t ms = seen v.result v.reason v.line v.walks v.flips v.counts t ms

abbrev saw : {A : Type 0} → (A → Values) → Leaves A → Seen
saw values l = shown (values l.answer) l.tables l.marks

abbrev ran : ℕ → ℕ → ℕ → Tables → List ℕ → List ℕ → Seen
ran r e n t ms b = record { numbers = r ∷ e ∷ n ∷ []; tables = t; marks = ms; buffer = b }

abbrev reading : List ℕ → Tables → List ℕ → Seen
reading x t ms = saw read_values (reading_of limits x t ms)

abbrev numbering : List ℕ → Tables → List ℕ → Seen
numbering x t ms = saw read_values (numbered_of limits x t ms)

abbrev walking : Order → Counts → Tables → List ℕ → Seen
walking o n t ms = saw walk_values (walk_of limits o n t ms)

abbrev flipping : List ℕ → Counts → Tables → List ℕ → Seen
flipping ts n t ms = saw flip_values (flips_of limits ts n t ms)

abbrev pinning : ℕ → ℕ → Counts → Tables → List ℕ → Seen
pinning k v n t ms = saw flip_values (pin_of limits k v n t ms)

abbrev lifting : ℕ → Counts → Tables → List ℕ → Seen
lifting k n t ms = saw flip_values (lift_of limits k n t ms)

abbrev running : List ℕ → Tables → List ℕ → List ℕ → Seen
running x t ms b =
    ran (run_of limits x t ms b).answer.result (run_of limits x t ms b).answer.reason (run_of limits x t ms b).answer.length
        (run_of limits x t ms b).tables (run_of limits x t ms b).marks (run_of limits x t ms b).buffer

abbrev stepped : List ℕ → Seen
stepped ns = record { numbers = ns; tables = lent [] [] [] [] [] [] [] [] [] []; marks = []; buffer = [] }

-- a step's numbers, before those of the steps after
abbrev row : Told → List ℕ → List ℕ
row s more = s.kind ∷ s.reason ∷ s.line ∷ s.name ∷ s.negated ∷ s.at ∷ s.below ∷ more

-- a step from a place and its line, written out: computed from the step before, the prover would compute all steps before it again
pub data Asked : Type 0 where
  next : ℕ → ℕ → Asked
  pass : ℕ → ℕ → Asked

-- the numbers of all steps
abbrev steps : List ℕ → List Asked → List ℕ
steps t [] = []
steps t (next at line ∷ more) = row (told_of (scan t (cursor_at at line))) (steps t more)
steps t (pass at line ∷ more) = 0 ∷ 0 ∷ 0 ∷ 0 ∷ 0 ∷ (passed t (cursor_at at line)).at ∷ (passed t (cursor_at at line)).line ∷ steps t more

abbrev scanning : List ℕ → List Asked → Seen
scanning t asked = stepped (steps t asked)

-- a choice among m from the state y in each mode, then heads
abbrev drawing : ℕ → ℕ → ℕ → Seen
drawing y m b =
    let numbers : Drawn → List ℕ = λ d. d.reason ∷ d.number ∷ d.next.state ∷ [] in
    stepped (numbers (choice_of m y) ++ numbers (even_of m y) ++ numbers (heads_of b y))

abbrev table : List (Example Seen)
table =
    """

TAIL = """
    ∷ []

pub agree : Tells table
unfolding computing told_of
agree = refl
"""


def rows(seed, count):
    call = ["cargo", "run", "--release", "--offline", "--quiet", "--manifest-path", "tests/oracle/Cargo.toml"]
    call += ["--target-dir", "target/cargo", "--example", "rows", str(seed), str(count)]
    return subprocess.run(call, cwd=ROOT, capture_output=True, text=True, check=True).stdout.splitlines()


def agrees(copy, chunk):
    text = HEAD + "\n    ∷ ".join(f"({row})" for row in chunk) + TAIL
    (copy / "crates/written/specs/Compared.antt").write_text(text)
    run = subprocess.run(["rt", "check"], cwd=copy / "crates/written", capture_output=True, text=True, errors="replace")
    return run.returncode == 0 and "logic=proved" in run.stdout


def differing(copy, chunk):
    """The rows of a chunk that do not agree."""
    if agrees(copy, chunk):
        return []
    if len(chunk) == 1:
        return chunk
    half = len(chunk) // 2
    return differing(copy, chunk[:half]) + differing(copy, chunk[half:])


def main():
    seed, count = (int(word) for word in (sys.argv[1:] + ["1", "200"][len(sys.argv) - 1 :])[:2])
    found = rows(seed, count)
    bad = []
    with tempfile.TemporaryDirectory() as place:
        copy = Path(place) / "copy"
        shutil.copytree(ROOT, copy, ignore=shutil.ignore_patterns(".git", "target", "out", "must-fail"))
        lib = copy / "crates/written/specs/Lib.antt"
        lib.write_text(lib.read_text() + "pub mod Compared\n")
        for at in range(0, len(found), CHUNK):
            bad += differing(copy, found[at : at + CHUNK])
            print(f"{min(at + CHUNK, len(found))} of {len(found)}, {len(bad)} differ", flush=True)
    print("\n".join(bad + [f"{len(found) - len(bad)} passed, {len(bad)} failed"]))
    return 1 if bad or not found else 0


if __name__ == "__main__":
    sys.exit(main())
