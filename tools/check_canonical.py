#!/usr/bin/env python3
"""Compares the definition of canonical tokens (crates/grammar/specs/Canonical) with supplied ones, by computation inside the checker.

    check_canonical.py --build DIR [--oracle DIR] [--repo DIR] [--seeds 11,12,13,14] [--count 400] [--max-tokens 40] [--chunk 40]

DIR of --build holds oracle01, as `compare/oracle/build.sh SOURCES DIR` makes it; DIR of --oracle holds gen.py, limit.py, tokens.py and
canonical.txt, by default compare/oracle; --repo is the repository with the definition, by default the folder above this file's. Needs Python 3 and rt.

Two things are computed by the module of a scratch crate, over a temporary copy of the definitions, and proved by refl, a chunk of sheets at a time:
every sheet of canonical.txt is written as there, and so is its canonical run read again; and of the sheets of gen.py's family b
that oracle01 reads without an error, each reads cleanly, and its canonical run reads cleanly to the same records.

Exit status: 0 all hold, 1 some chunk is refused, 2 something failed.
"""
import argparse
import os
import re
import shutil
import subprocess
import sys
import tempfile

sys.dont_write_bytecode = True  # no compiled files beside the sources
import supplied

ROOT = os.path.dirname(os.path.dirname(os.path.abspath(__file__)))
# of grammar, what its specs/ and its proofs/ keep: the definitions of reading and of canonical tokens, and the table of sheets, which defines `canonical`
KEPT = {"specs": ("Reading", "Canonical", "Levels", "Flat"), "proofs": ("Sheets",)}
HEADER = """-- Scratch: sheets and what they come to.
use Rattle.std.specs.Prelude.{◌≡◌, refl, Bool, true, List, [], ◌∷◌, ℕ, Option, Some, option_and_then}
use Rattle.tree.specs.Tree.{all_records}
use Rattle.grammar.specs.Reading.Limit.{depth_limit}
use Rattle.grammar.specs.Canonical.Write.{run}
use Rattle.grammar.specs.Canonical.Writing.{clean_reading, same_words}
use Rattle.grammar.proofs.Sheets.{canonical}

abbrev each : {A : Type 0} → (List ℕ → A) → List (List ℕ) → List A
each f [] = []
each f (s ∷ ss) = f s ∷ each f ss

unfoldable again : List ℕ → Option Bool
unfolding canonical
again ts =
    option_and_then (λ f. option_and_then (λ g. Some (same_words (all_records f) (all_records g))) (clean_reading depth_limit (run f))) (clean_reading depth_limit ts)

abbrev always : List ℕ → Option Bool
always ts = Some true
"""


def words(toks):
    """two for each token"""
    return [word for kind, newline, value in toks for word in (kind + 256 * newline, value)]


def token(row):
    return map(int, re.match(r"token=(\d+) newline=(\d+) value=(\d+)$", row).groups())


def sheets_of(text):
    """the rows of each sheet"""
    found = []
    for row in text.splitlines():
        if row.startswith("sheet"):
            found.append([])
        elif row and not row.startswith("#"):
            found[-1].append(row)
    return found


def clean_sheets(oracle, build, seeds, count, most):
    """generated sheets that oracle01 reads without an error"""
    found = []
    for seed in seeds:
        made = subprocess.run([os.path.join(oracle, "gen.py"), "--family", "b", "--seed", seed, "--count", str(count)], capture_output=True, text=True, check=True).stdout
        said = subprocess.run([os.path.join(build, "oracle01")], input=made, capture_output=True, text=True, check=True).stdout
        for rows, answers in zip(sheets_of(made), sheets_of(said)):
            kinds = [row.split()[0] for row in answers if row.startswith("answer=")]
            if len(rows) <= most and len(kinds) > 1 and kinds[-1] == "answer=end" and set(kinds[:-1]) == {"answer=tree"}:
                found.append(words(map(token, rows)))
    return found


def text_of(words):
    return "(" + "".join("%d ∷ " % word for word in words) + "[])"


def list_of(texts):
    return "(" + "".join("\n    %s ∷" % text for text in texts) + " [])"


def theorem(name, left, right, unfolding):
    return "\n%s : %s ≡ %s\nunfolding %s\n%s = refl\n" % (name, left, right, unfolding, name)


def scratch_module(pairs, clean, chunk):
    """one theorem for each chunk of sheets"""
    text = HEADER
    for n in range(0, len(pairs), chunk):
        part = pairs[n:n + chunk]
        wanted = list_of("Some " + text_of(canonical) for _, canonical in part)
        text += theorem("written_%d" % n, "each canonical " + list_of(text_of(sheet) for sheet, _ in part), wanted, "canonical")
        text += theorem("rewritten_%d" % n, "each canonical " + list_of(text_of(canonical) for _, canonical in part), wanted, "canonical")
    for n in range(0, len(clean), chunk):
        sheets = list_of(map(text_of, clean[n:n + chunk]))
        text += theorem("again_%d" % n, "each again " + sheets, "each always " + sheets, "again")
    return text


def keep_definitions(crate):
    """of grammar only the definitions, so that a run proves no laws"""
    for part, kept in KEPT.items():
        folder = os.path.join(crate, part)
        for name in os.listdir(folder):
            path = os.path.join(folder, name)
            if os.path.isdir(path) and name not in kept:
                shutil.rmtree(path)
            elif os.path.isfile(path) and name[:-len(".antt")] not in kept:
                os.remove(path)
        write(os.path.join(folder, "Lib.antt"), "".join("pub mod %s\n" % name for name in kept))


def write(path, text):
    with open(path, "w") as out:
        out.write(text)


def prove(repo, text):
    """a copy of the repository's definitions with a scratch crate above it, checked"""
    with tempfile.TemporaryDirectory() as folder:
        for name in ("token", "operator", "tree", "grammar"):
            shutil.copytree(os.path.join(repo, "crates", name), os.path.join(folder, "crates", name), ignore=shutil.ignore_patterns("out"))
        keep_definitions(os.path.join(folder, "crates", "grammar"))
        scratch = os.path.join(folder, "crates", "scratch")
        for part in ("src", "proofs"):
            os.makedirs(os.path.join(scratch, part))
        write(os.path.join(scratch, "src", "lib.rt"), "// The scratch module of tools/check_canonical.py stands in proofs/.\n#![tactic(auto)]\n")
        write(os.path.join(scratch, "proofs", "Lib.antt"), "pub mod Tried\n")
        write(os.path.join(scratch, "proofs", "Tried.antt"), text)
        write(os.path.join(folder, "crates.txt"), "token:\noperator: token\ntree:\ngrammar: token operator tree\nscratch: token operator tree grammar\n")
        return subprocess.run(["rt", "check"], cwd=scratch, capture_output=True, text=True)


def main():
    parser = argparse.ArgumentParser(description=__doc__, formatter_class=argparse.RawDescriptionHelpFormatter)
    parser.add_argument("--oracle", default=os.path.join(ROOT, "compare", "oracle"))
    parser.add_argument("--build", required=True)
    parser.add_argument("--repo", default=ROOT)
    parser.add_argument("--seeds", default="11,12,13,14")
    parser.add_argument("--count", type=int, default=400)
    parser.add_argument("--max-tokens", type=int, default=40)
    parser.add_argument("--chunk", type=int, default=40)
    given = parser.parse_args()
    pairs = [tuple(words(toks) for toks in pair) for pair in supplied.pairs(os.path.join(given.oracle, "canonical.txt"))]
    clean = clean_sheets(given.oracle, given.build, given.seeds.split(","), given.count, given.max_tokens)
    result = prove(given.repo, scratch_module(pairs, clean, given.chunk))
    refused = sorted(set(re.findall(r"error: `((?:written|rewritten|again)_\d+)`", result.stdout + result.stderr)))
    print("supplied sheets=%d clean sheets=%d refused chunks=%s" % (len(pairs), len(clean), refused or "none"))
    if result.returncode and not refused:
        sys.stderr.write(result.stdout[-3000:] + result.stderr[-3000:])
        return 2
    return 1 if refused else 0


if __name__ == "__main__":
    sys.exit(main())
