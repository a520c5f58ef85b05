#!/usr/bin/env python3
"""Compares the definition of reading (crates/grammar/specs/Reading) with the oracle, by computation inside the checker.

    check_definition.py --build DIR [--oracle DIR] [--repo DIR] [--families tried,a,b,c,d,e,f,v,w] [--seeds 1,2,3]
        [--count 100] [--pool N] [--max-tokens 40] [--max-tokens-f 400] [--all 1 [--words 'WORDS'] [--prefix 'WORDS']]
        [--chunk 50] [--show 10] [--shrink 3] [--mutate] [--keep DIR]

DIR of --build holds oracle01, as `compare/oracle/build.sh SOURCES DIR` makes it; DIR of --oracle holds gen.py, limit.py,
tokens.py and tried.py, by default compare/oracle; --repo is the repository with the definition, by default the folder above
this file's. Needs Python 3 and rt; one thread, 5 s for each family and seed, about 10 ms a sheet and 0.1 s one of the
family f. With the defaults some 2,600 sheets, 3 to 5 minutes.

Every sheet is read by `oracle01 --state`. The modules of a scratch crate, over a temporary copy of the definitions of reading,
make the same calls of `next_stmt`, from a fresh reader to the first end or stop and with a store of 16 words for each
token of the sheet, and compare: the answer's case; its number, or a tree's count of nodes; every word of the store, so
all records and the zeros behind them; the reader's position, count of waiting errors, all places of its queue, stop.
One call more must answer the same again. The sheets that differ are a list of numbers, and the theorem of a chunk of
sheets is that its list is empty, by refl: `rt check` proves it or refuses it. For each sheet of a refused chunk a
second pass has a theorem of its own, and a hole at which the checker prints what the definition answers. This program
prints the sheets that differ in the notation of tokens.py with both answers; the first are made smaller before, by
leaving out tokens (--shrink says how many).

Families: a to f are gen.py's, drawn again if longer than --max-tokens (f: --max-tokens-f, since f is about the limits);
v is gen.py's mix with one token's value out of its range; w is gen.py's b with names replaced by blocks that hold an
error, so that errors wait while reading goes on, and with some damage; tried are the sheets of tried.py, document 01's and
those about the depth. --pool N draws N sheets for each family and seed, and keeps the --count of them whose answers are the
rarest. --all adds every sheet of at most so many of the words (without --words, of every kind) behind the prefix, with
and without EOF.

--mutate tests the comparison: one thing in every sheet's expectation is changed, the checker proves that no sheet meets
its changed one, and a chunk with a single changed one is refused for just that sheet.

Exit status: 0 no difference, 1 differences or answers that are none of 01's, 2 something failed.
"""
import argparse
import collections
import os
import pathlib
import random
import re
import shutil
import subprocess
import sys
import tempfile
import time

ROOT = os.path.dirname(os.path.dirname(os.path.abspath(__file__)))
CASES = ["tree", "error", "end", "stopped", "refused"]
TREE, ERROR, END, STOPPED, REFUSED = range(5)
CHUNKS_A_RUN = 20
DIGITS = 21  # of a number that the checker prints


class Answer:
    """A call: the answer's case, its number (nodes of a tree, 0 at the end), the reader, the store's words before its zeros."""

    def __init__(self, case, number, position, stopped, waiting, words):
        self.case, self.number, self.position, self.stopped, self.waiting, self.words = case, number, position, stopped, waiting, words

    def text(self, kinds):
        out = CASES[self.case]
        if self.case == TREE:
            out += " nodes=%d" % self.number
            for word, value in zip(self.words[::2], self.words[1::2]):
                out += " %s/%d=%d" % (kinds.get(word % 256, word % 256), word // 256, value)
        elif self.case != END:
            out += " %d" % self.number
        return out + " | position=%d waiting=%s stopped=%d" % (self.position, self.waiting, self.stopped)


class Sheet:
    def __init__(self, name, toks, answers=None):
        self.name, self.toks, self.answers = name, toks, answers


def fail(message):
    print("check_definition.py: %s" % message, file=sys.stderr)
    sys.exit(2)


# sheets


def generate(args, *words):
    """the sheets that gen.py makes"""
    done = subprocess.run([sys.executable, os.path.join(args.oracle, "gen.py"), *words], stdout=subprocess.PIPE, text=True, check=True)
    sheets = []
    for row in done.stdout.splitlines():
        if row.startswith("sheet "):
            sheets.append(Sheet(row[len("sheet "):], []))
        else:
            sheets[-1].toks.append(tuple(int(part.split("=")[1]) for part in row.split()))
    return sheets


def tried_sheets(tokens):
    """the sheets of tried.py"""
    import tried  # of args.oracle, as tokens is
    return [Sheet("tried %d" % n, tokens.sheet(row)) for n, (row, _) in enumerate(tried.TRIED + tried.DEPTHS)]


def spoiled(args, tokens, seed, count):
    """sheets of gen.py's mix, each with one token whose value is out of its range"""
    rng = random.Random("v %s" % seed)
    names = (tokens.NAME, tokens.STRING, tokens.LABEL)
    sheets = generate(args, "--family", "mix", "--seed", seed, "--count", str(2 * count))
    sheets = [s for s in sheets if 0 < len(s.toks) <= args.max_tokens][:count]
    for s in sheets:
        at = rng.randrange(len(s.toks))
        kind, newline, _ = s.toks[at]
        if kind in (tokens.INT, tokens.FLOAT):  # any value fits these
            kind = rng.choice((tokens.NAME, tokens.EOF, tokens.LEXERR))
        values = (1 << 32, (1 << 32) + 5, (1 << 64) - 1) if kind in names else (1, 7, (1 << 64) - 1)
        s.toks[at] = (kind, newline, rng.choice(values))
        s.name = "v, of " + s.name
    return sheets


BLOCKS = [
    "begin ) end", "begin ] end", "( begin } end )", "begin continue ; end", "begin return ; end", "a - begin ] end - begin let a ; a end",
    "if a then ) elif begin ] end then } else ) end", "fun ( a = begin ) end ) ] end", "{ a = begin ) end , [ begin ] end ] = begin } end }"]


def waiting(args, tokens, seed, count):
    """sheets of gen.py's b in which blocks that hold an error stand for some names; half of them as a block after an
    error, a third cut off, a third with a lexer error"""
    rng = random.Random("w %s" % seed)
    found = []
    for s in generate(args, "--family", "b", "--seed", seed, "--count", str(3 * count), "--max-tokens", str(args.max_tokens)):
        places = [at for at, tok in enumerate(s.toks) if tok[0] == tokens.NAME]
        for at in sorted(rng.sample(places, min(len(places), rng.randrange(1, 5))), reverse=True):
            s.toks[at:at + 1] = tokens.sheet(rng.choice(BLOCKS))
        if rng.random() < 0.5:
            s.toks = tokens.sheet("begin ) ;") + s.toks[:-1] + tokens.sheet("end EOF")
        way, at = rng.randrange(3), rng.randrange(len(s.toks))
        if way == 0:
            del s.toks[at:]
        elif way == 1:
            s.toks[at:at] = tokens.sheet("LEXERR")
        s.name = "w, of " + s.name
        if places and len(s.toks) <= args.max_tokens:
            found.append(s)
    return found[:count]


def drawn(args, tokens, family, seed, count):
    if family == "tried":
        return tried_sheets(tokens)
    if family == "v":
        return spoiled(args, tokens, seed, count)
    if family == "w":
        return waiting(args, tokens, seed, count)
    longest = args.max_tokens_f if family == "f" else args.max_tokens
    return generate(args, "--family", family, "--seed", seed, "--count", str(count), "--max-tokens", str(longest))


def features(sheet):
    """what is seen in the answers to a sheet: numbers, neighbouring answers and neighbouring records"""
    cases = [(a.case, 0 if a.case == TREE else a.number, len(a.waiting)) for a in sheet.answers]
    found = set(cases) | set(zip(cases, cases[1:]))
    for a in sheet.answers:
        found |= set(zip(a.words[::2], a.words[2::2]))
    return found


def rarest(sheets, count):
    """the sheets whose answers have what the fewest have"""
    seen = collections.Counter(feature for s in sheets for feature in features(s))
    return sorted(sheets, key=lambda s: -sum(1 / seen[feature] for feature in features(s)))[:count]


def every(args, tokens, end):
    """all sheets of at most so many words, behind a prefix"""
    sheets = generate(args, "--all", str(args.all), "--end", end, *(["--words", args.words] if args.words else []))
    return [Sheet(s.name, tokens.sheet(args.prefix) + s.toks) for s in sheets]


def collect(args, tokens, kinds):
    """the sheets of each family and seed, with the oracle's answers, and the odd ones"""
    groups, odd = {}, []
    for family in args.families.split(",") if args.families else ():
        for seed in ["-"] if family == "tried" else args.seeds.split(","):
            groups[family, seed] = drawn(args, tokens, family, seed, max(args.count, args.pool))
    for end in ("", "EOF"):
        groups["all %d" % args.all, end or "-"] = every(args, tokens, end)
    for (family, seed), sheets in groups.items():
        strange = ask_oracle(args, tokens, kinds, sheets)
        sheets = [s for s in sheets if s not in strange]
        choose = args.pool and family != "tried" and not family.startswith("all")
        groups[family, seed] = rarest(sheets, args.count) if choose else sheets
        odd += strange
    return groups, odd


# the oracle


def run_oracle(args, *options, source=""):
    done = subprocess.run([os.path.join(args.build, "oracle01"), *options], input=source, stdout=subprocess.PIPE, text=True, check=True)
    return done.stdout.splitlines()


def kind_names(args):
    return {int(number): name for number, name in (row.split() for row in run_oracle(args, "--kinds"))}


def ask_oracle(args, tokens, kinds, sheets):
    """fills in the answers of the sheets, and gives back those with an answer that is none of 01's, a panic say"""
    numbers = {name: number for number, name in kinds.items()}
    odd = []
    source = "".join("sheet %d\n" % n + tokens.lines(s.toks) for n, s in enumerate(sheets))
    for row in run_oracle(args, "--state", source=source) if sheets else ():
        head, _, rest = row.partition(" ")
        if head == "sheet":
            sheet = sheets[int(rest)]
            sheet.answers = []
        elif head.startswith("answer="):
            case, words = head[len("answer="):], []
            number = int(rest.split("=")[1]) if case in ("tree", "error", "stopped") else 0
        elif head.startswith("kind="):
            kids, value = (int(part.split("=")[1]) for part in rest.split())
            words += [numbers[head[len("kind="):]] + 256 * kids, value]
        elif case not in CASES:
            odd.append(sheet)
        else:  # head is "state", which ends an answer
            position, _, *errors = rest.split()
            stopped = number if case == "stopped" else 0
            sheet.answers.append(Answer(CASES.index(case), number, int(position.split("=")[1]), stopped, [int(e) for e in errors], words))
    for sheet in sheets:
        if sheet not in odd and sheet.answers[-1].case not in (END, STOPPED):
            fail("the oracle's answers to `%s` don't end" % tokens.text(sheet.toks))
    return odd


# the scratch modules

COMPARE = """\
-- A scratch module of tools/check_definition.py: the definition's answers against given ones. Assumes nothing.
use Rattle.std.specs.Prelude.{Bool, true, false, ◌&&◌, ◌||◌, List, [], ◌∷◌, ◌++◌, ℕ, zero, suc, ◌+◌, ◌-◌, ◌*◌, ◌^◌, eqb, length, take, replicate}
use Rattle.grammar.specs.Reading.Limit.{queue_limit}
use Rattle.grammar.specs.Reading.Next.{Called, next_stmt, fresh, number}
use Rattle.grammar.specs.declared.Answer.{Answer}
use Rattle.grammar.specs.declared.Answer.TheVariants.{Tree, Error, End, Stopped, Refused}
use Rattle.grammar.specs.declared.Reader.{Reader}

-- case, number, position, stop, waiting errors, the store's words before its zeros
pub data Want : Type 0 where
  want : ℕ → ℕ → ℕ → ℕ → List ℕ → List ℕ → Want

abbrev case : Answer → ℕ
case (Tree n) = 0
case (Error k) = 1
case End = 2
case (Stopped n) = 3
case (Refused n) = 4

abbrev nodes : Answer → ℕ
nodes (Tree n) = n
nodes (Error k) = 0
nodes End = 0
nodes (Stopped n) = 0
nodes (Refused n) = 0

-- a tree's nodes, or document 01's number
abbrev figure : Answer → ℕ
figure a = nodes a + number a

same : List ℕ → List ℕ → Bool
same [] [] = true
same [] (y ∷ ys) = false
same (x ∷ xs) [] = false
same (x ∷ xs) (y ∷ ys) = elim (eqb x y) [ true ↦ same xs ys | false ↦ false ]

abbrev padded : ℕ → List ℕ → List ℕ
padded n xs = xs ++ replicate (n - length xs) 0

abbrev meets : ℕ → Called → Want → Bool
meets m c (want k n p s q words) =
    eqb (case c.step.answer) k && eqb (figure c.step.answer) n && eqb c.step.reader.position p
    && eqb c.step.reader.stopped s && eqb c.step.reader.waiting (length q)
    && same c.step.reader.errors (padded queue_limit q) && same c.store (padded m words)

-- the calls from a reader on
calls : List ℕ → ℕ → Reader → List Want → Bool
calls T m R [] = true
calls T m R (w ∷ ws) =
    let c = next_stmt R T m in
    elim (meets m c w) [ true ↦ calls T m c.step.reader ws | false ↦ false ]

-- the sheet of number n, if it differs from what is wanted, before others
unfoldable pub differs : ℕ → List ℕ → List Want → List ℕ → List ℕ
unfolding same calls UNFOLDING
differs n T ws rest = elim (calls T (8 * length T) fresh ws) [ true ↦ rest | false ↦ n ∷ rest ]

-- the same, if it agrees
unfoldable pub agrees : ℕ → List ℕ → List Want → List ℕ → List ℕ
unfolding same calls UNFOLDING
agrees n T ws rest = elim (calls T (8 * length T) fresh ws) [ true ↦ n ∷ rest | false ↦ rest ]

-- a call as numbers: case, number, position, stop, waiting, the errors that wait, a tree's records
abbrev numbers : Called → List ℕ → List ℕ
numbers c rest =
    case c.step.answer ∷ figure c.step.answer ∷ c.step.reader.position ∷ c.step.reader.stopped ∷ c.step.reader.waiting
    ∷ take c.step.reader.waiting c.step.reader.errors ++ take (2 * nodes c.step.answer) c.store ++ rest

-- the calls from a reader on, at most so many, to the first that is no tree and no error
answers : ℕ → List ℕ → ℕ → Reader → List ℕ
answers zero T m R = []
answers (suc k) T m R =
    let c = next_stmt R T m in
    elim (eqb (case c.step.answer) 0 || eqb (case c.step.answer) 1) [ true ↦ numbers c (answers k T m c.step.reader) | false ↦ numbers c [] ]

-- numbers as one, with DIGITS decimal digits each, the first at the low end
packed : List ℕ → ℕ
packed [] = 0
packed (x ∷ xs) = x + 10 ^ DIGITS * packed xs

unfoldable pub said : ℕ → List ℕ → ℕ
unfolding answers packed UNFOLDING
said k T = packed (answers k T (8 * length T) fresh)
"""

HEADER = """\
-- A scratch module of tools/check_definition.py
use Rattle.std.specs.Prelude.{◌≡◌, refl, List, [], ◌∷◌, ℕ}
use Rattle.scratch.proofs.Compare.{Want, want, differs, agrees, said}
"""


def list_text(items):
    return "(%s[])" % "".join("%s ∷ " % item for item in items)


def words_text(sheet):
    return list_text(word for kind, newline, value in sheet.toks for word in (kind + 256 * newline, value))


def wants_text(sheet):
    """what is wanted of the calls; after the end or a stop the same once more"""
    rows = []
    for a in sheet.answers + sheet.answers[-1:]:
        rows.append("want %d %d %d %d %s %s" % (a.case, a.number, a.position, a.stopped, list_text(a.waiting), list_text(a.words)))
    return list_text(rows)


def chunk_text(sheets, test):
    """a module with the theorem that none of the sheets `differs`, or that none `agrees`"""
    rows = ["    %s %d %s %s (\n" % (test, n, words_text(s), wants_text(s)) for n, s in enumerate(sheets)]
    return HEADER + """
found : List ℕ
unfolding %s
found =
%s    []%s

nothing_found : found ≡ []
unfolding found
nothing_found = refl
""" % (test, "".join(rows), ")" * len(sheets))


def single_text(sheets):
    """a module with a theorem for each sheet, and a hole at which the checker prints the definition's answers"""
    text = HEADER
    for n, s in enumerate(sheets):
        text += "\nagree_%d : differs 0 %s %s [] ≡ []\nunfolding differs\nagree_%d = refl\n" % (n, words_text(s), wants_text(s), n)
        text += "\nsaid_%d : said %d %s ≡ 0\nunfolding said\nsaid_%d = ?h\n" % (n, calls_shown(s), words_text(s), n)
    return text


def calls_shown(sheet):
    return len(sheet.answers) + 3


# the scratch repository


def needed_crates(repo):
    """the crates that grammar needs, with what they depend on"""
    depends = {}
    for row in open(os.path.join(repo, "crates.txt")):
        name, colon, rest = row.split("#")[0].partition(":")
        if colon:
            depends[name.strip()] = rest.split()
    found, todo = {}, ["grammar"]
    while todo:
        name = todo.pop()
        if name in depends and name not in found:
            found[name] = depends[name]
            todo += depends[name]
    return found


def keep_definitions(crate):
    """of grammar only the code and the definitions that it needs, so that a run proves nothing else"""
    shutil.rmtree(os.path.join(crate, "proofs"))
    specs = os.path.join(crate, "specs")
    kept = ("Reading", "Canonical", "Levels", "Flat")
    for name in os.listdir(specs):
        path = os.path.join(specs, name)
        if os.path.isdir(path) and name not in kept:
            shutil.rmtree(path)
        elif os.path.isfile(path) and name[:-len(".antt")] not in kept:
            os.remove(path)
    with open(os.path.join(specs, "Lib.antt"), "w") as out:
        out.writelines("pub mod %s\n" % name for name in kept)


def copy_repository(repo, folder):
    """the needed crates, and a crate above them for the scratch modules. What rt kept of the proved ones it finds by itself; it proves again what has changed"""
    crates = needed_crates(repo)
    for name in crates:
        shutil.copytree(os.path.join(repo, "crates", name), os.path.join(folder, "crates", name), ignore=shutil.ignore_patterns("out"))
    keep_definitions(os.path.join(folder, "crates", "grammar"))
    for part in ("src", "proofs"):
        os.makedirs(os.path.join(folder, "crates", "scratch", part))
    with open(os.path.join(folder, "crates", "scratch", "src", "lib.rt"), "w") as out:
        out.write("// The scratch modules of tools/check_definition.py stand in proofs/.\n#![tactic(auto)]\n")
    with open(os.path.join(folder, "crates.txt"), "w") as out:
        out.writelines("%s: %s\n" % (name, " ".join(depends)) for name, depends in {**crates, "scratch": list(crates)}.items())
    return list(crates)


def unfoldable_names(folder, crates):
    """the whole names of the definitions that are marked unfoldable, alone or as a mutual block"""
    names = []
    for crate in crates:
        specs = pathlib.Path(folder, "crates", crate, "specs")
        for file in sorted(specs.rglob("*.antt")):
            module = ".".join(file.relative_to(specs).with_suffix("").parts)
            block = False
            for row in file.read_text().splitlines():
                if row.strip() and not row.startswith(" "):
                    block = row.startswith("unfoldable mutual")
                found = re.match(r"\s+pub (\S+)( \{[^}]*\})? :" if block else r"\s*unfoldable (?:abbrev )?pub (\S+)( \{[^}]*\})? :", row)
                if found:
                    names.append("Rattle.%s.specs.%s.%s" % (crate, module, found.group(1)))
    return names


class Scratch:
    """a copy of the repository, in which rt checks scratch modules"""

    def __init__(self, repo, folder):
        crates = copy_repository(repo, folder)
        self.crate = os.path.join(folder, "crates", "scratch")
        self.compare = COMPARE.replace("UNFOLDING", " ".join(unfoldable_names(folder, crates))).replace("DIGITS", str(DIGITS))
        output, status = self.check({})
        if status != 0:
            print(output)
            fail("the definition, or the scratch module that compares, is refused")

    def check(self, modules, *words):
        """what rt says of the scratch modules, texts by name, and its exit status"""
        proofs = os.path.join(self.crate, "proofs")
        for file in os.listdir(proofs):
            os.remove(os.path.join(proofs, file))
        texts = {"Compare": self.compare, **modules}
        texts["Lib"] = "".join("pub mod %s\n" % name for name in texts)
        for name, text in texts.items():
            with open(os.path.join(proofs, name + ".antt"), "w") as out:
                out.write(text)
        done = subprocess.run(["rt", "check", *words], cwd=self.crate, env=dict(os.environ, RT_JOBS="1"),
                              stdout=subprocess.PIPE, stderr=subprocess.STDOUT, text=True)
        return done.stdout, done.returncode


def refused(output, name):
    """the modules and the ends of the names of the theorems `name..` that the checker refuses, or can't tell of"""
    return re.findall(r"(Chunk\d+|Single)\.antt:\d+:\d+: error: `%s(\d*)`" % name, output)


def run_chunks(args, scratch, sheets, test="differs"):
    """the sheets of the chunks whose theorem is refused"""
    chunks = [sheets[at:at + args.chunk] for at in range(0, len(sheets), args.chunk)]
    left = []
    for at in range(0, len(chunks), CHUNKS_A_RUN):
        modules = {"Chunk%d" % n: chunk_text(chunks[n], test) for n in range(at, min(at + CHUNKS_A_RUN, len(chunks)))}
        output, status = scratch.check(modules)
        bad = sorted({int(module[len("Chunk"):]) for module, _ in refused(output, "nothing_found")})
        if (status == 0) != (not bad):
            print(output[-4000:])
            fail("rt ends with status %d, and the refused chunks are %s" % (status, bad))
        for n in bad:
            left += chunks[n]
    return left


def unpack(numeral, calls):
    """the answers in the number that `said` is"""
    words = [int(numeral[max(0, end - DIGITS):end]) for end in range(len(numeral), 0, -DIGITS)]
    words.reverse()

    def take(count):
        return [words.pop() if words else 0 for _ in range(count)]

    answers = []
    while len(answers) < calls:
        case, number, position, stopped, count = take(5)
        errors = take(count)
        answers.append(Answer(case, number, position, stopped, errors, take(2 * number if case == TREE else 0)))
        if case not in (TREE, ERROR):
            break
    return answers


def single_out(args, scratch, sheets):
    """the sheets that differ, each with the definition's answers, None if the checker doesn't print them"""
    found = []
    for at in range(0, len(sheets), args.chunk):
        part = sheets[at:at + args.chunk]
        output, _ = scratch.check({"Single": single_text(part)}, "--allow-holes")
        goals = re.split(r"goal \?h in `said_(\d+)`", output)
        said = {int(n): re.search(r"Path\s+ℕ\s+(\d+)\s+0", text) for n, text in zip(goals[1::2], goals[2::2])}
        if len(said) != len(part):
            print(output[-4000:])
            fail("the second pass failed")
        for n in sorted({int(n) for _, n in refused(output, "agree_")}):
            found.append((part[n], unpack(said[n].group(1), calls_shown(part[n])) if said[n] else None))
    return found


# differences


def sheet_text(tokens, sheet):
    """the notation of tokens.py, and the values that it doesn't show"""
    shown = (tokens.NAME, tokens.STRING, tokens.INT, tokens.FLOAT, tokens.LABEL)
    hidden = ["token %d has the value %d" % (n, value) for n, (kind, _, value) in enumerate(sheet.toks, 1) if value and kind not in shown]
    return "; ".join([tokens.text(sheet.toks) or "(nothing)"] + hidden)


def show(tokens, kinds, sheet, said):
    print("DIFFERS %s: %s" % (sheet.name, sheet_text(tokens, sheet)))
    oracle = [a.text(kinds) for a in sheet.answers]
    definition = [a.text(kinds) for a in said] if said else ["(not printed)"]
    for n in range(max(len(oracle), len(definition))):
        one, two = (rows[n] if n < len(rows) else "-" for rows in (oracle, definition))
        print("  %d both       %s" % (n + 1, one) if one == two else "  %d oracle     %s\n  %d definition %s" % (n + 1, one, n + 1, two))
    if oracle == definition:
        print("  the difference is in the queue's unused places, in the store behind the records or in one call more, or the checker met its limit")


def shorter(sheet):
    """the sheet without a run of tokens"""
    size = len(sheet.toks)
    for width in (16, 8, 4, 2, 1):
        for at in range(size - width + 1):
            yield Sheet(sheet.name, sheet.toks[:at] + sheet.toks[at + width:])


def shrink(args, tokens, kinds, scratch, sheet, said):
    """a sheet that differs, and stops doing so whatever token is left out"""
    while True:
        candidates = list(shorter(sheet))
        ask_oracle(args, tokens, kinds, candidates)
        found = single_out(args, scratch, candidates)
        if not found:
            return sheet, said
        sheet, said = min(found, key=lambda pair: len(pair[0].toks))


# a test of the comparison


def mutated(sheet, rng):
    """the sheet with one thing changed in what is expected"""
    answers = [Answer(a.case, a.number, a.position, a.stopped, list(a.waiting), list(a.words)) for a in sheet.answers]
    a = rng.choice(answers)
    ways = ["case", "number", "position", "stopped", "error more", "word more"]
    ways += ["error less", "other error"] * bool(a.waiting) + ["record less", "other word", "other word"] * bool(a.words)
    way = rng.choice(ways)
    if way == "case":
        a.case = rng.choice([case for case in range(5) if case != a.case])
    elif way == "number":
        a.number += 1
    elif way == "position":
        a.position += rng.choice((1, -1)) if a.position else 1
    elif way == "stopped":
        a.stopped = 0 if a.stopped else rng.choice((60, 62, 64))
    elif way == "error more":
        a.waiting.append(50)
    elif way == "word more":
        a.words.append(1)
    elif way == "error less":
        a.waiting.pop()
    elif way == "other error":
        a.waiting[rng.randrange(len(a.waiting))] += 1
    elif way == "record less":
        a.words[-2:] = []
    else:
        a.words[rng.randrange(len(a.words))] += 1
    return Sheet("%s: %s" % (sheet.name, way), sheet.toks, answers)


def test_comparison(args, scratch, sheets):
    """no changed expectation may be met, and one among right ones must be found"""
    rng = random.Random("mutate")
    changed = [mutated(s, rng) for s in sheets]
    if run_chunks(args, scratch, changed, "agrees"):
        fail("a changed expectation is met")
    ways = collections.Counter(s.name.split(": ")[1] for s in changed)
    print("changed expectations: %d, met: 0 (proved); %s" % (len(changed), dict(ways)))
    part = sheets[:args.chunk]
    for n in range(0, len(part), max(1, len(part) // 5)):
        found = single_out(args, scratch, run_chunks(args, scratch, part[:n] + [changed[n]] + part[n + 1:]))
        if [s for s, _ in found] != [changed[n]]:
            fail("a single changed expectation is not found")
        print("one changed expectation among %d (%s): the chunk is refused, for that sheet alone" % (len(part), changed[n].name))


# all of it


def coverage(sheets):
    """what the oracle answers"""
    cases, errors = [0] * len(CASES), set()
    for s in sheets:
        for a in s.answers:
            cases[a.case] += 1
            if a.case == ERROR:
                errors.add(a.number)
    never = [n for n in (1, 2, *range(10, 53)) if n not in errors]
    return "%s; error numbers that don't occur: %s" % (", ".join("%s=%d" % pair for pair in zip(CASES, cases)), never)


def compare(args, tokens, kinds, scratch, groups):
    """the count of sheets that differ"""
    differing = 0
    for (family, seed), group in groups.items():
        start = time.time()
        left = run_chunks(args, scratch, group)
        found = single_out(args, scratch, left)
        size, calls = sum(len(s.toks) for s in group), sum(len(s.answers) for s in group)
        print("family %s seed %s: sheets=%d tokens=%d answers=%d differ=%d, %.1f s" % (family, seed, len(group), size, calls, len(found), time.time() - start), flush=True)
        if left and not found:
            print("  chunks of %d of these sheets were refused as a whole, and every sheet was proved alone: make --chunk smaller" % len(left))
        for sheet, said in sorted(found, key=lambda pair: len(pair[0].toks)):
            differing += 1
            if differing <= args.shrink:
                sheet, said = shrink(args, tokens, kinds, scratch, sheet, said)
            if differing <= args.show:
                show(tokens, kinds, sheet, said)
    return differing


def arguments():
    parser = argparse.ArgumentParser(description=__doc__, formatter_class=argparse.RawDescriptionHelpFormatter)
    parser.add_argument("--repo", default=ROOT)
    parser.add_argument("--oracle", default=os.path.join(ROOT, "compare", "oracle"))
    parser.add_argument("--build", required=True)
    parser.add_argument("--families", default="tried,a,b,c,d,e,f,v,w")
    parser.add_argument("--seeds", default="1,2,3")
    parser.add_argument("--count", type=int, default=100, help="sheets of each family and seed")
    parser.add_argument("--pool", type=int, default=0)
    parser.add_argument("--max-tokens", type=int, default=40)
    parser.add_argument("--max-tokens-f", type=int, default=400)
    parser.add_argument("--all", type=int, default=1)
    parser.add_argument("--words")
    parser.add_argument("--prefix", default="")
    parser.add_argument("--chunk", type=int, default=50, help="sheets of a theorem")
    parser.add_argument("--show", type=int, default=10)
    parser.add_argument("--shrink", type=int, default=3)
    parser.add_argument("--mutate", action="store_true")
    parser.add_argument("--keep", help="a folder for the scratch copy, which then stays")
    return parser.parse_args()


def main():
    args = arguments()
    sys.dont_write_bytecode = True
    sys.path.insert(0, args.oracle)
    import tokens

    kinds = kind_names(args)
    groups, odd = collect(args, tokens, kinds)
    sheets = [s for group in groups.values() for s in group]
    for sheet in odd:
        print("ODD %s: the oracle's answer is none of 01's: %s" % (sheet.name, sheet_text(tokens, sheet)))
    with tempfile.TemporaryDirectory() as folder:
        scratch = Scratch(args.repo, args.keep or folder)
        differing = compare(args, tokens, kinds, scratch, groups)
        print("sheets=%d differ=%d odd=%d; %s" % (len(sheets), differing, len(odd), coverage(sheets)))
        if args.mutate:
            test_comparison(args, scratch, sheets)
    sys.exit(1 if differing or odd else 0)


if __name__ == "__main__":
    try:
        main()
    except (OSError, ImportError, subprocess.CalledProcessError) as error:
        fail(error)
