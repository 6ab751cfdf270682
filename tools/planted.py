#!/usr/bin/env python3
"""Tries the edits of crates, crates/NAME/planted/*.edit and crates/NAME/must-fail/*.edit: each turns the meaning of the code, so the prover
must refuse it. An edit is judged by the functions in which its lines stand, for callers see their contracts alone. So several edits are
tried in one check of a copy, each in functions of its own (`rattle check --only`); one that stands in no function is tried by a check of
the whole crate. The crates below are the checkout's built ones; where one is missing, rt builds it before.

An edit ends as one of these:

  clause        refused: a goal of its functions is left open, or a tactic says that it doesn't follow, and the line names it
  type or name  refused, but only by a proof file that names what the edit took away, or whose answer hasn't the type of the goal that the
                edit made. This says less of the contract: change a value, and keep the names
  accepted      its functions are still proved
  not tried     it doesn't apply, the front end refuses it, or the prover gave no verdict

The table after them counts by crate. The status is 1 where an edit was accepted or not tried.
"""
import glob
import importlib.machinery
import importlib.util
import os
import re
import shutil
import subprocess
import sys
import tempfile

sys.dont_write_bytecode = True
sys.path.insert(0, os.path.join(os.path.dirname(os.path.realpath(__file__)), "lib"))
import command
from command import ROOT

CLAUSE, TYPE, ACCEPTED, NOT_TRIED = "clause", "type or name", "accepted", "not tried"
KINDS = (CLAUSE, TYPE, ACCEPTED, NOT_TRIED)
FUNCTION = re.compile(r"^(\s*)(?:pub(?:\([^)]*\))? )?(?:(?:const|unsafe|extern \"C\") )*fn (\w+)")
GOAL = re.compile(r"note: (?:\./)?(\S+?):\d+:\d+: .*\(`([^`]+)`\)")
ERROR = re.compile(r"(?:\./)?(\S+?):\d+:\d+: error\S* ?(.*)")
VERDICT = re.compile(r"fn (\S+): (.*)")
# what a tactic says of a goal, in front of its words
TACTIC = re.compile(r"`([^`]+)`: `\w+`: ")
AMBIGUOUS = re.compile(r"several functions are named `(\w+)`: help: write one of (.*)")


def toolchain():
    """The kit's own command `rt` as a module: how it reads an edit, and with which words it has a crate checked."""
    path = shutil.which("rt") or sys.exit("tools/planted.py: it wants the command rt of the Rattle toolchain on the PATH")
    loader = importlib.machinery.SourceFileLoader("rt", os.path.realpath(path))
    rt = importlib.util.module_from_spec(importlib.util.spec_from_loader("rt", loader))
    sys.modules["rt"] = rt
    loader.exec_module(rt)
    made, stamp, below = rt.rtlib.Crate.__init__, rt.rtlib.Crate.stamp, rt.rtlib.Crate.below
    stamps, lists = {}, {}

    def init(self, *words, **more):
        made(self, *words, **more)
        rt.read_files(self)

    def stamped(self):
        return stamps.setdefault(self.folder, stamps.get(self.folder) or stamp(self))

    def listed(self):
        if self.folder not in lists:
            lists[self.folder] = below(self)
        return list(lists[self.folder])

    # a crate's stamp and what stands below it don't change while this runs
    rt.rtlib.Crate.__init__, rt.rtlib.Crate.stamp, rt.rtlib.Crate.below = init, stamped, listed
    return rt


class Edit:
    """An edit, with its pairs of lines and the functions in which they stand."""

    def __init__(self, crate, path):
        self.crate, self.name, self.path = crate, os.path.basename(path)[: -len(".edit")], path
        self.pairs, self.functions, self.verdict = [], set(), None

    def read(self, rt):
        """Reads it; where it can't be applied to the crate as it stands, it isn't tried."""
        _, why = rt.read_edit(self.path, self.crate.folder)
        if why:
            self.ends(NOT_TRIED, why)
            return
        file = old = None
        with open(self.path, encoding="utf-8") as lines:
            for line in lines.read().split("\n"):
                if line.startswith("file: "):
                    file = line[6:].strip()
                elif line.startswith("old: "):
                    old = line[5:]
                elif line.startswith("new:"):
                    self.pairs.append((file, old, line[4:].removeprefix(" ")))
        for file, old, _ in self.pairs:
            if not old.startswith("use "):
                self.functions.add(function_at(text_of(self.crate, file), old, file))

    def applied(self, texts):
        """The texts with this edit, or None where another one has taken its place."""
        texts = dict(texts)
        for file, old, new in self.pairs:
            text = texts.get(file) or text_of(self.crate, file)
            if text.count(old) != 1:
                return None
            texts[file] = text.replace(old, new)
        return texts

    def ends(self, kind, why):
        self.verdict = kind, why
        print(f"{self.crate.name}/{self.name}: {kind}: {why[:200]}", flush=True)


def text_of(crate, file):
    with open(os.path.join(crate.folder, file), encoding="utf-8") as it:
        return it.read()


def function_at(text, old, file):
    """The function in which a line stands: its file, the type whose `impl` it is in or none, and its name; None where there is none."""
    lines = text[: text.index(old) + len(old)].split("\n")
    for at in range(len(lines) - 1, -1, -1):
        found = FUNCTION.match(lines[at])
        if found:
            if not found[1]:
                return file, None, found[2]
            # (a method stands below the `impl` that begins its line; a function of a module within the file below `mod`)
            above = next((line for line in reversed(lines[:at]) if line[:1].strip() and re.match(r"(unsafe )?(impl|pub trait|trait|mod|pub mod)\b", line)), "")
            owner = re.match(r"(?:unsafe )?impl(?:<[^{]*?>)? (?:.* for )?(?:\w+::)*(\w+)", above)
            return file, owner[1] if owner else None, found[2]
        if lines[at][:1] == "}":
            return None
    return None


class Check:
    """One check of a copy of a crate, with texts in place of its own, of some functions or of all."""

    def __init__(self, rt, crate, kept, jobs):
        self.rt, self.crate, self.kept, self.jobs, self.paths = rt, crate, kept, jobs, {}

    def run(self, texts, functions):
        """The status, and what rattle said."""
        only = [] if functions is None else [word for it in sorted(functions, key=str) for word in ("--only", self.paths.get(it, it[2]))]
        for _ in range(2):
            ran = self.rt.checked(self.crate, texts, ["--jobs", str(self.jobs), *only, "--progress"], self.kept)
            if ran.returncode >= 0:
                break
        found = AMBIGUOUS.search(ran.stdout)
        if found and functions is not None:
            options = re.findall(r"`([^`]+)`", found[2])
            for it in functions:
                if it[2] == found[1] and it not in self.paths:
                    self.paths[it] = self.named(it, options)
                    return self.run(texts, functions)
        return ran.returncode, ran.stdout

    def named(self, function, options):
        """The one of these paths that is the function's."""
        return next(iter(called(options, function)), options[0])


def path_of(function):
    """The path of a function in its crate, as `swap_map::SwapMap::take`."""
    file, owner, name = function
    module = file[len("src/") : -len(".rt")].replace("/", "::").removesuffix("::mod")
    return "::".join(part for part in ("" if module in ("lib", "main") else module, owner, name) if part)


def called(paths, function):
    """Those of the paths, which begin with the crate, that name a function. A method's has the module in which its type is declared, which may be
    another than the one in which it stands."""
    wanted, tail = path_of(function), "::" + "::".join(part for part in function[1:] if part)
    return (
        [it for it in paths if it.split("::", 1)[-1] == wanted]
        or [it for it in paths if it.endswith("::" + wanted)]
        or [it for it in paths if function[1] and it.endswith(tail)]
    )


def parted(said):
    """What a check says: of each function its verdict and its open goals, which stand before it, and the errors in files with their places."""
    goals, errors, verdicts, open_goals = [], [], [], {}
    for line in said.split("\n"):
        goal, error, verdict = GOAL.match(line), ERROR.match(line), VERDICT.match(line)
        if goal and goal[1].startswith("src/"):
            goals.append(goal[2])
        elif error:
            errors.append((error[1], error[2]))
        elif verdict:
            verdicts.append((verdict[1], verdict[2]))
            open_goals[verdict[1]] = goals
            goals = []
    return verdicts, open_goals, errors


def judged(said, function, is_alone):
    """What a check says of a function: a kind, and why; None where it says nothing."""
    verdicts, open_goals, errors = parted(said)
    names = called([it[0] for it in verdicts], function)
    mine = [it for it in verdicts if it[0] in names]
    if not mine:
        return None
    for symbol, words in mine:
        if open_goals[symbol]:
            return CLAUSE, f"{symbol}: `{'`, `'.join(open_goals[symbol][:4])}`"
    for symbol, words in mine:
        if words != "proved" and not words.startswith("proved"):
            place = "proofs/" + "/".join(symbol.split("::")[1:]) + "/"
            told = [it for it in errors if it[0].startswith(place)] or (errors if is_alone else [])
            if re.search(r"stopped at|ran out of|outgrew", words + " ".join(it[1] for it in told)):
                return NOT_TRIED, f"{symbol}: a limit of the prover: {words[:100]}"
            judges = [TACTIC.match(why) for _, why in told if TACTIC.match(why)]
            if judges:
                return CLAUSE, f"{symbol}: `{judges[0][1]}`"
            where, why = told[0] if told else ("", words)
            return TYPE, f"{symbol}: {where} {why}".replace("  ", " ")
    return ACCEPTED, f"{', '.join(it[0] for it in mine)}: proved"


def settle(check, edits, texts):
    """Tries edits together, each in functions of its own, and apart where that can't be read."""
    functions = {it for edit in edits for it in edit.functions}
    status, said = check.run(texts, functions)
    is_read = re.search(r"(?m)^fn ", said)
    if not is_read and len(edits) > 1:
        half = len(edits) // 2
        for part in (edits[:half], edits[half:]):
            own = {}
            for edit in part:
                own = edit.applied(own)
            settle(check, part, own)
        return
    for edit in edits:
        results = [judged(said, it, len(edits) == 1) for it in sorted(edit.functions, key=str)]
        results = [it for it in results if it]
        told = next((line for line in said.split("\n") if "error" in line), said.strip().split("\n")[-1])
        best = next((it for kind in (CLAUSE, TYPE, NOT_TRIED, ACCEPTED) for it in results if it[0] == kind), None)
        if best is None or best[0] == ACCEPTED and len(results) < len(edit.functions):
            best = NOT_TRIED, f"status {status}: {told}"
        edit.ends(*best)


def whole(check, edit):
    """Tries an edit by a check of the whole crate, as one of a constant or of a type."""
    status, said = check.run(edit.applied({}), None)
    verdicts, open_goals, errors = parted(said)
    left = [f"{symbol}: `{goals[0]}`" for symbol, goals in open_goals.items() if goals]
    left += [f"{place}: `{TACTIC.match(why)[1]}`" for place, why in errors if TACTIC.match(why)]
    if status == 0:
        edit.ends(ACCEPTED, "the crate is still proved")
    elif status == 1 and left:
        edit.ends(CLAUSE, f"{left[0]}, and {len(left) - 1} more" if len(left) > 1 else left[0])
    elif status == 1 and verdicts and said.rstrip().split("\n")[-1].startswith("logic=not-proved"):
        edit.ends(TYPE, " ".join(errors[0]) if errors else next(f"{symbol}: {words}" for symbol, words in verdicts if words != "proved"))
    else:
        edit.ends(NOT_TRIED, f"status {status}: {' '.join(errors[0]) if errors else said.strip().split(chr(10))[0]}")


def linked(one, other):
    """Links what was proved, which a check replaces and never changes; copies what can't be linked, and what isn't proved work."""
    try:
        if one.endswith(".oantt"):
            return os.link(one, other)
    except OSError:
        pass
    return shutil.copy2(one, other)


def tried(rt, crate, edits, jobs):
    """Tries a crate's edits."""
    for edit in edits:
        edit.read(rt)
    left = [edit for edit in edits if not edit.verdict]
    if not left:
        return
    lacking = [it.name for it in crate.below() if not it.is_built()]
    if lacking:
        print(f"{crate.name}: {', '.join(lacking)} aren't built yet; rt builds them", flush=True)
        words = ["rt", "check", crate.name, "--only", "", "--allow-holes", "--jobs", str(jobs)]
        status = subprocess.run(words, cwd=crate.folder, stdout=subprocess.DEVNULL).returncode
        if status:
            for edit in left:
                edit.ends(NOT_TRIED, f"the crates below can't be built: rt check ends with status {status}")
            return
    with tempfile.TemporaryDirectory(prefix="planted-") as room:
        kept = os.path.join(room, "kept")
        own = os.path.join(crate.folder, rt.rtlib.KEPT[1])
        if os.path.isdir(own):
            shutil.copytree(own, kept, symlinks=True, copy_function=linked)
        else:
            os.mkdir(kept)
        check = Check(rt, crate, kept, jobs)
        for edit in [it for it in left if None in it.functions or not it.functions]:
            whole(check, edit)
        left = [edit for edit in left if not edit.verdict]
        while left:
            texts, taken, now, later = {}, set(), [], []
            for edit in left:
                got = None if {it[2] for it in edit.functions} & taken else edit.applied(texts)
                if got is None:
                    later.append(edit)
                else:
                    texts, now, taken = got, [*now, edit], taken | {it[2] for it in edit.functions}
            settle(check, now, texts)
            left = later


def changed_since(commit):
    """The crates that differ from a commit, files that git doesn't know among them."""
    names = set()
    for words in (["diff", "--name-only", "-z", commit, "--", "crates"], ["ls-files", "-z", "--others", "--exclude-standard", "--", "crates"]):
        run = subprocess.run(["git", "-C", ROOT, *words], capture_output=True, text=True)
        if run.returncode:
            sys.exit(f"tools/planted.py: {run.stderr.strip()}")
        names |= {name.split("/")[1] for name in run.stdout.split("\0") if name.count("/") > 1}
    return names


def table(edits):
    print()
    print(f"{'edits':<24}" + "".join(f"{kind:>14}" for kind in KINDS))
    rows = {}
    for edit in edits:
        rows.setdefault(edit.crate.name, dict.fromkeys(KINDS, 0))[edit.verdict[0]] += 1
    for name, row in rows.items():
        print(f"{name:<24}" + "".join(f"{row[kind]:>14}" for kind in KINDS))
    print(f"{'all':<24}" + "".join(f"{sum(row[kind] for row in rows.values()):>14}" for kind in KINDS))


def main():
    words = command.parser("tools/planted.py", __doc__)
    words.add_argument("crates", nargs="*", metavar="NAME", help="crates whose edits are tried; all where none is named")
    words.add_argument("--since", metavar="COMMIT", help="only the crates that differ from this commit")
    words.add_argument("--edit", metavar="WORD", default="", help="only edits with this word in their name")
    words.add_argument("--jobs", type=command.number(1, 64), default=2, metavar="N", help="rattle's jobs, 2 where it isn't given")
    given = words.parse_args()
    found = {}
    for path in sorted(glob.glob(os.path.join(ROOT, "crates", "*", "planted", "*.edit")) + glob.glob(os.path.join(ROOT, "crates", "*", "must-fail", "*.edit"))):
        if given.edit in os.path.basename(path):
            found.setdefault(path.split(os.sep)[-3], []).append(path)
    for name in given.crates:
        if name not in found:
            words.error(f"there are no such edits in crates/{name}")
    chosen = [name for name in found if not given.crates or name in given.crates]
    if given.since:
        since = changed_since(given.since)
        chosen = [name for name in chosen if name in since]
    rt = toolchain()
    os.chdir(ROOT)
    rt.rtlib.guarded()
    crates = {crate.name: crate for crate in rt.rtlib.crates_below(os.path.join(ROOT, "crates"))}
    edits = []
    for name in [name for name in crates if name in chosen]:
        its = [Edit(crates[name], path) for path in found[name]]
        edits += its
        tried(rt, crates[name], its, given.jobs)
    table(edits)
    return 1 if any(edit.verdict[0] in (ACCEPTED, NOT_TRIED) for edit in edits) else 0


if __name__ == "__main__":
    command.end(main)
