#!/usr/bin/env python3
"""Tries wrong bodies, each of which the prover has to refuse. The gate leaves them out, since a crate's first one costs its whole proof again.

    tests/outside/edits.py [CRATE..]            tries each edit in tests/outside/edits/CRATE (without names, in every folder there)
    tests/outside/edits.py --apply [CRATE..]    proves nothing: only whether each edit still applies

An edit NAME.edit has the form of a must-fail edit: a line `file:`, then pairs of lines `old:` and `new:`, each a text of one line. An old text has
to occur exactly once in what the pairs before it made. A copy of the crate is checked over the libraries that `./prove-below cclib` keeps: first as
it is, which has to pass, then with each edit over what that check left. Prints a line for each edit. The status is 1 if one is not refused or could
not be tried. A crate takes as long as its proof, up to 20 minutes, and up to 4 GB."""
import glob
import importlib.machinery
import importlib.util
import os
import re
import shutil
import subprocess
import sys
import tempfile

TOP = os.path.dirname(os.path.dirname(os.path.dirname(os.path.abspath(__file__))))
PARTS = ("src", "specs", "proofs")
# What the prover says of a place: an error, or a note about a goal that is open.
SAID = re.compile(r"(note: |)(?:\./)?(\S+?):\d+:\d+: (error: |)(.*)")
# An error of the code for which no contract was tried: it names no goal, or something is not in scope.
UNREAD = re.compile(r"(?!`[^`]*`: )|.*(is not in scope|has no field|is no name|operand is missing|expected the end|cannot continue)")
# A proof names what the edit took away, or cites a proof that does: this says little about the contract.
GONE = re.compile(r".*(has no field|is not in scope|has no `|was not admitted)")


def edits_of(top, crates=()):
    """Returns the crate and the path of each edit: of these crates, or of all."""
    paths = sorted(glob.glob(f"{top}/tests/outside/edits/*/*.edit"))
    return [(crate, it) for it in paths for crate in [it.split("/")[-2]] if not crates or crate in crates]


def changed(edit, folder):
    """Returns the texts that an edit makes of a crate's files, by their paths. It raises ValueError if the edit does not apply."""
    texts, path, old, pairs = {}, None, None, 0
    with open(edit, encoding="utf-8") as file:
        lines = file.read().split("\n")
    for word, _, text in (line.partition(":") for line in lines):
        text = text[1:]
        if word == "file":
            path = text
            if not os.path.isfile(f"{folder}/{path}"):
                raise ValueError(f"there is no {path}")
            with open(f"{folder}/{path}", encoding="utf-8") as file:
                texts.setdefault(path, file.read())
        elif word == "old":
            old = text
        elif word == "new":
            if not path or not old:
                raise ValueError("a new text comes before its file or its old text")
            if texts[path].count(old) != 1:
                raise ValueError(f"{path} has this {texts[path].count(old)} times, not once: {old.strip()}")
            texts[path], old, pairs = texts[path].replace(old, text), None, pairs + 1
    if not pairs:
        raise ValueError("it changes nothing")
    return texts


def not_applicable(top, crates=()):
    """Returns a line for each edit that does not apply to its crate as it is in this tree."""
    wrong = []
    for crate, edit in edits_of(top, crates):
        try:
            changed(edit, f"{top}/crates/{crate}")
        except ValueError as why:
            wrong.append(f"{edit.removeprefix(f'{top}/')}: {why}")
    return wrong


def prove_below():
    """Returns ./prove-below as a module."""
    loader = importlib.machinery.SourceFileLoader("prove_below", f"{TOP}/prove-below")
    found = importlib.util.module_from_spec(importlib.util.spec_from_loader(loader.name, loader))
    loader.exec_module(found)
    return found


def link_or_copy(one, other):
    """Gives a proof a second name, since a check replaces such a file and never writes into it; copies any other file."""
    return os.link(one, other) if one.endswith(".oantt") else shutil.copy2(one, other)


def judged(status, lines):
    """Returns whether a check with an edit refuses it, and what to print about it."""
    if status == 0:
        return False, "NOT REFUSED: the crate is still proved"
    if status != 1 or not lines[-1].startswith("logic=not-proved"):
        return False, f"NOT TRIED: the check ends with {status}: {lines[0]}"
    said = [it for it in map(SAID.match, lines) if it and (it[1] or it[3])]
    for it in said:
        if it[3] and not it[2].startswith("proofs/") and UNREAD.match(it[4]):
            return False, f"NOT TRIED: the prover cannot read it: {it[0]}"
    why = [it for it in said if not (it[2].startswith("proofs/") and GONE.match(it[4]))]
    if said and not why:
        return False, f"NOT REFUSED: only a proof names what the edit took away: {said[0][0]}"
    return True, f"refused: {why[0][0][:160]}" if why else "refused"


class Trial:
    """A crate whose edits are tried."""

    def __init__(self, below, crate, room):
        self.crate, self.folder, self.seed, self.copy = crate, f"{TOP}/crates/{crate}", f"{room}/seed", f"{room}/copy"
        os.mkdir(self.seed)
        needs = below.crates()
        low = below.in_order(crate, needs)[:-1]
        totals = below.sums(low, needs, False)
        self.lacks = [it for it in low if not below.is_proved(it, totals[it])]
        words = [f"{below.KIT}/bin/rattle", "check", "--crate-name", crate, "src/lib.rt"]
        for it in [*needs[crate], "std"]:
            words += ["--extern", f"{it}={below.KEPT if it in needs else f'{below.KIT}/rlibs'}/{it}.rlib"]
        words += ["-L", f"dependency={below.KEPT}", "-L", f"dependency={below.KIT}/rlibs", "--links", f"{crate}=", "--jobs", "1"]
        words += ["--antt-project", f"{below.KIT}/rattle/logic/antt-project.json", "--logic-built", f"{below.KIT}/logic_built"]
        self.words = [*words, "--incremental"]

    def check(self, texts, over):
        """Checks a copy of the crate with these texts over what the folder `over` has. Returns the status and the lines."""
        for part in PARTS:
            if os.path.isdir(f"{self.folder}/{part}"):
                shutil.copytree(f"{self.folder}/{part}", f"{self.copy}/{part}")
        for path, text in texts.items():
            with open(f"{self.copy}/{path}", "w", encoding="utf-8") as file:
                file.write(text)
        how = {"cwd": self.copy, "stdin": subprocess.DEVNULL, "stdout": subprocess.PIPE, "stderr": subprocess.STDOUT, "errors": "replace"}
        ran = subprocess.run([*self.words, over], check=False, **how)
        shutil.rmtree(self.copy)
        return ran.returncode, ran.stdout.rstrip("\n").split("\n")

    def begin(self):
        """Proves the crate without an edit. Returns what is missing for that, or nothing."""
        if self.lacks:
            return f"{len(self.lacks)} libraries are not proved, {self.lacks[0]} is the first: ./prove-below cclib"
        status, lines = self.check({}, self.seed)
        return f"without an edit, the check ends with {status}: {lines[-1]}" if status else None

    def refuses(self, edit):
        """Returns whether the prover refuses an edit, and what to print about it."""
        over = f"{self.seed}-edit"
        try:
            texts = changed(edit, self.folder)
        except ValueError as why:
            return False, f"NOT TRIED: {why}"
        shutil.copytree(self.seed, over, copy_function=link_or_copy)
        status, lines = self.check(texts, over)
        shutil.rmtree(over)
        return judged(status, lines)


def tried(crate, edits, below):
    """Tries the edits of a crate. Returns whether each is refused."""
    with tempfile.TemporaryDirectory(prefix="cclib-edits-") as room:
        trial = Trial(below, crate, room)
        missing, is_well = trial.begin(), True
        for edit in edits:
            is_refused, said = (False, f"NOT TRIED: {missing}") if missing else trial.refuses(edit)
            print(f"{crate}/{os.path.basename(edit)}: {said}", flush=True)
            is_well = is_well and is_refused
    return is_well


def main():
    is_apply = sys.argv[1:2] == ["--apply"]
    crates = sys.argv[2 if is_apply else 1:]
    found = edits_of(TOP, crates)
    missing = [it for it in crates if it not in dict(found)]
    if missing or not found:
        print(f"tests/outside/edits has no edit of {' '.join(missing) or 'any crate'}")
        return 1
    if is_apply:
        wrong = not_applicable(TOP, crates)
        print("\n".join([*wrong, f"{len(found)} edits, {len(wrong)} do not apply"]))
        return 1 if wrong else 0
    sys.dont_write_bytecode = True
    below = prove_below()
    are_well = [tried(it, [edit for crate, edit in found if crate == it], below) for it in dict(found)]
    return 0 if all(are_well) else 1


if __name__ == "__main__":
    sys.exit(main())
