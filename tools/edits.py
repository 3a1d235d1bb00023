#!/usr/bin/env python3
"""Tries the edits that the gate leaves out: each turns the meaning of a function, and the prover must refuse it.

  edits.py [NAME ..] [--since REV] [--jobs N]

With names it tries crates/NAME/edits/ of these crates; with --since those of the crates whose sources, specs, proofs or
edits changed since REV, uncommitted changes included; else those of all crates. N crates are tried side by side (1 if
left out). It works in temporary copies of the repository, over the work that earlier checks kept in out/. It prints a line
for each edit and ends with status 1 where one isn't refused or can't be applied, and with 2 where it can't begin.

A function is checked against the contracts of what it calls and never against their bodies, so edits of different functions
are tried together, in rounds: one check of the crate with at most one edit of a function, and of a recursive group, in it.
An edit is refused where that check doesn't prove its own function, at a goal. An edit that stands in no function, and one
that no round settles, is tried alone, as the gate tries those of must-fail/: one that is still proved, one whose function
waits for another or lacks a name, and those of a round that isn't read or in which something else isn't proved either.
"""
import argparse
import collections
import concurrent.futures
import os
import re
import shutil
import subprocess
import sys
import tempfile
from typing import NamedTuple

ROOT = os.path.dirname(os.path.dirname(os.path.abspath(__file__)))
SAID = re.compile(r"must-fail (\S+?)/(\S+?)\.edit: (.*)")
HEAD = re.compile(r"( *)(?:pub(?:\([a-z ]+\))? )?(?:const |unsafe )*fn (\w+)")
OWNER = re.compile(r"impl(?:<.*?>)? (?:([\w:]+)(?:<.*>)? for )?&?(\w+)")
CYCLE = re.compile(r" *#\[cycle\((\w+)\)")
VERDICT = re.compile(r"(?:fn|impl|enum|struct|trait|type) (\S+): (proved|not proved|no proof|could not tell)\b(.*)")
AT_GOAL = re.compile(r"note: src/\S+: it is not proved that ")
UNPROVED_GOAL = re.compile(r"did not prove `")
WAITS = re.compile(r"it calls `.*which (?:is|are) not proved|it waits for the proof of `")
ERROR = re.compile(r"(\S+?):\d+:\d+: error")
LACKS_A_NAME = re.compile(r"has no field|is not in scope|has no `|was not admitted")

# the most edits of a round: one that settles nothing is tried again in halves
TOGETHER = 16


class Edit(NamedTuple):
    """An edit of one function: its file, its pairs of texts, the function as a check names it, and its recursive group."""

    name: str
    path: str
    pairs: list
    function: str
    cycle: str


def git(*words):
    ran = subprocess.run(["git", "-C", ROOT, *words], capture_output=True, text=True)
    if ran.returncode:
        sys.exit(f"edits.py: git {' '.join(words)}: {ran.stderr.strip()}")
    return ran.stdout.splitlines()


def text_of(path):
    with open(path, encoding="utf-8") as file:
        return file.read()


def edits_in(crate):
    folder = f"{ROOT}/crates/{crate}/edits"
    return sorted(name for name in os.listdir(folder) if name.endswith(".edit")) if os.path.isdir(folder) else []


def changed_since(revision):
    paths = git("diff", "--name-only", revision, "--", "crates") + git("ls-files", "-o", "--exclude-standard", "crates")
    parts = [path.split("/") for path in paths]
    return {part[1] for part in parts if len(part) > 3 and part[2] in ("src", "specs", "proofs", "edits")}


def crates_below(crate):
    """Returns the crates of the repository that the crate stands on."""
    lines = [line.partition(":") for line in text_of(f"{ROOT}/crates.txt").splitlines() if line[:1] not in ("", "#")]
    needs = {words.split()[0]: deps.split() for words, _, deps in lines}
    found, left = set(), [crate]
    while left:
        new = [name for name in needs.get(left.pop(), []) if name in needs and name not in found]
        found.update(new)
        left += new
    return found


def copy_kept(folder, to):
    """Copies kept work. A check replaces a checked module's file and writes into none, so a link serves for a copy."""

    def copy(one, other):
        if one.endswith(".oantt"):
            try:
                return os.link(one, other)
            except OSError:
                pass
        return shutil.copy2(one, other)

    if os.path.isdir(folder):
        shutil.copytree(folder, to, symlinks=True, copy_function=copy)


def function_at(crate, path, text, at):
    """Returns the function round a line of a file as a check names it, and its recursive group, or None."""
    lines = text.splitlines()
    for head in range(at, -1, -1):
        found = HEAD.match(lines[head])
        if found:
            break
    else:
        return None
    ends = [number for number in range(head, len(lines)) if lines[number] == found[1] + "}"]
    if not ends or ends[0] < at:
        return None
    above = head - 1
    while above >= 0 and lines[above].startswith((found[1] + "#[", found[1] + "///")):
        above -= 1
    cycles = [it[1] for it in map(CYCLE.match, lines[above + 1 : head]) if it]
    owner = ""
    if found[1]:
        impls = [OWNER.match(line) for line in lines[:head] if line.startswith("impl")]
        if not impls or not impls[-1]:
            return None
        owner = impls[-1][2] + (impls[-1][1] or "").rpartition("::")[2]
    module = path[len("src/") : -len(".rt")].split("/")
    names = [crate, *(module if module not in (["lib"], ["main"]) else []), owner, found[2]]
    return "::".join(filter(None, names)), cycles[0] if cycles else ""


def read_edit(crate, name):
    """Returns the edit, or None where it isn't one of a single function."""
    path, old, pairs, functions = "", "", [], set()
    for line in text_of(f"{ROOT}/crates/{crate}/edits/{name}.edit").split("\n"):
        if line.startswith("file: ") and not path:
            path = line[len("file: ") :].strip()
            if not path.startswith("src/") or not os.path.isfile(f"{ROOT}/crates/{crate}/{path}"):
                return None
            text = text_of(f"{ROOT}/crates/{crate}/{path}")
        elif line.startswith("old: ") and path:
            old = line[len("old: ") :]
        elif line.startswith("new:") and old and text.count(old) == 1:
            pairs.append((old, line[len("new:") :].removeprefix(" ")))
            functions.add(function_at(crate, path, text, text[: text.index(old)].count("\n")))
        elif line.startswith(("file: ", "old: ", "new:")):
            return None
    if len(functions) != 1 or None in functions:
        return None
    return Edit(name, path, pairs, *functions.pop())


def rounds_of(edits):
    """Puts the edits into rounds, of which none has two of one function or of one recursive group."""
    groups = {edit.name: edit.cycle or edit.function for edit in edits}
    of_group = collections.Counter(groups.values())
    rounds = []
    for edit in sorted(edits, key=lambda edit: -of_group[groups[edit.name]]):
        for found in rounds:
            if len(found) < TOGETHER and all(groups[it.name] != groups[edit.name] for it in found):
                found.append(edit)
                break
        else:
            rounds.append([edit])
    return rounds


class Trial:
    """The tries of a crate's edits, in a copy of the repository of their own."""

    def __init__(self, room, crate):
        self.room, self.crate, self.folder, self.checks = room, crate, f"{room}/crates/{crate}", 0
        for path in git("ls-files", "-co", "--exclude-standard", "crates", "crates.txt", "HANDLES"):
            if os.path.isfile(f"{ROOT}/{path}") and "/must-fail/" not in path and "/edits/" not in path:
                os.makedirs(os.path.dirname(f"{room}/{path}"), exist_ok=True)
                shutil.copy2(f"{ROOT}/{path}", f"{room}/{path}")
        for below in crates_below(crate):
            copy_kept(f"{ROOT}/crates/{below}/out/rlib", f"{room}/crates/{below}/out/rlib")
        copy_kept(f"{ROOT}/crates/{crate}/out/incremental", f"{self.folder}/out/incremental")
        # the cycle of each function that is in one
        self.cycles = {}

    def check(self):
        self.checks += 1
        return run(["rt", "check", "--jobs", "1"], self.folder)

    def begin(self):
        """Checks the crate as it stands, keeps what that proved for the rounds, and returns what was said if it isn't proved."""
        ran = self.check()
        if ran.returncode:
            return ran.stdout
        os.rename(f"{self.folder}/out/incremental", f"{self.room}/kept")
        self.functions = {found[1] for found in map(VERDICT.match, ran.stdout.splitlines()) if found}
        for at, _, files in os.walk(f"{self.folder}/src"):
            for name in files:
                self.read_cycles(os.path.relpath(f"{at}/{name}", self.folder), text_of(f"{at}/{name}"))
        return None

    def read_cycles(self, path, text):
        lines = text.splitlines()
        for number, line in enumerate(lines):
            if HEAD.match(line):
                found = function_at(self.crate, path, text, number)
                if found and found[1]:
                    self.cycles[self.name_of(found[0])] = found[1]

    def name_of(self, function):
        """Returns the function's name in a check, or '': a method is named after the module of its type, wherever it stands."""
        if function in self.functions:
            return function
        owner, name = function.split("::")[-2:]
        found = [it for it in self.functions if owner[:1].isupper() and it.endswith(f"::{owner}::{name}")]
        return found[0] if len(found) == 1 else ""

    def renew_kept(self):
        shutil.rmtree(f"{self.folder}/out/incremental", ignore_errors=True)
        copy_kept(f"{self.room}/kept", f"{self.folder}/out/incremental")

    def said_with(self, edits):
        """Returns what a check with these edits says, or '' where they can't be applied together."""
        texts = {edit.path: text_of(f"{self.folder}/{edit.path}") for edit in edits}
        were = dict(texts)
        for edit in edits:
            for old, new in edit.pairs:
                if texts[edit.path].count(old) != 1:
                    return ""
                texts[edit.path] = texts[edit.path].replace(old, new)
        self.renew_kept()
        try:
            self.write(texts)
            return self.check().stdout
        finally:
            self.write(were)

    def write(self, texts):
        for path, text in texts.items():
            with open(f"{self.folder}/{path}", "w", encoding="utf-8") as file:
                file.write(text)

    def edit_of(self, function, edits):
        """Returns the edit of the function, of its closures or of its recursive group, if there is one."""
        for edit in edits:
            module, _, name = edit.function.rpartition("::")
            in_group = edit.cycle and self.cycles.get(function) == edit.cycle
            if function == edit.function or in_group or function.startswith(f"{module}::fn::{name}::"):
                return edit
        return None

    def edit_by_proof(self, path, edits):
        """Returns the edit of the function that a file of proofs/ is for, if there is one."""
        folders = os.path.dirname(path.removeprefix("./")).split("/")[1:]
        cycles = [folder[1:] for folder in folders if folder.startswith("+")]
        if cycles:
            return next((edit for edit in edits if edit.cycle == cycles[0]), None)
        return self.edit_of("::".join([self.crate, *folders]), edits)

    def judged(self, said, edits):
        """Returns what shows that an edit is refused, by its name, and the edits whose functions only wait for others, or None
        where the check fails by something else."""
        lines = said.splitlines()
        if not any(line.startswith("logic=not-proved") for line in lines):
            return None
        found, failed, waiting, before = {}, set(), [], []
        for line in lines:
            error, verdict = ERROR.match(line), VERDICT.match(line)
            if error:
                edit = self.edit_by_proof(error[1], edits)
                if not edit:
                    return None
                if not LACKS_A_NAME.search(line):
                    found.setdefault(edit.name, line)
            elif AT_GOAL.match(line):
                before.append(line)
            elif verdict:
                goals, before = before, []
                if verdict[2] == "proved":
                    continue
                edit = self.edit_of(verdict[1], edits)
                at_goal, waits = goals or UNPROVED_GOAL.search(verdict[3]), WAITS.search(verdict[3])
                if not edit and (verdict[2] == "could not tell" or at_goal or not waits):
                    return None
                if edit:
                    failed.add(edit.name)
                    if at_goal:
                        found.setdefault(edit.name, [*goals, line][0])
                    elif waits:
                        waiting.append(edit)
        refused = {name: line for name, line in found.items() if name in failed}
        return refused, [edit for edit in edits if edit in waiting and edit.name not in refused]

    def try_round(self, edits):
        """Returns what is said of each edit that is refused, tried together, and then again those that are not yet tried."""
        judged = self.judged(self.said_with(edits), edits)
        refused, left = judged or ({}, edits)
        half = len(left) // 2 if len(left) == len(edits) else 0
        for part in (left[:half], left[half:]):
            if part and len(part) < len(edits):
                refused.update(self.try_round(part))
        return refused

    def try_alone(self, names):
        """Returns what is said of each edit, tried with nothing else, and what else was said."""
        if not names:
            return {}, []
        self.renew_kept()
        os.makedirs(f"{self.folder}/must-fail", exist_ok=True)
        for name in names:
            shutil.copy2(f"{ROOT}/crates/{self.crate}/edits/{name}.edit", f"{self.folder}/must-fail/{name}.edit")
        ran = run(["rt", "must-fail", self.crate], self.room)
        lines = ran.stdout.splitlines()
        found = [it for it in map(SAID.search, lines) if it and it[1] == self.crate]
        return {it[2]: it[3] for it in found}, lines


def run(words, folder):
    return subprocess.run(
        words, cwd=folder, stdin=subprocess.DEVNULL, stdout=subprocess.PIPE, stderr=subprocess.STDOUT, text=True,
        errors="replace",
    )


def try_crate(crate):
    """Prints what is said of each edit of the crate, and returns how many were refused, the checks, and those tried alone."""
    names = [name[: -len(".edit")] for name in edits_in(crate)]
    with tempfile.TemporaryDirectory(prefix=f"edits-{crate}-") as room:
        trial = Trial(room, crate)
        said, alone, fault = {}, [], trial.begin()
        if fault is None:
            edits = [edit for edit in (read_edit(crate, name) for name in names) if edit]
            edits = [edit._replace(function=trial.name_of(edit.function)) for edit in edits if trial.name_of(edit.function)]
            for edits_of_round in rounds_of(edits):
                refused = trial.try_round(edits_of_round)
                said.update({name: f"refused, as it must be: {line[:160]}" for name, line in refused.items()})
            alone = [name for name in names if name not in said]
            more, lines = trial.try_alone(alone)
            said.update(more)
            fault = "\n".join(lines)
    told = [f"{crate}/{name}: {said.get(name, 'NO VERDICT')}" for name in names]
    if any(name not in said for name in names):
        told += [f"    {line}" for line in fault.splitlines()[-12:]]
    print("\n".join(told), flush=True)
    return sum(said.get(name, "").startswith("refused") for name in names), trial.checks, len(alone)


def main():
    reader = argparse.ArgumentParser(description="Tries the edits of crates/NAME/edits/, each of which the prover must refuse.")
    reader.add_argument("names", nargs="*", metavar="NAME", help="a crate whose edits are tried")
    reader.add_argument("--since", metavar="REV", help="also those of the crates that changed since REV")
    reader.add_argument("--jobs", type=int, default=1, metavar="N", help="crates that are tried side by side")
    asked = reader.parse_args()
    all_crates = sorted(name for name in os.listdir(f"{ROOT}/crates") if edits_in(name))
    unknown = [name for name in asked.names if name not in all_crates]
    if unknown:
        sys.stderr.write(f"edits.py: no edits stand in {', '.join(f'crates/{name}/edits' for name in unknown)}\n")
        return 2
    wanted = set(asked.names) | (changed_since(asked.since) if asked.since else set())
    crates = [name for name in all_crates if name in wanted or not (asked.names or asked.since)]
    # those with most edits first, so that none is left alone at the end
    crates.sort(key=lambda name: -len(edits_in(name)))
    total = sum(len(edits_in(name)) for name in crates)
    with concurrent.futures.ThreadPoolExecutor(max(1, asked.jobs)) as lanes:
        refused, checks, alone = map(sum, zip((0, 0, 0), *lanes.map(try_crate, crates)))
    print(f"{refused} refused, {total - refused} not, of {len(crates)} crates, by {checks} checks and {alone} tries alone")
    return 0 if refused == total else 1


if __name__ == "__main__":
    sys.exit(main())
