#!/usr/bin/env python3
"""Tries many must-fail edits in little time.

edits.py gather FOLDER          writes to FOLDER/CRATE/NAME.edit the last version of each edit that the history has and crates/ no more
edits.py CLONE FOLDER [CRATE..] tries the edits of FOLDER on CLONE, a clone whose libraries are built

Edits of different functions are applied together, and `rt check --only` tells of each of these functions whether it is still proved; what
isn't refused so is tried by itself. An edit outside all functions (of a constant) is tried on the whole crate. Of each edit a line says
`refused`, `refused by names alone` (a proof file names what the edit took away, which says little of the contract), `NOT REFUSED`, or `BAD`
with why it couldn't be tried. Nothing else may write to CLONE meanwhile; its files are put back after each check."""
import os
import re
import signal
import subprocess
import sys

NAMES = re.compile(r"has no field|is not in scope|has no `|was not admitted")
CALLS = re.compile(r"(; )?it calls (`[^`]*`(, | and )?)+, which (is|are) not proved")


class Edit:
    def __init__(self, name, text):
        self.name, self.file, self.pairs, old = name, "", [], ""
        for line in text.split("\n"):
            if line.startswith("file: "):
                self.file = line[6:].strip()
            elif line.startswith("old: "):
                old = line[5:]
            elif line.startswith("new:"):
                self.pairs.append((old, line[5:]))

    def why_not(self, texts, file=None):
        """Why it can't be applied to these texts by file, or None."""
        file = file or self.file
        if file not in texts:
            return f"there is no file {file}"
        counts = [texts[file].count(old) for old, _ in self.pairs]
        return None if counts and all(it == 1 for it in counts) else f"its texts are in {file} {counts} times"

    def functions(self, texts):
        """The functions that it changes, by their paths below the crate; none where it changes what stands outside all functions."""
        found, module = set(), re.sub(r"^src/|(^lib)?\.rt$", "", self.file).replace("/", "::")
        for old, _ in self.pairs:
            before = texts[self.file][: texts[self.file].index(old) + len(old)]
            names = re.findall(r"^ *(?:pub(?:\([a-z]*\))? )?(?:const )?fn (\w+)|^\}", before, re.M)
            if not self.file.startswith("src/") or not names or not names[-1]:
                return set()
            block = re.findall(r"^(?:impl(?:<.*?>)? (?:(\w+).* for )?(\w+).*\{|\}()())$", before, re.M)
            impl = block[-1][1] + block[-1][0] if block else ""
            found.add("::".join(filter(None, [module, impl, names[-1]])))
        return found

    def applied(self, texts):
        for old, new in self.pairs:
            texts = {**texts, self.file: texts[self.file].replace(old, new)}
        return texts


def texts_of(folder):
    found = {}
    for part in ("src", "specs", "proofs"):
        for at, _, files in os.walk(f"{folder}/{part}"):
            for name in files:
                path = f"{at}/{name}"
                found[os.path.relpath(path, folder)] = open(path, encoding="utf-8").read()
    return found


def write(folder, texts, files):
    for it in files:
        with open(f"{folder}/{it}", "w", encoding="utf-8") as out:
            out.write(texts[it])


def check(folder, texts, edits):
    """What `rt check` prints with these edits, of the functions that they change, or of the whole crate where one changes none."""
    edited, functions = texts, [it.functions(texts) for it in edits]
    for it in edits:
        edited = it.applied(edited)
    files = {it.file for it in edits}
    only = sorted(set().union(*functions)) if all(functions) else []
    words = ["rt", "check", "--jobs", "1", *(word for it in only for word in ("--only", it))]
    write(folder, edited, files)
    try:
        how = {"cwd": folder, "stdin": subprocess.DEVNULL, "stdout": subprocess.PIPE, "stderr": subprocess.STDOUT}
        return subprocess.run(words, text=True, errors="replace", timeout=3600, **how).stdout
    except subprocess.TimeoutExpired:
        return "no end after an hour"
    finally:
        write(folder, texts, files)


def outcome(said, crate, functions):
    """How what was said ends for these functions, or for the whole crate where there are none: `refused ..`, `NOT REFUSED`, or `BAD ..`."""
    if not re.search(r"^(logic|only)=", said, re.M):
        first = next((it for it in said.split("\n") if "error" in it), said)
        return f"BAD: the prover gives no verdict: {first[:200]}"
    paths = [f"{crate}::{it}" for it in functions]
    told = [(path, CALLS.sub("", how)) for path, how in re.findall(r"^(?:fn|struct|enum|trait|impl|const|static|type) (\S+): (.*)", said, re.M)]
    told = [it for it in told if not paths or it[0] in paths]
    if any(it not in [path for path, _ in told] for it in paths):
        return f"BAD: nothing is said of {', '.join(paths)}"
    open_ = [(path, how.removeprefix("no proof: ")) for path, how in told if how not in ("proved", "no proof: ")]
    if not open_:
        return "NOT REFUSED"
    errors = re.findall(r"^(?:\./)?(\S+?):\d+:\d+: error: (.*)", said, re.M)
    folders = [f"proofs/{path.removeprefix(crate + '::').replace('::', '/')}/" for path, _ in open_]
    errors = [it for file, it in errors if file.startswith(tuple(folders))]
    goals = [how for _, how in open_ if "did not prove" in how]
    by_names = errors and not goals and all(NAMES.search(it) for it in errors)
    why = (goals or errors or [open_[0][1]])[0]
    return f"refused{' by names alone' if by_names else ''}: {open_[0][0]}: {why[:160]}"


def groups(edits, texts):
    """The edits in groups, each with no function twice; those of no function alone."""
    found = []
    for it in edits:
        functions = it.functions(texts)
        place = next((group for group in found if functions and group[0] and not functions & group[0]), None)
        if place is None:
            found.append([functions, [it]])
        else:
            place[0] |= functions
            place[1].append(it)
    return [group for _, group in found]


def gather(folder):
    """Those whose texts stand in another file now, as in one of a crate that was split, go to the crate of that file."""
    git = lambda *words: subprocess.run(["git", *words], capture_output=True, text=True, check=True).stdout
    os.chdir(git("rev-parse", "--show-toplevel").strip())
    crates = {crate: texts_of(f"crates/{crate}") for crate in sorted(os.listdir("crates"))}
    today = {path: open(path, encoding="utf-8").read() for path in git("ls-files", "crates/*/must-fail/*.edit").split()}
    known = {tuple(Edit("", text).pairs) for text in today.values()}
    counts = {"gathered": 0, "as another": 0, "stale": 0}
    seen, commit = set(today), ""
    for line in git("log", "--diff-filter=D", "--no-renames", "--name-only", "--format=%H", "--", "crates/*/must-fail/*.edit").split():
        if "/" not in line:
            commit = line
            continue
        if line in seen:
            continue
        seen.add(line)
        _, crate, _, name = line.split("/")
        edit = Edit(name, git("show", f"{commit}^:{line}"))
        places = [(crate, edit.file)] if crate in crates and not edit.why_not(crates[crate]) else []
        places = places or [(other, file) for other, texts in crates.items() for file in texts if not edit.why_not(texts, file)]
        if tuple(edit.pairs) in known:
            counts["as another"] += 1
        elif len(places) != 1:
            counts["stale"] += 1
            print(f"{line}: its texts are in {len(places)} files")
        else:
            known.add(tuple(edit.pairs))
            counts["gathered"] += 1
            (crate, file), at = places[0], f"{folder}/{places[0][0]}"
            os.makedirs(at, exist_ok=True)
            while os.path.exists(f"{at}/{name}"):
                name = name.replace(".edit", "_too.edit")
            with open(f"{at}/{name}", "w", encoding="utf-8") as out:
                out.write(f"file: {file}\n" + "".join(f"old: {old}\nnew: {new}\n" for old, new in edit.pairs))
    print(", ".join(f"{count} {what}" for what, count in counts.items()))


def try_crate(clone, folder, crate):
    at = f"{clone}/crates/{crate}"
    texts = texts_of(at)
    names = [it for it in sorted(os.listdir(f"{folder}/{crate}")) if it.endswith(".edit")]
    edits = [Edit(it[: -len(".edit")], open(f"{folder}/{crate}/{it}", encoding="utf-8").read()) for it in names]
    for it in edits:
        if it.why_not(texts):
            print(f"{crate}/{it.name}: BAD: {it.why_not(texts)}", flush=True)
    for group in groups([it for it in edits if not it.why_not(texts)], texts):
        said, alone = check(at, texts, group), []
        for it in group:
            how = outcome(said, crate, it.functions(texts))
            if len(group) > 1 and not how.startswith("refused:"):
                alone.append(it)
            else:
                print(f"{crate}/{it.name}: {how}", flush=True)
        for it in alone:
            print(f"{crate}/{it.name}: {outcome(check(at, texts, [it]), crate, it.functions(texts))}", flush=True)


if __name__ == "__main__":
    # (so that the files are put back)
    signal.signal(signal.SIGTERM, lambda number, _: sys.exit(128 + number))
    if sys.argv[1] == "gather":
        sys.exit(gather(os.path.abspath(sys.argv[2])))
    clone, folder, *crates = sys.argv[1:]
    for crate in crates or sorted(os.listdir(folder)):
        try_crate(os.path.abspath(clone), os.path.abspath(folder), crate)
