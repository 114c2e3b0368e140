#!/usr/bin/env python3
"""libraries.py FROM: gives the checkout that it is called in the libraries that `rt ci` has proved in the checkout FROM, of the same files.

A check there then begins at its own crate, and not at those below. Nothing rests on it but the session's own checks: the gate proves
all anew or takes what it has kept itself. A library of `rt ci` doesn't say of which files it is: change none in FROM after its run."""
import os
import shutil
import sys

# the kit's own library, beside its command `rt`
sys.path.insert(0, os.path.dirname(os.path.realpath(shutil.which("rt") or "rt")))
import rtlib  # noqa: E402

SUMS, KNOWN, OWN = {}, {}, rtlib.Crate.stamp


def stamp(crate):
    """The crate's sum, formed once: the kit forms it anew for each path down."""
    if crate.folder not in SUMS:
        SUMS[crate.folder] = OWN(crate)
    return SUMS[crate.folder]


def stamped(crate):
    """The sum of the files that the crate's library was made of; `rt ci` writes none, and makes it of the files beside it."""
    try:
        with open(f"{os.path.dirname(crate.rlib)}/stamp", encoding="utf-8") as file:
            return file.read()
    except OSError:
        return None


def is_given(crate, theirs):
    """Whether the crate and all below it are proved there, of the same files."""
    if crate.name not in KNOWN:
        other = theirs.get(crate.name)
        proved = other is not None and os.path.isfile(f"{other.rlib}/format") and stamped(other) in (None, stamp(other))
        KNOWN[crate.name] = proved and all(is_given(it, theirs) for it in crate.below()) and stamp(other) == stamp(crate)
    return KNOWN[crate.name]


def link_or_copy(one, other):
    try:
        os.link(one, other)
    except OSError:
        shutil.copy2(one, other)


def main(source):
    rtlib.Crate.stamp = stamp
    theirs = {it.name: it for it in rtlib.crates_below(os.path.abspath(source))}
    taken = []
    for crate in rtlib.crates_below(os.getcwd()):
        if crate.is_program or crate.is_built() or not is_given(crate, theirs):
            continue
        shutil.rmtree(f"{crate.folder}/out/rlib", ignore_errors=True)
        os.makedirs(f"{crate.folder}/out", exist_ok=True)
        shutil.copytree(os.path.dirname(theirs[crate.name].rlib), f"{crate.folder}/out/rlib", copy_function=link_or_copy)
        # a file of its own: the other checkout's may be the same one by another name
        if os.path.exists(f"{crate.folder}/out/rlib/stamp"):
            os.remove(f"{crate.folder}/out/rlib/stamp")
        with open(f"{crate.folder}/out/rlib/stamp", "w", encoding="utf-8") as file:
            file.write(stamp(crate))
        taken.append(crate.name)
    print("taken:", *taken)


if __name__ == "__main__":
    if len(sys.argv) != 2:
        sys.exit(__doc__)
    main(sys.argv[1])
