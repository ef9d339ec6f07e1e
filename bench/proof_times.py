#!/usr/bin/env python3
"""Tells where the time of a crate's proof went.

usage: proof_times.py CRATE [COUNT [SINCE]]

A check keeps each module of the logic that it proved in the crate's out/incremental, and the times of these files tell how long each
took. Run `rt check --jobs 1` in the crate from nothing (rm -r out/incremental; where the machine has another checkout, rt begins with what
was kept there), with nothing beside it, and then this. It prints the seconds by the kind of module, and the COUNT functions (20 where it
isn't given) and modules that took longest. Of a function, `Lts` is the model of its code, `Tie` what leads from that to its contract, and
`Proof` the search for the goals that no file of proofs/ answers. A check that begins with kept work takes from it what was found for goals
that stay, so only one from nothing tells what an answer saves. With SINCE, a file, what was kept before that file was written doesn't
count: so write one, check, and give it, to see what was checked again.
"""
import collections
import pathlib
import re
import sys

TOP = pathlib.Path(__file__).resolve().parent.parent


def kept(folder, since):
    """What a check kept, in the order of time, each with how long it took."""
    files = sorted((it.stat().st_mtime, it.name) for it in folder.rglob("*.oantt"))
    files = [it for it in files if it[0] >= since]
    for (before, _), (after, name) in zip(files, files[1:]):
        yield after - before, re.sub(r"(\.decls)?\.oantt$", "", name)


def parts(module, crate):
    """The kind of a module, and its function, if it is one of a function."""
    start = f"Rattle-{crate}-proofs."
    if not module.startswith(start):
        return ("specs" if module.startswith(f"Rattle-{crate}-specs.") else "other"), None
    *function, kind = module[len(start):].split(".")
    if not function:
        return "lemmas", None
    return kind.split("-")[0], ".".join(function)


def main(crate, count="20", since=None):
    folder = TOP / "crates" / crate / "out" / "incremental"
    kinds, functions, modules = collections.Counter(), collections.Counter(), collections.Counter()
    for seconds, module in kept(folder, pathlib.Path(since).stat().st_mtime if since else 0):
        kind, function = parts(module, crate)
        kinds[kind] += seconds
        modules[module.removeprefix(f"Rattle-{crate}-")] += seconds
        if function:
            functions[function] += seconds
    print(f"{crate}: {sum(kinds.values()):.0f} s")
    for title, counter in ("by kind", kinds), ("by function", functions), ("by module", modules):
        print(title)
        for name, seconds in counter.most_common(int(count)):
            print(f"{seconds:8.1f}  {name}")


if __name__ == "__main__":
    if not 2 <= len(sys.argv) <= 4 or sys.argv[1].startswith("-"):
        sys.exit(__doc__)
    main(*sys.argv[1:])
