#!/usr/bin/env python3
"""Tries wrong bodies that the gate leaves out, one by one: the prover must refuse each.

usage: wrong_bodies.py [CRATE [WORD]]

First it looks whether all edits apply, also those of the gate: each text that one replaces stands in its file once. Then it tries those of
bench/wrong_bodies/CRATE whose names have WORD, or those of every crate, each by `rt check` over what that command kept of the crate, in
a copy. That takes some seconds to some minutes an edit, and as long as a proof of the crate where nothing was kept. With `applies` in place
of CRATE it tries none.
"""
import pathlib
import re
import shutil
import subprocess
import sys
import tempfile

TOP = pathlib.Path(__file__).resolve().parent.parent


class BadEdit(Exception):
    pass


def edited(edit, crate):
    """The texts of the files that an edit changes, as they are after it, by their paths in the crate."""
    texts, path, old = {}, None, None
    for line in edit.read_text().split("\n"):
        if line.startswith("file: "):
            path = line[len("file: "):].strip()
        elif line.startswith("old: "):
            old = line[len("old: "):]
        elif line.startswith("new:"):
            if not path or not old:
                raise BadEdit("a `new:` without its `file:` and `old:`")
            text = texts.get(path) or (crate / path).read_text()
            if text.count(old) != 1:
                raise BadEdit(f"{path} has an `old:` text {text.count(old)} times")
            texts[path], old = text.replace(old, line[len("new:"):].removeprefix(" ")), None
    if not texts:
        raise BadEdit("no `old:` with its `new:`")
    return texts


def unfit():
    """Says which edits don't apply, and answers how many."""
    count = 0
    for edit in sorted([*TOP.glob("bench/wrong_bodies/*/*.edit"), *TOP.glob("crates/*/must-fail/*.edit")]):
        name = edit.parent.name if edit.parent.name != "must-fail" else edit.parent.parent.name
        try:
            edited(edit, TOP / "crates" / name)
        except (BadEdit, OSError) as fault:
            print(f"{edit.relative_to(TOP)} doesn't apply: {fault}")
            count += 1
    return count


def lines_below(crate):
    """The lines of crates.txt for a crate and all those that it stands on, by their names."""
    all_lines = {line.partition(":")[0]: line for line in (TOP / "crates.txt").read_text().splitlines()}
    found = [crate]
    for name in found:
        found += [other for other in all_lines[name].split()[1:] if other in all_lines and other not in found]
    return {name: all_lines[name] for name in found}


def copy(crate, room):
    """Copies a crate and those that it stands on, with what was kept of them."""
    lines = lines_below(crate)
    for name in lines:
        shutil.copytree(TOP / "crates" / name, room / "crates" / name)
    (room / "crates.txt").write_text("".join(line + "\n" for line in lines.values()))
    shutil.copy(TOP / "HANDLES", room)
    subprocess.run(["git", "init", "-q", room], check=True)


def check(folder):
    """Whether a crate is proved, and the prover's lines."""
    ran = subprocess.run(["rt", "check", "--jobs", "1"], cwd=folder, stdin=subprocess.DEVNULL,
                         stdout=subprocess.PIPE, stderr=subprocess.STDOUT, text=True, errors="replace")
    return ran.returncode == 0, ran.stdout.splitlines()


def refusal(lines):
    """The line by which the prover refused a body, or none where it didn't come so far. Errors at no declaration are errors of the text."""
    told = [line for line in lines if re.match(r"note: \S+:\d+:\d+: |\S+:\d+:\d+: error: ", line)]
    unread = [line for line in told if re.match(r"(\./)?(src|specs)/\S+ error: (?!`)", line)]
    if unread or not told or not any(line.startswith("logic=not-proved") for line in lines):
        return None
    return told[0]


def tried(folder, edit):
    """Whether the prover refuses an edit, which is taken back."""
    texts = edited(edit, folder)
    before = {path: (folder / path).read_text() for path in texts}
    for path, text in texts.items():
        (folder / path).write_text(text)
    proved, lines = check(folder)
    for path, text in before.items():
        (folder / path).write_text(text)
    said = "NOT REFUSED" if proved else refusal(lines)
    print(f"{folder.name}/{edit.stem}: {said or 'NOT TRIED: ' + ' '.join(lines[:3])}"[:200], flush=True)
    return not proved and said is not None


def try_crate(crate, word):
    """Tries the edits of a crate in a copy, and answers how many weren't refused."""
    edits = [edit for edit in sorted(TOP.glob(f"bench/wrong_bodies/{crate}/*.edit")) if word in edit.stem]
    with tempfile.TemporaryDirectory() as room:
        room = pathlib.Path(room)
        copy(crate, room)
        folder = room / "crates" / crate
        proved, lines = check(folder)
        if not proved:
            print(f"{crate} isn't proved as it stands:", *lines[-3:], sep="\n")
            return len(edits)
        return sum(not tried(folder, edit) for edit in edits)


def main():
    names, word = sys.argv[1:2], "".join(sys.argv[2:3])
    failed = unfit()
    crates = [path.name for path in sorted(TOP.glob("bench/wrong_bodies/*")) if names in ([], [path.name])]
    if not failed and names != ["applies"]:
        failed = sum(try_crate(crate, word) for crate in crates) if crates else 1
    print(f"{failed} failed")
    return 1 if failed else 0


sys.exit(main())
