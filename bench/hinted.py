"""Gives the functions of a module of LLVM the hints on inlining that their sources have, for bench/unproved.sh: from standard input to
standard output. The words of the command are folders of crates, each with `src`.

`rt try` leaves these hints out, and a proved program has them. Those of functions of traits, which have other names, are left out here.
"""
import os
import re
import sys

HINTS = {"#[inline(always)]": "alwaysinline", "#[inline(never)]": "noinline", "#[inline]": "inlinehint", "#[cold]": "cold"}
IMPL = re.compile(r"impl(?:<.*?>)? (\w+)[^{]*\{")
FUNCTION = re.compile(r"(?:pub(?:\(\w+\))? )?(?:const |unsafe )*fn (\w+)")
DEFINED = re.compile(r'define .*? @"([^"]+)"\(')


def hinted(path):
    """The functions of a file that have hints, by their type, if they have one, and their name."""
    found, hints, of_type = {}, [], None
    with open(path) as lines:
        for line in lines:
            word = line.strip()
            if line.startswith("impl"):
                matched = IMPL.match(" ".join(line.split()))
                of_type = matched.group(1) if matched and " for " not in line else ""
            elif line.startswith("}"):
                of_type = None
            if word in HINTS:
                hints.append(HINTS[word])
            elif not word.startswith(("#[", "//")):
                matched = FUNCTION.match(word)
                if matched and hints and of_type != "":
                    found[of_type, matched.group(1)] = " ".join(hints)
                hints = []
    return found


def sources(folder):
    for at, _, names in os.walk(f"{folder}/src"):
        yield from (f"{at}/{name}" for name in names if name.endswith(".rt"))


def hints_of(folders):
    """The hints of all functions, by crate, type and name."""
    found = {}
    for folder in folders:
        crate = os.path.basename(os.path.normpath(folder))
        for path in sources(folder):
            found.update({(crate, *function): hints for function, hints in hinted(path).items()})
    return found


def hint(found, name):
    """The hints of a function by its path, as `cil_lines::line::Line::present::<#8e68563ad385b142>`."""
    path = re.sub(r"::<#.*", "", name).split("::")
    if len(path) < 2:
        return None
    of_type = path[-2] if path[-2][:1].isupper() else None
    return found.get((path[0], of_type, path[-1]))


def main():
    found = hints_of(sys.argv[1:])
    for line in sys.stdin:
        matched = DEFINED.match(line)
        hints = matched and hint(found, matched.group(1))
        sys.stdout.write(re.sub(r"\) (#\d+)", rf") {hints} \1", line, count=1) if hints else line)


main()
