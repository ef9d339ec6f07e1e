"""Takes the checks of `rt try` out of a module of LLVM, for bench/unproved.sh: from standard input to standard output.

Each check is a call of a function `rattle-llvm-checks::NAME`, which does nothing here, or a branch to a trap, which is taken to be
unreachable here. What isn't written yet isn't filled. A proved program has none of these.
"""
import sys

CHECK = 'define internal void @"rattle-llvm-checks::'
FILLED = ", i8 -86, i64"
TRAP = "call void @llvm.trap()"


def unchecked(lines):
    in_check = False
    for line in lines:
        if line.startswith(CHECK):
            in_check = True
            yield line
            yield "start:\n  ret void\n"
        elif in_check:
            if line.startswith("}"):
                in_check = False
                yield line
        elif line.startswith("attributes"):
            yield line.replace("sanitize_address ", "").replace(" sanitize_address", "")
        elif TRAP not in line and not ("call void @llvm.memset" in line and FILLED in line):
            yield line


sys.stdout.writelines(unchecked(sys.stdin))
