#!/usr/bin/env python3
"""Has the built programs answer the scripts of scripts/*.cases, make the trials of trials/*.trials and do the commands of
commands/*.commands, and compares what they print; and has PROGRAM make the sessions of long_session.py, whose memory must stay small.

usage: check.py [FILE..]     (all files, where none is named; scripts/long_session.py for the long sessions)

The programs are those that `make test` builds, or those of the variables PROGRAM, PLAIN and TRIALS. Each script and each trial is for both
engines. There a program has to print what is wanted, to end with the exit status that follows from it, and to say nothing on standard
error. The commands are for PROGRAM, and say of themselves what it is to print, on standard error too, and how it is to end. cases.py,
trials.py and commands.py say what stands in the files.
"""
import glob
import os
import subprocess
import sys
from concurrent.futures import ThreadPoolExecutor

sys.dont_write_bytecode = True
TOP = os.path.dirname(os.path.dirname(os.path.abspath(__file__)))
sys.path.insert(0, f"{TOP}/scripts")

from cases import Fault, cases_of
from commands import commands_of
from long_session import SESSIONS
from trials import trials_of

PROGRAM = os.environ.get("PROGRAM", f"{TOP}/crates/cilsem/out/cilsem")
PLAIN = os.environ.get("PLAIN", f"{TOP}/crates/cil_plain_session/out/cil_plain_session")
TRIALS = os.environ.get("TRIALS", f"{TOP}/crates/cil_trials/out/cil_trials")
SECONDS = 900


def ran(words, text):
    """What a program prints for a text, its exit status after that where it isn't 0, and what it says on standard error."""
    done = subprocess.run(words, input=text.encode("latin-1"), capture_output=True, timeout=SECONDS)
    status = f"status {done.returncode}\n" if done.returncode else ""
    return done.stdout.decode("latin-1") + status + done.stderr.decode("latin-1")


def make_trials(texts):
    return "".join(title + ran([TRIALS], text) for title, text in texts)


def shown(text):
    """A text, shortened where it is long."""
    return text if len(text) < 2000 else f"{text[:1000]}..\n{text[-1000:]}"


def tell(case, who, found, want):
    """Says where what is found differs from what is wanted."""
    wanted, lines = want.splitlines(True), found.splitlines(True)
    at = next((i for i, (a, b) in enumerate(zip(wanted, lines)) if a != b), min(len(wanted), len(lines)))
    found, want = ("".join(it[at : at + 20]) for it in (lines, wanted))
    told = f"{case.place}: {case.title}: from line {at + 1} of the answer on {who} prints\n{shown(found)}and not\n{shown(want)}"
    print(told.encode("latin-1", "replace").decode("ascii", "backslashreplace"), file=sys.stderr)


def tasks_of(path):
    """For each case of a file and each engine, or for each command: the case, who answers it, and the call that gives what is found."""
    name = os.path.relpath(path, TOP)
    if path.endswith(".trials"):
        for trial in trials_of(path, name):
            for engine, texts in trial.runs():
                yield trial, engine, (make_trials, texts)
    elif path.endswith(".py"):
        for session in SESSIONS:
            yield session, PROGRAM, (session.told, PROGRAM)
    elif path.endswith(".commands"):
        for command in commands_of(path, name):
            yield command, f"`{command.line}`", (command.ran, PROGRAM, SECONDS)
    else:
        for case in cases_of(path, name):
            for words in ([PROGRAM, "session"], [PLAIN]):
                yield case, words[0], (ran, words, "".join(case.script))


def main(paths):
    kinds = ("scripts/*.cases", "trials/*.trials", "commands/*.commands", "scripts/long_session.py")
    paths = paths or sorted(path for kind in kinds for path in glob.glob(f"{TOP}/{kind}"))
    passed = failed = 0
    with ThreadPoolExecutor(os.cpu_count()) as pool:
        tasks = [(case, who, pool.submit(*call)) for path in paths for case, who, call in tasks_of(path)]
        for case, who, future in tasks:
            found = future.result()
            want = case.wanted(found)
            if found == want:
                passed += 1
            else:
                failed += 1
                tell(case, who, found, want)
    print(f"{passed} passed, {failed} failed")
    return 0 if passed and not failed else 1


if __name__ == "__main__":
    try:
        sys.exit(main(sys.argv[1:]))
    except Fault as fault:
        sys.exit(str(fault))
