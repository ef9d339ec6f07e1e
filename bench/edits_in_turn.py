"""Times single edits by several programs in turn, so that other work on the machine meets all of them alike.

usage: edits_in_turn.py SLICE ORDER SMALL ROUNDS PROGRAM..

The modules are installed as edits.py does it, and the edits are those of edits.py. A line has the name of an edit, and for each
program the least and the middle of its rounds, in milliseconds of the processor.
"""
import sys

from edits import TEXTS, Session, install, loaded, remove


def edits(small):
    """For each edit its name, itself, the one that takes it back, and that one's name if it is told too."""
    for name, text in TEXTS.items():
        yield name, install("one_more", 400, text), remove("one_more", 400), None
    yield "disable", b"disable %s\n" % small, b"enable %s\n" % small, "enable"


def main():
    folder, order, small, rounds = sys.argv[1:5]
    sessions = [Session(program) for program in sys.argv[5:]]
    for session in sessions:
        loaded(session, folder, order, small)
    found = {}
    for _ in range(int(rounds)):
        for name, edit, back, other in edits(small.encode()):
            for number, session in enumerate(sessions):
                found.setdefault((name, number), []).append(session.edit(edit)[1])
                spent = session.edit(back)[1]
                if other:
                    found.setdefault((other, number), []).append(spent)
    for name in [*TEXTS, "disable", "enable"]:
        times = [sorted(found[name, number]) for number in range(len(sessions))]
        print(name, *(f"{all[0] * 1000:.1f} {all[len(all) // 2] * 1000:.1f}" for all in times), sep="\t")


main()
