"""Makes random edits in one session over a fixed set of names, and prints its memory and the time of its listing early and late.

usage: long_session.py PROGRAM [EDITS [SEED]]

The edits are those of scripts/long_session.py. After a tenth of them and after all of them, all modules are installed in their first texts,
and then removed: the peak of memory, what is held, and the least time of nine listings of both stores are told, and what the late ones are
of the early ones. A session that holds its policy and not its history has the same both times.
"""
import os
import sys
import time

sys.dont_write_bytecode = True
sys.path.insert(0, os.path.join(os.path.dirname(os.path.dirname(os.path.abspath(__file__))), "scripts"))

from long_session import Session

MODULES = 40


def listing(session):
    began = time.perf_counter()
    session.program.stdin.write(b"rules\n")
    session.program.stdin.flush()
    while not session.program.stdout.readline().startswith(b"end "):
        pass
    return time.perf_counter() - began


def main():
    count = int(sys.argv[2]) if len(sys.argv) > 2 else 20000
    session = Session(sys.argv[1], MODULES, int(sys.argv[3]) if len(sys.argv) > 3 else 1)
    told = []
    for done in range(1, count + 1):
        session.random_edit()
        if done in (count // 10, count):
            session.install_all()
            full = min(listing(session) for _ in range(9))
            session.remove_all()
            empty = min(listing(session) for _ in range(9))
            told.append((*session.memory(), full, empty))
            peak, held, full, empty = told[-1]
            print(f"after {done:6} edits: peak {peak / 1024:7.1f} MiB, held {held / 1024:7.1f} MiB, listing {full * 1000:7.2f} ms, of the base {empty * 1000:7.2f} ms")
    print("late by early: peak %.2f, held %.2f, listing %.2f, of the base %.2f" % tuple(b / a for a, b in zip(*told)))


main()
