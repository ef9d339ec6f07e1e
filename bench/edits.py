"""Installs the modules of a slice in a session and times single edits behind them, for bench/edits.sh.

usage: edits.py PROGRAM SLICE ORDER SMALL ROUNDS [COMPILER..]

A line of the order with several modules has some that need each other: of all but the first the declarations stand at priority 1
while these modules are installed. Where the order is `-`, all modules but the small one are installed as one text, and where it is
`=`, all are installed as one batch. A round makes an edit that isn't told, each edit once, and runs the command of the compiler once, if
there is one, so that other work on the machine meets all of them alike; of each the least is told. Each line that is printed has a name, the seconds by the
clock from the last byte of a command, or from the first of a batch, to the end of its answer, those of the processor, and the answer.
"""
import os
import subprocess
import sys
import time

DECLARING = (b"(type ", b"(typeattribute ", b"(typealias ", b"(typealiasactual ")


class Session:
    def __init__(self, program):
        self.process = subprocess.Popen([program, "session"], stdin=subprocess.PIPE, stdout=subprocess.PIPE)

    def of_system(self, name):
        with open(f"/proc/{self.process.pid}/{name}") as file:
            return file.read()

    def processor(self):
        """The seconds that it has had of a processor."""
        return int(self.of_system("schedstat").split()[0]) / 1e9

    def peak(self):
        """The peak of its memory in MiB."""
        return int(self.of_system("status").split("VmHWM:")[1].split()[0]) / 1024

    def edit(self, command, held=()):
        """The seconds of an edit that has to be accepted, and its answer; of a batch, behind the answers to its other lines."""
        spent = self.processor()
        first = time.monotonic()
        self.process.stdin.write(command)
        self.process.stdin.flush()
        last = time.monotonic()
        for wanted in [*held, "ok "]:
            answer = self.process.stdout.readline().decode().strip()
            if not answer.startswith(wanted):
                sys.exit(f"{command.splitlines()[0].decode()}: {answer}")
        clock = time.monotonic() - (first if held else last)
        return clock, self.processor() - spent, answer

    def batch(self, edits):
        """The same of edits that are made as one batch."""
        return self.edit(b"".join([b"begin\n", *edits, b"commit\n"]), ["open"] + ["held"] * len(edits))


def install(name, priority, text):
    return b"install %s %d %d\n%s\n" % (name.encode(), priority, len(text), text)


def remove(name, priority):
    return b"remove %s %d\n" % (name.encode(), priority)


def text_of(folder, name):
    with open(f"{folder}/{name}.cil", "rb") as file:
        return file.read()


def declarations(text):
    lines = text.splitlines(keepends=True)
    return b"".join(line for line in lines if line.startswith(DECLARING))


def one_by_one(folder, order):
    """The edits that install the modules one by one."""
    with open(order) as lines:
        for names in map(str.split, lines):
            yield from (install(name, 1, declarations(text_of(folder, name))) for name in names[1:])
            yield from (install(name, 400, text_of(folder, name)) for name in names)
            yield from (remove(name, 1) for name in names[1:])


def names_in(folder):
    """The names of all modules."""
    return sorted(name.removesuffix(".cil") for name in os.listdir(folder))


def as_one_text(folder, small):
    """The edits that install all modules but one as one text, and then that one."""
    yield install("all", 400, b"".join(text_of(folder, name) for name in names_in(folder) if name != small))
    yield install(small, 400, text_of(folder, small))


def loaded(session, folder, order, small):
    """Installs the modules. For each edit, or for the batch of all: its seconds, and its answer."""
    if order == "=":
        return [session.batch([install(name, 400, text_of(folder, name)) for name in names_in(folder)])]
    return [session.edit(edit) for edit in (as_one_text(folder, small) if order == "-" else one_by_one(folder, order))]


def tell(name, clock, processor, answer):
    print(name, f"{clock:.6f}", f"{processor:.6f}", answer, sep="\t", flush=True)


def load(session, folder, order, small):
    done = loaded(session, folder, order, small)
    edits = f"a batch of {len(names_in(folder))}" if order == "=" else f"{len(done)} edits"
    answer = f"{edits}, {session.peak():.1f} MiB at the peak, the last {done[-1][2]}"
    tell("load", sum(edit[0] for edit in done), sum(edit[1] for edit in done), answer)


def compiled(command):
    """The seconds of the compiler by the clock and of the processor, and its peak of memory."""
    first = time.monotonic()
    process = subprocess.Popen(command, stdout=subprocess.DEVNULL)
    _, status, used = os.wait4(process.pid, 0)
    if status != 0:
        sys.exit(f"{command[0]}: status {os.waitstatus_to_exitcode(status)}")
    return time.monotonic() - first, used.ru_utime + used.ru_stime, f"{used.ru_maxrss / 1024:.1f} MiB at the peak"


TEXTS = {
    "one more rule": b"(allow bin_t lib_t (file (read)))",
    "one more type": b"(type one_more_t)",
    "one more of domain": b"(type one_more_t)(typeattributeset domain (one_more_t))",
}


def edits_of(session, small):
    """Makes each edit once and takes it back, and tells its name with its seconds and its answer.

    An edit that isn't told comes first: behind the compiler the caches have nothing of the session.
    """
    session.edit(install("one_more", 400, TEXTS["one more rule"]))
    session.edit(remove("one_more", 400))
    for name, text in TEXTS.items():
        yield name, session.edit(install("one_more", 400, text))
        session.edit(remove("one_more", 400))
    yield "disable", session.edit(b"disable %s\n" % small)
    yield "enable", session.edit(b"enable %s\n" % small)


def main():
    program, folder, order, small, count, *compiler = sys.argv[1:]
    session = Session(program)
    load(session, folder, order, small)
    found = {}
    for _ in range(int(count)):
        for name, edit in edits_of(session, small.encode()):
            found.setdefault(name, []).append(edit)
        if compiler:
            found.setdefault("secilc", []).append(compiled(compiler))
    for name, rounds in found.items():
        tell(name, min(edit[0] for edit in rounds), min(edit[1] for edit in rounds), rounds[0][2])
    session.process.stdin.close()
    session.process.wait()


if __name__ == "__main__":
    main()
