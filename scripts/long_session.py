"""Random edits in one session over a fixed set of names: a session that holds its policy and not its history has the same peak of memory
early and late. And the load of a policy: a log of all its steps would take much more memory than its counters.

A module has types, attributes, classes and permission sets. Others, each with types, statements of sets and rules of its own over
these, are installed, each in four texts in turn; then they are installed in one of these, removed, disabled and enabled at random.
"""
import random
import subprocess


def base():
    types = "".join(f"(type b{n})" for n in range(200))
    attributes = "".join(f"(typeattribute s{n})" for n in range(20))
    classes = "".join(f"(class c{n} (read write use))" for n in range(5))
    permission_sets = "".join(f"(classpermission p{n})" for n in range(5))
    return types + attributes + classes + permission_sets


def text(rng, name):
    """A module's text: types of its own, some of 500 that others may have too, and statements over them and over the base's names."""
    own = [f"t{name}_{n}" for n in rng.sample(range(500), 12)]
    names = own + [f"b{n}" for n in rng.sample(range(200), 30)]
    lines = [f"(type {it})" for it in own]
    for _ in range(20):
        lines.append(f"(typeattributeset s{rng.randrange(20)} ({' '.join(rng.sample(names, 5))}))")
    for _ in range(60):
        source = rng.choice(names + [f"s{rng.randrange(20)}"])
        target = rng.choice(names + [f"s{rng.randrange(20)}", "self"])
        lines.append(f"(allow {source} {target} (c{rng.randrange(5)} ({rng.choice(['read', 'write', 'use'])})))")
    for _ in range(3):
        lines.append(f"(classpermissionset p{rng.randrange(5)} (c{rng.randrange(5)} (not ({rng.choice(['read', 'write', 'use'])}))))")
    for _ in range(5):
        lines.append(f"(allow {rng.choice(names)} {rng.choice(names)} p{rng.randrange(5)})")
    return "".join(lines)


class Session:
    """A session of a program, with the random edits of its modules."""

    def __init__(self, program, modules, seed):
        self.program = subprocess.Popen([program, "session"], stdin=subprocess.PIPE, stdout=subprocess.PIPE)
        self.rng = random.Random(seed)
        self.texts = {name: [text(self.rng, name) for _ in range(4)] for name in range(modules)}
        self.install("base", base())
        for name in range(modules):
            for body in self.texts[name]:
                self.install(f"m{name}", body)

    def edit(self, line, body=None):
        self.program.stdin.write(line.encode() + b"\n" + (body.encode() + b"\n" if body is not None else b""))
        self.program.stdin.flush()
        return self.program.stdout.readline()

    def install(self, name, body):
        return self.edit(f"install {name} 400 {len(body)}", body)

    def random_edit(self):
        name = self.rng.randrange(len(self.texts))
        what = self.rng.choice(["install", "install", "remove", "disable", "enable"])
        if what == "install":
            self.install(f"m{name}", self.rng.choice(self.texts[name]))
        else:
            self.edit(f"{what} m{name}" + (" 400" if what == "remove" else ""))

    def install_all(self):
        for name, texts in self.texts.items():
            self.edit(f"enable m{name}")
            self.install(f"m{name}", texts[0])

    def remove_all(self):
        for name in self.texts:
            self.edit(f"remove m{name} 400")

    def memory(self):
        """The peak and what is held now, in KiB."""
        told = dict(line.split(":", 1) for line in open(f"/proc/{self.program.pid}/status") if ":" in line)
        return int(told["VmHWM"].split()[0]), int(told["VmRSS"].split()[0])

    def end(self):
        self.program.stdin.close()
        self.program.wait()


class LongSession:
    """What check.py asks: random edits, of which those behind the first tenth raise the peak of memory by at most half a KiB each. The
    peak of so small a session, 3.5 MiB, rises by up to 0.4 MiB by chance, since names are hashed anew in each session and freed memory
    lies elsewhere each time; a session that kept its history would hold several KiB more after each edit."""

    place = "scripts/long_session.py"
    growth = 0.5

    def __init__(self, modules, edits, seed):
        self.modules, self.edits, self.seed = modules, edits, seed
        self.title = f"{edits} random edits of {modules} modules"

    def wanted(self, found):
        return ""

    def told(self, program):
        """Nothing, or by how much the peak rose."""
        session = Session(program, self.modules, self.seed)
        peaks = []
        for done in range(1, self.edits + 1):
            session.random_edit()
            if done in (self.edits // 10, self.edits):
                session.install_all()
                session.remove_all()
                peaks.append(session.memory()[0])
        session.end()
        early, late = peaks
        if late - early <= self.growth * (self.edits - self.edits // 10):
            return ""
        return f"the peak of memory rose from {early} KiB after {self.edits // 10} edits to {late} KiB after {self.edits}\n"


class Load:
    """What check.py asks: rules that all give the same accesses of the many types of an attribute, loaded into an empty store. Each rule
    moves a counter for each type and permission, and each of these is a step of 40 bytes, while the counters kept are as many as one rule
    moves."""

    place = "scripts/long_session.py"

    def __init__(self, types, permissions, rules, bound):
        self.types, self.permissions, self.rules, self.bound = types, permissions, rules, bound
        self.title = f"{rules} rules of {types} types and {permissions} permissions"

    def text(self):
        types = [f"t{n}" for n in range(self.types)]
        permissions = " ".join(f"p{n}" for n in range(self.permissions))
        lines = [f"(class c ({permissions}))(typeattribute a)", *(f"(type {it})" for it in types)]
        lines.append(f"(typeattributeset a ({' '.join(types)}))")
        return "".join(lines) + f"(allow a t0 (c ({permissions})))" * self.rules

    def wanted(self, found):
        return ""

    def told(self, program):
        """Nothing, or what is wrong: the answer, or the peak of memory."""
        body = self.text()
        session = subprocess.Popen([program, "session"], stdin=subprocess.PIPE, stdout=subprocess.PIPE)
        session.stdin.write(f"install m 400 {len(body)}\n{body}\n".encode())
        session.stdin.flush()
        answer = session.stdout.readline().decode()
        told = dict(line.split(":", 1) for line in open(f"/proc/{session.pid}/status") if ":" in line)
        session.stdin.close()
        session.wait()
        peak = int(told["VmHWM"].split()[0])
        if answer != f"ok {self.types * self.permissions} 0\n":
            return f"the answer is {answer}"
        return "" if peak <= self.bound * 1024 else f"the peak of memory is {peak} KiB\n"


SESSIONS = (LongSession(12, 2000, 1), Load(1000, 8, 200, 32))
