#!/usr/bin/python3
"""What `cilsem compile --foreign names` gives for unedited modules, against secilc and setools.

usage: peers.py PROGRAM FOLDER [PART..]

FOLDER/unedited has the converted modules; `sh bench/peers.sh` makes it and calls this. It compares the small cases of bench/foreign
(parts `kinds` and `cases`), then rows, dropped optionals and violations of slices of the modules (parts `base`, `base10`, `base50`,
`base150` and `all`) line by line, and ends with status 1 where anything differs.

Every answer that ours is held against comes from secilc and setools in the same run. secilc has `-m`, which is how libsemanage calls its
library: Debian's spamassassin has one filecon twice, and secilc takes that with `-m` alone.
"""
import collections
import concurrent.futures
import hashlib
import os
import re
import subprocess
import sys

import setools

HERE = os.path.join(os.path.dirname(os.path.abspath(__file__)), "foreign")
PROGRAM, FOLDER = os.path.abspath(sys.argv[1]), os.path.abspath(sys.argv[2])
UNEDITED, WORK = os.path.join(FOLDER, "unedited"), os.path.join(FOLDER, "work")
FRONT = os.path.join(HERE, "front.cil")
KINDS = ("allow", "auditallow", "dontaudit")
bad = 0


def told(what, same, differences):
    """Prints one comparison: how many are the same, and the first differences."""
    global bad
    bad += len(differences)
    print("%-40s %8d the same, %d differences" % (what, same, len(differences)))
    for d in differences[:10]:
        print("    " + d.rstrip())
    sys.stdout.flush()


# ---- texts -----------------------------------------------------------------

TOKEN = re.compile(r'[^\x00-\x20()";\x7f-\xff]+|[()]|;[^\n]*|"[^"\n]*"')


class Tree(list):
    """A list of a text: words, strings and lists, and the line it opens at."""


def read(text):
    top = Tree()
    stack, line, at = [top], 1, 0
    for m in TOKEN.finditer(text):
        t = m.group()
        if t == "(":
            line += text.count("\n", at, m.start())
            at = m.start()
            tree = Tree()
            tree.line = line
            stack[-1].append(tree)
            stack.append(tree)
        elif t == ")":
            stack.pop()
        elif t[0] != ";":
            stack[-1].append(t)
    return top


def content(path):
    with open(path, encoding="latin-1", newline="") as f:
        return f.read()


def words(tree):
    for t in tree:
        if isinstance(t, list):
            yield from words(t)
        else:
            yield t


def stem(path):
    return os.path.basename(path)[:-len(".cil")]


# ---- secilc and setools ----------------------------------------------------

def run(*command, **options):
    return subprocess.run(command, stdout=subprocess.PIPE, stderr=subprocess.STDOUT, encoding="latin-1", **options)


def secilc(files, binary, *options):
    r = run("secilc", "-m", *options, "-o", binary, "-f", os.devnull, *files)
    return r.returncode, r.stdout


def bits(v):
    s = bin(v)[:1:-1]
    i = s.find("1")
    while i >= 0:
        yield i
        i = s.find("1", i + 1)


class Policy:
    """The rules of a binary policy, with their attributes as bit sets of types."""

    def __init__(self, binary):
        policy = setools.SELinuxPolicy(binary)
        self.names = sorted((str(t) for t in policy.types()), key=lambda n: n.encode())
        index = {n: 1 << i for i, n in enumerate(self.names)}
        cache, self.rules = {}, []

        def members(x):
            n = str(x)
            if n not in cache:
                cache[n] = index[n] if n in index else sum(index[str(t)] for t in set(x.expand()))
            return cache[n]

        for r in policy.terules():
            if r.ruletype.name in KINDS:
                try:
                    holds = r.conditional.evaluate() == r.conditional_block
                except setools.exception.RuleNotConditional:
                    holds = True
                self.rules.append((holds, r.ruletype.name, members(r.source), members(r.target), str(r.tclass),
                                   tuple(str(p) for p in r.perms)))

    def listing(self, both):
        """The rows as `cilsem compile` writes them."""
        for kind in KINDS:
            table = collections.defaultdict(lambda: collections.defaultdict(int))
            plain = collections.defaultdict(int)
            for holds, k, source, target, tclass, perms in self.rules:
                if k == kind and (holds or both):
                    for p in perms:
                        plain[tclass, p, source] |= target
            for (tclass, p, source), target in plain.items():
                for i in bits(source):
                    table[i][tclass, p] |= target
            for i in sorted(table):
                row = collections.defaultdict(list)
                for (tclass, p), target in sorted(table.pop(i).items()):
                    for j in bits(target):
                        row[j, tclass].append(p)
                for j, tclass in sorted(row):
                    yield "%s %s %s:%s { %s };\n" % (kind, self.names[i], self.names[j], tclass, " ".join(row[j, tclass]))


def their_dropped(text, files):
    """The optionals that secilc disables, and those inside them: `MODULE:LINE NAME`."""
    said = set(re.findall(r"^Disabling optional '(.*)' at (.*?):(\d+)", text, re.M))
    got = set()

    def go(trees, path, scope, gone):
        for s in trees:
            if s and s[0] == "block":
                go(s[2:], path, scope + s[1] + ".", gone)
            elif s and s[0] == "optional":
                out = gone or (s[1], path, str(s.line)) in said
                if out:
                    got.add("%s:%d %s" % (stem(path), s.line, scope + s[1]))
                go(s[2:], path, scope, out)
            elif s and s[0] in ("tunableif", "true", "false"):
                go([t for t in s[1:] if isinstance(t, list)], path, scope, gone)

    for path in {p for _, p, _ in said}:
        go(read(content(path)), path, "", False)
    return got


def their_violations(text):
    """`neverallow MODULE:LINE allow MODULE:LINE`, from secilc's report."""
    got, never = set(), None
    for line in text.splitlines():
        m = re.match(r"(neverallow check failed|\s+allow) at (.*?):(\d+)", line)
        if m and m.group(1)[0] == "n":
            never = "neverallow %s:%s" % (stem(m.group(2)), m.group(3))
        elif m:
            got.add("%s allow %s:%s" % (never, stem(m.group(2)), m.group(3)))
    return got


def not_taken(files):
    """MODULE:LINE of each rule in a branch that doesn't hold by the booleans' own values."""
    trees = {f: read(content(f)) for f in files}
    values, got = {}, set()

    def every(ss):
        for s in ss:
            if isinstance(s, list):
                yield s
                yield from every(s)

    def value(e):
        if isinstance(e, str):
            return values[e.split(".")[-1]]
        if len(e) == 1:
            return value(e[0])
        if e[0] == "not":
            return not value(e[1])
        a, b = value(e[1]), value(e[2])
        return {"and": a and b, "or": a or b, "xor": a != b, "eq": a == b, "neq": a != b}[e[0]]

    for t in trees.values():
        for s in every(t):
            if s and s[0] == "boolean":
                values[s[1]] = s[2] == "true"
    for f, t in trees.items():
        for s in every(t):
            if s and s[0] == "booleanif" and all(w in values for w in words([s[1]])
                                                 if w not in ("and", "or", "xor", "not", "eq", "neq")):
                for branch in s[2:]:
                    if value(s[1]) != (branch[0] == "true"):
                        got.update("%s:%d" % (stem(f), r.line) for r in branch[1:])
    return got


# ---- ours ------------------------------------------------------------------

def ours(files, out, *options):
    with open(out, "wb") as f:
        r = subprocess.run([PROGRAM, "compile", "--foreign", "names", *options, *files], stdout=f, stderr=subprocess.PIPE)
    return r.returncode, r.stderr.decode("latin-1")


DECLARATIONS = b"\n(class cilsem__none ())(typeattribute cilsem__none)\n"


def our_dropped(files, booleans):
    """The answer to `dropped` after the projected texts were installed in one batch. Each is projected alone: which names a text needs
    doesn't depend on the booleans of others, and the values of tunables that others declare are given."""
    tunables = dict(re.findall(r"\(tunable (\w+) (\w+)\)", "".join(content(f) for f in files)))
    if tunables and "=" not in booleans:
        booleans = ",".join("%s=%s" % v for v in tunables.items())
    texts = []
    for f in files:
        r = subprocess.run([PROGRAM, "project", "--booleans", booleans, f], stdout=subprocess.PIPE, stderr=subprocess.PIPE)
        if r.returncode:
            return None, r.stderr.decode("latin-1")
        texts.append(r.stdout if not texts else r.stdout.removesuffix(DECLARATIONS))
    script = [b"begin\n"]
    for f, text in zip(files, texts):
        script.append(b"install %s 400 %d\n%s\n" % (stem(f).encode(), len(text), text))
    script.append(b"commit\ndropped\n")
    r = subprocess.run([PROGRAM, "session"], input=b"".join(script), stdout=subprocess.PIPE)
    lines = [l for l in r.stdout.decode().splitlines() if l != "held"]
    if not lines[1:] or not lines[1].startswith("ok "):
        return None, "\n".join(lines[:3])
    return {re.sub(r"^(\S+:\d+):\d+ ", r"\1 ", l) for l in lines[2:-1]}, ""


def our_violations(path):
    got = set()
    with open(path, encoding="latin-1") as f:
        for l in f:
            m = re.match(r"neverallow (\S+:\d+):\d+ allow (\S+:\d+):\d+ ", l)
            got.add("neverallow %s allow %s" % m.groups() if m else l)
    return got


def sets(what, theirs, mine):
    return what, len(theirs & mine), (["secilc only: " + x for x in sorted(theirs - mine)] +
                                      ["ours only:   " + x for x in sorted(mine - theirs)])


class Judge:
    """What secilc and setools say of files; violations are asked for with the files of `never` too."""

    def __init__(self, files, never):
        binary = os.path.join(WORK, "policy")
        self.status, self.text = secilc(files, binary, "-N", "-vv")
        if not self.status:
            self.dropped = their_dropped(self.text, files)
            self.policy = Policy(binary)
            self.violations = their_violations(secilc(files + never, binary, "-v")[1])
            self.hidden = not_taken(files)


def compare(name, files, settings, never=[]):
    """Rows, dropped optionals and violations for each setting of the booleans: what was compared, how many are the same, and the
    differences. For a setting with values, secilc reads copies in which the declarations have these values."""
    judges, mine, their = {}, os.path.join(WORK, "ours"), os.path.join(WORK, "theirs")
    for booleans in settings:
        what = "%s, %s: " % (name, booleans)
        values = booleans if "=" in booleans else ""
        if values not in judges:
            judges[values] = Judge([with_values(f, values) for f in files], never)
        judge = judges[values]
        status, fault = ours(files, mine, "--booleans", booleans)
        if status or judge.status:
            yield refusal(what, judge, status, content(mine) + fault)
            continue
        with open(their, "w", encoding="latin-1") as f:
            f.writelines(judge.policy.listing(booleans == "both"))
        with open(their, "rb") as f:
            n = sum(1 for _ in f)
        d = []
        if run("cmp", "-s", their, mine).returncode:
            d = [l for l in run("diff", "--speed-large-files", their, mine).stdout.splitlines() if l[0] in "<>"]
        yield what + "rows", n - sum(l[0] == "<" for l in d), d
        dropped, fault = our_dropped(files, booleans)
        if dropped is None:
            yield what + "dropped optionals", 0, [fault]
        else:
            yield sets(what + "dropped optionals", judge.dropped, dropped)
        ours(files + never, mine, "--booleans", booleans, "--violations")
        hidden = set() if booleans == "both" else judge.hidden
        yield sets(what + "violations", {v for v in judge.violations if v.split(" allow ")[1] not in hidden}, our_violations(mine))


def with_values(path, values):
    text = content(path)
    for v in filter(None, values.split(",")):
        text = re.sub(r"\((boolean|tunable) %s \w+\)" % v.split("=")[0], r"(\1 %s)" % v.replace("=", " "), text)
    if text == content(path):
        return path
    return write(os.path.join("set", os.path.basename(path)), text)


def refusal(what, judge, status, answer):
    """One of both refuses: that is the same where secilc misses a name in a statement that begins at a line, and we refuse with 42 at
    that line, or after it where the statement has more lines."""
    m = re.search(r"Failed to resolve \S+ statement at .*/(\S+)\.cil:(\d+)\nProblem", judge.text)
    at = m and re.search(r"^refused 42 %s:(\d+):" % m.group(1), answer, re.M)
    if status and at and int(at.group(1)) >= int(m.group(2)):
        return what + "refused", 1, []
    return what + "refused", 0, ["secilc: " + (" / ".join(judge.text.splitlines()[-4:]) if judge.status else "accepted"),
                                 "ours: " + (answer if status else "accepted")]


def write(name, text):
    path = os.path.join(WORK, name)
    os.makedirs(os.path.dirname(path), exist_ok=True)
    with open(path, "w", encoding="latin-1", newline="") as f:
        f.write(text)
    return path


# ---- slices ----------------------------------------------------------------

def slices():
    """base, base and N modules more with all that these need outside their optionals, and all. The modules are taken in the order of a
    hash of their names."""
    files = {n[:-4]: read(content(os.path.join(UNEDITED, n))) for n in os.listdir(UNEDITED)}
    needs, owner = {}, {}

    def go(trees, need, give):
        for s in trees:
            if s[0] == "optional":
                continue
            elif s[0] == "block":
                go(s[2:], need, give)
            elif s[0] in ("type", "typealias", "typeattribute", "role", "roleattribute", "class", "common", "user", "boolean"):
                give.setdefault(s[1], n)
            elif s[0] not in ("selinuxuser", "selinuxuserdefault", "roleattributeset"):
                need.update(words(s[1:]))

    for n in sorted(files):
        needs[n] = set()
        go(files[n], needs[n], owner)

    def closure(n):
        got, todo = set(), [n]
        while todo:
            m = todo.pop()
            if m not in got:
                got.add(m)
                todo += {owner[w] for w in needs[m] if w in owner} - {m}
        return got

    order = sorted(files, key=lambda n: hashlib.sha256(n.encode()).hexdigest())
    base = closure("base")
    yield "base", base
    for count in (10, 50, 150):
        got = set(base)
        for n in order:
            more = closure(n) - got
            if len(got) + len(more) <= len(base) + count:
                got |= more
        yield "base%d" % count, got
    yield "all", set(files)


def lacking(files):
    """secilc refuses `(selinuxuser NAME USER ..)` of a user that isn't there. Where a slice hasn't the user, the statement is taken out
    for both, and said."""
    users = {m for f in files for m in re.findall(r"^\s*\(user (\S+)\)", content(f), re.M)}
    for i, f in enumerate(files):
        text = content(f)
        gone = [m for m in re.finditer(r"^\(selinuxuser \S+ (\S+) .*$", text, re.M) if m.group(1) not in users]
        for m in gone:
            print("    taken out for both, of a user that isn't there: " + m.group())
            text = text.replace(m.group(), "")
        if gone:
            files[i] = write(os.path.join("edited", os.path.basename(f)), text)
    return files


def distribution(parts):
    never = [os.path.join(HERE, "neverallows.cil")]
    for name, modules in slices():
        if parts and name not in parts:
            continue
        files = lacking([os.path.join(UNEDITED, n + ".cil") for n in sorted(modules)])
        for answer in compare(name, files, ["default", "both"], never):
            told(*answer)


# ---- small cases -----------------------------------------------------------

# A name that isn't there, and one of each table of front.cil.
OTHERS = "nix ty ta ro ra us bo tu ca cs se le lr cx sd ad px ps cl com".split()

# Words that are no names everywhere, and a name in quotes. A statement with one of them may be refused where secilc looks it up.
ODD = "and all range unordered self".split() + ['"nix"']


def told_by_secilc(number, text):
    """`kept`, `missing` (refused for a name that isn't found) or `refused`, and the optionals that drop."""
    path = write("small%d.cil" % number, text)
    status, said = secilc([FRONT, path], path + ".policy", "-N", "-vv")
    if status:
        return "missing" if re.search(r"Failed to resolve \S+ statement", said) and "Invalid syntax" not in said else "refused", ()
    return "kept", set(re.findall(r"^Disabling optional '(\w+)'", said, re.M))


def in_optionals(number, texts):
    """`kept`, `dropped` or `refused` for each text with an optional `oN`, by secilc. As many as it takes together are asked in one run."""
    if not texts:
        return {}
    answer, gone = told_by_secilc(number, "".join(texts.values()))
    if answer == "kept":
        return {n: "dropped" if "o%d" % n in gone else "kept" for n in texts}
    if len(texts) == 1:
        return {n: "refused" for n in texts}
    half = sorted(texts)[len(texts) // 2]
    return {**in_optionals(number, {n: t for n, t in texts.items() if n < half}),
            **in_optionals(number, {n: t for n, t in texts.items() if n >= half})}


def told_by_ours(text):
    status, fault = ours([FRONT, write("small.cil", text)], os.path.join(WORK, "answer"))
    with open(os.path.join(WORK, "answer")) as f:
        lines = f.read()
    return status, lines + fault


def mutants(line):
    """The line as it is, and with each word but keywords of statements and names that begin with `new` replaced by each other name."""
    yield line, None
    depth = 0
    before = ""
    for m in TOKEN.finditer(line):
        t = m.group()
        depth += (t == "(") - (t == ")")
        keyword = before == "(" and depth == 1
        if t[0] not in '()"' and not keyword and not t.startswith("new"):
            for n in OTHERS + ODD:
                if n != t:
                    yield line[:m.start()] + n + line[m.end():], n
        before = t


def kinds():
    """Each statement of kinds.cil in an optional, and in none, with each of its words replaced."""
    same, differences, unclaimed, top, safe = 0, [], 0, 0, 0
    pool = concurrent.futures.ThreadPoolExecutor(len(os.sched_getaffinity(0)))
    lines = [l for l in content(os.path.join(HERE, "kinds.cil")).splitlines() if l.startswith("(")]
    lists = [list(mutants(l)) for l in lines]
    form = "(type m%d)(optional o%d %s (allow m%d m%d (cl (p))))\n"
    texts = [{i: form % (i, i, re.sub(r"\bnew\b", "new%d" % i, m), i, i) for i, (m, _) in enumerate(ms)} for ms in lists]
    tops = [[m for m, n in ms if n in (None, "nix", '"nix"')] for ms in lists]
    theirs = pool.map(in_optionals, range(len(lines)), texts)
    their_tops = pool.map(lambda n: [told_by_secilc(n, m)[0] for m in tops[n]], range(len(lines)))
    for line, ms, text, their in zip(lines, lists, texts, theirs):
        if their[0] != "kept":
            differences.append("secilc has it %s: %s" % (their[0], line))
        taken = [i for i in their if their[i] != "refused"]
        unclaimed += len(ms) - len(taken)
        status, answer = told_by_ours("".join(text[i] for i in taken))
        for i in taken:
            mine = None
            if status:
                one, answer = told_by_ours(text[i])
                mine = re.search("^refused .*", answer, re.M).group() if one else None
            mine = mine or ("kept" if "allow m%d m%d:cl" % (i, i) in answer else "dropped")
            if mine == their[i]:
                same += 1
            elif ms[i][1] in ODD and re.match("refused 2[03] ", mine):
                safe += 1
            else:
                differences.append("secilc: %s, ours: %s: %s" % (their[i], mine, ms[i][0]))
    for m, t in ((m, t) for ms, ts in zip(tops, their_tops) for m, t in zip(ms, ts)):
        if t != "refused":
            status, answer = told_by_ours(m)
            codes = "(20|42)" if '"nix"' in m else "42"
            if (t == "missing") == bool(status) and (not status or re.search("^refused %s " % codes, answer, re.M)):
                top += 1
            else:
                differences.append("outside optionals, secilc: %s, ours: %s: %s" % (t, answer.split("\n")[0] if status else "kept", m))
    told("kinds", same + top, differences)
    print("    %d in optionals, %d outside; secilc refuses %d more for what isn't claimed, and %d are refused here" % (same, top, unclaimed, safe))


def refused():
    """Each statement of refused.cil is refused with its code, on its line."""
    same, differences = 0, []
    for line in content(os.path.join(HERE, "refused.cil")).splitlines():
        if line.startswith("("):
            statement, code = line.rsplit(" ; ", 1)
            for text in ("\n%s\n" % statement, "\n(optional o %s)\n" % statement):
                status, answer = told_by_ours(text)
                if status and re.search("^refused %s small:2:" % code, answer, re.M):
                    same += 1
                else:
                    differences.append("%s and not refused with %s: %s" % (answer.split("\n")[0], code, text.strip()))
    told("refused", same, differences)


def cases():
    """The cases of cases.cil, each a policy over front.cil. What is the same is told in one line for each case."""
    for case in content(os.path.join(HERE, "cases.cil")).split("\n;; ")[1:]:
        name, text = case.split("\n", 1)
        answers = list(compare(name, [FRONT, write(name + ".cil", text)], ["default", "both", "bo=false,bo2=true,tu=false"]))
        told(name, sum(same for _, same, _ in answers), [what + d for what, _, ds in answers for d in ds])


if __name__ == "__main__":
    os.makedirs(WORK, exist_ok=True)
    parts = sys.argv[3:]
    if not parts or "kinds" in parts:
        kinds()
    if not parts or "cases" in parts:
        refused()
        cases()
    distribution(parts)
    sys.exit(1 if bad else 0)
