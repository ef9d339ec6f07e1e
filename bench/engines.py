"""Makes random scripts and compares what the sessions of two programs answer, for bench/engines.sh.

usage: engines.py PROGRAM OTHER COUNT SEED

The first program is asked for a session by that word, the other by none. Script i of a seed is always the same one.
"""
import collections
import copy
import random
import subprocess
import sys

TABLES = {"type": "types", "attribute": "types", "alias": "types", "class": "classes", "common": "commons", "set": "sets", "block": "scopes"}
LETTERS = {"type": "t", "attribute": "s", "alias": "l", "class": "p", "common": "c", "set": "n", "block": "b"}
POOLS = {"type": 12, "attribute": 6, "alias": 4, "class": 3, "common": 2, "set": 3, "block": 3}
PERMISSIONS = ["use", "read", "write", "open", "map", "see"]
MODULES = ["m", "base", "x", "y", "z", "a.b", "A", "0m"]
PRIORITIES = [400, 400, 400, 400, 100, 300, 999, 1]
QUERIES = ["rules", "violations", "dropped", "modules", "dump"]
OPERANDS = ["type"] * 3 + ["attribute"] * 2 + ["alias"]
KINDS = ["allow"] * 6 + ["auditallow", "dontaudit"] + ["neverallow"] * 3

# A statement by its text, what it declares outside optionals and in them, as (form, full name), the permissions of what it declares,
# and what it needs outside optionals.
Statement = collections.namedtuple("Statement", "text declares hidden permissions needs")


class Store:
    """What a script has installed so far, as far as the writer of the script judges it."""

    def __init__(self):
        self.entries = {}
        self.disabled = set()

    def active(self, without=None):
        """The statements that are compiled, but for those of one module."""
        for name, entries in sorted(self.entries.items()):
            if name != without and name not in self.disabled:
                yield from entries[max(entries)]

    def stands(self):
        """Whether each name is declared once and each one that is needed is declared."""
        declared = [found for statement in self.active() for found in statement.declares + statement.hidden]
        names = [(TABLES[form], name) for form, name in declared]
        outside = {found for statement in self.active() for found in statement.declares}
        needed = {found for statement in self.active() for found in statement.needs}
        return len(names) == len(set(names)) and needed <= outside


class Writer:
    """Writes the statements of one module of a store."""

    def __init__(self, rng, store, module):
        self.rng = rng
        self.known = {form: [] for form in TABLES}
        self.taken = set()
        self.permissions = {}
        for statement in store.active(module):
            self.learn(statement)

    def chance(self, share):
        return self.rng.random() < share

    def learn(self, statement):
        """Takes note of what a statement declares."""
        for form, name in statement.declares:
            self.known[form].append(name)
        self.taken.update((TABLES[form], name) for form, name in statement.declares + statement.hidden)
        self.permissions.update(statement.permissions)

    def fresh(self, form, scope):
        """A full name for a new thing, now and then one that is taken."""
        for _ in range(20):
            name = scope + LETTERS[form] + str(self.rng.randrange(POOLS[form]))
            if (TABLES[form], name) not in self.taken or self.chance(0.02):
                break
        else:
            name = scope + LETTERS[form] + str(self.rng.randrange(1000, 10000))
        self.taken.add((TABLES[form], name))
        return name

    def spell(self, name, scope):
        """A reference to a full name."""
        if scope and name.startswith(scope) and self.chance(0.7):
            return name[len(scope):]
        return "." + name if self.chance(0.15) else name

    def refer(self, forms, scope, optional):
        """A reference to something of these forms, and what it needs. In an optional it may lead nowhere."""
        form = self.rng.choice(forms)
        if self.chance(0.3 if optional else 0.005):
            return LETTERS[form] + str(self.rng.randrange(POOLS[form])), []
        choices = [(form, name) for form in forms for name in self.known[form]]
        if not choices:
            return None
        found = self.rng.choice(choices)
        return self.spell(found[1], scope), [found]

    def expression(self, scope, optional, below, depth):
        """The text of a set expression, and what it needs. Of attributes it names those of a lower number alone."""
        if depth == 0 or self.chance(0.3):
            found = None if self.chance(0.1) else self.refer(OPERANDS, scope, optional)
            if found is None:
                return "all", []
            number = found[0].rsplit("s", 1)[-1]
            late = any(form == "attribute" for form, _ in found[1]) and number.isdigit() and int(number) >= below
            return ("all", []) if late and not self.chance(0.02) else found
        head = self.rng.choice(["not", "not", "and", "or", "xor", "", "(all)"])
        count = 1 if head == "not" else 2 if head in ("and", "or", "xor") else self.rng.randrange(3)
        parts = [self.expression(scope, optional, below, depth - 1) for _ in range(count)]
        text = " ".join(([head] if head else []) + [part for part, _ in parts])
        if text.startswith("all "):
            text = "(all)" + text[3:]
        return "(" + text + ")", [found for _, needs in parts for found in needs]

    def permission_operand(self, has, depth):
        """The text of an operand of an expression of permissions."""
        if depth == 0 or self.chance(0.3):
            return self.rng.choice(has + ["all", "(all)", "()"])
        return self.permission_expression(has, depth - 1)

    def permission_expression(self, has, depth):
        """The text of an expression of permissions."""
        head = self.rng.choice(["not", "not", "and", "or", "xor", "", "all"])
        if head == "all":
            return "(all)"
        count = 1 if head == "not" else 2 if head else self.rng.randrange(3)
        parts = [self.permission_operand(has, depth) for _ in range(count)]
        if not head and parts[:1] == ["all"]:
            parts[0] = "(all)"
        return f"({' '.join(([head] if head else []) + parts)})"

    def class_and_permissions(self, scope, optional):
        found = self.refer(["class"], scope, optional)
        if found is None:
            return None
        text, needs = found
        has = self.permissions.get(needs[0][1] if needs else text, ["use"]) or ["use"]
        if self.chance(0.05 if optional else 0.003):
            has = has + [self.rng.choice(PERMISSIONS)]
        if self.chance(0.25):
            return f"({text} {self.permission_expression(has, 2)})", needs
        picked = [self.rng.choice(has) for _ in range(self.rng.choice((1, 1, 2, 3)))]
        return f"({text} ({' '.join(picked)}))", needs

    def permissions_of_rule(self, scope, optional):
        """The last part of a rule: a class with permissions, or a permission set."""
        found = self.refer(["set"], scope, optional) if self.chance(0.2) else None
        return found or self.class_and_permissions(scope, optional)

    def permission_set_statement(self, scope, optional):
        found = self.refer(["set"], scope, optional)
        last = self.class_and_permissions(scope, optional)
        if found is None or last is None:
            return self.declaration(scope, optional)
        return Statement(f"(classpermissionset {found[0]} {last[0]})", [], [], {}, found[1] + last[1])

    def rule(self, scope, optional):
        source = self.refer(OPERANDS, scope, optional)
        target = ("self", []) if self.chance(0.25) else self.refer(OPERANDS, scope, optional)
        last = self.permissions_of_rule(scope, optional)
        if source is None or target is None or last is None:
            return self.declaration(scope, optional)
        text = f"({self.rng.choice(KINDS)} {source[0]} {target[0]} {last[0]})"
        return Statement(text, [], [], {}, source[1] + target[1] + last[1])

    def set_statement(self, scope, optional):
        found = self.refer(["attribute"], scope, optional)
        if found is None:
            return self.declaration(scope, optional)
        number = found[0].rsplit("s", 1)[-1]
        expression, needs = self.expression(scope, optional, int(number) if number.isdigit() else 0, self.rng.randrange(4))
        return Statement(f"(typeattributeset {found[0]} {expression})", [], [], {}, found[1] + needs)

    def class_declaration(self, scope, form):
        name = self.fresh(form, scope)
        short = name[len(scope):]
        has = sorted({self.rng.choice(PERMISSIONS) for _ in range(self.rng.randrange(1, 5))})
        text, needs = f"({form} {short} ({' '.join(has)}))", []
        if form == "class" and self.known["common"] and self.chance(0.5):
            common = self.rng.choice(self.known["common"])
            text += f"(classcommon {short} .{common})"
            has = sorted({*has, *self.permissions[common]})
            needs = [("common", common)]
        return Statement(text, [(form, name)], [], {name: has}, needs)

    def declaration(self, scope, optional):
        forms = ["type"] * 6 + ["attribute"] * 3 + ["set"] * 2 + ["alias"] + ([] if optional else ["class", "common"])
        form = self.rng.choice(forms)
        if form in ("class", "common"):
            return self.class_declaration(scope, form)
        name = self.fresh(form, scope)
        short = name[len(scope):]
        word = {"type": "type", "set": "classpermission"}.get(form, "type" + form)
        text, needs = f"({word} {short})", []
        actual = self.refer(["type"], scope, optional) if form == "alias" else None
        if actual is not None:
            text += f"(typealiasactual {short} {actual[0]})"
            needs = actual[1]
        return Statement(text, [(form, name)], [], {}, needs)

    def within(self, head, scope, optional, more):
        """A block or an optional with some statements."""
        known = copy.deepcopy(self.known)
        inner = []
        for _ in range(self.rng.randrange(1, 5)):
            inner.append(self.statement(scope, optional, more))
            self.learn(inner[-1])
        self.known = known
        text = f"({head} {''.join(statement.text for statement in inner)})"
        declared = [found for statement in inner for found in statement.declares]
        hidden = [found for statement in inner for found in statement.hidden]
        permissions = {name: has for statement in inner for name, has in statement.permissions.items()}
        if optional:
            return Statement(text, [], declared + hidden, {}, [])
        return Statement(text, declared, hidden, permissions, [found for statement in inner for found in statement.needs])

    def statement(self, scope="", optional=False, more=2):
        roll = self.rng.random()
        if roll < 0.32:
            return self.rule(scope, optional)
        if roll < 0.48:
            return self.set_statement(scope, optional)
        if roll < 0.56:
            return self.permission_set_statement(scope, optional)
        if roll < 0.8 or more == 0:
            return self.declaration(scope, optional)
        if roll < 0.93 or optional:
            return self.within(f"optional o{self.rng.randrange(6)}x", scope, True, more - 1)
        name = self.fresh("block", scope)
        inner = self.within("block " + name[len(scope):], name + ".", False, more - 1)
        return inner._replace(declares=inner.declares + [("block", name)])

    def statements(self, count):
        """Statements that stand alone, with what they need in front of them."""
        made = []
        if not self.known["class"]:
            made.append(self.class_declaration("", "class"))
            self.learn(made[-1])
        for _ in range(count):
            made.append(self.statement())
            self.learn(made[-1])
        return made


def faulty_statement(rng, writer):
    """A statement that is against the language, or against what is declared."""
    taken = rng.choice(writer.known["type"] or ["t0"])
    permissions = " ".join(f"p{n}" for n in range(33))
    return rng.choice([
        "(type", "(type x))", "(type \x0c)", '"word"', "(type 1x)", "(type all)", "(role r)", "(type)", "()", "(allow a b)",
        "(optional o (class k (use)))", f"(type {taken})", f"(typealias {taken})", "(allow nowhere nowhere (p0 (use)))",
        f"(typealias la)(typealiasactual la {taken})(typealiasactual la {taken})", "(typealias lb)(allow lb lb (p0 (use)))",
        f"(typeattributeset {taken} ({taken}))", f"(typealias lc)(typeattribute sa)(typealiasactual lc sa)",
        "(common ca (use))(class pa (see))(classcommon pa ca)(classcommon pa ca)", f"(class pb ({permissions}))",
        "(typeattribute sb)(typeattributeset sb (not sb))", "(block o0x)(optional o0x)", "(classorder (nowhere))",
        "(typeattribute sc)(typeattribute sd)(typeattributeset sc (sd))(typeattributeset sd (xor sc all))", "(classpermission all)",
        "(classpermission na)(classpermission na)", "(classpermissionset nowhere (p0 (use)))", f"(allow {taken} {taken} nowhere)",
        "(class pc (use))(classpermission nb)(classpermissionset nb (pc (not see)))", "(classpermissionset n0 (p0 all))",
        f"(class pd (use))(allow {taken} {taken} (pd (xor use)))"])


def text_of(rng, statements):
    """The text of a module, with its parts apart or not."""
    gap = rng.choice(["", "", " ", "\n", " ; a (comment\n", "\r\n\t"])
    return rng.choice(["", "", "", " ", "\n\n"]) + gap.join(statement.text for statement in statements)


def install_line(name, priority, text):
    return f"install {name} {priority} {len(text.encode())}\n{text}\n"


def changed_statements(rng, writer, statements):
    """Statements of a module of which some went, came or stand elsewhere."""
    kept = list(statements)
    for _ in range(rng.choice((0, 1, 1, 2))):
        if kept:
            del kept[rng.randrange(len(kept))]
    for statement in kept:
        writer.learn(statement)
    for _ in range(rng.choice((0, 1, 1, 2))):
        kept.insert(rng.randrange(len(kept) + 1), writer.statement())
    if rng.random() < 0.2:
        rng.shuffle(kept)
    return kept


def write_install(rng, store):
    """An install that is likely to be accepted."""
    name = rng.choice(MODULES)
    entries = store.entries.setdefault(name, {})
    priority = rng.choice(PRIORITIES)
    writer = Writer(rng, store, name)
    if entries and rng.random() < 0.5:
        priority = rng.choice(sorted(entries))
        statements = changed_statements(rng, writer, entries[priority])
    else:
        statements = writer.statements(rng.choice((1, 1, 2, 3, 5, 8, 12)))
    entries[priority] = statements
    return install_line(name, priority, text_of(rng, statements))


def write_type(rng, store):
    """A module of one type or two, which optionals may wait for."""
    name = f"t-{rng.randrange(3)}"
    writer = Writer(rng, store, name)
    names = [writer.fresh("type", "") for _ in range(rng.randrange(1, 3))]
    statements = [Statement(f"(type {found})", [("type", found)], [], {}, []) for found in names]
    store.entries[name] = {400: statements}
    return install_line(name, 400, text_of(rng, statements))


def write_removal(rng, store):
    name = rng.choice(sorted(store.entries))
    priority = rng.choice(sorted(store.entries[name]))
    del store.entries[name][priority]
    if not store.entries[name]:
        del store.entries[name]
        store.disabled.discard(name)
    return f"remove {name} {priority}\n"


def write_state(rng, store):
    """An edit that disables or enables a module."""
    if store.disabled and rng.random() < 0.6:
        name = rng.choice(sorted(store.disabled))
        store.disabled.discard(name)
        return f"enable {name}\n"
    name = rng.choice(sorted(store.entries))
    store.disabled.add(name)
    return f"disable {name}\n"


def write_refused(rng, store):
    """An edit that is likely to be refused."""
    name = rng.choice(MODULES)
    roll = rng.random()
    if roll < 0.25:
        text = "(type t0)"
        return rng.choice([
            install_line("-m", 400, text), install_line("m", 0, text), install_line("m", 1000, text), "remove gone 400\n",
            f"remove {name} 7\n", "enable gone\n", "disable -m\n", "remove m 0\n"])
    writer = Writer(rng, store, name)
    statements = writer.statements(rng.randrange(4))
    fault = Statement(faulty_statement(rng, writer), [], [], {}, [])
    statements.insert(rng.randrange(len(statements) + 1), fault)
    return install_line(name, rng.choice(PRIORITIES), text_of(rng, statements))


def write_change(rng, store):
    """The lines of an edit that is likely to be accepted. The store becomes the one behind it."""
    roll = rng.random()
    if roll < 0.45 or not store.entries:
        return write_install(rng, store)
    if roll < 0.6:
        return write_type(rng, store)
    if roll < 0.78:
        return write_removal(rng, store)
    return write_state(rng, store)


def write_edit(rng, store):
    """The lines of an edit, and the store behind it."""
    after = copy.deepcopy(store)
    if rng.random() < 0.1:
        return write_refused(rng, after), store
    lines = write_change(rng, after)
    return lines, after if after.stands() else store


def write_again(rng, store):
    """Edits that remove all that is installed of a name, and install one of its texts again, which is enabled then."""
    name = rng.choice(sorted(store.entries))
    entries = store.entries[name]
    priority = rng.choice(sorted(entries))
    store.entries[name] = {priority: entries[priority]}
    store.disabled.discard(name)
    text = text_of(rng, entries[priority])
    return [f"remove {name} {it}\n" for it in rng.sample(sorted(entries), len(entries))] + [install_line(name, priority, text)]


def mixed(rng, edits):
    """The edits in another order, in which those of each name stay in theirs."""
    names = [edit.split(None, 2)[1] for edit in edits]
    of_name = {name: iter([edit for edit, other in zip(edits, names) if other == name]) for name in names}
    return [next(of_name[name]) for name in rng.sample(names, len(names))]


def write_changes(rng, store, count):
    """Edits of a batch, and the store behind them. In between it may be one that isn't accepted."""
    after = copy.deepcopy(store)
    edits = []
    for _ in range(count):
        again = after.entries and rng.random() < 0.15
        edits.extend(write_again(rng, after) if again else [write_change(rng, after)])
    return edits, after


def write_batch_edits(rng, store):
    """The edits of a batch that is likely to be accepted, or has faults, and the store behind it."""
    count = rng.choice((0, 1, 2, 2, 3, 3, 5, 8, 12))
    for _ in range(rng.randrange(1, 6)):
        edits, after = write_changes(rng, store, count)
        if after.stands():
            break
    accepted = after.stands()
    if rng.random() < 0.4:
        edits = mixed(rng, edits)
    if rng.random() < 0.1:
        edits.insert(rng.randrange(len(edits) + 1), write_refused(rng, copy.deepcopy(after)))
        accepted = False
    if edits and rng.random() < 0.005:
        # As many as a batch may have, or one more.
        more = rng.choice((0, 0, 1))
        edits[-1:-1] = [f"enable {rng.choice(sorted(after.entries) or ['m'])}\n"] * (8192 + more - len(edits))
        accepted = accepted and not more
    return edits, after if accepted else store


def write_open_batch(rng, store):
    """The lines of a batch but for its end, and the store behind it if it is committed."""
    edits, after = write_batch_edits(rng, store)
    lines = ["begin\n"]
    for edit in edits:
        lines.append(edit)
        if rng.random() < 0.15 and len(edits) < 100:
            lines.append(rng.choice(QUERIES + ["begin"]) + "\n")
    return lines, after


def write_batch(rng, store):
    """The lines of a batch, and the store behind it."""
    lines, after = write_open_batch(rng, store)
    if rng.random() < 0.1:
        return lines + ["abort\n"], store
    return lines + ["commit\n"], after


def write_script(seed, number):
    """The script of a number: edits and batches with questions between them."""
    rng = random.Random(f"{seed} {number}")
    store = Store()
    script = []
    for _ in range(rng.choice((5, 10, 20, 30, 40))):
        if rng.random() < 0.3:
            lines, store = write_batch(rng, store)
            script.extend(lines)
        else:
            lines, store = write_edit(rng, store)
            script.append(lines)
        if rng.random() < 0.5:
            script.extend(query + "\n" for query in rng.sample(QUERIES, rng.randrange(1, 6)))
        if rng.random() < 0.02:
            script.append(rng.choice(["commit\n", "abort\n"]))
    script.extend(query + "\n" for query in QUERIES)
    left_open = rng.random() < 0.04
    if left_open:
        script.extend(write_open_batch(rng, store)[0])
    if rng.random() < (0.3 if left_open else 0.03):
        script.append(rng.choice(["frob\n", "install m 400 99\n(type t0)\n", "rules \n", "\n", "dump", "begin", "commit", "abort"]))
    return "".join(script).encode()


def answer(words, script):
    done = subprocess.run(words, input=script, stdout=subprocess.PIPE, check=False)
    return done.stdout, done.returncode


def show_difference(number, script, first, other):
    """Prints a script with the first line of the answers that differs."""
    print(f"script {number} is answered otherwise: exit statuses {first[1]} and {other[1]}")
    for line, (one, two) in enumerate(zip(first[0].split(b"\n") + [None], other[0].split(b"\n") + [None]), 1):
        if one != two:
            print(f"line {line} of the answers: {one} and {two}")
            break
    print(script.decode(), end="")


def count_edits(counts, answers):
    """Notes whether edits were accepted with changes, accepted without, or refused."""
    lines = answers.split(b"\n")
    seen = [kind for kind in (
        "changed" if any(line.startswith(b"ok ") and line != b"ok 0 0" for line in lines) else None,
        "refused" if any(line.startswith(b"refused ") for line in lines) else None) if kind]
    counts.update(seen + (["both"] if len(seen) == 2 else []))
    counts["batches"] += lines.count(b"open")
    counts["edits held"] += lines.count(b"held")
    counts["edits and batches that changed accesses"] += sum(line.startswith(b"ok ") and line != b"ok 0 0" for line in lines)
    counts["edits and batches that changed none"] += lines.count(b"ok 0 0")
    counts["commands refused"] += sum(line.startswith(b"refused ") for line in lines)


def main():
    program, plain, count, seed = sys.argv[1], sys.argv[2], int(sys.argv[3]), sys.argv[4]
    counts = collections.Counter()
    differ = None
    for number in range(count):
        script = write_script(seed, number)
        first, other = answer([program, "session"], script), answer([plain], script)
        count_edits(counts, first[0])
        counts["agree"] += first == other
        if first != other and differ is None:
            differ = number, script, first, other
    print(f"{counts['agree']} of {count} scripts of seed {seed} are answered alike")
    print(f"{counts['changed']} had accepted edits with changes, {counts['refused']} had refused edits, {counts['both']} had both")
    for kind in ("edits and batches that changed accesses", "edits and batches that changed none", "commands refused", "batches", "edits held"):
        print(f"{counts[kind]} {kind}")
    if differ is not None:
        show_difference(*differ)
        sys.exit(1)


if __name__ == "__main__":
    main()
