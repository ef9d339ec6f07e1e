"""Reads trials: sessions over devices that fail, or with memory that runs out.

In a file `.trials` a line `# ..` begins a trial and says what it is about, and a line `// ..` says more. Lines say what is tried, and blocks
`before`, `script` and `then` have commands: those that make the store first, those that are tried, and those that are asked after them. A
line that begins with the word of a command begins the next command; an install stands without its length, with its text after it. A line
`= ..` is one that the program `cil_trials` is to print, spelled as in scripts. A line `= evaluated 1 to 4, ..` is one with a number from 1 to 4.

    source pieces N     the source gives at most N bytes a call
    source fails N      it fails after N bytes; `each`: after each number of bytes in turn
    source ends N       it ends after N bytes; or `each`
    source peer N ..    it is a peer that sends parts of these sizes, and notes how many bytes of answers it has when it is asked for more
    sink pieces N       the sink takes at most N bytes a call
    sink fails N        it fails after N bytes; or `each`
    sink flushes N      its flushes fail after N of them
    memory refuses N    the Nth growth is refused; `N on`: those after it too; `each`: each in turn, alone and then with those after it
    run                 the script's commands are the calls of one `run` (`rows` is a call too); no batch is
    at once             the script's installs are entries that are compiled at once, and the commands of `then` are part of what is tried
    work                the script's edits and batches are made one by one, and each tells how often set statements were evaluated and
                        counters of accesses adjusted, and how many optionals drop behind it; by the engine delta
    one by one          each command of the script is tried by itself, after those before it
    engine NAME         plain or delta alone
    attributes A ..     members are asked of these attributes
    types T ..          and these types, and counts of these types
    access C P          at this class and permission
    times N .. end      in a block: the lines between, N times, with {n} for 0, 1 and so on, and {n+1} for 1, 2 and so on
    bytes TEXT          in a block: these bytes, with \\n, \\\\ and \\xHH
"""
import re

from cases import Fault, spelled

COMMANDS = {"install", "remove", "enable", "disable", "begin", "commit", "abort", "rules", "violations", "dropped", "modules", "dump", "rows"}

# The word of the program for what is said of a device.
LIMITS = {
    ("source", "pieces"): "give",
    ("source", "fails"): "given",
    ("source", "ends"): "end",
    ("sink", "pieces"): "take",
    ("sink", "fails"): "taken",
    ("sink", "flushes"): "flushes",
}
EACH = {
    ("source", "fails"): "source-fails",
    ("source", "ends"): "source-ends",
    ("sink", "fails"): "sink-fails",
    ("memory", "refuses"): "growth",
}
RANGE = re.compile(r"evaluated (\d+) to (\d+)(, .*\n)")
NUMBER = re.compile(r"evaluated (\d+)(, .*\n)")
# The word for what is said of names, one each.
NAMES = {"attributes": "attribute", "types": "type"}


def command_bytes(lines):
    """The bytes of a command, whose first line stands before the lines of its text."""
    text = "\n".join(lines[1:])
    if lines[0].startswith("install "):
        return f"{lines[0]} {len(text)}\n{text}\n"
    return "".join(line + "\n" for line in lines)


def repeated(lines):
    """The lines of a block, with those of `times N .. end` written out."""
    at = 0
    while at < len(lines):
        words = lines[at].split()
        if words[:1] == ["times"] and "end" in lines[at:]:
            end = lines.index("end", at)
            for n in range(int(words[1])):
                yield from (line.replace("{n}", str(n)).replace("{n+1}", str(n + 1)) for line in lines[at + 1 : end])
            at = end + 1
        else:
            yield lines[at]
            at += 1


def commands_of(lines):
    """The commands of a block."""
    commands = []
    for line in repeated(lines):
        first = line.split(" ")[0]
        if first == "bytes":
            commands.append(spelled(line[6:]))
        elif first in COMMANDS:
            commands.append([line])
        elif commands and isinstance(commands[-1], list):
            commands[-1].append(line)
        else:
            raise Fault("a text without its command")
    return [it if isinstance(it, str) else command_bytes(it) for it in commands]


def header_of(words):
    """The lines of the program's case for a line that says what is tried, or none where it says nothing."""
    pair, rest = tuple(words[:2]), words[2:]
    if rest == ["each"] and pair in EACH:
        return [f"each {EACH[pair]}"]
    if pair in LIMITS and len(rest) == 1:
        return [f"{LIMITS[pair]} {rest[0]}"]
    if pair == ("source", "peer"):
        return [f"part {size}" for size in rest]
    if pair == ("memory", "refuses") and len(rest) == 1:
        return [f"refuse alone {rest[0]}"]
    if pair == ("memory", "refuses") and rest[1:] == ["on"]:
        return [f"refuse from {rest[0]}"]
    if words[0] in NAMES:
        return [f"{NAMES[words[0]]} {name}" for name in words[1:]]
    if words[0] == "access" and len(words) == 3:
        return [" ".join(words)]
    return {"run": ["way run"], "at once": ["way once"], "work": ["way work"]}.get(" ".join(words))


def fitted(want, found):
    """A line that is wanted, or the one that is found, where its number is in the range that is wanted."""
    wanted, number = RANGE.fullmatch(want), NUMBER.fullmatch(found)
    if wanted and number and wanted[3] == number[2] and int(wanted[1]) <= int(number[1]) <= int(wanted[2]):
        return found
    return want


class Trial:
    """What is tried, and what the program prints of it."""

    def __init__(self, place, title):
        self.place = place
        self.title = title
        self.header = []
        self.engines = ["plain", "delta"]
        self.is_one_by_one = False
        self.lines = {"before": [], "script": [], "then": []}
        self.block = None
        self.want = []

    def line(self, line):
        """Takes a line of the trial."""
        if line == "=" or line.startswith("= "):
            self.want += (spelled(line[2:]) + "\n").splitlines(True)
        elif line in self.lines:
            self.block = self.lines[line]
        elif line == "wanted":
            self.block = None
        elif self.block is not None:
            self.block.append(line)
        elif line.split(" ")[0] == "bytes":
            self.block = self.lines["script"]
            self.block.append(line)
        elif line == "one by one":
            self.is_one_by_one = True
        elif line.startswith("engine "):
            self.engines = [line[7:]]
        else:
            header = header_of(line.split())
            if header is None:
                raise Fault(f"`{line}` says nothing of a trial")
            self.header += header

    def parts(self):
        """The commands before and those that are tried, each by itself where the trial says so."""
        before, script = (commands_of(self.lines[name]) for name in ("before", "script"))
        if not self.is_one_by_one:
            return [(before, script)]
        return [(before + script[:at], script[at : at + 1]) for at in range(len(script))]

    def text(self, engine, before, script):
        """The case as the program reads it."""
        text = "".join(line + "\n" for line in [f"engine {engine}", *self.header])
        then = commands_of(self.lines["then"])
        for name, commands in (("before", before), ("script", script), ("then", then)):
            joined = "".join(commands)
            text += f"{name} {len(joined)}\n{joined}"
        return text

    def runs(self):
        """For each engine its name, and titles with the texts that the program reads."""
        if not self.want:
            raise Fault("the trial has no answer")
        for engine in self.engines:
            parts = self.parts()
            titles = [f"> {script[0].splitlines()[0]}\n" if self.is_one_by_one else "" for _, script in parts]
            yield engine, [(title, self.text(engine, *part)) for title, part in zip(titles, parts)]

    def wanted(self, found):
        """What the program is to print, where it prints what is found."""
        lines = found.splitlines(True)
        return "".join(fitted(want, line) for want, line in zip(self.want, lines)) + "".join(self.want[len(lines) :])


def trials_of(path, name):
    """The trials of a file."""
    trials = []
    with open(path, encoding="latin-1", newline="\n") as file:
        lines = file.read().removesuffix("\n").split("\n")
    for number, line in enumerate(lines, 1):
        place = f"{name}:{number}"
        try:
            if line.startswith("#"):
                trials.append(Trial(place, line[2:]))
            elif not line.startswith("// "):
                if not trials:
                    raise Fault("a line in no trial")
                trials[-1].line(line)
        except Fault as fault:
            raise Fault(f"{place}: {fault}") from fault
    if not trials:
        raise Fault(f"{name}: no trial")
    return trials
