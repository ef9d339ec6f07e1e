r"""Reads commands, as a shell takes them, with what is to come of them.

In a file `.commands` a line `# ..` begins a case and says what it is about, and a line `// ..` says more. A case is files and commands.
Each command is run by itself, by `sh` in a new folder with the files that stand above it in its case and no others. There `cilsem` is
the program, and `../bin/cilsem` its path. Commands in a row are to do the same.

    file PATH TEXT          a file; its folder is made too
    files N..M PATH TEXT    one for each number from N to M, which `\#` stands for, and `\#3` with 3 digits at the least
    $ cilsem WORD ..        a command
    < ..                    bytes of its standard input, which no line feed ends
    = ..                    a line of what it is to print
    ! ..                    a line of what it is to print on standard error
    status N                its exit status, which is 0 where no line says it

A command has one of the last three lines at least. Where no line has its standard input, that is a line `rules`, of which it is to read
nothing. In each line but that of a command `\n`, `\xHH`, `\{9 ..\}` and the like stand for what cases.py says.
"""
import os
import re
import subprocess
import tempfile

from cases import Fault, spelled, written_out

# The standard input of which nothing is to be read.
UNREAD = "rules\n"

FILES = re.compile(r"(\d+)\.\.(\d+) (.*)")


def told(printed, errors, status, taken):
    """What came of a command, as text."""
    read = f"{taken} bytes of standard input are read\n" if taken else ""
    return f"{printed}standard error:\n{errors}status {status}\n{read}"


class Command:
    """A command, the files that are there, its standard input, and what is to come of it."""

    def __init__(self, place, title, line, files):
        self.place = place
        self.title = title
        self.line = line
        self.files = files
        self.input = None
        self.printed = ""
        self.errors = ""
        self.status = None

    def has_answer(self):
        """Whether it is said what is to come of it."""
        return bool(self.printed or self.errors or self.status is not None)

    def wanted(self, found):
        """What is to come of it, whatever is found."""
        return told(self.printed, self.errors, self.status or 0, 0)

    def make_files(self, folder):
        """Makes its files."""
        for path, text in self.files.items():
            path = f"{folder}/{path}"
            os.makedirs(os.path.dirname(path), exist_ok=True)
            with open(path, "wb") as file:
                file.write(text)

    def ran(self, program, seconds):
        """What comes of it."""
        with tempfile.TemporaryDirectory() as room, open(f"{room}/input", "w+b") as file:
            os.mkdir(f"{room}/bin")
            os.symlink(os.path.abspath(program), f"{room}/bin/cilsem")
            os.mkdir(f"{room}/files")
            self.make_files(f"{room}/files")
            file.write((UNREAD if self.input is None else self.input).encode("latin-1"))
            file.seek(0)
            how = {"cwd": f"{room}/files", "env": {"PATH": f"{room}/bin:{os.environ.get('PATH', os.defpath)}", "LC_ALL": "C"}}
            done = subprocess.run(["sh", "-c", self.line], stdin=file, capture_output=True, timeout=seconds, **how)
            # The program reads by the same open file, so how far it read is seen here.
            taken = os.lseek(file.fileno(), 0, os.SEEK_CUR) if self.input is None else 0
        return told(done.stdout.decode("latin-1"), done.stderr.decode("latin-1"), done.returncode, taken)


class Reader:
    """Reads the commands of a file."""

    def __init__(self):
        self.commands = []
        self.title = None
        self.has_command = True
        self.files = {}
        # The commands in a row, the last of them.
        self.row = []

    def end_row(self):
        """Ends the commands in a row, which have an answer."""
        if any(not it.has_answer() for it in self.row):
            raise Fault("the command above has no answer")
        self.row = []

    def end_case(self):
        """Ends the case, which has a command."""
        self.end_row()
        if not self.has_command:
            raise Fault("the case above has no command")

    def file(self, line):
        """Takes a file, by its path and its text."""
        path, _, text = line.partition(" ")
        self.files = {**self.files, spelled(path): spelled(text).encode("latin-1")}

    def command(self, place, line):
        """Takes a command, which begins a row where the one above has its answer."""
        if any(it.has_answer() for it in self.row):
            self.end_row()
        if any(it.input is not None for it in self.row):
            raise Fault("the command above has no answer")
        self.row.append(Command(place, self.title, line, self.files))
        self.commands.append(self.row[-1])
        self.has_command = True

    def answer(self, kind, text):
        """Takes what is said of the commands in a row."""
        if not self.row:
            raise Fault("this is said of no command")
        for command in self.row:
            if kind == "<":
                command.input = (command.input or "") + spelled(text)
            elif kind == "=":
                command.printed += spelled(text) + "\n"
            elif kind == "!":
                command.errors += spelled(text) + "\n"
            elif kind == "status" and text.isdigit():
                command.status = int(text)
            else:
                raise Fault(f"`{kind} {text}` says nothing of a command")

    def line(self, place, line):
        """Takes a line of a case."""
        kind, _, rest = line.partition(" ")
        if kind == "file" and rest:
            self.file(rest)
        elif kind == "files" and (match := FILES.fullmatch(rest)):
            for it in written_out(*match.groups()):
                self.file(it)
        elif kind == "$" and rest:
            self.command(place, rest)
        else:
            self.answer(kind, rest)

    def read(self, path, name):
        """The commands of the file."""
        with open(path, encoding="latin-1", newline="\n") as file:
            lines = file.read().removesuffix("\n").split("\n")
        for number, line in enumerate(lines, 1):
            place = f"{name}:{number}"
            try:
                if line.startswith("#"):
                    self.end_case()
                    self.title, self.files, self.has_command = line[2:], {}, False
                elif not line.startswith("// "):
                    if self.title is None:
                        raise Fault("a line in no case")
                    self.line(place, line)
            except Fault as fault:
                raise Fault(f"{place}: {fault}") from fault
        self.end_case()
        if not self.commands:
            raise Fault(f"{name}: no command")
        return self.commands


def commands_of(path, name):
    """The commands of a file."""
    return Reader().read(path, name)
