"""What `babel --help` and the `--help` of each command say: the man page and the completions are
made from it."""
import os
import re
import subprocess
from dataclasses import dataclass, field

ROOT = os.path.dirname(os.path.dirname(os.path.realpath(__file__)))


@dataclass
class Item:
    """An argument or an option: its names, the name of its value (empty if it has none), and its
    help."""

    names: list[str]
    value: str
    help: str

    @property
    def is_repeated(self):
        return self.value.endswith("...")


@dataclass
class Command:
    name: str
    about: str = ""
    usage: list[str] = field(default_factory=list)
    arguments: list[Item] = field(default_factory=list)
    options: list[Item] = field(default_factory=list)
    rest: list[str] = field(default_factory=list)


def find_program():
    """The program that BABEL names, or else the one that ./babel runs."""
    if "BABEL" in os.environ:
        return os.environ["BABEL"]
    ran = subprocess.run(
        [os.path.join(ROOT, "tools", "program")], stdout=subprocess.PIPE, text=True, check=True
    )
    return ran.stdout.strip()


def output_of(program, *words):
    """What the program prints, on standard output or else on standard error."""
    # The usage has the name by which the program is called.
    ran = subprocess.run(["babel", *words], executable=program, stdout=subprocess.PIPE,
                         stderr=subprocess.PIPE, stdin=subprocess.DEVNULL, text=True)
    return ran.stdout or ran.stderr


def read_item(line):
    """An item of a list: names, and after at least two blanks the help."""
    head, _, text = line.strip().partition("  ")
    names, value = [], ""
    for word in head.replace(",", "").split():
        if word.startswith("-"):
            names.append(word)
        else:
            value = word.strip("<>[]").replace(">...", "...").replace("]...", "...")
    return Item(names, value, text.strip())


def read_help(name, text):
    """The parts of a help: about, usage, lists of items, and the text after them."""
    command = Command(name)
    lines = text.rstrip("\n").split("\n")
    command.about = lines[0]
    part = None
    for number, line in enumerate(lines[1:], 1):
        if line.startswith("Usage: "):
            part = "usage"
            command.usage.append(line.removeprefix("Usage: "))
        elif line in ("Arguments:", "Options:", "Commands:"):
            part = line
        elif line == "":
            # The lists end with an empty line after the options.
            if part == "Options:":
                command.rest = lines[number + 1 :]
                break
        elif part == "usage":
            command.usage.append(line.strip())
        elif part == "Options:":
            command.options.append(read_item(line))
        elif part in ("Arguments:", "Commands:"):
            command.arguments.append(read_item(line))
    return command


def read_all(program):
    """The program's help, and that of each of its commands."""
    top = read_help("babel", output_of(program, "--help"))
    commands = [
        read_help(item.value, output_of(program, item.value, "--help")) for item in top.arguments
    ]
    return top, commands


def version_of(program):
    return output_of(program, "--version").split()[-1]


def words_of(program):
    """The words of --only, which the program names if it gets another one."""
    found = re.search(
        r"\[possible values: ([^\]]*)\]", output_of(program, "replay", "--only", "?", "c", "l")
    )
    return found[1].split(", ") if found else []


def write_or_compare(made, path, compare):
    """Writes a made text, or compares it with the file. Returns whether the file has it now."""
    name = os.path.relpath(path, ROOT)
    if compare:
        try:
            with open(path) as source:
                if source.read() == made:
                    return True
        except FileNotFoundError:
            pass
        print(f"{name} is not what the help of the commands gives: run tools/man-page")
        return False
    os.makedirs(os.path.dirname(path), exist_ok=True)
    with open(path + ".new", "w") as sink:
        sink.write(made)
    os.replace(path + ".new", path)
    print(f"wrote {name}")
    return True
