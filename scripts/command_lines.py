"""The commands, options and operands of atalk, as its help texts and its manual page say them.

The help is read here apart from `completions`, and in another way.
"""
import re
import subprocess
from typing import NamedTuple

NONE = ""  # the kind of what is no value; the others are `files`, `other`, and `words` with the words


def words_kind(words):
    """The kind of a value that is one of some words, in whichever order they are listed."""
    return " ".join(["words", *sorted(words)])


class Operand(NamedTuple):
    """An operand: its name, its kind, and whether more may follow."""

    name: str
    kind: str
    many: bool


class Said(NamedTuple):
    """What a text or a shell says: the commands; and of each, and of the program without one, whose name is empty, the kind of
    each option's value, and the operands: each whole, or its name or its kind alone."""

    commands: list[str]
    options: dict[str, dict[str, str]]
    operands: dict[str, list]

    def with_operands(self, view):
        """The same with a view of each command's operands."""
        return self._replace(operands={command: view(operands) for command, operands in self.operands.items()})


# The help: a description stands after two spaces or more, or in the next line
ABOUT = r"(?:\s*\n {8}|  )\s*(.*)$"
HELP_OPTION = re.compile(r"^ {2}(?:(-\w)(?:, )?| {4})(--[\w-]+)?(?:\[=.*?\])?(?: (<.*?>))?" + ABOUT, re.MULTILINE)
HELP_OPERAND = re.compile(r"^ {2}[<\[]([\w-]+)[>\]](\.\.\.)?" + ABOUT, re.MULTILINE)
HELP_COMMAND = re.compile(r"^ {2}([\w-]+)(?:  |$)", re.MULTILINE)


def help_of(program, *command):
    """The text that the program prints as help."""
    return subprocess.run([program, *command, "--help"], stdin=subprocess.DEVNULL, capture_output=True, check=True).stdout.decode()


def under(text, heading):
    """The lines of a help under a heading."""
    return re.sub(r"\n\S[\s\S]*", "\n", text.partition(f"\n{heading}:\n")[2])


def kind_told(about):
    """The kind of a value, by its description."""
    listed = re.search(r"\[possible values: (.*?)\]", about)
    if listed:
        return words_kind(listed[1].split(", "))
    return "files" if re.search(r"\b(files?|standard (in|out)put)\b", about, re.IGNORECASE) else "other"


def of_help(program):
    """What the help says."""
    commands = HELP_COMMAND.findall(under(help_of(program), "Commands"))
    options, operands = {}, {}
    for command in ["", *commands]:
        if command == "help":
            # It has no help of its own, and takes the name of another.
            options[command], operands[command] = {}, [Operand("COMMAND", words_kind(set(commands) - {command}), False)]
            continue
        text = help_of(program, *[command] if command else [])
        options[command] = {}
        for letter, word, value, about in HELP_OPTION.findall(text):
            options[command].update({name: kind_told(about) if value else NONE for name in (letter, word) if name})
        found = HELP_OPERAND.findall(under(text, "Arguments"))
        operands[command] = [Operand(name, kind_told(about), bool(many)) for name, many, about in found]
    return Said(commands, options, operands)


# The manual page
def lines_of(page):
    """Each line of a page with its macro, if it has one, and its words as they are seen."""
    for line in page.splitlines():
        macro = re.match(r"\.(\w+) ?(.*)", line)
        kind, words = (macro[1], [a or b for a, b in re.findall(r'"([^"]*)"|((?:\\ |\S)+)', macro[2])]) if macro else ("", [line])
        text = (" " if kind in ("B", "I", "SH") else "").join(words)
        yield kind, re.sub(r"\\f.|\\&", "", text).replace("\\-", "-").replace("\\ ", " ")


def sections(page):
    """The lines of each section."""
    found = {}
    for kind, text in lines_of(page):
        if kind == "SH":
            found[text] = []
        elif found:
            found[list(found)[-1]].append((kind, text))
    return found


def named(words):
    """The names of an option, or of several, and whether they take a value: `-i, --image OUT`."""
    parts = [part.split() for part in re.split(r"[,|]", words)]
    return {part[0]: any(len(one) > 1 for one in parts) for part in parts if part}


# An option of the synopsis that must be given, with its value
REQUIRED = r"--[\w-]+ [A-Z]+"


def of_synopsis(lines):
    """What a page's synopsis says: of an option's names the last one alone."""
    text = " ".join("\n" if kind == "br" else words for kind, words in lines)
    commands, options, operands = [], {"": {}}, {"": []}
    for line in text.split("\n"):
        words = line.split()[1:]
        if not words or words[0].startswith("-"):
            options[""].update(named(" ".join(words)))
            continue
        commands.append(words[0])
        options[words[0]] = {}
        rest = re.sub(r"\[-[^]]*\]", "", line)
        for option in re.findall(r"\[(-[^]]*)\]", line) + re.findall(REQUIRED, rest):
            options[words[0]].update(list(named(option).items())[-1:])
        operands[words[0]] = re.findall(r"[\w-]+", re.sub(REQUIRED, "", rest))[2:]
    return Said(commands, options, operands)


def of_options(lines):
    """The options that a page's list has of each command that it names there. Those without a command are the program's own, and
    may be of each command too."""
    found = {"": {}}
    for at, (kind, _) in enumerate(lines):
        if kind == "TP":
            head = " ".join(text for _, text in lines[at + 1 : at + 3] if text.startswith(("-", "(")))
            names, _, commands = head.partition("(")
            for command in re.findall(r"[\w-]+", commands) or [""]:
                found.setdefault(command, {}).update(named(names))
    return found
