"""What the shells say once they have loaded the completions."""
import os
import subprocess

from command_lines import NONE, Said, words_kind
from completions_read import specified

# Each line that is read is completed, and the words go to one line. A bar ends a word.
BASH = r"""
source "$1"
[[ $(complete -p atalk) =~ ' -F '([^ ]+) ]] || exit 1
asked=${BASH_REMATCH[1]}
compopt() { [[ $* != '-o default' ]] || COMPREPLY+=(a-file b-file); } # what readline would do
while IFS= read -r line; do
    mapfile -t -d '|' COMP_WORDS <<<"$line|"
    unset 'COMP_WORDS[-1]' # the end of the line
    COMP_CWORD=$((${#COMP_WORDS[@]} - 1))
    COMPREPLY=()
    "$asked" atalk "${COMP_WORDS[-1]}" "${COMP_WORDS[-2]}"
    echo "${COMPREPLY[*]}"
done
"""
FISH = r"""
set -g fish_complete_path
source $argv[1]
touch a-file b-file
while read -l line
    echo (complete -C (string replace -a '|' ' ' -- $line) | string replace -r '\t.*' '')
end
"""
# Stands in for what zsh completes with, and writes what it is told
ZSH = r"""
compdef() { }
_arguments() { print -rl -- arguments "$@"; state=$wanted; return 1 }
_describe() { print -rl -- commands ${(P)@[-1]}; return 1 }
source $1
wanted=command words=(atalk '')
_atalk
wanted=after
for one in $@[2,-1]; do
    print -r -- "command $one"
    words=($one '')
    _atalk
done
exit 0
"""
FILES = {"a-file", "b-file"}


def run(words, folder, told=""):
    """Runs a shell in a folder, which has no settings of a user: its lines, and what went wrong."""
    home = {**os.environ, "HOME": folder, "XDG_CONFIG_HOME": folder, "XDG_DATA_HOME": folder, "XDG_CACHE_HOME": folder}
    done = subprocess.run(words, input=told, capture_output=True, env=home, cwd=folder, text=True, timeout=120, check=False)
    return done.stdout.splitlines(), done.stderr or (f"status {done.returncode}" if done.returncode else "")


class Shell:
    """bash or fish, with the answers that it gave."""

    def __init__(self, words, folder, lines):
        lines = list(dict.fromkeys(lines))
        answers, self.errors = run(words, folder, "".join("|".join(line) + "\n" for line in lines))
        self.answers = {line: answer.split() for line, answer in zip(lines, answers)}

    def answer(self, *line):
        """The words that a line is completed to."""
        return self.answers.get(line, [])

    def kind(self, *line):
        """The kind of what a line is completed to, options aside."""
        answer = [word for word in self.answer(*line) if not word.startswith("-")]
        return "files" if FILES <= set(answer) else words_kind(answer) if answer else "other"


def start_of(command):
    """The words of a line up to a command, or of one without."""
    return ("atalk", command) if command else ("atalk",)


def forms(name):
    """The ends of lines in which an option has its value next, or has had it. In bash `=` is a word between the two."""
    return [(name, "="), (name, "=", "")], [(name, "value", "")], [(name, "=", "value", "")]


def lines_asked(said):
    """The lines that a shell is asked to complete, each as its words."""
    for command in said.options:
        start = start_of(command)
        yield from ((*start, ""), (*start, "-"), (*start, "--"))
        for name, kind in said.options[command].items():
            if kind != NONE:
                yield (*start, name, "")
                yield from ((*start, *form) for some in forms(name) for form in some)
        for number in range(1, len(said.operands[command]) + 1):
            yield (*start, *["word"] * number, "")


def options_told(shell, said, command, in_bash):
    """The options that a shell has for a command, with the kinds of their values."""
    start = start_of(command)
    found = {name: NONE for name in shell.answer(*start, "-") + shell.answer(*start, "--")}
    for name, kind in said.options[command].items():
        if kind == NONE or name not in found:
            continue
        found[name] = shell.kind(*start, name, "")
        equal, ended, equal_ended = forms(name)
        alike = [(form, ("",)) for form in ended]
        if in_bash:
            alike += [(form, (name, "")) for form in equal] + [(form, ("",)) for form in equal_ended]
        found[name] += "".join(f", but not as `{' '.join(form)}`" for form, other in alike
                               if shell.answer(*start, *form) != shell.answer(*start, *other))
    return found


def told(shell, said, in_bash):
    """What bash or fish says. bash has the kind of each operand, and `other` after the last; fish has one for all of them."""
    options = {command: options_told(shell, said, command, in_bash) for command in said.options}
    operands = {"": []}
    for command in said.commands:
        numbers = range(len(said.operands[command]) + 1 if in_bash else min(1, len(said.operands[command])))
        operands[command] = [shell.kind(*start_of(command), *["word"] * number, "") for number in numbers]
    return Said(shell.answer("atalk", ""), options, operands)


def ask_bash(path, file, said, folder):
    """What bash says, and what went wrong."""
    shell = Shell([path, "--norc", "-c", BASH, "bash", file], folder, lines_asked(said))
    return told(shell, said, True), shell.errors


def ask_fish(path, file, said, folder):
    """What fish says, and what went wrong."""
    shell = Shell([path, "-c", FISH, file], folder, lines_asked(said))
    return told(shell, said, False), shell.errors


def ask_zsh(path, file, said, folder):
    """What zsh tells `_arguments` and `_describe`, and what went wrong."""
    lines, errors = run([path, "-f", "-c", ZSH, "zsh", file, *said.commands], folder)
    commands, calls, command, words = [], {}, "", []
    for line in lines:
        if line.startswith("command "):
            command = line.partition(" ")[2]
        elif line == "arguments":
            words = calls[command] = []  # the last call is the one for the command
        elif line == "commands":
            words = commands
        else:
            words.append(line)
    specifications = {command: specified(calls.get(command, [])) for command in said.options}
    options = {command: options for command, (options, _) in specifications.items()}
    operands = {command: operands for command, (_, operands) in specifications.items()}
    return Said([name.partition(":")[0] for name in commands], options, operands), errors
