"""What the texts of the completions say, read without a shell."""
import re
import shlex

from command_lines import NONE, Said, words_kind


def of_bash(text):
    """What the completion for bash says, by its table of places."""
    commands, options, operands = [], {"": {}}, {"": []}
    for places, kind in re.findall(r"^    ('.*?)\) kind=(.*) ;;$", text, re.MULTILINE):
        listed = kind.strip("'").split()
        kind = words_kind(listed[1:]) if listed[0] == "words" else kind
        for place in places.split(" | "):
            command, _, what = place.replace("'", "").partition(" ")
            if (command, what) == ("", "1"):
                commands = listed[1:]
            elif what == "-":
                for name in listed[1:]:
                    options.setdefault(command, {}).setdefault(name, NONE)
            elif what.startswith("-"):
                options.setdefault(command, {})[what] = kind
            else:
                operands.setdefault(command, []).append(kind)
    return Said(commands, options, operands)


def zsh_kind(action):
    """The kind of a value, by what completes it."""
    return "files" if action == "_files" else words_kind(action[1:-1].split()) if action.startswith("(") else "other"


def specified(words):
    """The options and operands that the words of `_arguments` say."""
    options, operands = {}, []
    for word in words:
        option = re.fullmatch(r"(?:\([^)]*\))?(-[\w-]+)([=+]?)\[(?:\\.|[^]\\])*\](?::(?:\\.|[^:\\])*:(.*))?", word)
        operand = re.fullmatch(r"(?:\d|\*):(?:\\.|[^:\\])*:{1,2}(?:(?:\\.|[^:\\])*:)?(.*)", word)
        if option:
            options[option[1]] = zsh_kind((option[3] or "").strip()) if option[2] else NONE
        elif operand and not operand[1].startswith("->"):
            operands.append(zsh_kind(operand[1].strip()))
        elif not operand and word not in ("-C", "-S"):
            options[word] = "can't be read"
    return options, operands


def of_zsh(text):
    """What the completion for zsh says, by the words of each `_arguments`."""
    text = text.replace("\\\n", " ")
    commands = re.findall(r"^ +'([\w-]+):.*'$", text, re.MULTILINE)
    options, operands = {}, {}
    for command, line in re.findall(r"(?:^ +([\w-]+)\)\n)? +_arguments (.*?) && ret=0", text, re.MULTILINE):
        words = []
        for word in shlex.split(line):
            several = re.fullmatch(r"(\(.*?\))\{(.*?)\}(.*)", word)
            words += [several[1] + name + several[3] for name in several[2].split(",")] if several else [word]
        options[command], operands[command] = specified(words)
    return Said(commands, options, operands)


def of_fish(text):
    """What the completion for fish says, by its lines."""
    commands, options, operands = [], {"": {}}, {"": []}
    for line in re.findall(r"^complete -c atalk -n (.*)", text, re.MULTILINE):
        words = [re.sub(r"\\(.)", r"\1", a) if a else b for a, b in re.findall(r"'((?:\\.|[^'\\])*)'|(\S+)", line)]
        command = words[0].partition(" ")[2]
        given = dict(zip(words, [*words[1:], ""]))
        names = [dashes + given[flag] for flag, dashes in (("-s", "-"), ("-l", "--")) if flag in given]
        kind = "files" if "-F" in given else "other" if "-x" in given else NONE
        kind = words_kind(given["-a"].split()) if "-a" in given else kind
        if names:
            options.setdefault(command, {}).update({name: kind for name in names})
        elif command:
            operands[command] = sorted({*operands.get(command, []), kind})  # fish has them wherever an operand may be
        else:
            commands.append(given["-a"])
    return Said(commands, options, operands)
