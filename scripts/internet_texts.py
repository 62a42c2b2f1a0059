"""The text of an internet file: TOML, spelled in one of its many ways by chance."""

KEYS = ["cable", "router", "node", "lose", "action"]  # the lists at the top, in the order in which they are often written


class Raw(str):
    """A text that is put into the file as it stands, in the place of a value."""


class Twice(list):
    """Values that one key is given, one after the other; a key may be given once alone."""


class Plainly:
    """Each value in its usual spelling, and each list at the top as an array of tables."""

    def whole(self, number):
        return str(number)

    def text(self, text):
        out = ""
        for letter in text:
            out += {'"': '\\"', "\\": "\\\\", "\n": "\\n", "\t": "\\t"}.get(letter) or (
                letter if ord(letter) >= 32 and letter != "\x7f" else f"\\u{ord(letter):04X}")
        return f'"{out}"'

    def listed(self, values):
        return "[" + ", ".join(self.value(value) for value in values) + "]"

    def inline(self, table):
        return "{" + ", ".join(self.pairs(table)) + "}"

    def pairs(self, table):
        out = []
        for key, value in table.items():
            out += [f"{key} = {self.value(one)}" for one in (value if isinstance(value, Twice) else [value])]
        return out

    def value(self, value):
        if isinstance(value, Raw):
            return value
        if isinstance(value, bool):
            return "true" if value else "false"
        if isinstance(value, str):
            return self.text(value)
        if isinstance(value, list):
            return self.listed(value)
        if isinstance(value, dict):
            return self.inline(value)
        return self.whole(value) if isinstance(value, int) else repr(value)

    # ---- lines

    def is_tables(self, value):
        """Whether a list can be written as an array of tables."""
        return isinstance(value, list) and not isinstance(value, Twice) and value != [] and all(isinstance(v, dict) for v in value)

    def splits(self, name, table, key):
        """Whether the tables of a list within an entry get headers of their own."""
        return False

    def order(self, table):
        return list(table)

    def entry(self, name, table):
        """The lines of a table at the top, or of a table in one."""
        split = [key for key in table if self.is_tables(table[key]) and "." not in name and self.splits(name, table, key)]
        lines = [f"[[{name}]]"]
        lines += self.pairs({key: table[key] for key in self.order(table) if key not in split})
        for key in split:
            for inner in table[key]:
                lines += self.entry(f"{name}.{key}", inner)
        return lines

    def lines(self, top):
        tables = [key for key in top if self.is_tables(top[key])]
        lines = self.pairs({key: top[key] for key in self.order(top) if key not in tables})
        for key in self.order({key: None for key in tables}):
            for table in top[key]:
                lines += self.entry(key, table)
        return lines

    def file(self, top):
        return "".join(line + "\n" for line in self.lines(top)).encode("utf-8", "surrogateescape")


class Variously(Plainly):
    """The same in other spellings, by chance: numbers in other bases, texts in other quotes, inner lists, comments, blanks."""

    def __init__(self, chance):
        self.chance = chance
        self.inner = chance.random()
        self.odd = chance.choice([0, 0, 0.1, 0.5])

    def seldom(self):
        return self.chance.random() < self.odd

    def whole(self, number):
        if number < 0 or not self.seldom():
            return str(number)
        spellings = [f"+{number}", f"0x{number:x}", f"0x{number:04X}", f"0o{number:o}", f"0b{number:b}", "_".join(str(number))]
        return self.chance.choice(spellings)

    def text(self, text):
        """One of the quotes of TOML that can hold the text."""
        if not self.seldom():
            return super().text(text)
        if text.isascii() and text.isprintable() and self.chance.random() < 0.5:
            if "'" not in text:
                return self.chance.choice([f"'{text}'", f"'''{text}'''", f"'''\n{text}'''"])
            return super().text(text)
        if '"' in text or "\\" in text or not text.isprintable():
            return super().text(text)
        escaped = "".join(f"\\u{ord(c):04X}" if ord(c) < 0x10000 and self.seldom() else c for c in text)
        return self.chance.choice([f'"{escaped}"', f'"""{escaped}"""', f'"""\n{escaped}"""', f'"""\\\n  {escaped}"""'
                                   if escaped[:1] not in " " else f'"{escaped}"'])

    def listed(self, values):
        if not self.seldom():
            return super().listed(values)
        items = [self.value(value) for value in values]
        comma = "," if values and self.chance.random() < 0.5 else ""
        return self.chance.choice(["[ " + " ,".join(items) + comma + " ]", "[\n  " + ",\n  ".join(items) + comma + "\n]",
                                   "[ # a list\n" + ", # one more\n".join(items) + comma + "]"])

    def pairs(self, table):
        if not self.seldom():
            return super().pairs(table)
        spelled = lambda key: self.chance.choice([key, f'"{key}"', f"'{key}'"]) if key.isalpha() else key
        return [self.chance.choice([" = ", "=", " =", "\t=\t"]).join(pair.split(" = ", 1)) for pair in
                super().pairs({spelled(key): value for key, value in table.items()})]

    def splits(self, name, table, key):
        return self.chance.random() < self.inner

    def order(self, table):
        keys = list(table)
        if self.seldom():
            self.chance.shuffle(keys)
        return keys

    def lines(self, top):
        out = []
        for line in super().lines(top):
            if self.seldom():
                out.append(self.chance.choice(["", "# a comment", "   ", "# \u00e4 \u65e5 [[cable]]", "\t# ticks = 0"]))
            inside = "\n" in line
            out.append(line if inside or not self.seldom() else self.chance.choice([f"{line} # so", f"  {line}", f"{line}\t"]))
        return out

    def file(self, top):
        text = super().file(top)
        if self.seldom() and b"\n\"\"\"" not in text and b"'''" not in text and b'"""' not in text:
            text = text.replace(b"\n", b"\r\n")
        if self.seldom() and text.endswith(b"\n") and not text.endswith(b"\r\n"):
            text = text[:-1]
        return text
