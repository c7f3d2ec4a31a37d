"""Charges: their grammar, their reader, the strip that they become, and their parameters as loaded."""
import collections
import decimal
import difflib
import math
import pathlib
import re
import struct

from lists import explained

# Every line that a charge may hold. A word of KINDS stands for what is written in its place, any other word for
# itself, (..)... for one or more. The reader, its messages and --help are made from this table.
GRAMMAR = {
    "every model": ["title (TEXT)...", "source (TEXT)...", "model MODEL", "T NUMBER K", "T NUMBER C", "T NUMBER",
                    "x (FRACTION)...", "ask all", "ask excess", "ask ln-gamma COMPONENT", "ask gamma COMPONENT"],
    "Wilson": ["unit UNIT", "component NAME V SIZE", "energy COMPONENT COMPONENT NUMBER", "energies FILE",
               "set V COMPONENT SIZE", "set energy COMPONENT COMPONENT NUMBER"],
    "UNIQUAC": ["unit UNIT", "component NAME r SIZE q SIZE", "energy COMPONENT COMPONENT NUMBER", "energies FILE",
                "set r COMPONENT SIZE", "set q COMPONENT SIZE", "set energy COMPONENT COMPONENT NUMBER"],
    "NRTL": ["unit UNIT", "component NAME", "tau COMPONENT COMPONENT (TERM NUMBER)...",
             "alpha COMPONENT COMPONENT NUMBER",
             "set tau COMPONENT COMPONENT (TERM NUMBER)...", "set alpha COMPONENT COMPONENT NUMBER"],
    "UNIFAC": ["unit K", "group SYMBOL R SIZE Q AREA", "component NAME (GROUP NUMBER)...",
               "interaction GROUPS GROUPS NUMBER", "interaction GROUPS GROUPS (TERM NUMBER)...",
               "set R GROUP SIZE", "set Q GROUP AREA", "set count COMPONENT GROUP NUMBER",
               "set interaction GROUPS GROUPS NUMBER", "set interaction GROUPS GROUPS (TERM NUMBER)..."],
}
KINDS = {
    "TEXT": "printable text in UTF-8",
    "MODEL": "Wilson, UNIQUAC, NRTL or UNIFAC",
    "UNIT": "K, cal/mol or J/mol",
    "NAME": "a name that is no number",
    "SYMBOL": "a group's name that is no number and has no comma",
    "FILE": "a supplier's list beside the charge: a row of decimals a line, with commas between",
    "COMPONENT": "a component",
    "GROUP": "a group",
    "GROUPS": "one or more groups, joined by commas without blanks",
    "TERM": "a, b, c, d or e (of a + b/T + c log T + d T + e/T^2)",
    "NUMBER": "a number as 583.11, -0.5 or 1.2e3",
    "SIZE": "a number above 0",
    "AREA": "a number not below 0",
    "FRACTION": "a number not below 0",
}
LEAST = {"NUMBER": -math.inf, "SIZE": 5e-324, "AREA": 0.0, "FRACTION": 0.0}
DECIMAL = r"[+-]?([0-9]+(\.[0-9]*)?|\.[0-9]+)([eE][+-]?[0-9]+)?"
MODELS = {"Wilson": 1, "UNIQUAC": 2, "NRTL": 3, "UNIFAC": 4}  # the kind of the record that loads it
UNITS = {"K": 1.0, "cal/mol": 1.987204, "J/mol": 8.314462618}  # the gas constant, where energies are given by the mole
SIZES = {"Wilson": ["V"], "UNIQUAC": ["r", "q"], "NRTL": [], "UNIFAC": ["R", "Q"]}
PARAMETERS = {"Wilson": ["energy"], "UNIQUAC": ["energy"], "NRTL": ["tau", "alpha"], "UNIFAC": ["interaction"]}
TD = ["tau", "interaction"]  # the parameters with terms
TERMS = ["a", "b", "c", "d", "e"]
MOST = {"component": 12, "group": 32}  # the module's limits, as 12 groups in a component


class Trouble(Exception):
    """What the user is told where there is no table."""


class Fault(Exception):
    """What stands at a word of a line (None: at its end), and what was expected there."""

    def __init__(self, found, expected, at=0, near=None):
        super().__init__(f"found {found}; expected {expected}" + (f"; did you mean {near}?" if near else ""))
        self.at = at


def quoted(word):
    """A word as a message shows it: its start, with the bytes of what can't be printed."""
    shown = [c if c.isprintable() else "".join(f"\\x{b:02x}" for b in c.encode(errors="surrogateescape")) for c in word]
    return f'"{"".join(shown[:60])}{"..." if len(shown) > 60 else ""}"'


def either(words):
    *first, last = dict.fromkeys(words)
    return f"{', '.join(first)} or {last}" if first else last


def first_words(lines):
    return list(dict.fromkeys(line.split()[0] for line in lines))


def near_word(word, choices):
    """The choice that a word comes near to, whatever its case."""
    folded = {choice.casefold(): choice for choice in choices}
    found = difflib.get_close_matches(word.casefold(), folded, 1)
    return folded[found[0]] if found else None


def near_number(word):
    """The number that a word comes near to: by a printed minus, a decimal comma, or a unit that touches it."""
    plain = re.sub("[\u2010-\u2015\u2212]", "-", word).replace(",", ".").replace("_", "").replace("°", "")
    found = re.fullmatch(f"({DECIMAL})([KC]?)", plain)
    near = f"{found[1]} {found[5]}".strip() if found else word
    return near if near != word else None


def tokens(line, count):
    """The words of a line of the grammar, what it repeats standing as often as `count` words need."""
    fixed, _, repeated = line.partition("(")
    words, more = fixed.split(), repeated.rstrip(").").split()
    words += more
    while more and len(words) < count:
        words += more
    return words


def paired(words, start):
    """Labels with their numbers, from the word at `start` on, each label once."""
    given = {}
    for k in range(start, len(words), 2):
        if words[k] in given:
            raise Fault(f"{quoted(words[k])} again", "it once", k)
        given[words[k]] = words[k + 1]
    return given


def grid(corner, columns, rows):
    """Lines of a table, its columns under their names."""
    cells = [[corner, *columns], *([name, *row] for name, row in rows)]
    wide = [max(len(row[k]) for row in cells) for k in range(len(cells[0]))]
    padded = ([row[0].ljust(wide[0]), *(cell.rjust(w) for cell, w in zip(row[1:], wide[1:]))] for row in cells)
    return ["  " + "   ".join(row).rstrip() for row in padded]


def head(kind, i=0, j=0):
    return struct.pack("<I", kind << 28 | j << 8 | i)


def floats(values):
    return b"".join(struct.pack("<d", v) for v in values)


# A line that the program is run with: what the table says of it, its records, and the rows that it asks for (the name
# of each, and which of ln γ, γ and gE/RT by 0, 1, 2).
Step = collections.namedtuple("Step", "said records rows", defaults=[()])


class Charge:
    """What a file says: a model and its numbers, kept as they are written, then steps in their order. A supplier's list
    is imported by a function of the number of components and the list's bytes, which gives the entries as bits, or the
    number of the refusal."""

    def __init__(self, path, imported):
        self.path, self.title, self.source, self.model, self.unit = path, "", "", "", "K"
        self.components, self.groups = {}, {}  # name: {size or group: number}
        self.given = {}  # (word, name, name): {term or "": number}
        self.imported, self.list, self.entries = imported, "", {}  # of a list: its name, and (name, name): f64
        self.steps, self.seen = [], {}
        try:
            # bytes that are no UTF-8 are left to the grammar, which refuses them with their place
            text = pathlib.Path(path).read_bytes().decode("utf-8-sig", "surrogateescape")
        except OSError as fault:
            raise Trouble(f"{path}: {fault.strerror}") from None
        lines = text.replace("\r\n", "\n").replace("\r", "\n").split("\n")
        for self.line, line in enumerate(lines, 1):
            words = list(re.finditer(r"\S+", line.partition("#")[0]))
            try:
                if words:
                    self.take([m[0] for m in words])
                if self.line == len(lines):
                    self.end()
            except Fault as fault:
                column = words[fault.at].start() if fault.at is not None else words[-1].end() if words else 0
                raise Trouble(f"{path}:{self.line}:{column + 1}: {fault}") from None

    # ---- a line, by the grammar

    def lines(self, word):
        """The lines of the grammar that begin with a word, or all."""
        lines = GRAMMAR["every model"] + GRAMMAR.get(self.model, [])
        return [line for line in lines if word in ("", line.split()[0])]

    def take(self, words):
        word = words[0]
        self.expect(word, first_words(self.lines("")) if self.model else ["title", "source", "model"])
        self.match(self.lines(word), words)
        if word in ("title", "source", "model", "unit"):
            self.once(word, quoted(word))
            setattr(self, word, " ".join(words[1:]))
        elif word in ("component", "group"):
            self.name(word, words)
        elif word == "energies":
            self.energies(words[1])
        elif word in PARAMETERS[self.model]:
            for i, j in self.pairs(words, 0):
                self.once((word, i, j), quoted(f"{word} {i} {j}"))
                self.given[word, i, j] = self.terms(words, 0)
        else:
            steps = {"T": self.temperature, "x": self.fractions, "ask": self.ask, "set": self.set}
            self.steps.append(steps[word](words))

    def expect(self, word, known):
        """Whether a line that begins with the word can stand here."""
        models = [model for model in GRAMMAR if word in first_words(GRAMMAR[model])]
        step = word in ("T", "x", "ask", "set")
        if not word.isprintable():
            raise Fault(quoted(word), "printable text in UTF-8")
        if not models:
            raise Fault(quoted(word), f"a line that begins with {either(known)}", near=near_word(word, known))
        if not self.model and word not in known:
            raise Fault(quoted(word), f"a line above it: model MODEL ({KINDS['MODEL']})")
        if word not in known:
            raise Fault(f"{quoted(word)}, a word of {either(models)}", f"one of {self.model}: {either(known)}")
        if (step or word == "energies") and not self.components:
            raise Fault(quoted(word), f"a line above it: {self.lines('component')[0]}")
        if self.steps and not step:
            settings = [line for line in self.lines("set") if line.split()[1] == word]
            instead = f", or: {' | '.join(settings)}" if settings else ""
            raise Fault(f"{quoted(word)} below the first step", f"it above{instead}")
        if word == "component" and self.list:
            raise Fault('"component" below "energies"', "it above: a list has a row and a column of each")
        if word == "unit" and self.given:
            raise Fault('"unit" below a number that it is for', "it above")

    def match(self, lines, words):
        """Whether the words are as one of the lines of the grammar says."""
        live = [(tokens(line, len(words)), line) for line in lines]
        for at, word in enumerate(words):
            faults = [self.fault(expected[at:], word) for expected, _ in live]
            if None not in faults:
                near = near_number(word) if any(what.startswith("a number") for what, _ in faults) else None
                near = near or near_word(word, [choice for _, choices in faults for choice in choices])
                what, shape = either(what for what, _ in faults), " | ".join(line for _, line in live)
                raise Fault(quoted(word), f"{what} in: {shape}", at, near)
            live = [one for one, fault in zip(live, faults) if fault is None]
        if all(len(expected) > len(words) for expected, _ in live):
            missing = either(KINDS.get(expected[len(words)], expected[len(words)]) for expected, _ in live)
            raise Fault("the end of the line", f"{missing} in: {' | '.join(line for _, line in live)}", None)

    def fault(self, expected, word):
        """None if a word is the first of what is expected; else that in words, and the choices."""
        if not expected:
            return "nothing more", []
        kind = expected[0]
        if kind in LEAST:
            return self.number_fault(kind, word)
        if kind in ("TEXT", "FILE", "NAME", "SYMBOL"):
            text = kind in ("TEXT", "FILE")
            name = text or not re.fullmatch(DECIMAL, word) and not (kind == "SYMBOL" and "," in word)
            return None if name and word.isprintable() else (KINDS[kind], [])
        choices = {"MODEL": MODELS, "UNIT": UNITS, "TERM": TERMS, "COMPONENT": self.components,
                   "GROUP": self.groups, "GROUPS": self.groups}.get(kind, [kind])
        if all(part in choices for part in (word.split(",") if kind == "GROUPS" else [word])):
            return None
        named = f" ({', '.join(choices) or 'none is above'})" if kind in ("COMPONENT", "GROUP", "GROUPS") else ""
        if kind == "UNIT":  # kJ/mol is no slip of the pen for J/mol
            choices = [unit for unit in UNITS if unit.casefold() == word.casefold()]
        return KINDS.get(kind, kind) + named, list(choices) if "," not in word else []

    def number_fault(self, kind, word):
        if not re.fullmatch(DECIMAL, word):
            return KINDS[kind], []
        value, nonzero = float(word), re.match("[+-]?[0.]*[1-9]", word)
        if math.isinf(value) or (value == 0 and nonzero):
            return "a number of a size between 5e-324 and 1.7e308", []
        return (KINDS[kind], []) if value < LEAST[kind] else None

    # ---- what the lines say

    def once(self, key, said, at=0):
        if key in self.seen:
            raise Fault(f"{said} again", f"it once (line {self.seen[key]} has it)", at)
        self.seen[key] = self.line

    def name(self, word, words):
        """A component or a group, with its sizes or its groups."""
        names, given = (self.components if word == "component" else self.groups), paired(words, 2)
        self.once((word, words[1]), f"{word} {quoted(words[1])}", 1)
        if len(names) == MOST[word]:
            raise Fault(f"{word} {MOST[word] + 1}", f"at most {MOST[word]}")
        if len(given) > 12:
            raise Fault("13 groups or more in a component", "at most 12")
        names[words[1]] = given

    def energies(self, name):
        """The energies of a list: the import reads them, and their decimals are kept to be shown."""
        self.once("energies", quoted("energies"))
        if self.given:
            line = min(self.seen[key] for key in self.given)
            raise Fault('"energies" beside "energy"', f"a list or lines of energies, not both (line {line} has one)")
        try:
            text = (pathlib.Path(self.path).parent / name).read_bytes()
        except OSError as fault:
            raise Fault(quoted(name), f"a file that can be read ({fault.strerror})", 1) from None
        names = list(self.components)
        entries = self.imported(len(names), text)
        if isinstance(entries, int):
            found, expected = explained(len(names), text, entries)
            raise Fault(f"{found} of {quoted(name)}", expected, 1)
        pairs, fields = [(i, j) for i in names for j in names], re.split("[,\n]", text.decode("ascii"))
        for pair, field, bits in zip(pairs, fields, entries):
            key = ("energy", *pair)
            self.seen[key], self.given[key] = self.line, {"": field}
            self.entries[pair] = struct.unpack(">d", bytes.fromhex(bits))[0]
        self.list = name

    def pairs(self, words, at):
        """The names that the parameter at a word is of; alpha holds both ways."""
        word, firsts, seconds = words[at : at + 3]
        if self.model == "NRTL" and firsts == seconds:
            raise Fault(quoted(seconds), f"another component: NRTL has no {word} of one with itself", at + 2)
        if word == "interaction":
            return [(i, j) for i in firsts.split(",") for j in seconds.split(",")]
        return [(firsts, seconds)] + ([(seconds, firsts)] if word == "alpha" else [])

    def terms(self, words, at):
        """The numbers of the parameter at a word, by their terms, or by "" where there is one alone."""
        return {"": words[at + 3]} if len(words) == at + 4 else paired(words, at + 3)

    def temperature(self, words):
        kelvin, said = float(words[1]), f"{words[1]} K"
        if words[-1] == "C":
            kelvin = float(decimal.Decimal(words[1]) + decimal.Decimal("273.15"))  # not the sum of two rounded numbers
            said = f"{kelvin!r} K ({words[1]} °C)"
        if kelvin <= 0:
            raise Fault(quoted(" ".join(words[1:])), "a temperature above 0 K, which is -273.15 C", 1)
        return Step(f"T = {said}", [head(5) + floats([kelvin])])

    def fractions(self, words):
        names, given = list(self.components), words[1:]
        if len(given) != len(names):
            at = len(names) + 1 if len(given) > len(names) else None
            found = quoted(words[at]) if at else "the end of the line"
            raise Fault(found, f"{len(names)} fractions, of {', '.join(names)}", at)
        said = ", ".join(f"{name} {x}" for name, x in zip(names, given))
        return Step(f"x: {said}", [head(6, len(names)) + floats(map(float, given))])

    def ask(self, words):
        names = list(self.components)
        if words[1] == "all":
            rows = [*((name, [0, 1]) for name in names), ("gE/RT", [2])]
        else:
            rows = [("gE/RT", [2]) if words[1] == "excess" else (words[2], [["ln-gamma", "gamma"].index(words[1])])]
        records = [head(11, 0 if which == 2 else names.index(name), which) for name, asked in rows for which in asked]
        return Step("", records, rows)

    def set(self, words):
        """A setting after the load: a parameter, a size, or the count of a group in a component."""
        word, said, names = words[1], " ".join(words), list(self.rows())
        if word == "count":
            listed = list(self.components[words[2]])
            if words[3] not in listed:
                raise Fault(quoted(words[3]), f"a group of {words[2]}: {either(listed)}", 3)
            record = head(10, list(self.components).index(words[2]), listed.index(words[3]))
            return Step(said, [record + floats([float(words[4])])])
        if word in SIZES[self.model]:
            record = head(9, names.index(words[2]), SIZES[self.model].index(word))
            return Step(said, [record + floats([float(words[3])])])
        terms, kind = self.terms(words, 1), 8 if word in TD else 7
        said += f" {self.unit}" if word == "energy" else ""
        said += ", the other terms 0" if word in TD and "" not in terms and len(terms) < 5 else ""
        places = [(names.index(i), names.index(j)) for i, j in self.pairs(words, 1)]
        return Step(said, [head(kind, *place) + floats(self.numbers(word, terms)) for place in places])

    def end(self):
        if not self.model:
            raise Fault("the end of the file", f'a line "model MODEL", MODEL being {KINDS["MODEL"]}', None)
        if not any(step.rows for step in self.steps):
            raise Fault("the end of the file", 'a question, as "ask all"', None)
        if len(self.strip()) > 65536:
            raise Fault(f"a charge of {len(self.strip())} bytes as a strip", "at most 65536: fewer steps", None)

    # ---- as a strip, and as the table shows it

    def rows(self):
        """What sizes and parameters are of: components, or UNIFAC's groups."""
        return self.groups if self.model == "UNIFAC" else self.components

    def numbers(self, word, terms):
        """A parameter as f64, in kelvin where it has a unit: one number, or the five of a td parameter."""
        if word not in TD:
            return [float(terms.get("", 0)) / (UNITS[self.unit] if word == "energy" else 1.0)]
        five = {term or "a": float(number) for term, number in terms.items()}
        return [five.get(term, 0.0) / (UNITS[self.unit] if term == "b" else 1.0) for term in TERMS]

    def parameter(self, word, i, j):
        """What is loaded of a parameter: of a list as it was imported, else the numbers as they are written."""
        if (i, j) in self.entries:
            return [self.entries[i, j] / UNITS[self.unit]]
        return self.numbers(word, self.given.get((word, i, j), {}))

    def load(self):
        """The record that loads the model."""
        names, places = self.rows(), list(self.groups)
        matrices = [floats(self.parameter(word, i, j)) for word in PARAMETERS[self.model] for i in names for j in names]
        sizes = [floats([float(names[name][size])]) for size in SIZES[self.model] for name in names]
        start = head(MODELS[self.model], len(self.components), len(places))
        if self.model != "UNIFAC":
            return b"".join([start, *matrices, *sizes])
        lists = []
        for counts in self.components.values():
            lists.append(head(12, len(counts)))
            lists += [head(13, places.index(group)) + floats([float(count)]) for group, count in counts.items()]
        return b"".join([start, *sizes, *matrices, *lists])

    def strip(self):
        return self.load() + b"".join(record for step in self.steps for record in step.records)

    def cell(self, word, i, j):
        terms = self.given.get((word, i, j), {"": "0" if i == j else "(0)"})
        return ", ".join(f"{term} {number}".strip() for term, number in terms.items())

    def loaded(self):
        """The lines of the table that say what is loaded."""
        names, sizes, model = self.rows(), SIZES[self.model], self.model
        gas = f"{UNITS[self.unit]} {self.unit.replace('mol', '(mol K)')}"
        divided = "" if self.unit == "K" else f", divided by R = {gas}"
        lines = [self.title] if self.title else []
        lines += [f"{model}; parameters: {self.source or 'source not given'}", f"unit: {self.unit}{divided}"]
        lines += [f"energies: {self.list}"] if self.list else []
        if sizes:
            kind = "group" if model == "UNIFAC" else "component"
            lines += grid(kind, sizes, [(name, [given[size] for size in sizes]) for name, given in names.items()])
        if model == "UNIFAC":
            lines += grid("component", names, [(c, [n.get(g, "") for g in names]) for c, n in self.components.items()])
        unit = {"energy": f", {self.unit}", "tau": f", b in {self.unit}", "interaction": ", K", "alpha": ""}
        for word in PARAMETERS[model]:
            lines += grid(word + unit[word], names, [(i, [self.cell(word, i, j) for j in names]) for i in names])
        return lines + (["  (0): not given, so 0"] if any("(0)" in line for line in lines[2:]) else [])


def help_text():
    """The table above, for --help."""
    parts = [f"{model}:\n" + "".join(f"    {line}\n" for line in lines) for model, lines in GRAMMAR.items()]
    return "\n".join(parts) + "\n" + "".join(f"{kind:10} {what}\n" for kind, what in KINDS.items())
