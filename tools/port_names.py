#!/usr/bin/env python3
"""Brings the repository's own definitions and lemmas to today's spelling, once, after the kit's own port script.

usage: tools/port_names.py COMMIT     at the top; COMMIT has the text before the port, from which comments are taken back

Words are in snake case, types and modules in camel case; a dash joins two names, a plain word is added with `_`. Functions of
src/ keep their names, and so do strings, inputs and outputs. What falls together is printed and keeps its name.
"""
import collections
import difflib
import glob
import os
import re
import subprocess
import sys

OURS = "arithmetic models mixture strip charge import replay histories embed repeat kiltgrit".split()
WORD = re.compile(r"[^\s(){}.;,@\"«»]+")
DEFINED = re.compile(r"^\s*(?:(?:pub|abbrev|unfoldable|data|record)\s+)*([^\s:(){}]+)(?: [^:=]*)? : ")
# words of the kit that the dash may join
KIT = set("length set sets take drop append replicate map fold sum round add neg mul div mod eq le lt ltb eqb leb get_or or and".split())


def antt():
    return sorted(glob.glob("crates/*/specs/**/*.antt", recursive=True) + glob.glob("crates/*/proofs/**/*.antt", recursive=True))


def rust():
    return sorted(glob.glob("crates/*/src/**/*.rt", recursive=True))


def snake(name):
    return re.sub(r"(?<=[A-Za-z0-9])([A-Z])", r"_\1", name).lower()


def definitions():
    found = collections.defaultdict(set)
    for p in antt():
        for line in open(p):
            m = DEFINED.match(line)
            if m and not line.startswith("--") and "tie.Need-" not in line:
                found[m.group(1)].add(p)
    return found


def table():
    """Old name -> new name."""
    found = definitions()
    camel = {n for n in found if re.match(r"^[a-z+].*[A-Z]", n)} | set(
        "plainValues lnSum lnSegment lnArea plainNumber rAll qAll lnAreas lnSegments lnSums hasT hasX answeredBy settingOfKind dataGiven".split()
    )
    names = {}

    def word(n):  # a part with no dash
        return {"getD": "get_or"}.get(n) or (snake(n) if re.match(r"^[a-z+][^-]*[A-Z]", n) else n)

    for n in camel:
        if "-" not in n:
            names[n] = word(n)
    known = {names.get(n, n) for n in found if "-" not in n} | KIT
    for n in found:
        if "-" in n[1:]:
            parts = [word(p) for p in n.split("-")]
            new = parts[0]
            for a, b in zip(parts, parts[1:]):
                new += ("-" if a in known and b in known else "_") + b
            if new != n:
                names[n] = new
    taken = collections.defaultdict(list)
    for old, new in names.items():
        taken[new].append(old)
    for new, olds in sorted(taken.items()):  # a lemma that would have a definition's name
        lemmas = [o for o in olds if "-" in o]
        if len(olds) > len(lemmas) and new in found:
            lemmas.append(new)
        elif not (len(olds) > 1 or new in found):
            continue
        print(f"falls together: {olds} as {new}" + (", which is there" if new in found else ""))
        for o in lemmas:
            names[o] = new + "_lem"
    return names


def from_kit(text):
    """The names that a file takes from the kit."""
    names = set()
    for m in re.finditer(r"use ([^\s{;]+)\.\{([^}]*)\}", text):
        parts = m.group(1).split(".")
        if not (parts[0] == "Rattle" and len(parts) > 1 and parts[1] in OURS):
            names |= {w.split(" as ")[0].strip() for w in m.group(2).split(",")}
    return names


def turn_antt(text, names, kept):
    out = []
    for line in text.split("\n"):
        at = re.search(r"(?:^|\s)--(?=\s|$)", line)
        code, said = (line[: at.start()], line[at.start():]) if at else (line, "")
        code = WORD.sub(lambda m: m.group(0) if m.group(0) in kept else names.get(m.group(0), m.group(0)), code)
        out.append(code + turn_comment(said, names))
    return "\n".join(out)


def turn_comment(said, names):
    return re.sub(r"(?<![\w.-])[A-Za-z][\w'-]*[\w']", lambda m: names.get(m.group(0), m.group(0)) if re.search(r"[a-z][A-Z]", m.group(0)) else m.group(0),
                  re.sub(r"`([^`\s]+)`", lambda m: "`" + names.get(m.group(1), m.group(1)) + "`", said))


def turn_rust(text, names):
    camel = {n: w for n, w in names.items() if re.fullmatch(r"\w+", n) and re.search(r"[a-z][A-Z]", n)}
    return re.sub(r"(?<![\w·])\w+(?![\w])", lambda m: camel.get(m.group(0), m.group(0)), text)


def unaliased(text):
    """`use M.{x as M·x}` and `M·x` become `x`: a function and a definition of one name no longer clash."""
    lines = text.split("\n")
    for k, line in enumerate(lines):
        code, mark, said = line.partition("//")
        code = re.sub(r"(\w+) as \w+·\1\b", r"\1", code)
        lines[k] = re.sub(r"(?<![\w`])([A-Z]\w*)·(\w+)", r"\2", code) + mark + said
    return "\n".join(lines)


def comment_of(line, mark):
    m = re.search(r"(?:^|\s)" + mark + r"(?:\s|$).*$", line)
    return m.group(0).strip() if m else None


def put_back(path, old, text, names):
    """Comments that lost a middle dot get the text that they had."""
    mark = "//" if path.endswith(".rt") else "--"
    olds = [comment_of(l, mark) for l in old.split("\n")]
    olds = [c for c in olds if c]
    lines = text.split("\n")
    news = [(i, comment_of(l, mark)) for i, l in enumerate(lines)]
    news = [(i, c) for i, c in news if c]
    pairs = difflib.SequenceMatcher(None, [re.sub(r"\W|typeof", "", c).lower() for c in olds], [re.sub(r"\W|typeof", "", c).lower() for _, c in news], autojunk=False)
    for tag, a, b, c, d in pairs.get_opcodes():
        if b - a != d - c:
            continue
        for k in range(b - a):
            before, (i, now) = olds[a + k], news[c + k]
            if "·" in before and before != now and "·" not in now.replace(before, ""):
                lines[i] = lines[i].replace(now, turn_comment(before, names))
    return "\n".join(lines)


def landed(commit, path):
    r = subprocess.run(["git", "show", f"{commit}:{path}"], capture_output=True, text=True)
    return r.stdout if r.returncode == 0 else None


def folders():
    """Folders of definitions and lemmas that go with no module of src/ get a module's spelling."""
    moved = []
    for top in sorted(glob.glob("crates/*/specs/*/") + glob.glob("crates/*/proofs/*/")):
        crate, kind, name = top.split("/")[1:4]
        lone = kind == "specs" or not os.path.exists(f"crates/{crate}/src/{name}.rt")
        functions = any(os.path.isfile(os.path.join(top, f, "Proof.antt")) for f in os.listdir(top))
        if re.match(r"[a-z]", name) and lone and not functions and not os.path.isfile(top + "Proof.antt"):
            moved.append((crate, kind, name, name[0].upper() + name[1:]))
    for crate, kind, name, new in moved:
        subprocess.run(["git", "mv", f"crates/{crate}/{kind}/{name}", f"crates/{crate}/{kind}/{new}"], check=True)
        if os.path.exists(f"crates/{crate}/{kind}/{name}.antt"):
            subprocess.run(["git", "mv", f"crates/{crate}/{kind}/{name}.antt", f"crates/{crate}/{kind}/{new}.antt"], check=True)
        lib = f"crates/{crate}/{kind}/Lib.antt"
        text = open(lib).read()
        open(lib, "w").write(re.sub(rf"(?m)^((?:pub )?mod ){name}$", rf"\g<1>{new}", text))
        print(f"moved: crates/{crate}/{kind}/{name} to {new}")
    return moved


def main():
    if len(sys.argv) != 2:
        sys.exit(__doc__)
    commit = sys.argv[1]
    names = table()
    before = {}
    for p in antt() + rust():
        before[p] = landed(commit, p)
    for p in antt() + rust():
        text = open(p).read()
        new = turn_antt(text, names, from_kit(text)) if p.endswith(".antt") else turn_rust(unaliased(text), names)
        if before[p]:
            new = put_back(p, before[p], new, names)
        if new != text:
            open(p, "w").write(new)
    for p in sorted(glob.glob("crates/*/must-fail/**/*.edit", recursive=True)):
        lines = open(p).read().split("\n")
        ours = False
        for k, line in enumerate(lines):
            if line.startswith("file: "):
                ours = line.endswith(".antt")
            elif line.startswith(("old: ", "new: ")):
                head, said = line[:5], line[5:]
                lines[k] = head + (turn_antt(said, names, set()) if ours else turn_rust(said, names))
        text = "\n".join(lines)
        if text != open(p).read():
            open(p, "w").write(text)
    for crate, kind, name, new in folders():
        for p in antt() + rust() + sorted(glob.glob("crates/*/must-fail/**/*.edit", recursive=True)):
            text = open(p).read()
            turned = text.replace(f"Rattle.{crate}.{kind}.{name}.", f"Rattle.{crate}.{kind}.{new}.")
            if p.startswith(f"crates/{crate}/must-fail"):
                turned = turned.replace(f"file: {kind}/{name}/", f"file: {kind}/{new}/")
            if turned != text:
                open(p, "w").write(turned)
    print(f"{len(names)} names")


main()
