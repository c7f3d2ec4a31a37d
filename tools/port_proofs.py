#!/usr/bin/env python3
"""Gives the walks of a crate, proofs/F/Proof.antt, the names that today's check makes of the same code. Once for each crate.

usage: tools/port_proofs.py COMMIT CRATE NAMES PRINTS [FUNCTION..]    at the top
COMMIT has the walks before the port. NAMES and PRINTS are the folders that `rt check --generated NAMES --old-names` and
`rt check --generated PRINTS` wrote in the crate's folder.
"""
import glob
import json
import os
import re
import subprocess
import sys

TIE = re.compile(r"tie\.([^\s(){};,\"]+)")
OLD_PATH = re.compile(r"((?<![^\s(){};,])[^\s(){};,.]+|\))((?: \.[^\s(){};,]+)+)")
PATH = re.compile(r"((?<![^\s(){};,])[^\s(){};,.]+|\))((?:\.[^\s(){};,.]+)+)")
STARTS = {"args", "requires", "ranges", "well_formed", "lifetimes"}


def plain(name):
    return name.replace("_", "-").replace("·", "-").replace(".", "-")


def landed(commit, path):
    r = subprocess.run(["git", "show", f"{commit}:{path}"], capture_output=True, text=True)
    return r.stdout if r.returncode == 0 else None


class Walk:
    def __init__(self, names, lts):
        self.names = names
        self.needs = {plain(a): b for a, b in names["needs"]}
        self.asked = {b: at[1] for (a, b), at in zip(names["needs"], names["asked_at"])}
        self.places = {plain(p[0]): new for p, new in zip(names["places"], names["places_by_name"])}
        self.steps, self.callee, self.arms = {}, {}, {}
        for p, arm in zip(names["places"], names["arms"]):
            if p[2][0]:
                self.steps[plain(p[2][0])] = p[2][1]
            if p[3]:
                self.callee[p[2][1]] = names["params"].get(p[3])
            if arm:
                for field, step, way in arm[2]:
                    if not field.endswith("-own"):
                        self.arms.setdefault(plain(step), []).append((way, arm[0], field))
        self.loops = {}
        for (a, b), _ in names["loops"]:
            self.loops[plain(a)] = b
            self.steps.setdefault(plain(a), b)
        # the chain of places as it is now
        self.before, self.owns = {}, {}
        at = None
        for line in lts.split("\n"):
            m = re.match(r"\s+pub record (\S+) : Type", line)
            if m:
                at = m.group(1)
            m = re.match(r"\s+pub before : (\S+)", line)
            if m and at:
                self.before[at] = m.group(1)
            m = re.match(r"\s+pub (\S+) : (?:Own|Step|Arm)-(\S+)", line)
            if m and at and at in self.before:
                self.owns.setdefault(m.group(1), at)

    def ways(self, place):
        out = [place]
        while out[-1] in self.before:
            out.append(self.before[out[-1]])
        return out

    def to(self, place, want):
        w = self.ways(place)
        return w.index(want) if want in w else None


def turn_tie(walk, text, old, say):
    was, now = TIE.findall(old), TIE.findall(text)
    if len(was) != len(now):
        say(f"{len(was)} names of tie before, {len(now)} now")
        return text
    turned = iter(was)

    def name(m):
        w = next(turned)
        kind, _, rest = w.partition("-")
        if kind == "Need":
            key = plain(rest)
            if key in walk.needs:
                return "tie.Need-" + walk.needs[key]
            for a, b in (("-holds", "-init"), ("-less", "-smaller"), ("-again", "-preserved")):
                numbered = re.sub(a + r"(-\d+)?$", lambda k: b + (k.group(1) or ""), key)
                if numbered != key and numbered in walk.needs:
                    return "tie.Need-" + walk.needs[numbered]
            say(f"no goal {w}")
            return m.group(0)
        if kind in ("InvT", "Inv"):
            return "tie.invariant-" + walk.loops.get(plain(rest), rest)
        if kind in ("μT", "μ", "MeasureT"):
            return "tie.decreases-" + walk.loops.get(plain(rest), rest)
        if plain(w) in walk.places:
            return "tie." + walk.places[plain(w)]
        if w not in ("close", "spec"):
            say(f"no place {w}")
        return m.group(0)

    return TIE.sub(name, text)


def turn_steps(walk, text, old, say):
    """Each path: no `.before` in front of a step, the step by its name now, and what stands behind it."""
    was = [(m.group(1), m.group(2).replace(" .", ".").strip(".").split(".")) for m in OLD_PATH.finditer(strip_uses(old))]
    uses, body = split_uses(text)
    now = list(PATH.finditer(body))
    now = [m for m in now if m.group(1) != "tie" and not m.group(1).startswith("Rattle")]
    heads = {v for v, segments in was}
    was = [w for w in was if w[0] != "tie"]
    if len(was) != len(now):
        # align by heads and number of befores
        import difflib
        a = [(v, s.count("before")) for v, s in was]
        b = [(m.group(1), m.group(2).split(".").count("before")) for m in now]
        pairs = {}
        for tag, i, j, k, l in difflib.SequenceMatcher(None, a, b, autojunk=False).get_opcodes():
            if tag == "equal":
                for d in range(j - i):
                    pairs[k + d] = was[i + d]
        say(f"{len(was)} paths before, {len(now)} now")
    else:
        pairs = dict(enumerate(was))
    out, last = [], 0
    for index, m in enumerate(now):
        head, segments = m.group(1), m.group(2).strip(".").split(".")
        n = 0
        while n < len(segments) and segments[n] == "before":
            n += 1
        new = segments
        if n < len(segments):
            old_segments = pairs.get(index, (None, segments))[1]
            k = 0
            while k < len(old_segments) and old_segments[k] == "before":
                k += 1
            step = plain(old_segments[k]) if k < len(old_segments) else plain(segments[n])
            rest = segments[n + 1:]
            if segments[n] in STARTS or segments[n] in ("pre", "well-formed", "good"):
                first = {"pre": "requires", "well-formed": "well_formed", "good": "well_formed"}.get(segments[n], segments[n])
                new = [first] + rest
            else:
                arm = next(((a, f, len(w)) for w, a, f in walk.arms.get(step, []) if rest[: len(w)] == w), None)
                if arm:
                    new = [arm[0], arm[1]] + rest[arm[2]:]
                elif step in walk.steps:
                    s = walk.steps[step]
                    rest = ["type_inv" if r == "type-inv" else r for r in rest]
                    if rest and rest[0] in ("auto", "new", "kept", "last") and s in walk.callee and walk.callee[s]:
                        at, r = 0, rest[1:]
                        while r and r[0] == "1":
                            at, r = at + 1, r[1:]
                        if r and r[0] == "0" and at < len(walk.callee[s]):
                            rest = [{"kept": "auto", "last": "new"}.get(rest[0], rest[0]), walk.callee[s][at]] + r[1:]
                    new = [s] + rest
                elif n:
                    new = segments[n:] if segments[n] in walk.owns else segments
        out.append(body[last: m.start()] + ".".join([head] + new))
        last = m.end()
    out.append(body[last:])
    return uses + "".join(out)


def split_uses(text):
    lines = text.split("\n")
    k = max([i for i, l in enumerate(lines) if l.startswith("use ")] + [-1]) + 1
    return "\n".join(lines[:k]) + ("\n" if k else ""), "\n".join(lines[k:])


def strip_uses(text):
    return split_uses(text)[1]


def rename_goals(walk, text, function):
    for m in re.finditer(r"(?m)^(?:abbrev )?(\S+) : tie\.(Need-)?((?:invariant|decreases)-\S+|\S+)", text):
        have, want = m.group(1), m.group(3)
        if (m.group(2) or want.startswith(("invariant-", "decreases-"))) and have != want:
            text = re.sub(rf"(?<![^\s(){{}};,]){re.escape(have)}(?![^\s(){{}};,])", "\0" + want + "\0", text)
    text = text.replace("\0", "")
    m = re.search(r"(?m)^pub (\S+[-_]spec) :", text)
    if m:
        text = re.sub(rf"(?m)^(pub )?{re.escape(m.group(1))}(?= )", lambda k: (k.group(1) or "") + function + "_spec", text)
    return text


def blocks(text):
    """Declarations: a signature and what follows it."""
    lines, out = text.split("\n"), []
    for l in lines:
        if re.match(r"(?:pub |abbrev |unfoldable )*\S+ :( |$)", l) and not l.startswith(("use ", "--", " ")):
            out.append([l])
        elif out:
            out[-1].append(l)
        else:
            out.append([l])
    return ["\n".join(b) for b in out]


def bare_places(walk, text, say):
    """A place that is handed on, or bound by a `let`, by the way that leads there now."""
    takes = {}  # a lemma of this file: the place of its first such argument
    for m in re.finditer(r"(?m)^(\S+) : [^=\n]*?\((\S+) : tie\.([^\s()]+)[^)]*\)", text):
        takes[m.group(1)] = m.group(3)
    for m in re.finditer(r"(?m)^(?:abbrev )?(\S+) : tie\.([^\s()-][^\s()]*)(?: \S+)* → ", text):
        if not m.group(2).startswith("Need-"):
            takes[m.group(1)] = m.group(2)
    out = []
    for block in blocks(text):
        env = {}
        m = re.match(r"(\S+) : tie\.Need-(\S+)", block)
        if m and m.group(2) in walk.asked:
            eq = re.search(rf"(?m)^{re.escape(m.group(1))} (\S+)", block.split("\n", 1)[1] if "\n" in block else "")
            if eq:
                env[eq.group(1)] = walk.asked[m.group(2)]
        for v, p in re.findall(r"\((\S+) : tie\.([^\s()]+)", block.split("\n")[0]):
            env[v] = p
        # let V = c.before.. in: every step is at hand from c itself
        seen = 0
        while True:
            m = re.compile(r"let (\S+) = (\S+?)((?:\.before)+) in\s*").search(block, seen)
            if not m:
                break
            v, root = m.group(1), m.group(2)
            if root not in env:
                seen = m.end()
                continue
            used = rf"(?<![^\s(){{}};,]){re.escape(v)}(?![^\s(){{}};,.])"
            tail = block[block.index(m.group(0)) + len(m.group(0)):]
            alone = [u for u in re.finditer(used, tail) if not tail[u.end():].startswith(".")]
            want = None
            for u in alone:
                for word in reversed(re.split(r"[\s(]+", tail[: u.start()].strip())):
                    if word in takes:
                        want = takes[word]
                    if word in takes or word in ("in", "=") or "(" in word:
                        break
            if not alone:
                head = block[: block.index(m.group(0))]
                block = head + re.sub(rf"(?<![^\s(){{}};,]){re.escape(v)}(?=\.)", root, tail)
                block = re.sub(rf"(?<![^\s(){{}};,]){re.escape(root)}(\.before)+(?=\.[^b])", root, block)
                seen = len(head)
            elif want and walk.to(env[root], want) is not None:
                block = block.replace(m.group(0).rstrip(), f"let {v} = {root}{'.before' * walk.to(env[root], want)} in")
                block = re.sub(rf"(?<![^\s(){{}};,]){re.escape(v)}(\.before)*(?=\.[^b])", root, block)
                env[v] = want
                seen = m.start() + 4
            else:
                seen = m.end()
                say(f"let {v} = {root}{m.group(3)}: where to?")

        def bare(m):
            lemma, root = m.group(1), m.group(3)
            if lemma in takes and root in env:
                k = walk.to(env[root], takes[lemma])
                if k is not None:
                    return f"{lemma} {m.group(2)}{root}{'.before' * k}"
                say(f"{lemma} {root}: no way")
            return m.group(0)

        block = re.sub(r"(?<![^\s(){};,])([^\s(){};,.]+) ((?:[^\s(){};,]+ )*?)([^\s(){};,.]+)((?:\.before)*)(?![^\s(){};,])", bare, block)
        out.append(block)
    return "\n".join(out)


def main():
    if len(sys.argv) < 5:
        sys.exit(__doc__)
    commit, crate, folder, prints, only = sys.argv[1], sys.argv[2], sys.argv[3], sys.argv[4], sys.argv[5:]
    table = json.load(open(os.path.join(folder, "names.json")))
    for key, names in table.items():
        if "-proofs." not in key:
            continue
        function = key.split("-proofs.", 1)[1].rsplit(".Lts", 1)[0].replace(".", "/")
        path = f"crates/{crate}/proofs/{function}/Proof.antt"
        if not os.path.exists(path) or (only and function not in only):
            continue
        old = landed(commit, path)
        if old is None:
            print(f"{path}: not at {commit}")
            continue
        lts = open(os.path.join(prints, f"Rattle-{crate}-proofs", function, "Lts.antt")).read()
        walk = Walk(names, lts)
        say = lambda s: print(f"{path}: {s}")
        text = open(path).read()
        new = turn_tie(walk, text, old, say)
        new = turn_steps(walk, new, old, say)
        new = rename_goals(walk, new, function.split("/")[-1])
        uses, body = split_uses(new)
        new = uses + bare_places(walk, body, say)
        if new != text:
            open(path, "w").write(new)


main()
