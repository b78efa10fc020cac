#!/usr/bin/env python3
"""Brings the repository's own names to today's spelling: run once, at the top, after the kit's port.py.

Words are in snake case, types, facts and modules in upper camel case; a dash joins two names, and a plain word is
added with '_'. So a definition `sameEnds` becomes `same_ends`; a lemma `sum-append` keeps its dash, since `sum` and
`append` are names, and `before-trans` becomes `before_trans`; fields and constructors have no dash.
Functions of src/, exported C names, strings, inputs and outputs keep their names.
"""
import os
import re
import sys

# words of the library that a lemma's name may join by a dash
STD = set("""append length map take drop set sort sum zero suc neg abs add sub mul div mod lt le eq and or not
cons nil filter reverse min max true false""".split())
# small words, which join nothing even where a definition has that name
SMALL = set("at by or and not of to in on is as from if up it no a b c d e f g h i j k n p q r s t u v x y z".split())
LAWS = [("settle/proofs/Cutting.antt", "goes_on"), ("settle/proofs/cut/Proof.antt", "goes_on"), ("settle/proofs/Order.antt", "in_order")]
RESERVED = set("abbrev as axiom data deriving do elim in infix infixl infixr let module mutual open package pub "
               "record ruleset unfold unfoldable unfolding use where Type".split())
TOKEN = re.compile(r"[^\s(){}\[\],;.\"`]+")
DECL = re.compile(r"^(\s*)((?:pub |abbrev |unfoldable )*)((?:data |record )?)([^\s(){}\[\],;.\"`]+)((?: [({].*?)?) :(?:\s|$)")


def files(top, ends):
    for folder, dirs, names in os.walk(os.path.join(top, "crates")):
        dirs[:] = sorted(d for d in dirs if d not in ("out", "must-fail"))
        for n in sorted(names):
            if n.endswith(ends):
                yield os.path.join(folder, n)


def is_shared(path):
    """A file of specs/, or a file of lemmas: not the proof of one function, whose names Rattle makes."""
    return path.endswith(".antt") and os.path.basename(path) not in ("Proof.antt", "Invariants.antt", "Answers.antt")


def snake(name):
    return re.sub(r"(?<=[a-z0-9])[A-Z](?![-A-Z])", lambda m: "_" + m.group(0).lower(),
                  re.sub(r"(?<=[a-z0-9])([A-Z])(?=$|-)", lambda m: "_" + m.group(1).lower(), name))


def collect(top):
    """All declared names; those of definitions; those of fields and constructors."""
    declared, definitions, parts = set(), set(), set()
    for path in files(top, ".antt"):
        if not is_shared(path):
            continue
        kind = None  # inside a data or a record at the margin
        for line in open(path, encoding="utf-8"):
            if line.lstrip().startswith("--") or not line.strip():
                continue
            if not line.startswith(" "):
                kind = "open" if re.match(r"(pub )?(abbrev )?(pub )?(data|record) ", line) else None
            m = DECL.match(line)
            if not m or m.group(4) in ("use", "let", "module"):
                continue
            name = m.group(4)
            declared.add(name)
            if kind == "open" and m.group(1):
                parts.add(name)
                definitions.add(name)
            elif "abbrev" in m.group(2) or "unfoldable" in m.group(2) or m.group(3):
                definitions.add(name)
    return declared, definitions, parts


def table(top):
    declared, definitions, parts = collect(top)
    words = ({snake(d) for d in definitions} | STD) - SMALL
    turned = {}
    for name in declared:
        new = snake(name) if re.match(r"[a-zμ∂]", name) else name
        if "-" in new.strip("-") and not re.match(r"[^\w]", new):
            if name in parts:
                new = new.replace("-", "_")
            else:
                pieces = new.split("-")
                done = pieces[0]
                last = pieces[0]
                for p in pieces[1:]:
                    if last in words and p in words:
                        done += "-" + p
                        last = p
                    else:
                        done += "_" + p
                        last += "_" + p
                new = done
        if new != name:
            turned[name] = new
    # aliases in src/, as `turned as turnedOf`
    for path in files(top, ".rt"):
        for m in re.finditer(r"\bas ([a-z]+[A-Z]\w*)", open(path, encoding="utf-8").read()):
            turned.setdefault(m.group(1), snake(m.group(1)))
    taken = {}
    for name in declared | set(turned):
        taken.setdefault(turned.get(name, name), []).append(name)
    for new, olds in sorted(taken.items()):
        if new in RESERVED:
            sys.exit(f"{olds} would be the reserved word {new}")
        # the definition has the name, and the law about it gets `_lem`
        if any(o in definitions or "-" not in o for o in olds) and len(olds) > 1:
            for o in olds:
                if "-" in o:
                    turned[o] = new + "_lem"
                    print(f"look: the law {o} is {new}_lem beside the definition {new}")
    return turned


def turn(text, turned, mark):
    """A text with each token of the table turned; in comments only between backticks."""
    out = []
    for line in text.split("\n"):
        at = line.find(mark)
        while at > 0 and line[at - 1] not in " \t":
            at = line.find(mark, at + 1)
        code, said = (line, "") if at < 0 else (line[:at], line[at:])
        code = TOKEN.sub(lambda m: turned.get(m.group(0), m.group(0)), code)
        said = re.sub(r"`[^`]*`", lambda m: TOKEN.sub(lambda k: turned.get(k.group(0), k.group(0)), m.group(0)), said)
        out.append(code + said)
    return "\n".join(out)


def main():
    top = "."
    turned = table(top)
    camel = {a: b for a, b in turned.items() if "-" not in a}
    n = 0
    for path in files(top, (".antt", ".rt")):
        old = open(path, encoding="utf-8").read()
        names = turned
        if not is_shared(path) and path.endswith(".antt"):
            # names that Rattle makes begin after `tie.`, or are a function's own goals: leave what the file declares
            own = {m.group(4) for m in map(DECL.match, old.split("\n")) if m}
            names = {a: b for a, b in turned.items() if a not in own}
        # laws whose definition, cited in the same file, comes to their name
        for ending, law in LAWS:
            if path.endswith(ending):
                names = {**names, law: law + "_lem"}
        new = turn(old, names if path.endswith(".antt") else names, "--" if path.endswith(".antt") else "//")
        if new != old:
            open(path, "w", encoding="utf-8").write(new)
            n += 1
    print(f"{len(turned)} names turned ({len(camel)} without a dash), in {n} files")
    if "--table" in sys.argv:
        for a in sorted(turned):
            print(a, turned[a])


main()
