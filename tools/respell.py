#!/usr/bin/env python3
"""Brings the repository's own definitions and lemmas to snake case: run once, at the top, right after port.py.

A name in camel case that begins small gets underscores (tapSum: tap_sum), and a dash between two words becomes one
(kernel-symmetric: kernel_symmetric). A dash beside a symbol stays (abs-+, natAbs-*: nat_abs-*). Names that come from
src/ keep their spelling, and so do those that Rattle makes, which stand behind `tie.` or as a field of a step.
`respell.py --list` prints the names that change and writes nothing.
"""
import collections
import glob
import re
import subprocess
import sys

SYMBOLS = "ℤℕ+*⊖⊎≤<≡≗⊕⊗∙×·&|◌'"
ENGLISH = {"half-sample", "one-more", "so-far", "same-length", "first-row"}
NAME = r"[^\s(){}\[\],;:=λ.`\"]+"
DECLARED = re.compile(rf"^(\s*)(?:pub )?(?:abbrev |unfoldable )?(?:pub )?(record |data |ruleset |module )?({NAME}) *(?::|=|\(|\{{|where)")
WORDS = {"use", "open", "infixl", "infixr", "infix", "unfolding", "where", "let", "in", "elim", "module", "mod", "pub", "deriving"}


def respelled(name):
    out = []
    for i, part in enumerate(name.split("-")):
        # beside a symbol the dash stays
        if i:
            plain = bool(out[-1]) and re.match(r"[A-Za-z0-9_']", part or "-") and re.match(r"[A-Za-z0-9_']", out[-1][-1])
            out.append("_" if plain else "-")
        out.append(part)
    name = "".join(out)
    if name[0].islower():
        name = re.sub(r"(?<=[a-z0-9])([A-Z])", lambda m: "_" + m[1].lower(), name)
        name = re.sub(r"(?<=_)([A-Z])", lambda m: m[1].lower(), name) if re.search(r"_[A-Z]", name) else name
    return name


def declared(text):
    for line in text.split("\n"):
        m = DECLARED.match(line)
        if m and not line.lstrip().startswith("--") and m[3] not in WORDS and "tie." not in line.split("λ")[0]:
            yield m[3]


# Fields beside parameters of the same words.
FIELDS = {"low-at": "low_stands", "high-at": "high_stands"}


def wanted(names, taken=()):
    """What each name becomes. A lemma that would fall together with a definition or a function gets `_lem`."""
    new = {n: FIELDS.get(n, respelled(n)) for n in names if not n.startswith("+") and not n.endswith("-")}
    defined = {r for n, r in new.items() if "-" not in n and r != n} | set(taken)
    return {n: r + "_lem" if "-" in n and r in defined and n not in FIELDS else r for n, r in new.items() if r != n}


TOKEN = re.compile(r"[^\s(){}\[\],;:=`\"\\]+")


def turn(text, names, fields, comments):
    """text with each name respelled; behind a dot only a record's own field, or a name of a module."""
    def one(m):
        parts = m[0].split(".")
        if parts[0] in ("tie", "goal"):
            return m[0]
        for i, part in enumerate(parts):
            bare = part.lstrip("λ")
            if bare in names and (i == 0 or parts[i - 1][:1].isupper() or bare in fields):
                parts[i] = part[:len(part) - len(bare)] + names[bare]
        return ".".join(parts)

    out = []
    for line in text.split("\n"):
        code, mark, note = line, "", ""
        for sign in comments:
            at = line.find(sign)
            if at >= 0 and (at == 0 or line[:at].isspace() or line[at - 1] == " "):
                code, mark, note = line[:at], sign, line[at + len(sign):]
                break
        code = TOKEN.sub(one, code)
        if note:
            kept = {n: r for n, r in names.items() if n not in ENGLISH}
            note = re.sub(r"(?<![\w'-])([\w'*+-]+[\w'*+-])(?![\w'-])", lambda m: kept.get(m[1], m[1]), note)
        out.append(code + mark + note)
    return "\n".join(out)


def main():
    specs = sorted(glob.glob("crates/*/specs/**/*.antt", recursive=True) + glob.glob("crates/*/proofs/*.antt"))
    proofs = sorted(set(glob.glob("crates/*/proofs/**/*.antt", recursive=True)) - set(specs))
    shared, fields = set(), set()
    for f in specs:
        text = open(f).read()
        shared |= set(declared(text))
        inside = False
        for line in text.split("\n"):
            if re.match(r"(pub )?(abbrev )?(pub )?record ", line):
                inside = True
            elif line and not line[0].isspace():
                inside = False
            elif inside:
                fields |= set(declared(line))
    all_names = set(shared)
    for f in specs + proofs:
        all_names |= set(re.findall(r"[^\s(){}\[\],;:=.`\"]+", open(f).read()))
    # what a library has too is the library's
    ours = {re.match(r"crates/(\w+)/", f)[1] for f in specs + proofs} | {re.match(r"crates/(\w+)/", f)[1] for f in glob.glob("crates/*/src/*")}
    for f in specs + proofs:
        for path, listed in re.findall(r"^(?:pub )?use ([\w.'+-]+)\.\{([^}]*)\}", open(f).read(), re.M):
            if not (path.startswith("Rattle.") and path.split(".")[1] in ours):
                shared -= {n.split(" as ")[0].strip() for n in listed.split(",")}
    names = wanted(shared, all_names)
    together = collections.defaultdict(list)
    for old, new in names.items():
        together[new].append(old)
    for new, olds in sorted(together.items()):
        if len(olds) > 1 or (new in all_names and new not in names):
            print("falls together:", new, olds, "(stands already)" if new in all_names else "")
    if "--list" in sys.argv:
        print("\n".join(f"{a} {b}" for a, b in sorted(names.items())))
        print("fields:", sorted(n for n in fields if n in names))
        return
    for f in specs + proofs:
        text = open(f).read()
        here = dict(names)
        if f in proofs:
            here.update(wanted(declared(text), all_names))
        new = turn(text, here, fields, ("--",))
        if new != text:
            open(f, "w").write(new)
    for f in sorted(glob.glob("crates/*/src/*.rt")):
        text = open(f).read()
        new = turn(text, names, fields, ("//",))
        if new != text:
            open(f, "w").write(new)
    for f in sorted(glob.glob("crates/*/must-fail/*.edit")):
        text = open(f).read()
        new = turn(text, names, fields, ())
        if new != text:
            open(f, "w").write(new)


main()
