#!/usr/bin/env python3
"""Respells the repository's own names of specs/ and proofs/ after port.py: functions, lemmas and fields in snake case, a dash only between two names.

usage: tools/respell.py [ROOT]      rewrites the .antt files, the clauses of .rt files, and the must-fail edits below ROOT/crates
       tools/respell.py --list [ROOT]   prints the map, and the names that would fall together

Names of Rust functions, fields, types and modules stay, as do the names that Rattle makes and the answers that a Proof.antt gives to them.
"""
import os
import re
import sys
import collections

WORD = r"[^\s(){}\[\]⟨⟩⌜⌝,;.:λ`\"|@#$&<>=/\\]+|&&[^\s(){}]*"
NAME = re.compile(r"(?:(?<=^)|(?<=[\s(){}\[\]⌜⌝,;:.`←‹›|]))([^\s(){}\[\]⌜⌝,;:.`‹›|\"]+)")
DECLARED = re.compile(r"^( {0,4})(?:(?:pub|abbrev|unfoldable|private) )*([^\s(){}\[\],;.:λ]+)(?= (?:\{|\(|:) *|(?: :))")
FIELD = re.compile(r"^( {2,4})pub ([^\s(){}\[\],;.:λ]+) :")
RECORD = re.compile(r"^(?:(?:pub|abbrev|unfoldable) )*(record|data) ")

# what dashes may join besides the definitions of specs/
LIBRARY = set(
    "length take drop set get_or append paste overwrite tabulate map replicate part at abs pos negsuc sum total every near floor cond "
    "eqb ltb leb to_z of_z min max suc zero reverse concat limit paste_or put ap cast".split()
)
# names that port.py had garbled, or that are plainer in full
FIXED = {"get_d_tabulate": "get_or-tabulate", "handed_out": "handed_out_lem", "lastDigits": "last_decimal_digits", "is-nan": "is_nan_lem"}
STAYS = {"get_or-set_other"}


def snake(part):
    part = re.sub(r"(?<=[a-z0-9])([A-Z])", lambda m: "_" + m.group(1).lower(), part)
    return part


def files(root, *endings):
    for folder, dirs, names in os.walk(os.path.join(root, "crates")):
        dirs[:] = sorted(d for d in dirs if d != "out")
        for name in sorted(names):
            if name.endswith(endings):
                yield os.path.join(folder, name)


def declared(path):
    """The names that a file declares, each with whether it is a field, and whether it answers a goal."""
    record = False
    for line in open(path, encoding="utf-8").read().splitlines():
        if line and not line.startswith((" ", "--")):
            record = bool(RECORD.match(line))
        if line.startswith(("use ", "--", "module ", "unfolding ")):
            continue
        m = FIELD.match(line)
        if record and m:
            yield m.group(2), True, False
            continue
        m = DECLARED.match(line)
        if m and m.group(2) not in ("let", "record", "data", "use", "where", "in", "_", "unfolding", "module", "go", "elim"):
            answers = bool(re.search(r": (?:\{M : Type 1\} → )?(?:tie\.|statement )", line))
            yield m.group(2), False, answers


def respelled(name, known):
    if name in FIXED:
        return FIXED[name]
    if name[0].isupper() and "-" not in name:
        return name
    parts = [p if p[:1].isupper() else snake(p) for p in name.split("-")]
    if any(p == "" for p in parts):
        return name
    plain = [bool(re.fullmatch(r"[A-Za-z0-9_'₀-₉]+", p)) for p in parts]
    names = all(p in known or p[0].isupper() for p, is_plain in zip(parts, plain) if is_plain)
    out = parts[0]
    for right, left_plain, right_plain in zip(parts[1:], plain, plain[1:]):
        out += ("-" if names or not left_plain or not right_plain else "_") + right
    return out


def mapping(root):
    known, found, fields, kept = set(LIBRARY), collections.defaultdict(set), set(), set()
    for path in files(root, ".antt"):
        for name, field, answers in declared(path):
            (fields if field else known if "/specs/" in path and not field else set()).add(snake(name))
            if answers:
                kept.add(name)
            found[name].add(path)
    for name in list(known):
        if "-" in name:
            known.discard(name)
    names = {}
    for name in found:
        if name in kept or name in STAYS:
            continue
        new = respelled(name, known)
        if new != name:
            names[name] = new
    # a lemma that would have its function's name gets _lem
    functions = {names.get(name, name) for name in found if "-" not in name and name not in FIXED}
    for name, new in list(names.items()):
        if "-" in name and new in functions:
            names[name] = new + "_lem"
    return names, found


def sources(text):
    """The spans of a .rt file that are clauses, ghost items or imports of ghost names."""
    for m in re.finditer(r"(?m)^ *(?:pub )?ghost [^\n]*|^ *(?:requires|ensures)\b[^{\n]*\{", text):
        if m.group(0).rstrip().endswith("{") and "ghost use" not in m.group(0):
            depth, i = 1, m.end()
            while depth and i < len(text):
                depth += {"{": 1, "}": -1}.get(text[i], 0)
                i += 1
            yield m.start(), i
        else:
            yield m.start(), m.end()


def turn(text, names):
    def one(m):
        word = m.group(1)
        return names.get(word, word)

    return NAME.sub(one, text)


def turn_source(text, names):
    out, last = [], 0
    for start, end in sources(text):
        if start < last:
            continue
        out += [text[last:start], turn(text[start:end], names)]
        last = end
    return "".join(out) + text[last:]


def main():
    args = [a for a in sys.argv[1:] if a != "--list"]
    root = args[0] if args else os.path.dirname(os.path.dirname(os.path.abspath(__file__)))
    names, found = mapping(root)
    if "--list" in sys.argv:
        for name, new in sorted(names.items()):
            clash = " CLASH" if new in found else ""
            print(f"{name} -> {new}{clash}")
        return
    for path in files(root, ".antt", ".rt", ".edit"):
        text = open(path, encoding="utf-8").read()
        new = turn_source(text, names) if path.endswith(".rt") else turn(text, names)
        if new != text:
            open(path, "w", encoding="utf-8").write(new)


main()
