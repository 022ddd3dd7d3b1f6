#!/usr/bin/env python3
"""Lists the places of docs/DESIGN-PASS.md: run at the repository's top, `python3 tools/places.py [WORD]`.

A WORD is one of those below; with none, each is counted. A line is a candidate: the page says what was made of each."""
import difflib
import glob
import re
import sys

FILES = sorted(glob.glob("crates/*/src/**/*.rt", recursive=True))
SIGNATURE = re.compile(r"\bfn (\w+)(?:<[^>{]*>)?\(([^)]*)\)([^{]*?)\{\n(.*?)\n( *)\}\n", re.S)
INTEGERS = r"\b(?:[iu](?:8|16|32|64)|[iu]size)\b"


def text(path):
    with open(path, encoding="utf-8") as file:
        return re.sub(r"//[^\n]*", "", file.read())


def functions():
    """Each function: its file, name, parameters, what stands between them and the body, and the body."""
    for path in FILES:
        source = text(path)
        for found in re.finditer(r"^( *)(?:pub(?:\(crate\))? )?(?:extern \"C\" )?fn (\w+)(?:<[^(]*>)?\(", source, re.M):
            indent, name = found.group(1), found.group(2)
            end = source.find("\n" + indent + "}\n", found.end())
            whole = source[found.start():end]
            head, _, body = whole.partition("\n" + indent + "{\n")
            if not body:
                head, _, body = whole.partition("{\n")
            parameters = [p.strip() for p in re.split(r",\s*(?![^<]*>)", head[head.index("(") + 1:head.index(")")]) if p.strip()]
            yield path, name, parameters, head, body


def lines(pattern):
    for path in FILES:
        for number, line in enumerate(text(path).split("\n"), 1):
            if re.search(pattern, line):
                yield f"{path}:{number}: {line.strip()}"


def codes():
    """Answers by number or flag, numbered kinds, and fields of them."""
    for path, name, _, head, _ in functions():
        answer = re.search(r"\) -> (u32|bool)\b", head)
        if answer:
            yield f"{path}: fn {name} -> {answer.group(1)}"
    yield from lines(r"^\s*(pub )?(number|field|goes_on|done|band|samples|mark): (u32|bool),")
    yield from lines(r"^\s*(pub )?const [A-Z_0-9]+: u(32|64) =")


def twins():
    """Pairs of functions that differ in little but numbers and integer types."""
    bodies = []
    for path, name, _, _, body in functions():
        plain = re.sub(INTEGERS, "T", re.sub(r"\b[0-9][0-9a-fx_]*(?:[iu]\w+)?\b", "0", body))
        tokens = re.findall(r"\w+|\S", plain)
        if len(tokens) >= 24 and "/main.rt" not in path:
            bodies.append((path, name, tokens))
    for k, (path, name, tokens) in enumerate(bodies):
        for other, second, more in bodies[k + 1:]:
            match = difflib.SequenceMatcher(None, tokens, more, autojunk=False)
            if match.real_quick_ratio() > 0.8 and match.quick_ratio() > 0.8 and match.ratio() > 0.8:
                yield f"{path}: {name} | {other}: {second}"


def loops():
    yield from lines(r"^ *('\w+: )?(while|loop) ")


def by_hand():
    """Comparisons, ranges and conversions that the library has."""
    yield from lines(r"if (\w[\w.]*) <=? (\w[\w.]*) \{ (\1|\2) \} else \{ (\1|\2) \}")
    yield from lines(r"4294967296|% 65536\b|wrapping_\w+_u32|fn (same|copied|least|unsigned|signed|magnitude)")
    yield from lines(r"as \w+ (<|==|!=|>) ")


def facts():
    """Parts of `requires` that stand in three functions of a crate or more; and functions with six parameters or more."""
    found = {}
    for path, name, _, head, _ in functions():
        crate = path.split("/")[1]
        for clause in re.findall(r"requires[^{]*\{(.*)\}", head):
            for part in re.split(r" × (?![^()]*\))", clause):
                part = re.sub(r"^\(+|\)+$", "", part.strip())
                found.setdefault((crate, part), set()).add((path, name))
    for (crate, part), where in sorted(found.items()):
        if len(where) >= 3:
            yield f"{crate}: {part}: {len(where)} functions"
    for path, name, parameters, _, _ in functions():
        if len(parameters) >= 6:
            yield f"{path}: {name}: {len(parameters)} parameters"


def slices():
    """Functions that take a slice or an array with two places or lengths beside it, or two such of one length."""
    word = r"^(from|start|end|count|at|place|place_\w+|to|next|first|column|row|words|n|reach|k|i|taps|rows|left)$"
    for path, name, parameters, _, _ in functions():
        kinds = [tuple(part.strip() for part in p.split(":", 1)) for p in parameters if ":" in p]
        places = [key for key, kind in kinds if kind == "usize" and re.match(word, key)]
        if any("[" in kind for _, kind in kinds) and len(places) >= 2:
            yield f"{path}: {name}: {', '.join(places)}"


def switches():
    yield from lines(r"^ *\d+ => .*\(")


def clauses():
    """Clauses whose name only has a number, and lines of more than 160 columns."""
    yield from lines(r"\b(requires|ensures) \w+_\d+ \{|\b(requires|ensures) (fact|by_index) ")
    for path in FILES:
        for number, line in enumerate(text(path).split("\n"), 1):
            if len(line) > 160:
                yield f"{path}:{number}: {len(line)} columns"


WORDS = [codes, twins, loops, by_hand, facts, slices, switches, clauses]


def main():
    asked = sys.argv[1:]
    for word in WORDS:
        if asked and word.__name__ not in asked:
            continue
        found = list(word())
        if asked:
            print("\n".join(found))
        print(f"{word.__name__}: {len(found)}")


main()
