#!/usr/bin/env python3
"""Brings the names that this repository declares in specs/ and proofs/ to one spelling: words in snake case,
types and facts in camel case. Run once, at the top, after the kit's port.py:

    python3 tools/respell.py          writes the files and says how many names it turned
    python3 tools/respell.py --look   writes nothing, and lists names that would fall together

`placeFrom` becomes `place_from` and `place-from-high` becomes `place_from_high`. A dash stays where it joins a
fact to a name, as in `Right-at`. Names of src/ and names that Rattle makes stay as they are, and so do module names.
A name that would fall together with another gets `_lem`, as Rattle's style page says of a lemma named as its function.
"""
import collections
import glob
import os
import re
import sys

NAME = r"[^\W\d][\w\-'?]*"
DECLARED = re.compile(
    r"^\s*((?:abbrev |unfoldable |pub |record |data |ruleset )*)(" + NAME + r"(?:, " + NAME + r")*)"
    r"(?: \{[^}]*\}| \([^)]*\))*\s*(:|=)(?=\s|$)")
ALIAS = re.compile(r"^use .* as (" + NAME + r")\s*$")
CAMEL = re.compile(r"(?<=[a-z])[A-Z]|(?<=[0-9])[A-Z](?=[a-z])")

# lemmas that port.py had given the name of the definition that they speak of, and where they are used
LEMMAS = {
    "is_bound": ("crates/zone/proofs/", "crates/zone_table/proofs/ZoneParts.antt"),
    "is_digit": ("crates/meaning/proofs/",),
    "sum_over": ("crates/slots/proofs/",),
}


def antt_files():
    found = glob.glob("crates/*/specs/**/*.antt", recursive=True)
    found += glob.glob("crates/*/proofs/**/*.antt", recursive=True)
    return sorted(found)


def is_walk(path):
    """Whether it is a file that walks a function's code: its names are those of the goals that Rattle makes."""
    return os.path.basename(path) == "Proof.antt"


def snake(name):
    if name[0].isupper() or name[0] == "_":
        return name
    return CAMEL.sub(lambda m: "_" + m.group(0).lower(), name).replace("-", "_")


def code_lines(text):
    for line in text.split("\n"):
        at = re.search(r"(^|\s)--", line)
        yield line[: at.start()] if at else line


def declared(text):
    for line in code_lines(text):
        m = DECLARED.match(line)
        if m:
            for name in m.group(2).split(", "):
                yield name, line[0] == " "
        m = ALIAS.match(line)
        if m:
            yield m.group(1), False


def turn_tokens(text, names, kept=frozenset(), fields=None):
    """`kept` are names that stay; with `fields`, a name after a full stop is turned only where it is one of these."""

    def turn(m):
        name = m.group(0)
        if name in kept:
            return name
        if fields is not None and "-" in name and text[: m.start()].endswith(".") and name not in fields:
            return name
        return names.get(name, name)

    return re.sub(NAME, turn, text)


def turn_ticked(text, names):
    return re.sub(r"`[^`\n]*`", lambda m: turn_tokens(m.group(0), names), text)


def turn_antt(text, names, kept=frozenset(), fields=None):
    lines = []
    for line in text.split("\n"):
        at = re.search(r"(^|\s)--", line)
        if at:
            line = turn_tokens(line[: at.start()], names, kept, fields) + turn_ticked(line[at.start():], names)
        else:
            line = turn_tokens(line, names, kept, fields)
        lines.append(line)
    return "\n".join(lines)


def clause_spans(text):
    """Where clauses and ghost imports stand: only there do names of specs/ occur in a source file."""
    for m in re.finditer(r"^ghost use [^;]*;", text, re.M):
        yield m.start(), m.end()
    for m in re.finditer(r"\b(requires|ensures|ghost|invariant)\b[ \w*]*\{", text):
        depth, i = 0, m.end() - 1
        while True:
            depth += {"{": 1, "}": -1}.get(text[i], 0)
            i += 1
            if depth == 0:
                break
        yield m.start(), i


def turn_rt(text, names):
    out, last = [], 0
    for start, end in sorted(clause_spans(text)):
        if start < last:
            continue
        out.append(turn_ticked(text[last:start], names))
        out.append(turn_tokens(text[start:end], names))
        last = end
    out.append(turn_ticked(text[last:], names))
    return "".join(out)


def main():
    texts = {path: open(path).read() for path in antt_files()}
    for name, places in LEMMAS.items():
        for path in texts:
            if path.startswith(places):
                texts[path] = re.sub(rf"(?<![\w.-]){name}(?![\w-])", name + "_lem", texts[path])
    read = {path: open(path).read() for path in texts}
    ours, fields = set(), set()
    for path, text in texts.items():
        for name, indented in declared(text):
            if not is_walk(path) or CAMEL.search(name):
                ours.add(name)
                if indented:
                    fields.add(name)
    names = {name: snake(name) for name in ours if snake(name) != name}
    # names that fall together in a file, as two that are declared or as one that is used beside another
    clashes = collections.defaultdict(set)
    for path, text in texts.items():
        tokens = set()
        for line in code_lines(text):
            tokens.update(re.findall(NAME, line))
        back = collections.defaultdict(set)
        for token in tokens:
            back[names.get(token, token)].add(token)
        for new, olds in back.items():
            if len(olds) > 1:
                clashes[new].add((tuple(sorted(olds)), path))
    for new, where in list(clashes.items()):
        for olds, _ in where:
            for old in olds:
                if "-" in old and old in names:
                    names[old] = new + "_lem"
    if "--look" in sys.argv:
        for new, where in sorted(clashes.items()):
            for olds, path in sorted(where):
                print(new, olds, path, [names.get(o, o) for o in olds])
        return
    for path, text in texts.items():
        if is_walk(path):
            # names of goals stay, and so do those of the steps before them
            goals = {name for name, indented in declared(text) if "-" in name and not indented}
            turned = turn_antt(text, names, goals, fields)
        else:
            turned = turn_antt(text, names)
        if turned != read[path]:
            open(path, "w").write(turned)
    for path in sorted(glob.glob("crates/*/src/**/*.rt", recursive=True)):
        text = open(path).read()
        turned = turn_rt(text, names)
        if turned != text:
            open(path, "w").write(turned)
    for path in ["README.md"] + sorted(glob.glob("docs/*.md")) + sorted(glob.glob("examples/README.md")):
        text = open(path).read()
        turned = turn_ticked(text, names)
        if turned != text:
            open(path, "w").write(turned)
    print(f"respell: {len(names)} names turned")


main()
