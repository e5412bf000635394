#!/usr/bin/env python3
"""Respells this repository's own definitions and lemmas as today's Rattle has them.

usage: python3 tools/respell.py        at the top of the repository, once, after the kit's script

Values, lemmas and record fields become snake case, types and modules camel case. Names of functions and types of
src/, of goals, of text and of inputs and outputs stay. Names that would fall together get the other names below.
"""
import collections
import glob
import re
import sys

# where two names would become one, what one of them is called instead
OTHER = {
    "assignment-word": "assignment_word_spelled",
    "badges-word": "badges_word_spelled",
    "corner-word": "corner_word_spelled",
    "floor-word": "floor_word_spelled",
    "head-word": "head_word_spelled",
    "parent-word": "parent_word_spelled",
    "role-permission-word": "role_permission_word_spelled",
    "role-word": "role_word_spelled",
    "rule-word": "rule_word_spelled",
    "schema-permission-word": "schema_permission_word_spelled",
    "schema-word": "schema_word_spelled",
    "zone-word": "zone_word_spelled",
    "sound-assignment": "sound_assignment_turn",
    "sound-badges": "sound_badges_turn",
    "sound-parent": "sound_parent_turn",
    "sound-role": "sound_role_turn",
    "sound-role-permission": "sound_role_permission_turn",
    "sound-schema-permission": "sound_schema_permission_turn",
    "hall-of": "hall_of_plan",
    "of-type": "of_type_is",
    "on-floor": "on_floor_seen",
    "placeAt": "placed_at",
    "schema-of": "schema_of_role",
    "type-lies": "type_within",
}
# the same, of names that were in snake case already, by file
OTHER_IN = {
    "crates/cells/specs/Rows.antt": {"row_word": "row_word_spelled"},
    "crates/sealing/proofs/Fitting.antt": {"lies_in": "lies_in_one"},
}
DECLARED = re.compile(r"^\s*(?:(?:abbrev|unfoldable|pub|private|data|record|let|test)\s+)*([^\W\d][\w'′-]*)\s*(?:[({].*)?:(?!=)")
KEPT_WORDS = {"use", "mod", "module", "pub", "in", "let", "infixl", "infixr"}


def declared():
    names = set()
    for path in files(".antt"):
        for line in open(path, encoding="utf-8"):
            found = DECLARED.match(line)
            if found and "goal." not in line and "given." not in line and found.group(1) not in KEPT_WORDS:
                names.add(found.group(1))
            if "goal." not in line and "given." not in line:
                for more in re.findall(r"^\s*pub ((?:[^\W\d][\w'′-]* )+):", line):
                    names.update(more.split())
    for ending in (".antt", ".rt"):
        for path in files(ending):
            for line in open(path, encoding="utf-8"):
                if re.match(r"\s*(ghost )?use ", line):
                    names.update(re.findall(r" as ([a-z][\w'′-]*)", line))
    return names


def files(ending):
    for path in sorted(glob.glob("crates/**/*" + ending, recursive=True)):
        if "/out/" not in path:
            yield path


def new_name(name):
    if name in OTHER:
        return OTHER[name]
    if name[0].isupper():
        return "".join(p[:1].upper() + p[1:] for p in name.split("-"))
    name = name.replace("-", "_").replace("′", "'")
    return re.sub(r"(?<=[a-z0-9])([A-Z])", lambda m: "_" + m.group(1).lower(), name)


TOKEN = re.compile(r"(?<![\w'′·-])[^\W\d][\w'′-]*")
STRING = re.compile(r'"(?:[^"\\\n]|\\.)*"|b?\'(?:[^\'\\\n]|\\.)\'')


FUNCTION = re.compile(r"^(?:pub(?:\(\w+\))? )?(?:const )?fn (\w+)", re.M)
IMPORTED = re.compile(r"^(?:pub )?use [\w:]+::(?:\{([\w, ]+)\}|(\w+));", re.M)


def functions(text):
    """The functions that a file names without a path: a clause that names a definition spelled alike says NAME_spec."""
    found = set(FUNCTION.findall(text))
    for several, one in IMPORTED.findall(text):
        found.update(several.split(", ") if several else [one])
    return found


def turn(text, names, rust):
    taken = functions(text) if rust else set()
    names = {n: to + "_spec" if to in taken else to for n, to in names.items()}

    def part(piece):
        piece = TOKEN.sub(lambda m: names.get(m.group(0), m.group(0)), piece)
        if not taken:
            return piece

        def brought_in(m):
            line = re.sub(r"(?<![\w'])(\w+)_spec as ", lambda n: n.group(1) + " as " if n.group(1) in taken else n.group(0), m.group(0))
            return re.sub(r"(?<! as )(?<![\w'])(\w+)_spec(?![\w'])(?! as )", lambda n: f"{n.group(1)} as {n.group(0)}" if n.group(1) in taken else n.group(0), line)

        return re.sub(r"^ghost use .*$", brought_in, piece, flags=re.M)

    if not rust:
        return part(text)
    out, at = [], 0
    for m in STRING.finditer(text):
        out += [part(text[at : m.start()]), m.group(0)]
        at = m.end()
    return "".join(out) + part(text[at:])


def main():
    names = {n: new_name(n) for n in declared()}
    names = {n: to for n, to in names.items() if n != to}
    together = 0
    plan = []
    for ending in (".antt", ".rt", ".edit"):
        for path in files(ending):
            text = open(path, encoding="utf-8").read()
            own = dict(names, **OTHER_IN.get(path, {}))
            plain = STRING.sub("", text) if ending != ".antt" else text
            tokens = collections.defaultdict(set)
            for t in TOKEN.findall(plain):
                tokens[own.get(t, t)].add(t)
            for to, olds in tokens.items():
                if len(olds) > 1:
                    together += 1
                    print(f"fall together in {path}: {sorted(olds)} as {to}")
            plan.append((path, turn(text, own, ending != ".antt"), text))
    if "--look" in sys.argv:
        print(len(names), "names")
        return
    for path, new, old in plan:
        if new != old:
            open(path, "w", encoding="utf-8").write(new)
    for path in ["README.md", *sorted(glob.glob("docs/*.md"))]:
        text = open(path, encoding="utf-8").read()
        new = re.sub(r"`[^`\n]*`", lambda m: TOKEN.sub(lambda t: names.get(t.group(0), t.group(0)), m.group(0)), text)
        if new != text:
            open(path, "w", encoding="utf-8").write(new)
    print(len(names), "names respelled,", together, "fall together")


if __name__ == "__main__":
    main()
