#!/usr/bin/env python3
"""Brings the repository's own definitions and lemmas to today's spelling, after port.py: run once, at the top.

Words in snake case, types and modules in camel case. Every name that specs/ or proofs/ declare is turned (a
definition, a lemma, a field, a constructor, a name bound by let, by a lambda or in brackets), and so is each place
that cites it in specs/, in proofs/ and in the ghost text of src/. What Rattle makes (goals, steps) and what std
names keep their spelling. KEPT and TURNED hold what the rule alone would get wrong. `--list` only prints.
"""
import os
import re
import sys

WORD = re.compile(r"(?<![\w'-])[A-Za-z_][A-Za-z0-9_']*(?:-[A-Za-z0-9_'≤≡<]+)*(?![\w'-])")
DECLARED = re.compile(r"^\s*(?:(?:abbrev|unfoldable|pub|private)\s+)*([a-z][A-Za-z0-9_']*(?:-[A-Za-z0-9_']+)*)\s*:\s", re.M)
ANSWER = re.compile(r"^\s*(?:(?:abbrev|unfoldable|pub)\s+)*([a-z][\w'-]*)\s*:\s*goal\.", re.M)
BOUND = re.compile(r"\blet\s+([a-z][\w'-]*)\s*(?:\([^)]*\)\s*)*[:=]|λ\s*((?:[a-z_][\w'-]*\s*|\(\s*[a-z_][\w'-]*(?:\s+[a-z_][\w'-]*)*\s*:[^()]*\)\s*)+)\.|[({]\s*([a-z][\w'-]*(?:\s+[a-z][\w'-]*)*)\s*:\s")
GOALS = re.compile(r"^\s*use\s+[\w.+'-]*\.(?:Goals|Given)\.\{([^}]*)\}", re.M)
FIELD = re.compile(r"^\s+pub\s+([a-z][\w'-]*)\s*:\s", re.M)
ARROW = re.compile(r"\|\s*(?:[\w'-]+\s+)?([a-z][\w'-]*)\s*↦")
IMPORT = re.compile(r"^\s*(?:pub |ghost )*use\s+(?:Rattle\.std|borrow|native|mathlib|Prim|lib|denote|calc)\b[^{;\n]*\{([^}]*)\}", re.M)
# names that would fall together with another, or that a rule of words reads wrongly
TURNED = {
    "isLess": "less_at",
    "passageAt": "passage_in",
    "tablesEnd": "end_of_tables",
    "allPrintable": "each_printable",
    "byFirstDifference": "by_first_differing",
    "shownLabel": "label_shown",
    "childBy": "child_along",
    "blankBook": "book_blank",
    "blankTable": "table_blank",
    "label-length": "label_length_is",
    "lead-estimate": "lead_estimate_at",
    "second-estimate": "second_estimate_at",
    "search-theorem": "search_theorem_lem",
    "join-theorem": "join_theorem_lem",
    "bests-with": "bests_written",
    "each-place": "each_place_is",
    "forecasts-fit": "forecasts_fitting",
}
KEPT = set()


def files(ends):
    for folder, dirs, names in os.walk("crates"):
        dirs[:] = sorted(d for d in dirs if d != "out")
        for name in sorted(names):
            if name.endswith(ends):
                yield os.path.join(folder, name)


def snake(name):
    if name in TURNED:
        return TURNED[name]
    name = re.sub(r"([a-z0-9])([A-Z])", lambda m: m[1] + "_" + m[2].lower(), name)
    return name.replace("-", "_")


def names_of(text):
    answers = set(ANSWER.findall(text))
    found = set(DECLARED.findall(text)) - answers
    for m in BOUND.finditer(text):
        for part in m.groups():
            if part:
                part = re.sub(r":[^()]*\)", " ", part).replace("(", " ")
                found |= set(part.split())
    found |= set(ARROW.findall(text))
    return {n for n in found if ("-" in n or re.search(r"[a-z0-9][A-Z]", n)) and n[0].islower()}


def read(path):
    with open(path, encoding="utf-8") as f:
        return f.read()


def ghost_parts(text):
    """The spans of a .rt file that are ghost text: ghost items and clauses, to the end of their braces or line."""
    for m in re.finditer(r"\bghost use\b[^;]*;|\bghost \w+(?: =|:) \{|\b(?:requires|ensures)\*?(?: \w+)? \{|\binvariant(?: \w+)? \{", text):
        if m.group(0).startswith("ghost use"):
            yield m.start(), m.end()
            continue
        depth, i = 1, m.end()
        while i < len(text) and depth:
            depth += (text[i] == "{") - (text[i] == "}")
            i += 1
        yield m.start(), i


def main():
    texts = {p: read(p) for p in files((".antt", ".rt"))}
    own, fields, foreign = {}, set(), set()
    for path, text in texts.items():
        for group in IMPORT.findall(text):
            foreign |= {n.strip() for part in group.split(",") for n in part.split(" as ")}
        if path.endswith(".antt"):
            fields |= set(FIELD.findall(text))
            for name in names_of(text):
                own.setdefault(name, []).append(path)
        else:
            for a, b in ghost_parts(text):
                for n in re.findall(r"\bghost (\w+)(?: =|:)", text[a:b]):
                    if re.search(r"[a-z0-9][A-Z]", n) and n[0].islower():
                        own.setdefault(n, []).append(path)
    turn = {n: snake(n) for n in own if n not in foreign and n not in KEPT}
    if "--list" in sys.argv:
        for n in sorted(turn):
            print(n, turn[n], own[n][0])
        print("foreign:", sorted(n for n in own if n in foreign))
        return

    # a name behind a dot is a field of ours, or a step that Rattle names
    def put(part, made=()):
        def one(m):
            name = m[0]
            if name in made or (m.start() and part[m.start() - 1] == "." and part[max(0, m.start() - 2):m.start()] not in (" .", "..") and name not in fields):
                return name
            return turn.get(name, name)
        return WORD.sub(one, part)

    for path, text in texts.items():
        if path.endswith(".antt"):
            new = put(text, {n.strip() for group in GOALS.findall(text) for n in group.split(",")})
        else:
            new, last = [], 0
            for a, b in ghost_parts(text):
                new += [text[last:a], put(text[a:b])]
                last = b
            new = "".join(new) + text[last:]
        if new != text:
            with open(path, "w", encoding="utf-8") as f:
                f.write(new)


main()
