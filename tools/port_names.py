#!/usr/bin/env python3
"""Spells the names that this repository's own specs/ and proofs/ declare as today's Rattle spells names.

usage: python3 tools/port_names.py        at the top of the repository, once, after the kit's port.py

- Definitions, lemmas, fields, constructors and variables of antt are in snake case: `goodName` and `good-name` become `good_name`, a prime an apostrophe.
  Types and modules keep their camel case, functions of src/ and all strings stay.
- specs/Contracts.antt becomes specs/Promises.antt, since Rattle makes a module `specs.contracts` of its own.
- Must-fail edits (crates/NAME/must-fail) follow the text that they change; the few whose text the kit's script respells stand in EDITS below.

It prints each pair of names that would fall together, and then changes nothing.
"""

import collections
import glob
import os
import re

TOKEN = r"[^\s(){}.;,@\"«»`]+"
DECLARED = re.compile(rf"^\s*(?:(?:abbrev|unfoldable|pub|data|record|module|infix\w*)\s+)*({TOKEN})((?:\s*[({{][^{{}}()]*[)}}])*)\s*:(?=\s|$)")
BINDERS = re.compile(rf"\b(?:let|λ)\s+({TOKEN})\s*(?=[:=.])|[({{]((?:{TOKEN}\s+)+):\s")
USE = re.compile(r"^(?:pub )?(?:ghost )?use ([^\s;{]+)(\{[^;}]*\})?(?: as (\S+))?", re.M)
QUIET = re.compile(r'--.*$|"[^"\n]*"', re.M)
# What the kit's script makes of the edits' texts that are no longer found: of a projection, of a module and of a label.
EDITS = [
    (re.compile(r"(?<=[\w′'\])]) \.(?=[\w])"), "."),
    (re.compile(r"\bthe-variants\b"), "TheVariants"),
    (re.compile(r"Rattle·(\w+)(?:·(?:specs|proofs))?\.(specs|proofs)(?:\.\2)?\b"), r"Rattle.\1.\2"),
    (re.compile(r"\((\w+\.\w+)\)"), r"\1"),
    (re.compile(r"′"), "'"),
]
# Two names that would be one: the sets of answers' numbers and the numbers themselves say what they are, and a lemma on a definition of its name is its `_lem`.
SPECIAL = {
    "ofChunk": "is_of_chunk",
    "ofReader": "is_of_reader",
    "tooLong": "too_long_number",
    "noRoom": "no_room_number",
    "notMesh": "not_mesh_number",
    "notRead": "not_read_text",
    "noZero": "has_no_zero",
    "allNames": "names_of_parts",
    "ofLength": "reader_of_length",
}
SPECIAL.update({name: name.replace("-", "_") + "_lem" for name in """in-front good-polygon finite-points is-tag good-tag to-zero surface-parts run-parts polygons-from
    surface-words point-words polygon-words surfaces-size tagging-size run-chunks latest-count record-from record-words none-met short-tag long-tag
    surface-chunk""".split()})
# `good_names` of load_surfaces is a lemma on `goodNames`; the kit's script has taken its dash.
SPECIAL_IN = {"crates/load_surfaces/proofs/FileNames.antt": {"good_names": "good_names_lem", "good-names": "good_names_lem"}}
# Both are there and never meet: a field or a function of Rust behind a dot or in a path, and a definition.
APART = set("name_bytes part_name good_mesh counts_agree whole_tables good_names all_names lwob_entry multiplier_of lwo2_vertices lwob_vertices has_bits layer_body points_body whole_points faces_body patches_body polygons_body tagging_body".split())
# Names that a function's proof gets from Rattle.
MADE = re.compile(r"^(loop|if|in|then|else|match|index|Need|returns)\d*(-|$)|-spec$")


def snake(name):
    if name in SPECIAL:
        return SPECIAL[name]
    parts = re.split(r"(◌)", name)
    out = []
    for part in parts:
        if re.fullmatch(r"[A-Z][\w'′]*", part):
            out.append(part.replace("′", "'"))
            continue
        part = re.sub(r"(?<=[a-z0-9])([A-Z])", lambda m: "_" + m[1].lower(), part)
        part = re.sub(r"(?<=[\w'′₀-₉])-(?=\w)", "_", part)
        out.append(part.replace("′", "'"))
    return "".join(out)


def may_turn(name):
    return not name[0].isupper() and not name.isdigit() and snake(name) != name and re.match(r"[a-zA-Z_◌]", name)


def read(path):
    with open(path, encoding="utf-8") as f:
        return f.read()


def write(path, text):
    with open(path, "w", encoding="utf-8") as f:
        f.write(text)


def antt_files(root):
    found = glob.glob(root + "/crates/*/specs/**/*.antt", recursive=True) + glob.glob(root + "/crates/*/proofs/**/*.antt", recursive=True)
    return sorted(found)


def imports(text, own):
    """The names that a file takes from the libraries, and from this repository."""
    library, ours = set(), set()
    for path, items, alias in USE.findall(text):
        steps = path.strip(".").split(".")
        mine = steps[0] == "Rattle" and len(steps) > 1 and steps[1] in own
        names = re.findall(TOKEN, items) if items else [steps[-1]]
        (ours if mine else library).update(names)
    return library, ours


def main():
    root = os.getcwd()
    own = {os.path.basename(p.rstrip("/")) for p in glob.glob(root + "/crates/*/")}

    for path in glob.glob(root + "/crates/*/specs/Contracts.antt"):
        os.rename(path, os.path.join(os.path.dirname(path), "Promises.antt"))
    for path in antt_files(root) + glob.glob(root + "/crates/*/src/**/*.rt", recursive=True) + glob.glob(root + "/crates/*/must-fail/*.edit"):
        text = read(path)
        new = text.replace(".specs.Contracts", ".specs.Promises").replace("specs/Contracts.antt", "specs/Promises.antt")
        if path.endswith("specs/Lib.antt"):
            new = re.sub(r"\bmod Contracts\b", "mod Promises", new)
        if new != text:
            write(path, new)

    files = antt_files(root)
    texts = {p: read(p) for p in files}
    declared = set()
    local = collections.defaultdict(set)
    for p, text in texts.items():
        code = QUIET.sub(" ", text)
        for line in code.splitlines():
            m = DECLARED.match(line)
            if m and may_turn(m[1]):
                declared.add(m[1])
        for a, b in BINDERS.findall(code):
            local[p].update(n for n in [a, *b.split()] if n and may_turn(n))
    # the words between the places of an operator, as it is used
    words = {}
    for n in list(declared):
        if "◌" in n:
            for part in n.split("◌"):
                if part and may_turn(part):
                    words[part] = snake(part)
    table = {n: snake(n) for n in declared}
    table.update(words)

    # names that fall together, in one file
    clashes = []
    plan = {}
    for p, text in texts.items():
        library, _ = imports(text, own)
        code = QUIET.sub(" ", text)
        tokens = set(re.findall(TOKEN, code))
        names = tokens & (set(table) | local[p])
        if not p.endswith("/Proof.antt"):
            # what else is so spelled in a file of definitions or lemmas is a variable or a label
            names |= {n for n in tokens if may_turn(n) and n not in library}
        mine = {n: table.get(n) or snake(n) for n in names}
        for n in list(mine):
            if n in library and n not in declared_here(code) or MADE.match(n) and "proofs/" in p and p.endswith("Proof.antt"):
                del mine[n]
        mine.update({n: t for n, t in SPECIAL_IN.get(p.replace(root + "/", ""), {}).items() if n in tokens})
        turned = collections.defaultdict(set)
        for n in tokens:
            turned[mine.get(n, n)].add(n)
        for new, olds in turned.items():
            if len(olds) > 1 and new not in APART:
                clashes.append((p.replace(root + "/", ""), new, sorted(olds)))
        plan[p] = mine
    for c in clashes:
        print("fall together:", *c)
    if clashes:
        raise SystemExit(1)

    for p, text in texts.items():
        new = turn_antt(text, plan[p], table)
        if new != text:
            write(p, new)
    for p in glob.glob(root + "/crates/*/src/**/*.rt", recursive=True):
        text = read(p)
        library, ours = imports(text, own)
        new = turn_rt(text, {n: t for n, t in table.items() if n not in library})
        if new != text:
            write(p, new)
    for p in glob.glob(root + "/crates/*/must-fail/*.edit"):
        turn_edit(p, table)


def declared_here(code):
    return {m[1] for m in map(DECLARED.match, code.splitlines()) if m}


def turn_tokens(text, mine):
    return re.sub(TOKEN, lambda m: mine.get(m[0], m[0]), text)


def in_comment(text, mine):
    """A name in a comment, where it stands in backticks or is no English word."""
    text = re.sub(r"`[^`\n]*`", lambda m: turn_tokens(m[0], mine), text)
    return re.sub(r"(?<![\w`'-])[a-z][a-z0-9]*(?:[A-Z][a-z0-9]*)+(?![\w-])", lambda m: mine.get(m[0], m[0]), text)


def turn_antt(text, mine, table):
    out = []
    last = 0
    for m in QUIET.finditer(text):
        out.append(turn_tokens(text[last:m.start()], mine))
        out.append(in_comment(m[0], {**table, **mine}) if m[0].startswith("--") else m[0])
        last = m.end()
    out.append(turn_tokens(text[last:], mine))
    return "".join(out)


def turn_rt(text, table):
    """Ghost lines and clauses: a name of Rust has no dash, and none with a small first letter has a capital."""
    parts = re.split(r"(//.*$|\"(?:[^\"\\\n]|\\.)*\")", text, flags=re.M)
    for i, part in enumerate(parts):
        if i % 2 == 0:
            parts[i] = turn_tokens(part, table)
        elif part.startswith("//"):
            parts[i] = in_comment(part, table)
    return "".join(parts)


def turn_edit(path, table):
    lines = read(path).splitlines()
    crate = path.split("/must-fail/")[0]
    target = next(l[6:] for l in lines if l.startswith("file: "))
    text = read(os.path.join(crate, target))
    out, found = [], True
    for line in lines:
        if line.startswith(("old: ", "new: ")):
            head, rest = line[:5], line[5:]
            if target.endswith(".antt"):
                for how, to in EDITS:
                    rest = how.sub(to, rest)
                rest = turn_antt(rest, table, table)
                # names that the kit's script has respelled, and variables
                there = set(re.findall(TOKEN, text))
                rest = re.sub(TOKEN, lambda m: snake(m[0]) if m[0] not in there and snake(m[0]) in there else m[0], rest)
            else:
                rest = turn_rt(rest, table)
            line = head + rest
            if head == "old: ":
                found = found and text.count(rest) == 1
            elif found:
                text = text.replace(out[-1][5:], rest)
        elif line.startswith("#"):
            line = in_comment(line, table)
        out.append(line)
    if not found:
        print("look: this edit's text is not found:", path)
    write(path, "\n".join(out) + "\n")


main()
