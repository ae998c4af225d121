#!/usr/bin/env python3
"""Turns a function's Proof.antt, which walks the code by hand, into Invariants.antt and Answers.antt.

usage: python3 tools/port_proofs.py NAMES FOLDER..

NAMES is a folder with NAME/names.json for each crate NAME, as `rattle check --generated NAMES/NAME --old-names` writes it. FOLDER is crates/NAME/proofs/.. with a
Proof.antt. What it cannot turn it says, and leaves that file as it was.
"""

import json
import os
import re
import sys

TOKEN = r"[^\s(){}.;,@\"«»`]+"
SAID = []


def norm(name):
    return name.replace("-", "_")


def blocks(text):
    """Top-level declarations of an antt file: a signature line at the margin, with what belongs to it."""
    lines = text.split("\n")
    out, head = [], []
    i = 0
    while i < len(lines):
        line = lines[i]
        if line.startswith("--") or not line.strip() or line.startswith("use ") :
            head.append(line)
            i += 1
            continue
        j = i + 1
        while j < len(lines) and (lines[j].startswith((" ", "\t")) or not lines[j].strip() or not is_start(lines, j)):
            j += 1
        # comments and blanks before the next declaration belong to it
        k = j
        while k > i + 1 and (not lines[k - 1].strip() or lines[k - 1].startswith("--")):
            k -= 1
        out.append((head, lines[i:k]))
        head = lines[k:j]
        i = j
    return out, head


def is_start(lines, j):
    line = lines[j]
    if line.startswith("--"):
        return False
    m = re.match(rf"(?:(?:pub|abbrev|unfoldable|data|record|module)\s+)*({TOKEN})((?:\s*[({{][^{{}}()]*[)}}])*)\s*:(\s|$)", line)
    return bool(m) or line.startswith(("module ", "infix"))


class Names:
    def __init__(self, entry):
        self.needs = {norm(o): n for o, n in entry["needs"]}
        self.order = [n for o, n in entry["needs"]]
        self.loop_list = entry["loops"]
        self.changed = entry["changed"]
        self.steps = {}
        self.places = {}
        for place, new in zip(entry["places"], entry["places_by_name"]):
            self.places[norm(place[0])] = new
            old, newer = place[2]
            if old and old != "match":
                self.steps[norm(old)] = newer
        self.arms = {}
        for place, arm in zip(entry["places"], entry["arms"]):
            if arm:
                step, depth, names = arm
                for new, old, path in names:
                    if old == "match":
                        continue
                    self.arms[(norm(old), *path)] = (step, new)
        self.pre = entry["pre"]


def clause_paths(fields):
    """{'0': f0, '1.0': f1, '1.1': f2} for a nest of pairs."""
    out = {}
    path = []
    for i, f in enumerate(fields):
        if i + 1 < len(fields):
            out[tuple(path + ["0"])] = f
            path.append("1")
        else:
            out[tuple(path)] = f
    return out


CHAIN = re.compile(rf"(?<![\w.'-])([a-zA-Z_][\w'₀-₉]*)((?:\.[\w'+-]+)+)")


def turn_chain(m, names, heads, callees):
    head, rest = m[1], m[2].split(".")[1:]
    if head not in heads:
        return m[0]
    return ".".join([head, *turn_steps(rest, names, callees)])


def turn_steps(rest, names, callees):
    rest = [r for r in rest if r != "before"]
    if not rest:
        return rest
    # an arm of a match
    for k in range(len(rest), 0, -1):
        key = (norm(rest[0]), *rest[1:k])
        if key in names.arms:
            step, new = names.arms[key]
            return [step, new, *rest[k:]]
    if rest[0] == "requires" and names.pre and names.pre.get("fields"):
        paths = clause_paths(names.pre["fields"])
        for k in range(len(rest), 0, -1):
            if tuple(rest[1:k]) in paths:
                return ["requires", paths[tuple(rest[1:k])], *rest[k:]]
    if rest[0] == "well-formed":
        return ["type_inv", *rest[1:]]
    step = names.steps.get(norm(rest[0]))
    if step:
        return [step, *rest[1:]]
    return rest


def turn(folder, names_folder):
    path = os.path.join(folder, "Proof.antt")
    crate = re.search(r"crates/([^/]+)/proofs/(.*?)/?$", folder)
    crate, where = crate[1], crate[2].replace("/", ".")
    with open(os.path.join(names_folder, crate, "names.json"), encoding="utf-8") as f:
        table = json.load(f)
    entry = table.get(f"Rattle-{crate}-proofs.{where}.Lts")
    if entry is None:
        SAID.append(f"{folder}: no names")
        return False
    names = Names(entry)
    with open(path, encoding="utf-8") as f:
        text = f.read()
    text = respelled(text)
    decls, tail = blocks(text)
    # the file's own head: comments and imports
    head_lines = decls[0][0] if decls else []
    uses = [l for l in head_lines if l.startswith("use ")]
    # comments after the last import belong to the first declaration
    last_use = max([i for i, l in enumerate(head_lines) if l.startswith("use ")], default=-1)
    first_comments = [l for l in head_lines[last_use + 1 :] if l.startswith("--")]
    title = [l for l in head_lines[: last_use + 1] if l.startswith("--")]
    invariants, answers, renames = [], [], {}
    aliases = set()
    spec = None
    parsed = []
    for i, (head, lines) in enumerate(decls):
        comments = first_comments if i == 0 else [l for l in head if l.startswith("--")]
        body = "\n".join(lines)
        m = re.match(rf"((?:(?:pub|abbrev|unfoldable)\s+)*)({TOKEN})((?:\s*[({{][^{{}}()]*[)}}])*)\s*:\s+(.*)", lines[0])
        if m and re.search(r"\bstatement M\b", lines[0]):
            spec = body
            continue
        kind = "helper"
        if m:
            t = re.match(r"tie\.([\w+-]+)", m[4])
            if t:
                what = norm(t[1])
                if what.startswith(("invariant_", "decreases_")):
                    kind = "loop"
                elif what.startswith("Need_"):
                    kind = "answer"
        parsed.append((kind, m, comments, lines))
    loops = {}
    for (loop, variables), changed in zip(names.loop_list, names.changed):
        loops[norm(loop[0])] = (loop[1], variables, changed)
    for kind, m, comments, lines in parsed:
        if kind == "answer":
            need = norm(re.match(r"tie\.([\w+-]+)", m[4])[1])[5:]
            need = need.replace("overflow_", "") if need not in names.needs else need
            new = names.needs.get(need)
            if new is None:
                # sums and casts had the word before, slices too
                new = names.needs.get(need.replace("slice_bounds_", "part_"))
            if new is None:
                SAID.append(f"{folder}: no goal for {m[4]}")
                new = "UNKNOWN-" + need
            renames[m[2]] = new
    heads_common = {"c", "u", "x"}
    at_place, places = {}, set()
    for kind, m, comments, lines in parsed:
        body = "\n".join(lines)
        if kind == "loop":
            t = norm(re.match(r"tie\.([\w+-]+)", m[4])[1])
            word, loop = t.split("_", 1)
            if loop not in loops:
                SAID.append(f"{folder}: no loop {loop}")
                return False
            new, variables, changed = loops[loop]
            label = f"{word}-{new}"
            rest_lines = "\n".join(lines[1:])
            unfolding = ""
            mm = re.match(rf"((?:unfolding .*\n)*){re.escape(m[2])}((?:\s+{TOKEN})*)\s+=\s*(.*)", rest_lines, re.S)
            if not mm:
                SAID.append(f"{folder}: cannot read {m[2]}")
                return False
            args = mm[2].split()
            want = [f"l.initial.{v}" if ch else f"l.{v}" for v, ch in zip(variables, changed)]
            want += [f"l.{v}" for v, ch in zip(variables, changed) if ch]
            if len(args) != len(want):
                SAID.append(f"{folder}: {m[2]} has {len(args)} arguments and {len(want)} are wanted: {args} {want}")
                return False
            expr = mm[3]
            sub = dict(zip(args, want))
            expr = re.sub(rf"(?<![\w.'-])([a-zA-Z_][\w'₀-₉]*)(?![\w'₀-₉-])", lambda k: sub.get(k[1], k[1]), expr)
            invariants.append((comments, [f"abbrev pub {label} : goal.{label}", *([mm[1].strip()] if mm[1].strip() else []), *f"{label} l = {expr}".rstrip().split("\n")]))
            continue
        # aliases of the record
        for a in re.findall(rf"let ({TOKEN}) = (?:[cux])((?:\.before)*) in", body):
            aliases.add(a[0])
        heads = heads_common | aliases
        lines2 = lines
        if kind == "answer":
            lines2 = [f"pub {m[2]} : tie.{m[2]}"] + [re.sub(rf"^({re.escape(m[2])} \w+) κs =", r"\1 =", l) for l in lines[1:]]
        body = "\n".join(lines2)
        body = re.sub(TOKEN, lambda k: renames.get(k[0], k[0]), body)
        # another name of the record
        while True:
            a = re.search(rf"let ({TOKEN}) = ([cuvwxyzt]\d?)((?:\.before)*) in\s*", body)
            if not a or a[1] == a[2]:
                break
            body = body[: a.start()] + re.sub(rf"(?<![\w.'-]){re.escape(a[1])}(?![\w'-])", a[2], body[a.end() :])
        # types of places
        def place(k):
            new = names.places.get(norm(k[1]), "UNKNOWN-" + k[1])
            new = re.sub(r"^(In[-_].*?)-\d$", r"\1", new)
            places.add(new)
            return "goal." + new

        body = re.sub(r"tie\.((?:After|At|In|Then|Else|Start|Tied)[\w+-]*)(?: invariant_loop\d* decreases_loop\d*)*", place, body)
        # in a lemma over such a record every variable may be its head
        for a in re.findall(rf"\(({TOKEN}) : goal\.", body):
            heads.add(a)
        mdef = re.search(rf"^{TOKEN}((?: {TOKEN})*) =", body, re.M)
        if kind == "helper" and "goal." in body and mdef:
            heads.update(mdef[1].split())
        body = CHAIN.sub(lambda k: turn_chain(k, names, heads, None), body)
        body = re.sub(r"(?<![\w.'-])(\w+)((?:\.before)+)(?![\w.-])", lambda k: k[1] if k[1] in heads else k[0], body)
        body = body.replace("tie.", "goal.")
        if kind == "helper" and mdef:
            t = re.match(rf"(?:(?:pub|abbrev) )*({TOKEN}) : (?:\({TOKEN} : )?goal\.({TOKEN})", body)
            if t:
                at_place[t[1]] = t[2]
        for new in places:
            body = re.sub(rf"goal\.{re.escape(new)}(?![\w+-])", new, body)
        if kind == "answer":
            # a lemma over the record of a place
            goal = renames[m[2]]
            for h, place in at_place.items():
                body = re.sub(rf"(?<![\w.'-]){re.escape(h)} c(?![\w.'-])", f"{h} (goal.at.{goal} c).{place}", body)
        target = answers
        target.append((comments, body.split("\n")))
    # inline answers of the closing call
    if spec:
        call = spec[spec.index("tie.spec") + 8 :]
        args, depth, cur = [], 0, ""
        for ch in call:
            if ch == "(":
                depth += 1
            if ch == ")":
                if depth == 0:
                    break
                depth -= 1
            if ch.isspace() and depth == 0:
                if cur.strip():
                    args.append(cur.strip())
                cur = ""
            else:
                cur += ch
        if cur.strip():
            args.append(cur.strip())
        loops_n = 2 * len(names.loop_list)
        inline = [(k, a) for k, a in enumerate(args) if a.startswith("(") and not re.fullmatch(r"\(λ \w+(?: κs)?\. search rules\)", a)]
        if inline:
            if len(args) - loops_n == len(names.order):
                for k, a in inline:
                    goal = names.order[k - loops_n]
                    lam = re.match(r"\(λ (\w+)(?: κs)?\. (.*)\)$", a, re.S)
                    if not lam:
                        SAID.append(f"{folder}: inline answer {a[:60]}")
                        continue
                    bodyi = CHAIN.sub(lambda q: turn_chain(q, names, heads_common | aliases | {lam[1]}, None), lam[2])
                    answers.append(([], [f"pub {goal} : goal.{goal}", f"{goal} {lam[1]} = {bodyi}"]))
            else:
                SAID.append(f"{folder}: {len(args) - loops_n} answers, {len(names.order)} goals; inline: {[a[:50] for k, a in inline]}")
    base = f"Rattle.{crate}.proofs.{where}"
    uses = [u for u in uses if not u.startswith((f"use {base}.Statement", f"use {base}.Tie"))]

    def render(parts, module):
        code = "\n\n".join("\n".join([*comments, *lines]) for comments, lines in parts)
        used = []
        for u in uses:
            if module == "Given" and u.startswith(f"use {base}.Invariants."):
                continue
            mm = re.match(r"use (\S+?)(?:\.)?\{(.*)\}$", u)
            if mm:
                kept = [it for it in split_items(mm[2]) if is_used(it, code)]
                if kept:
                    used.append(f"use {mm[1]}.{{{', '.join(kept)}}}")
            else:
                alias = re.search(r" as (\S+)$", u)
                name = alias[1] if alias else u.split(".")[-1]
                if re.search(rf"(?<![\w'-]){re.escape(name)}(?![\w'-])", code):
                    used.append(u)
        if module == "Goals" and places:
            used.append(f"use {base}.Goals.{{{', '.join(sorted(places))}}}")
        used.append(f"use {base}.{module} as goal")
        return "\n".join([*title, *used, "", code]) + "\n"

    # what an invariant is said with stands beside it
    moved = []
    while True:
        code = "\n".join("\n".join(lines) for _, lines in invariants + moved)
        more = [(c, ls) for c, ls in answers if (m := re.match(rf"(?:(?:pub|abbrev|unfoldable|data|record) )*({TOKEN})", ls[0])) and not re.match(r"pub .* : goal\.", ls[0]) and is_used(m[1], code)]
        if not more:
            break
        moved += more
        answers = [a for a in answers if a not in more]
    if moved:
        SAID.append(f"{folder}: with its invariants: {[ls[0] for _, ls in moved]}")
        public = lambda line: re.sub(r"^(\s*)(record |abbrev |unfoldable |data )?(?=\S+.*:)", lambda k: f"{k[1]}{k[2] or ''}pub " if k[2] in ("abbrev ", "unfoldable ") else f"{k[1]}pub {k[2] or ''}", line)
        moved = [(c, [public(l) if not l.startswith(" ") or ls[0].startswith("record") else l for l in ls]) for c, ls in moved]
        names_moved = [re.match(rf"(?:(?:pub|abbrev|unfoldable|data|record) )*({TOKEN})", ls[0])[1] for _, ls in moved]
        uses.append(f"use {base}.Invariants.{{{', '.join(names_moved)}}}")
        invariants = moved + invariants
    made = []
    if invariants:
        made.append(("Invariants.antt", render(invariants, "Given")))
    if answers:
        made.append(("Answers.antt", render(answers, "Goals")))
    os.remove(path)
    for name, content in made:
        with open(os.path.join(folder, name), "w", encoding="utf-8") as f:
            f.write(content)
    return True


def respelled(text):
    """Names of this repository's own lemmas that a dash is left in, since they look like those that Rattle makes."""
    turned = {}
    for path, items in re.findall(r"^use (Rattle\.(?!std)\S+?)\.\{(.*)\}$", text, re.M):
        for it in re.split(r",\s*| as ", items):
            if re.search(r"\w-\w", it):
                turned[it] = it.replace("-", "_")
    return re.sub(TOKEN, lambda k: turned.get(k[0], k[0]), text)


def split_items(items):
    return [it.strip() for it in re.split(r",\s*", items) if it.strip()]


def is_used(item, code):
    name = item.split(" as ")[-1]
    parts = [p for p in name.split("◌") if p]
    if "◌" in name:
        return all(re.search(rf"(?<![\w'-]){re.escape(p)}(?![\w'-])" if re.match(r"\w", p) else re.escape(p), code) for p in parts)
    return bool(re.search(rf"(?<![\w.'-]){re.escape(name)}(?![\w'-])", code))


def main():
    names_folder, folders = sys.argv[1], sys.argv[2:]
    done = 0
    for folder in folders:
        folder = folder.rstrip("/")
        if os.path.exists(os.path.join(folder, "Proof.antt")):
            done += turn(folder, names_folder)
    for s in SAID:
        print("left:", s)
    print(f"turned {done}")


main()
