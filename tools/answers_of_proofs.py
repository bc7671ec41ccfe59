#!/usr/bin/env python3
"""Turns each Proof.antt of a crate that walks the code into Invariants.antt and Answers.antt.

usage: tools/answers_of_proofs.py CRATE NAMES [FUNCTION..]

NAMES is the file names.json that `rt check --generated FOLDER --old-names` writes in the crate: for each function the old and the new name of each
goal and step. Answers that only search are left out, since the check searches by itself. What has no new name is printed.
"""

import json
import os
import re
import sys

ROOT = os.path.dirname(os.path.dirname(os.path.abspath(__file__)))
HEAD = re.compile(r"^(?:abbrev |unfoldable |pub )*([^\s:(){}]+) : ?(.*)$")
PATH = re.compile(r"(?<![\w.'-])([A-Za-z_][\w'₀-₉-]*)((?:\.(?:«[^»]*»|[\w'₀-₉-]+))+)")
WORD = re.compile(r"(?<![\w.'₀-₉-])([A-Za-zμ_][\w'₀-₉-]*)(?![\w'₀-₉-])")
OWN = re.compile(r"^use (Rattle\.\w+\.proofs\.[^\s{]*\.(Statement|Tie|Reads|Lts|Kinds|Lts-\w+|\+[\w+]+)\b|borrow\.Fn\.)")


def norm(name):
    return name.replace("_", "-")


def blocks_of(text):
    """The imports, and each definition as (comment, name, type, unfolding, body)."""
    imports, blocks, comment, now = [], [], [], None
    for line in text.split("\n"):
        if line.startswith("use "):
            imports.append(line)
            continue
        if line.startswith("--"):
            if not re.match(r"-- src/", line):
                comment.append(line)
            now = None
            continue
        head = HEAD.match(line)
        if head and not line.startswith(" "):
            now = {"comment": comment, "name": head.group(1), "type": [head.group(2)], "open": [], "body": [], "part": "type"}
            comment = []
            blocks.append(now)
            continue
        if now is None:
            continue
        if line.startswith("unfolding"):
            now["open"].append(line)
        elif now["part"] == "type" and re.match(rf"^{re.escape(now['name'])}(?= |$)", line):
            now["part"] = "body"
            now["body"].append(line)
        else:
            now[now["part"]].append(line)
    return imports, blocks


class Names:
    """The old and the new names of one function."""

    def __init__(self, told, source):
        self.needs = {}
        for old, new in told["needs"]:
            self.needs.setdefault(norm(old), new)
        self.steps, self.callee = {}, {}
        for _, _, (old, new), callee, extra in told["places"]:
            if old and norm(old) not in self.steps:
                self.steps[norm(old)] = new
                self.callee[norm(old)] = callee
        self.long = {}
        for _, _, (old, new), callee, extra in told["places"]:
            for a, b in extra:
                self.long.setdefault((norm(old), norm(a)), b)
        self.arms = {}
        for arm in told["arms"]:
            if not arm:
                continue
            step, _, fields = arm
            for field, old, path in fields:
                self.arms.setdefault((norm(old), tuple(path)), (step, field))
        self.typed, self.typed_at, self.at = {}, {}, None
        places = [place[0] for place in told["places"]]
        for (old, _), (place, _) in zip(told["needs"], told["asked_at"]):
            if place in places:
                self.typed_at.setdefault(norm(old), [(norm(step), var) for var, step in told["typed"][places.index(place)]])
        for place in told["typed"]:
            for var, old in place:
                self.typed.setdefault(norm(old), var)
        self.args = {}
        for old, new in told.get("args", []):
            a, b = old.split(" ."), new.split(" .")
            if len(a) == 2 and len(b) == 2:
                self.args[(a[0].strip("."), a[1])] = b[1]
        self.loops = told["loops"]
        self.changed = told["changed"]
        self.params = told["params"]
        self.source = source
        self.lost = []
        self.cycle = False

    def path(self, steps):
        """The new path below c of an old one below it."""
        steps = [s.strip("«»") for s in steps if s != "before"]
        if not steps:
            return "c"
        # in a recursion the old requires had the measure before the clause
        if self.cycle and steps[:2] == ["requires", "1"]:
            steps = ["requires", *steps[2:]]
        head, rest = norm(steps[0]), steps[1:]
        if steps[0] in ("args", "requires", "ranges"):
            if len(steps) > 1 and (steps[0], steps[1]) in self.args:
                steps = [steps[0], self.args[(steps[0], steps[1])], *steps[2:]]
            if len(steps) > 1 and steps[0] == "args":
                steps = [steps[0], steps[1].replace("-", "_"), *steps[2:]]
            return ".".join(["c", *steps])
        for n in range(len(rest), -1, -1):
            if (head, tuple(rest[:n])) in self.arms:
                step, field = self.arms[(head, tuple(rest[:n]))]
                return ".".join(["c", step, field, *rest[n:]])
        if head in self.typed and rest[:1] == ["given"]:
            if self.at is None or (head, self.typed[head]) in self.typed_at.get(self.at, [(head, self.typed[head])]):
                return ".".join(["c", "type_inv", self.typed[head], *rest[1:]])
        if head not in self.steps and head.endswith("-lem"):
            head = head[: -len("-lem")]
        if head not in self.steps:
            head = head[:1].lower() + head[1:]
        if head not in self.steps:
            self.lost.append(".".join(steps))
            return ".".join(["c", *steps])
        new, callee = self.steps[head], self.callee[head]
        if rest and (head, norm(rest[0])) in self.long:
            rest = [self.long[(head, norm(rest[0]))], *rest[1:]]
        if callee and rest and rest[0] in ("new", "auto", "kept"):
            n = 1
            while n < len(rest) and rest[n] == "1":
                n += 1
            if n < len(rest) and rest[n] == "0" and n - 1 < len(self.params.get(callee, [])):
                rest = ["new" if rest[0] == "new" else "auto", self.params[callee][n - 1], *rest[n + 1 :]]
        if callee and rest[:1] == ["ensures"] and len(rest) > 1 and rest[1].isdigit():
            labels = self.source.labels(callee)
            if int(rest[1]) < len(labels):
                rest = ["ensures", labels[int(rest[1])], *rest[2:]]
        return ".".join(["c", new, *rest])


class Source:
    """The functions of all crates: the names of their clauses."""

    def __init__(self):
        self.heads = {}
        for crate in sorted(os.listdir(os.path.join(ROOT, "crates"))):
            folder = os.path.join(ROOT, "crates", crate, "src")
            for name in sorted(os.listdir(folder)) if os.path.isdir(folder) else []:
                with open(os.path.join(folder, name), encoding="utf-8") as f:
                    text = f.read()
                for m in re.finditer(r"^(?:pub )?fn (\w+)(.*?)^\}", text, re.M | re.S):
                    self.heads[(crate, m.group(1))] = re.findall(r"^ +ensures (\w+) \{", m.group(2), re.M)

    def labels(self, callee):
        parts = callee.split("::")
        return self.heads.get((parts[0], parts[-1]), [])


def resolved(names, text, roots, helpers):
    """The text with each path below one of roots turned; lets that bind a step or c itself go."""
    alias = {r: [] for r in roots}

    def full(m):
        head, tail = m.group(1), [t for t in m.group(2).split(".") if t]
        if head in alias:
            return alias[head] + tail
        return None

    lines = text
    out = ""
    i = 0
    let = re.compile(r"let ([A-Za-z_][\w'₀-₉-]*) = ([A-Za-z_][\w'₀-₉-]*)((?:\.(?:«[^»]*»|[\w'₀-₉-]+))*) in(?: |(\n\s*)|$)")
    while i < len(lines):
        m = let.match(lines, i)
        if m and m.group(2) in alias and (i == 0 or not re.match(r"[\w'-]", lines[i - 1])):
            alias[m.group(1)] = alias[m.group(2)] + [t for t in m.group(3).split(".") if t]
            i = m.end()
            continue
        m = PATH.match(lines, i)
        if m and (i == 0 or not re.match(r"[\w.'₀-₉-]", lines[i - 1])):
            p = full(m)
            out += names.path(p) if p is not None else m.group(0)
            i = m.end()
            continue
        m = WORD.match(lines, i)
        if m and (i == 0 or not re.match(r"[\w.'₀-₉-]", lines[i - 1])):
            w = m.group(1)
            is_field = re.match(r" = ", lines[m.end() : m.end() + 3]) and re.search(r"[{;]\s*$", out)
            out += names.path(alias[w]) if w in alias and w != "c" and not is_field else w
            i = m.end()
            continue
        out += lines[i]
        i += 1
    return out


def without_c(text, helper):
    """The text where the helper is cited as it stands in a let, and not as a function of c."""
    name = rf"(?<![\w.'-]){re.escape(helper)}"
    return re.sub(rf"{name} c(?![\w.'-])", helper, re.sub(rf"\({name} c\)", helper, text))


def renamed(text, by):
    return WORD.sub(lambda m: by.get(m.group(1), m.group(1)), PATH.sub(lambda m: by[m.group(1)] + m.group(2) if m.group(1) in by else m.group(0), text))


def of_loop(names, block, index, word):
    """An invariant or a measure, with its parameters turned into fields of l."""
    body = "\n".join(block["body"])
    head = re.match(rf"{re.escape(block['name'])}((?: [^\s=]+)*) =\s?", body)
    params = head.group(1).split()
    (old, new), variables = names.loops[index]
    changed = names.changed
    by = {}
    ch = changed if changed and not isinstance(changed[0], list) else changed[index]
    moved = [v for v, c in zip(variables, ch) if c]
    for j, p in enumerate(params):
        if j < len(variables):
            by[p] = ("l.initial." if ch[j] else "l.") + variables[j]
        elif j - len(variables) < len(moved):
            by[p] = "l." + moved[j - len(variables)]
    return f"abbrev pub {word}-{new} : goal.{word}-{new}\n" + "\n".join(block["open"] + [""] if block["open"] else []) + f"{word}-{new} l = " + renamed(body[head.end() :], by).strip("\n")


def is_plain(body):
    return re.sub(r"^\S+( \S+)* =\s*", "", body.strip()).strip() in ("search rules", "")


def turn(crate, folder, parts, source):
    """Turns the proof of a folder; parts has for each function in it its name, which a folder of one function leaves empty, and what was told of it."""
    path = os.path.join(folder, "Proof.antt")
    with open(path, encoding="utf-8") as f:
        imports, blocks = blocks_of(f.read())
    every = {norm(name): Names(told, source) for name, told in parts}
    for name in every:
        every[name].cycle = bool(name)
    place = os.path.relpath(folder, os.path.join(ROOT, "crates", crate, "proofs")).replace("/", ".")
    kept = [l for l in imports if not OWN.match(l)]
    helpers, answers, invariants = {}, [], []
    loops = {"invariant": 0, "decreases": 0}
    for b in blocks:
        kind = b["type"][0]
        if re.search(r"\bMeasures \d|→ In \d", kind):
            continue
        near = [p for p in every if p and norm(b["name"]).startswith(p + "-")]
        prefix = max(near, key=len) if near else next(iter(every))
        names = every[prefix]
        stem = prefix.replace("-", "_") + "-" if len(every) > 1 else ""
        body = "\n".join(b["body"]).rstrip("\n")
        word = "invariant" if re.search(r"\.invariant-", kind) and "Need" not in kind else "decreases" if re.search(r"\.decreases-", kind) and "Need" not in kind else ""
        if word and re.match(r"^[\w-]+\.(invariant|decreases)-", kind.strip()):
            invariants.append(of_loop(names, b, loops[word], word))
            loops[word] += 1
        elif "Need-" in kind:
            name = norm(b["name"])
            if prefix and name.startswith(prefix + "-"):
                name = name[len(prefix) + 1 :]
            name = re.sub(r"^(loop\d*(?:-\d+)?)-holds", r"\1-init", name)
            name = re.sub(r"^(loop\d*)-again", r"\1-preserved", name)
            name = re.sub(r"^(loop\d*)-less", r"\1-smaller", name)
            if is_plain(body):
                continue
            m = re.match(rf"{re.escape(b['name'])}((?: [^\s=]+)*) =\s?", body)
            params = m.group(1).split()
            given = params[:1] if every.keys() - {""} else []
            root = params[len(given)]
            rest = body[m.end() :]
            new = names.needs.get(name)
            if new is None:
                print(f"{crate} {place}: no goal for {name}")
                new = name
            used = []
            # helpers that the answer cites, and those that they cite, come first as typed lets
            def cite(text):
                for h in helpers:
                    if re.search(rf"(?<![\w.'-]){re.escape(h)}(?![\w'-])", text) and h not in used:
                        cite(helpers[h]["text"])
                        if h not in used:
                            used.append(h)
            cite(rest)
            names.at = name
            text = resolved(names, rest, {root} if root != "_" else set(), helpers)
            lets = ""
            for h in used:
                text = without_c(text, h)
                root_of_type, kind_of = helpers[h]["type"]
                root_of_body, more, term = helpers[h]["body"]
                kind_of, term = (" ".join(resolved(names, t, {r}, helpers).split()) for t, r in ((kind_of, root_of_type), (term, root_of_body)))
                for other in helpers:
                    kind_of, term = without_c(kind_of, other), without_c(term, other)
                term = f"(λ {' '.join(more)}. {term})" if more else term
                lets += f"    let {h} : {kind_of} = {term} in\n"
            if lets and not text.startswith("\n"):
                text = "\n    " + text.lstrip()
            if lets:
                text = "\n" + lets.rstrip("\n") + text
            sep = " " if not text.startswith("\n") else ""
            extra = " ".join(given + ["c"] + [x for x in params[len(given) + 1 :] if x != "κs"])
            new = stem + new
            answers.append("\n".join(b["comment"] + [f"pub {new} : goal.{new}"] + b["open"] + [f"{new} {extra} ={sep}{text}"]))
        elif "statement" in kind:
            continue
        elif re.search(r"\(\w+ : (tie|lts|[\w-]+-lts)\.", kind):
            m = re.match(r"^\((\w+) : [^)]*\)\s*→?\s*(.*)$", "\n".join(b["type"]), re.S)
            mb = re.match(rf"{re.escape(b['name'])}((?: [^\s=]+)*) =\s?", body)
            first, *more = mb.group(1).split()
            helpers[b["name"]] = {"type": (m.group(1), m.group(2).strip()), "body": (first, more, body[mb.end() :].strip()), "text": body[mb.end() :] + m.group(2)}
        else:
            answers.append("\n".join(b["comment"] + [f"{b['name']} : " + "\n".join(b["type"]).rstrip()] + b["open"] + [body]))
    for lost in sorted({x for names in every.values() for x in names.lost}):
        print(f"{crate} {place}: no step for {lost}")
    os.remove(path)
    for file, module, parts in (("Invariants", "Given", invariants), ("Answers", "Goals", answers)):
        if parts:
            with open(os.path.join(folder, file + ".antt"), "w", encoding="utf-8") as f:
                f.write("\n".join(kept + [f"use Rattle.{crate}.proofs.{place}.{module} as goal"]) + "\n\n" + "\n\n".join(parts) + "\n")


def main(argv):
    crate, names, only = argv[0], argv[1], argv[2:]
    with open(names, encoding="utf-8") as f:
        told = json.load(f)
    source = Source()
    folders = {}
    for key in sorted(told):
        m = re.match(rf"Rattle-{crate}-proofs\.(.*)\.Lts(?:-(\w+))?$", key)
        if not m:
            continue
        folder = os.path.join(ROOT, "crates", crate, "proofs", *m.group(1).split("."))
        name = m.group(1).split(".")[-1]
        if only and name not in only or not os.path.exists(os.path.join(folder, "Proof.antt")):
            continue
        folders.setdefault(folder, []).append((m.group(2) or "", told[key]))
    for folder, parts in folders.items():
        try:
            turn(crate, folder, parts, source)
        except Exception as e:
            print(f"{folder}: {type(e).__name__} {e}")
    return 0


if __name__ == "__main__":
    raise SystemExit(main(sys.argv[1:]))
