#!/usr/bin/env python3
"""Turns this repository's own names of definitions and lemmas to snake case: pageSize and page-size become page_size.

usage: tools/respell_names.py          (in the repository, once, after port.py)

Turned are the names that a file of specs/ or a law file right in proofs/ defines. A name stays where a proof of a function defines it (the
check makes those names) or where a file brings it in from a library. Texts are turned by whole words: .antt and .rt files, edits, and pages.
A crate and a file that have a name of the kit are moved.
"""

import os
import re
import sys

SKIP_FOLDERS = {"out", ".git", "target"}
NAME = r"[^\s(){}\[\],.;:«»\"`|·∷]+"
DEFINED = re.compile(r"^\s*(?:abbrev |unfoldable |pub |data |record )*(" + NAME + r") :(?: |$)")
WORD = re.compile(NAME)
IMPORTED = re.compile(r"^\s*(?:pub |ghost )*use ((?:\w|[.+'-])+)\.\{([^}]*)\}")
# Crates and files that have a name of the kit, and what they become.
CRATES = {"log": "journal"}
FILES = {"crates/store/specs/Contracts.antt": "Ensured"}
# Names that the rule leaves out, since a library or the proof of a function has them too, and one that port.py misnames.
OTHERS = {
    "All-mapFrom": "All-map_from",
    "At-mapFrom": "At-map_from",
    "At-getD": "At-get_or",
    "W-is": "W_is",
    "W-misses": "W_misses",
    "and-false": "and_false",
    "blocks-most": "blocks_most",
    "few-pages": "few_pages",
    "field_own": "own_at",
    "map-append": "map_append",
    "no-erase": "no_erase",
    "on-chip": "on_chip",
    "sub-a": "sub_a",
}


def files(root):
    for folder, dirs, names in os.walk(root):
        dirs[:] = sorted(d for d in dirs if d not in SKIP_FOLDERS)
        for name in sorted(names):
            yield os.path.join(folder, name)


def snake(name):
    name = re.sub(r"(?<=[a-z0-9])([A-Z])(?=[a-z0-9]|$|['₀-₉-])", lambda m: "_" + m.group(1).lower(), name)
    return name.replace("-", "_")


def is_law_file(path):
    return re.search(r"/crates/\w+/(specs|proofs)/[^/]+\.antt$", path)


def is_own(module):
    return module.startswith("Rattle.") and not module.startswith("Rattle.std.")


def read(root):
    texts = {}
    for path in files(os.path.join(root, "crates")):
        if path.endswith((".antt", ".rt", ".edit")):
            with open(path, encoding="utf-8") as f:
                texts[path] = f.read()
    return texts


def names_of(texts):
    """Names that specs/ defines, that law files define, that stay, and that stand anywhere in the code."""
    specs, laws, kept, code = set(), set(), set(), set()
    for path, text in texts.items():
        for line in text.split("\n"):
            found = DEFINED.match(line) if path.endswith(".antt") else None
            if found:
                at = is_law_file(path)
                (kept if not at else specs if at.group(1) == "specs" else laws).add(found.group(1))
            found = IMPORTED.match(line)
            if found and not is_own(found.group(1)):
                for word in found.group(2).split(","):
                    kept.add(word.split(" as ")[0].strip())
            if path.endswith(".rt"):
                code.update(WORD.findall(re.sub(r"//.*", "", line)))
    return specs, laws, kept, code


def turnings(specs, laws, kept, code):
    """The new name of each name that is turned. A law that falls together with a definition, another law or a function gets _lem."""
    fits = lambda n: re.match(r"^[a-z]", n) and n not in kept and not re.search(r"[+*≤<=]", n)
    turned, taken = {}, {n for n in specs | laws if snake(n) == n}
    for name in sorted(n for n in specs if fits(n) and snake(n) != n):
        new = snake(name)
        if new in turned.values() or new in specs:
            print(f"falls together: {name} and {new}")
            continue
        turned[name] = new
    new_specs = set(turned.values()) | {n for n in specs if snake(n) == n}
    for name in sorted(n for n in laws - specs if fits(n)):
        new = snake(name)
        if new in new_specs or (new != name and (new in taken or new in turned.values() or new in code)):
            new += "_lem"
        if new in turned.values() or (new != name and new in taken):
            print(f"falls together: {name} and {new}")
            continue
        if new != name:
            turned[name] = new
    return turned


def turn(path, text, turned):
    # A word behind a dot that is in snake case already is a field or a function of the code.
    def one(m):
        word = m.group(0)
        if "_" in word and (not path.endswith(".antt") or text[m.start() - 1 : m.start()] == "."):
            return word
        return turned.get(word, word)

    return WORD.sub(one, text)


def turn_others(text):
    """The text with the names of OTHERS turned, but for those that the file brings in from a library."""
    kept = set()
    for line in text.split("\n"):
        found = IMPORTED.match(line)
        if found and not is_own(found.group(1)):
            kept.update(word.split(" as ")[0].strip() for word in found.group(2).split(","))
    names = "|".join(re.escape(n) for n in OTHERS if n not in kept)
    return re.sub(rf"(?<![\w'₀-₉-])({names})(?![\w'₀-₉-])", lambda m: OTHERS[m.group(1)], text)


def move(root):
    """Crates and files get their new names, in paths too."""
    for path, text in read(root).items():
        new = text
        for old, to in CRATES.items():
            new = re.sub(rf"\bRattle\.{old}\.", f"Rattle.{to}.", new)
            new = re.sub(rf"\b{old}::", f"{to}::", new)
        for old, to in FILES.items():
            crate, name = old.split("/")[1], os.path.basename(old)[: -len(".antt")]
            new = re.sub(rf"\bRattle\.{crate}\.specs\.{name}\b", f"Rattle.{crate}.specs.{to}", new)
            if path.endswith(f"crates/{crate}/specs/Lib.antt"):
                new = re.sub(rf"\bmod {name}\b", f"mod {to}", new)
        if new != text:
            with open(path, "w", encoding="utf-8") as f:
                f.write(new)
    for old, to in FILES.items():
        os.rename(os.path.join(root, old), os.path.join(root, os.path.dirname(old), to + ".antt"))
    with open(os.path.join(root, "crates.txt"), encoding="utf-8") as f:
        lines = f.read().split("\n")
    for old, to in CRATES.items():
        os.rename(os.path.join(root, "crates", old), os.path.join(root, "crates", to))
        lines = [line if line.startswith("#") else re.sub(rf"\b{old}\b", to, line) for line in lines]
    with open(os.path.join(root, "crates.txt"), "w", encoding="utf-8") as f:
        f.write("\n".join(lines))


def main(root):
    texts = read(root)
    specs, laws, kept, code = names_of(texts)
    turned = turnings(specs, laws, kept, code)
    print(f"{len(specs)} names in specs/, {len(laws)} in laws, {len(turned)} turned")
    if "--try" in sys.argv:
        print("\n".join(f"{a} -> {b}" for a, b in turned.items() if snake(a) != b))
        return 0
    for path in [os.path.join(root, "README.md")] + [p for p in files(os.path.join(root, "docs")) if p.endswith(".md")]:
        with open(path, encoding="utf-8") as f:
            texts[path] = f.read()
    for path, text in texts.items():
        new = turn_others(turn(path, text, turned))
        if new != text:
            with open(path, "w", encoding="utf-8") as f:
                f.write(new)
    move(root)
    return 0


if __name__ == "__main__":
    raise SystemExit(main(os.path.dirname(os.path.dirname(os.path.abspath(__file__)))))
