#!/usr/bin/env python3
"""Brings this repository's own definitions and lemmas to the spelling of today's Rattle, behind port.py: `python3 tools/respell.py` at the top,
once. Words are in snake case; a dash stays only where it joins the names of two definitions, as in `length-bytes_of`. What is imported from a
library keeps its name, and so do functions, C names, strings, inputs and outputs. It stops where two names would fall together."""
import glob
import re
import sys

IDENT = r"[A-Za-z0-9_'₀₁₂₃₄₅₆₇₈₉-]+"
DECLARED = re.compile(
    r"^\s*((?:(?:abbrev|unfoldable|pub|private)\s+)*)(?:(record|data|module)\s+)?([A-Za-z_]" + IDENT[:-1] + r"*)\s*"
    r"((?:\([^)]*\)\s*|\{[^}]*\}\s*)*):\s")
# Words of the library that a lemma's name may join.
LIBRARY = {"length", "take", "drop", "map", "append", "set", "sets", "get_or", "replicate", "reverse", "count", "sum", "max", "min", "eqb", "leb",
           "ltb", "slice_index"}


def snake(part):
    part = re.sub(r"(?<=[a-z0-9])(?=[A-Z])", "_", part)
    return part.lower()


def lines_of(path):
    with open(path, encoding="utf-8") as f:
        return f.read().split("\n")


def collect():
    names, definitions, fields, aliases = set(), set(), set(), set()
    files = glob.glob("crates/*/specs/*.antt") + glob.glob("crates/*/proofs/*.antt")
    for path in files:
        for line in lines_of(path):
            m = None if line.startswith("use ") or line.lstrip().startswith(("--", "let ")) else DECLARED.match(line)
            if m:
                names.add(m.group(3))
                if "/specs/" in path or re.search(r"abbrev|unfoldable", m.group(1)):
                    definitions.add(m.group(3))
                # A record's field, or a constructor.
                if "/specs/" in path and line.startswith(" "):
                    fields.add(m.group(3))
    # A name that only stands for another in its file.
    for path in files + glob.glob("crates/*/proofs/**/*.antt", recursive=True) + glob.glob("crates/*/src/*.rt"):
        for line in lines_of(path):
            if line.startswith(("use ", "ghost use ")):
                aliases.update(m.group(1) for m in re.finditer(r" as (" + IDENT + ")", line))
    return names, definitions, fields, aliases - names


def new_name(name, words):
    if name[0].isupper() and "-" not in name:
        return name
    parts = [p if p[:1].isupper() else snake(p) for p in name.split("-")]
    out = parts[0]
    for k, part in enumerate(parts[1:], 1):
        both = ("-" not in out and out in words) and "-".join(parts[k:]) in words
        out += ("-" if both else "_") + part
    return out


def renames():
    names, definitions, fields, aliases = collect()
    words = {new_name(d, set()) for d in definitions if "-" not in d} | LIBRARY
    table, taken = {}, {n for n in names if new_name(n, words if n not in fields else set()) == n}
    # Definitions first: a lemma makes way.
    for name in sorted(names, key=lambda n: (n not in definitions or "-" in n, n)):
        new = new_name(name, words if name not in fields else set())
        if new == name:
            continue
        # A lemma that would have its function's name, or one that is taken, makes way.
        if new in taken and name in definitions and new not in definitions:
            table[new] = new + "_lem"
            taken.add(new + "_lem")
        elif new in taken:
            new += "_lem"
        if new in taken and table.get(new) != new + "_lem":
            sys.exit(f"respell: {name} and another would both be {new}")
        taken.add(new)
        table[name] = new
    # These stand in their own files alone.
    table.update((a, new_name(a, words)) for a in aliases if new_name(a, words) not in taken | {a})
    return table


def imported(text):
    """What a file takes from a library under its own name."""
    out = set()
    for m in re.finditer(r"^(?:ghost )?use ([^;{\n]*)\{([^}\n]*)\}", text, re.M):
        path = m.group(1)
        own = re.match(r"Rattle\.(\w+)\.", path)
        if not own or own.group(1) in ("std", "core"):
            out.update(re.findall(IDENT, re.sub(r"\S+ as ", "", m.group(2))))
    return out


def respelled(text, table, keep):
    def one(m):
        word = m.group(0)
        # Behind a point stands a field, or a function's folder, which keeps its name.
        if word.islower() and "-" not in word and text[m.start() - 1 : m.start()] == ".":
            return word
        return table[word] if word in table and word not in keep else word
    return re.sub(IDENT, one, text)


def quoted(text, table):
    """In prose, only what stands between backquotes."""
    return re.sub(r"`[^`\n]*`", lambda m: respelled(m.group(0), table, set()), text)


def turn(path, table, camel):
    text = "\n".join(lines_of(path))
    keep = imported(text) if path.endswith((".antt", ".rt")) else set()
    out = []
    for line in text.split("\n"):
        code, dash, note = line, "", ""
        if path.endswith(".md"):
            code, dash, note = "", "", line
        elif path.endswith(".antt"):
            m = re.match(r"(.*?)(^|\s)(--(?:\s|$).*)", line)
            code, dash, note = (m.group(1), m.group(2), m.group(3)) if m else (line, "", "")
        elif path.endswith(".rt"):
            m = re.match(r"(.*?)(^|\s)(//.*)", line)
            code, dash, note = (m.group(1), m.group(2), m.group(3)) if m else (line, "", "")
        elif path.endswith(".edit") and line.startswith("#"):
            code, dash, note = "", "", line
        clause = path.endswith(".antt") or re.match(r"\s*(ghost|requires|ensures)\b", code)
        out.append(respelled(code, table if clause else camel, keep) + dash + quoted(note, table))
    new = "\n".join(out)
    if new != text:
        with open(path, "w", encoding="utf-8") as f:
            f.write(new)


def main():
    table = renames()
    camel = {old: new for old, new in table.items() if "-" not in old and not old.islower()}
    for pattern in ("crates/*/specs/*.antt", "crates/*/proofs/**/*.antt", "crates/*/src/**/*.rt", "crates/*/must-fail/**/*.edit"):
        for path in sorted(glob.glob(pattern, recursive=True)):
            turn(path, table, camel)
    for path in ["README.md"] + sorted(glob.glob("docs/**/*.md", recursive=True)):
        turn(path, table, camel)
    with open("docs/PORT-NAMES.txt", "w", encoding="utf-8") as f:
        f.writelines(f"{old} {new}\n" for old, new in sorted(table.items()))
    print(f"respell: {len(table)} names")


if __name__ == "__main__":
    main()
