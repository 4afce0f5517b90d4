#!/usr/bin/env python3
"""Brings the repository's own definitions and lemmas to the spelling of today's library, after port.py.

usage: python3 tools/port_spelling.py        at the top, once, with everything committed

- A word in camel case gets underscores: recordSize is record_size. Types, facts and modules keep their capitals.
- A definition of specs/ and a field of a record has underscores for its dashes: whole-records is whole_records.
- A lemma keeps a dash between an outer call and what it is called on, as length-append has it; elsewhere its words are joined by
  underscores: by-cases is by_cases.
- What a comment quotes in backquotes, and what the must-fail edits quote, goes along.

Names of src/, strings and what Rattle generates (behind a dot in a function's own proof) stay. A line 'look:' tells of two names that fall together.
"""

import collections
import os
import re
import sys

DECLARED = re.compile(
    r"(?m)^( *)((?:(?:pub|abbrev|unfoldable|data|record)\s+)*)([^\s(){};,.:@\"`]+)(?: \{[^{}\n]*\}| \([^()\n]*\))* :(?= |$)"
)
IMPORTED = re.compile(r"\buse [^\s;{]+\{([^}]*)\}")
TOKEN = re.compile(r"[^\s(){}\[\];,.@\"«»`:]+")
# Two names that would fall together: the lemma gives way.
BEFORE = {
    ("crates/evaluator/", "is_one"): "eqb-is_one",
    ("crates/constraints/proofs/Walking.antt", "all_one"): "all_is",
    ("crates/writing/", "any-number"): "of_any_number",
    ("crates/nodes/", "first-fault"): "fault_found",
    ("crates/preparation/", "slot-count"): "slot_total",
    ("crates/preparation/", "node-count"): "node_total",
    ("crates/declarations/", "of-elements"): "from_elements",
}
# Fields that stay as they are, beside a definition that is spelled so now.
STAYING = {"length-allowed", "first-tree", "second-tree"}


def texts(*ends):
    for folder, dirs, files in os.walk("crates"):
        dirs[:] = sorted(d for d in dirs if d != "out")
        for f in sorted(files):
            if f.endswith(ends):
                yield os.path.join(folder, f)


def read(path):
    with open(path, encoding="utf-8") as f:
        return f.read()


def of_a_function(path):
    """Whether a file of proofs/ stands in a function's folder: its names are goals that Rattle makes."""
    return "/proofs/" in path and "/" in path.split("/proofs/")[1]


def of_a_record(text, at, indent):
    """Whether a declaration is a field: the line above that stands further left opens a record."""
    for line in reversed(text[:at].split("\n")):
        if line.strip() and len(line) - len(line.lstrip()) < indent:
            return re.match(r"\s*(pub )?record ", line) is not None
    return False


def snake(word):
    if not word[:1].islower():
        return word
    return re.sub(r"(?<=[a-z0-9])[A-Z]|(?<=[A-Z])[A-Z](?=[a-z])", lambda m: "_" + m[0], word).lower()


def parts(name):
    """The words of a name and the signs between them."""
    return [p for p in re.split(r"([a-zA-Z0-9_']+)", name) if p]


def spelled(name, in_specs, heads):
    new = "".join(snake(p) for p in parts(name))
    words = new.split("-")
    if len(words) < 2 or not all(re.fullmatch(r"[\w']+", w) for w in words):
        return new
    if in_specs:
        return "_".join(words)
    return new if words[0] in heads or not words[0][0].islower() else "_".join(words)


def renamings():
    declared, imported, specs = collections.defaultdict(set), set(), set()
    for path in texts(".antt"):
        text = read(path)
        for m in DECLARED.finditer(text):
            declared[m[3]].add(path)
            if "/specs/" in path or m[1] and of_a_record(text, m.start(), len(m[1])):
                specs.add(m[3])
        for m in IMPORTED.finditer(text):
            imported.update(w.split(" as ")[-1].strip() for w in m[1].split(","))
    heads = {"".join(snake(p) for p in parts(n)) for n in set(declared) | imported if "-" not in n}
    table = {}
    for name, where in declared.items():
        if name in STAYING or all(of_a_function(p) for p in where) and not re.search(r"[a-z0-9][A-Z]", name):
            continue
        new = spelled(name, name in specs, heads)
        if new != name:
            table[name] = new
    return table, declared


def turn(text, table, comment):
    def word(m):
        w = m[0]
        return table.get(w, w)

    out = []
    for line in text.split("\n"):
        code, mark, said = line, "", ""
        at = re.search(comment, line)
        if at:
            code, mark, said = line[: at.start()], at[0], line[at.end() :]
            said = re.sub(r"`([^`]*)`", lambda q: "`" + TOKEN.sub(word, q[1]) + "`", said)
            said = TOKEN.sub(lambda m: table.get(m[0], m[0]) if re.search(r"[a-z0-9][A-Z]", m[0]) else m[0], said)
        out.append(TOKEN.sub(word, code) + mark + said)
    return "\n".join(out)


def main():
    for path in texts(".antt", ".rt"):
        text = read(path)
        new = text
        for (start, old), name in BEFORE.items():
            if path.startswith(start):
                new = re.sub(rf"(?<![\w'-]){re.escape(old)}(?![\w'-])", name, new)
        if new != text:
            with open(path, "w", encoding="utf-8") as f:
                f.write(new)
    table, declared = renamings()
    taken = set(declared) - set(table)
    made = collections.defaultdict(list)
    for old, new in table.items():
        made[new].append(old)
    for new, olds in sorted(made.items()):
        if len(olds) > 1 or new in taken:
            print(f"look: {' and '.join(sorted(olds))} would be {new}" + (", which is taken" if new in taken else ""))
    if "--list" in sys.argv:
        for old, new in sorted(table.items()):
            print(old, "->", new)
        return 0
    for path in texts(".antt", ".rt", ".edit"):
        text = read(path)
        new = turn(text, table, r"(?:^|\s)//( |$)" if path.endswith(".rt") else r"(?:^|\s)--( |$)")
        if new != text:
            with open(path, "w", encoding="utf-8") as f:
                f.write(new)
    print(f"{len(table)} names")
    return 0


if __name__ == "__main__":
    sys.exit(main())
