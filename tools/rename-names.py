#!/usr/bin/env python3
"""Spells the repository's own definitions, lemmas, fields and local variables as today's Rattle does: words in snake case, a dash only beside a type.

usage: tools/rename-names.py [--list]     at the top of the repository, once, after the kit's port.py

Names of the library, names that Rattle makes for proofs, functions of src/, exported names and strings stay. --list prints old and new names and
those that fall together, and writes nothing.
"""

import collections
import glob
import os
import re
import sys

WORD = r"[^\s(){}.;,@\"«»\[\]\\]+"
TOKEN = re.compile(r"--[^\n]*|\"(?:[^\"\\]|\\.)*\"|«[^»]*»|" + WORD + r"|\.")
SIGNATURE = re.compile(
    r"^[ \t]*(?:(?:abbrev|unfoldable|opaque|pub|data|record|instance)[ \t]+)*(" + WORD + r")(?:[ \t]+[({][^:\n]*[:][^\n]*)?[ \t]+:(?=[ \t\n])",
    re.M,
)
IMPORT = re.compile(r"(?m)^[ \t]*(?:pub |ghost )?use ([\w.'+·-]+?)(?:\.\{([^}]*)\})?(?: as ([\w-]+))?;?[ \t]*$")
CAMEL = re.compile(r"^[a-zα-ω0-9][^\s-]*[A-Z]")
# Two names that fell together, or a name that a variable or the library has: spelled by hand.
BY_HAND = {
    "by-sum": "by_sum_lem",
    "changed-marks": "changed_marks_are",
    "column-in-bytes": "column_in_bytes_lem",
    "dead-ahead": "dead_paths_ahead",
    "erased-marks": "erased_marks_are",
    "first_by": "order_by_first",
    "first_one": "first_one_lem",
    "in-front": "in_front_are",
    "long-page": "long_page_lem",
    "is-codeword": "is_a_codeword",
    "is-kept": "is_kept_there",
    "power-sum": "power_sum_of",
    "pushed-out": "any_pushed_out",
    "soft-column": "soft_column_lem",
    "soft-columns": "soft_columns_lem",
    "table-of": "table_of_lem",
    "taken-off": "taken_off_lem",
    "two-words": "found_two",
    "zero-first": "zero_first_lem",
}


def read(path):
    with open(path, encoding="utf-8", newline="") as f:
        return f.read()


def write(path, text):
    with open(path, "w", encoding="utf-8", newline="") as f:
        f.write(text)


def snake(name):
    out = re.sub(r"([a-zα-ω])([0-9]{2,})(?=$|[A-Z_])", r"\1_\2", name) if CAMEL.match(name) else name
    out = re.sub(r"(?<=[a-zα-ω0-9'?])([A-Z])", lambda m: "_" + m.group(1).lower(), out)
    return out


def spelled(name, types):
    """The name in snake case; a dash stays only beside a type."""
    if name[0].isupper() and "-" not in name:
        return name
    parts = [p if p in types else snake(p) for p in name.split("-")]
    out = parts[0]
    for before, it in zip(parts, parts[1:]):
        out += ("-" if before in types or it in types else "_") + it
    return out


def files(root):
    for path in sorted(glob.glob(os.path.join(root, "crates", "*", "**", "*"), recursive=True)):
        if "/out/" not in path and path.endswith((".rt", ".antt")):
            yield path


def owned(module, crates):
    parts = module.split(".")
    return parts[0] == "Rattle" and len(parts) > 1 and parts[1] in crates


def imports(text, crates):
    """The names that a file takes from the library, and its aliases of modules of the repository."""
    taken, aliases = set(), set()
    for m in IMPORT.finditer(text):
        module, names, alias = m.groups()
        if names is not None and not owned(module, crates):
            for it in names.split(","):
                taken.update(it.split()[:1])
        if names is None and owned(module, crates):
            aliases.add(alias or module.rsplit(".", 1)[1])
    return taken, aliases


def definitions(root, crates):
    """The names that the repository defines, and the types among them; of an answer file only what is no answer."""
    all_, types = set(), set()
    for path in files(root):
        text = read(path)
        # names that an import gives
        all_.update(re.findall(r" as (" + WORD + r")(?=[,}])", " ".join(m.group(0) for m in IMPORT.finditer(text))))
        if not path.endswith(".antt"):
            continue
        proof = os.path.basename(path) in ("Proof.antt", "Answers.antt", "Invariants.antt")
        for m in SIGNATURE.finditer(text):
            name = m.group(1)
            rest = text[m.end() : m.end() + 60]
            if proof and (re.match(r"\s*(tie|goal)\.", rest) or re.search(r"[-_]spec$", name)):
                continue
            if name in ("let", "in", "where") or name.startswith("--"):
                continue
            all_.add(name)
            if name[0].isupper():
                types.add(name)
    return all_, types


def main():
    root = os.getcwd()
    crates = {c for c in os.listdir(os.path.join(root, "crates")) if os.path.isdir(os.path.join(root, "crates", c, "src"))}
    own, types = definitions(root, crates)
    table = {}
    for name in own:
        new = BY_HAND.get(name) or spelled(name, types)
        if new != name:
            table[name] = new
    turned = collections.defaultdict(set)
    for name in own:
        turned[table.get(name, name)].add(name)
    listing = "--list" in sys.argv
    if listing:
        for old, new in sorted(table.items()):
            print(f"{old}\t{new}")
        for new, olds in sorted(turned.items()):
            if len(olds) > 1:
                print("together:", new, sorted(olds))
    local_total = collections.Counter()
    for path in files(root):
        text = read(path)
        taken, aliases = imports(text, crates)
        antt = path.endswith(".antt")
        names = {}
        # modules of the repository that a name is written whole behind
        modules = {m.group(2) for m in re.finditer(r"Rattle\.(\w+)\.(?:[\w+]+\.)*([\w+]+)(?=\." + WORD + ")", text) if m.group(1) in crates}

        def new_name(tok, before, path=path, taken=taken, aliases=aliases, modules=modules, antt=antt):
            """The new spelling of a token, whose text before it (a dotted prefix) is given."""
            if tok in taken:
                return tok
            if before and before not in aliases and before not in modules:
                return table[tok] if tok in fields_and_own and tok in table and before_is_value(before) else tok
            if tok in table:
                return table[tok]
            return local(tok, path, antt, before)

        def before_is_value(before):
            return (len(before.rstrip("'₀₁₂₃")) == 1 or not before[0].isupper()) and before not in ("tie", "goal")

        fields_and_own = own

        def local(tok, path, antt, before):
            if not antt or before:
                return tok
            if tok[0].isupper() or not re.match(r"^[a-zα-ω][\w'₀-₉?α-ω-]*$", tok):
                return tok
            if "-" in tok or CAMEL.match(tok):
                local_total[tok] += 1
                return BY_HAND.get(tok) or spelled(tok, types)
            return tok

        out, last, prev = [], 0, None
        for m in TOKEN.finditer(text):
            tok = m.group(0)
            if tok.startswith("--") and antt:
                new = re.sub(r"`([^`\s]+)`", lambda q: "`" + table.get(q.group(1), q.group(1)) + "`", tok)
            elif tok[0] in "\"«.":
                new = tok
            else:
                dotted = m.start() > 0 and text[m.start() - 1] == "."
                before = prev if dotted else None
                new = new_name(tok, before)
                if not antt:
                    new = table[tok] if tok in table and tok not in taken and (CAMEL.match(tok) or in_clause(text, m.start())) else tok
                if new != tok or not before:
                    names.setdefault(new, set()).add(tok)
            out.append(text[last : m.start()] + new)
            last = m.end()
            if tok != ".":
                prev = tok
        out.append(text[last:])
        for new, olds in names.items():
            if len(olds) > 1 and listing:
                print("in", os.path.relpath(path, root), ":", new, sorted(olds))
        if not antt:
            for m in re.finditer(r"\bfn (\w+)(?:<[^>]*>)?\(([^)]*)\)", text):
                params = set(re.findall(r"(\w+):", m.group(2)))
                for p in params & set(table.values()):
                    if p in names and listing:
                        print("parameter", os.path.relpath(path, root), m.group(1), p, sorted(names[p]))
        if not listing:
            new = "".join(out)
            if new != text:
                write(path, new)
    # must-fail edits, and names in the pages
    plain = {old: new for old, new in table.items() if CAMEL.match(old) or "-" in old}
    for path in sorted(glob.glob(os.path.join(root, "crates", "*", "must-fail", "*.edit"))):
        new = re.sub(r"(?m)^((?:old|new): )(.*)$", lambda m: m.group(1) + re.sub(WORD, lambda w: plain.get(w.group(0), w.group(0)), m.group(2)), read(path))
        if not listing and new != read(path):
            write(path, new)
    for path in sorted(glob.glob(os.path.join(root, "README.md")) + glob.glob(os.path.join(root, "docs", "**", "*.md"), recursive=True)):
        new = re.sub(r"`[^`\n]+`", lambda m: re.sub(r"[^\s`(){}.,;:/=]+", lambda w: plain.get(w.group(0), w.group(0)), m.group(0)), read(path))
        if not listing and new != read(path):
            write(path, new)
    if listing:
        print("locals:", len(local_total), sorted((local_total), key=str)[:400])


def in_clause(text, at):
    start = max(text.rfind(w, 0, at) for w in ("ghost use", "requires", "ensures", "ghost "))
    return start >= 0 and "\n" not in text[start:at].replace("\n    ", " ")


main()
