#!/usr/bin/env python3
"""Spells the names that this repository's specs/ and proofs/ declare as today's Rattle does.

usage: python3 tools/spell.py        once, at the top, on what the kit's port.py has turned

A word is in snake case: `isState` becomes `is_state`, and `fill-all` becomes `fill_all`. Types and modules, in upper camel case, stay as they
are, and so do Rust names, strings, and the names that Rattle itself makes. A lemma, a field or a case that would get the name of a definition
gets `_lem`. A name that a file takes from a library of the kit stays in that file. In comments and pages only what stands between backticks is turned.
"""

import glob
import re
import sys

# What would fall together with a definition, each with its new name.
APART = {
    "goesOn": "going_on",
    "at_first": "shown_at_first",
    "place_at": "place_at_lem",
    "says_plain": "says_plain_lem",
    "says_all": "says_all_lem",
    "is_found": "is_found_lem",
    "bytes-of": "bytes_of_lem",
    "one-block": "one_block_lem",
    "out-at": "out_at_lem",
    "rows-from": "rows_from_lem",
    "kind-of": "kind_of_lem",
    "all-bytes": "all_bytes_lem",
}
# Names of the older library within names of ours.
OLDER = {"getD": "get_or"}

END = r"[^\s(){}.;,@\"«»`]"
NAME = rf"{END}+"
DECLARED = re.compile(rf"(?m)^ *(?:(?:pub|abbrev|unfoldable|data|record|let) )*({NAME})(?: \{{[^{{}}\n]*\}})*(?: \([^()\n]*\))* :(?: (\S+))?")
USE = re.compile(r"(?m)^(?:pub )?(?:ghost )?use ([^\s;{]+)\{([^}]*)\}")
STRING = re.compile(r'"(?:\\.|[^"\\\n])*"')


def text_of(path):
    with open(path, encoding="utf-8") as f:
        return f.read()


def is_kit(path):
    first, *rest = path.strip(".").split(".")
    return first not in ("Rattle", "crate") or rest[:1] == ["std"]


def is_odd(name):
    if "-" in name.strip("-"):
        return not re.fullmatch(r"[^\w]*-[^\w]*", name)
    return bool(re.search(r"[a-z0-9][A-Z]", name)) and name[0].islower()


def in_snake_case(name):
    for old, new in OLDER.items():
        name = name.replace(old, new)
    name = re.sub(r"(?<=[a-z0-9])[A-Z]", lambda m: "_" + m[0].lower(), name)
    return name.replace("-", "_")


def without_comments(text):
    return re.sub(r"--.*", "", text)


def declared(files):
    """The names that the antt files declare: the goals of a proof by steps are not ours."""
    found = set()
    for path in files:
        for m in DECLARED.finditer(without_comments(text_of(path))):
            if not (m[2] or "").startswith("tie.") and not m[1].endswith("-spec"):
                found.add(m[1])
    return found


def renames(files):
    ours = declared(files)
    plain = {n for n in ours if not is_odd(n)}
    table = {n: in_snake_case(n) for n in ours if is_odd(n)}
    camel = {new for old, new in table.items() if "-" not in old}
    for old, new in list(table.items()):
        if "-" in old and (new in camel or new in plain):
            table[old] = new + "_lem"
    table.update(APART)
    return table


def turned(code, table, kept, after_dot):
    def one(m):
        name = m[0]
        if name in kept or name not in table:
            return name
        if m.start() and code[m.start() - 1] == "." and after_dot is not None and name not in after_dot:
            return name
        return table[name]

    return re.sub(NAME, one, code)


def in_backticks(comment, table):
    return re.sub(r"`([^`\n]+)`", lambda m: "`" + turned(m[1], table, set(), None) + "`", comment)


def kept_in(text):
    kept = set()
    for path, items in USE.findall(text):
        if is_kit(path):
            kept.update(i.strip().split(" as ")[-1] for i in items.split(","))
    return kept


def turn_antt(text, table, fields, by_steps):
    kept = kept_in(text)
    lines = []
    for line in text.split("\n"):
        code, dash, comment = line.partition("--") if re.match(r"\s*--", line) else (line, "", "")
        lines.append(turned(code, table, kept, fields if by_steps else None) + dash + in_backticks(comment, table))
    return "\n".join(lines)


def turn_rust(text, table):
    """Only what the file takes from specs/ and the fields of its records are ghost names; the rest is Rust."""
    taken = set()
    for path, items in USE.findall(text):
        if not is_kit(path):
            taken.update(i.strip() for i in items.split(","))
    names = {n: table[n] for n in table if n in taken or re.search(r"[A-Z]|-", n)}
    out = []
    for line in text.split("\n"):
        code, slashes, comment = line.partition("//")
        if not STRING.search(code):
            code = turned(code, names, set(), None)
        out.append(code + slashes + in_backticks(comment, table))
    return "\n".join(out)


def main():
    antt = sorted(p for d in ("specs", "proofs") for p in glob.glob(f"crates/*/{d}/**/*.antt", recursive=True))
    table = renames(antt)
    goals = [p for p in antt if p.endswith("/Proof.antt")]
    fields = declared([p for p in antt if p not in goals])
    if "--list" in sys.argv:
        for old, new in sorted(table.items()):
            print(old, new)
        return
    jobs = [(p, lambda t, p=p: turn_antt(t, table, fields, p in goals)) for p in antt]
    jobs += [(p, lambda t: turn_rust(t, table)) for p in sorted(glob.glob("crates/*/src/**/*.rt", recursive=True))]
    for path, turn in jobs:
        old = text_of(path)
        new = turn(old)
        if new != old:
            with open(path, "w", encoding="utf-8") as f:
                f.write(new)


main()
