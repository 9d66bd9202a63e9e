#!/usr/bin/env python3
"""Brings this repository's own names to one spelling: words in snake case, types and facts in camel case.

usage: python3 tools/respell.py     once, at the top, on what the toolchain's port script has just written and before that is committed

The names are the declarations of crates/*/specs and crates/*/proofs. HEAD still has them as they were, so pages, comments and
must-fail edits are turned by the same table. Names of src/ functions stay. It stops, and writes nothing, where two names would fall together.
"""
import collections
import glob
import re
import subprocess
import sys

DECLARED = re.compile(r"^\s*(?:(?:unfoldable|abbrev|pub|private|record|data)\s+)*([^\s:(){}]+)\s*(?:[({].*?)?\s:\s")
WORD = re.compile(r"[^\s(){};,.\"`]+")
# names that would fall together with another: the definition has the plain name
APART = {
    "is-lower": "is_lower_view", "slots-of": "ending_slots", "has-tag": "has_its_tag", "no-page": "blank_page",
    "readBegins": "begins_read", "writeBegins": "begins_write", "readEnds": "ends_read", "writeEnds": "ends_write", "givesUp": "ends_unfinished",
    "is_down": "is_down_lem", "is_one": "is_one_lem", "numbers_of": "numbers_of_lem", "turn_in": "turn_in_lem",
}
LEMMAS = """client-at client-of client-row client-within client-words conf-of directory-after directory-at directory-of directory-words down-client entry-with
entry-words first-of first-word good-client good-directory good-machine good-replica good-tag in-phase is-party is-stale is-void message-of message-within message-words
no-entry no-replica no-slot one-of replica-at replica-in replica-row replica-words stand-at start-read start-write tag-within""".split()


def files():
    return sorted(glob.glob("crates/*/specs/**/*.antt", recursive=True) + glob.glob("crates/*/proofs/*.antt"))


def before(path):
    return subprocess.run(["git", "show", "HEAD:" + path], capture_output=True, text=True, check=True).stdout


def declared(text):
    return [m.group(1) for l in text.splitlines() if not l.lstrip().startswith("--") and (m := DECLARED.match(l))]


def snake(name):
    if name in APART:
        return APART[name]
    if name in LEMMAS:
        return name.replace("-", "_") + "_lem"
    if "◌" in name:
        return name
    name = name.replace("getD", "get_or").replace("get_d", "get_or")
    if re.match("[a-z]", name):
        name = re.sub("(?<=[a-z0-9])([A-Z])", lambda m: "_" + m.group(1).lower(), name)
    parts = name.split("-")
    out = parts[0]
    for a, b in zip(parts, parts[1:]):
        out += ("_" if re.match("[a-z0-9]", b) and not re.match("[A-Z]", a) else "-") + b
    return out


def table_of():
    """The names as they stand -> their spelling, and as they stood in HEAD -> their spelling."""
    names, ported = set(), {}
    for path in files():
        with open(path, encoding="utf-8") as f:
            now = declared(f.read())
        then = declared(before(path))
        names |= set(now)
        if len(now) == len(then):
            ported.update(zip(then, now))
        else:
            print("not paired by order:", path)
    table = {n: snake(n) for n in names}
    said = collections.defaultdict(set)
    for n, m in table.items():
        said[m].add(n)
    together = [sorted(v) for v in said.values() if len(v) > 1]
    if together:
        raise SystemExit(f"names that fall together: {together}")
    return table, {n: table[m] for n, m in ported.items() if n != table[m]}


def turn(text, table, in_walk=False):
    """The words of a piece of code by the table. In the proof of a function what stands after a dot is mostly a step named by the prover."""
    def word(m):
        w = m.group(0)
        if in_walk and m.start() and text[m.start() - 1] == "." and text[m.start() - 2:m.start()] != "..":
            return w.replace("-", "_") if table.get(w, w) != w else w
        return table.get(w, w)
    return WORD.sub(word, text)


def quoted(text, table):
    """A page or a comment: only what stands in backticks."""
    return re.sub("`[^`\n]*`", lambda m: turn(m.group(0), table), text)


def lines(text, mark, table, old, in_walk=False):
    """Code line by line, the comment behind the mark by what it quotes."""
    out = []
    for l in text.split("\n"):
        at = 0 if l.lstrip().startswith(mark) else (l.find(" " + mark + " ") if " " + mark + " " in l else len(l))
        out.append(turn(l[:at], table, in_walk) + quoted(l[at:], old))
    return "\n".join(out)


# the port script's spelling of code, for the must-fail edits, which it leaves
EDITS = [
    (r"Rattle·(\w+)·specs\.specs\.", r"Rattle.\1.specs."), (r"Rattle·(\w+)\.specs\.", r"Rattle.\1.specs."), (r"Rattle·(\w+)·proofs\.proofs\.", r"Rattle.\1.proofs."),
    (r"(?<![\w'])_([^\s\w(){}]+)_(?![\w'])", r"◌\1◌"), (r"if_then_else_", "if◌then◌else◌"), (r"(?<=[\w)']) \.(?=[A-Za-z])", "."),
    (r"(?<![\w)])\((\w+(?:\.\w+)+)\)", r"\1"),
]


def edit(text, old):
    out = []
    for l in text.split("\n"):
        if l.startswith(("old: ", "new: ")):
            if "file: specs/" in text or "file: proofs/" in text:
                for a, b in EDITS:
                    l = re.sub(a, b, l)
            l = l[:5] + turn(l[5:], old)
        else:
            l = quoted(l, old)
        out.append(l)
    return "\n".join(out)


def write(path, text):
    with open(path, encoding="utf-8") as f:
        if f.read() == text:
            return
    with open(path, "w", encoding="utf-8") as f:
        f.write(text)


def main():
    table, old = table_of()
    for path in sorted(glob.glob("crates/*/specs/**/*.antt", recursive=True) + glob.glob("crates/*/proofs/**/*.antt", recursive=True)):
        walk = path.split("/")[2] == "proofs" and path.count("/") > 3
        with open(path, encoding="utf-8") as f:
            write(path, lines(f.read(), "--", table, old, walk))
    for path in sorted(glob.glob("crates/*/src/*.rt")):
        with open(path, encoding="utf-8") as f:
            write(path, lines(f.read(), "//", {n: m for n, m in table.items() if "-" not in n and "_" not in n}, old))
    for path in sorted(glob.glob("crates/*/must-fail/*.edit")):
        with open(path, encoding="utf-8") as f:
            write(path, edit(f.read(), old))
    for path in ["README.md"] + sorted(glob.glob("docs/*.md")):
        with open(path, encoding="utf-8") as f:
            write(path, quoted(f.read(), old))
    print(f"{sum(n != m for n, m in table.items())} of {len(table)} names respelled")


if __name__ == "__main__":
    main()
