#!/usr/bin/env python3
"""Brings the repository's own definitions and lemmas to today's spelling: values, lemmas, constructors and fields in snake
case, types and facts in upper camel case.

usage: python3 tools/respell.py [--dry]     at the top, once, on what /opt/rattle/port/port.py wrote

The crate `bytes` has the name of a library of the kit: it becomes `forms`.

Names of functions, of goals and of steps, and text in strings and comments stay. A definition that a .rt file also has as a
function, a parameter or a local is imported there under its name with `the_` before it.
"""

import glob
import os
import re
import subprocess
import sys

TOKEN = re.compile(r"[^\s(){}\[\];,.\"`@|λ]+")
DECLARED = re.compile(r"^\s*(?:(?:abbrev|unfoldable|pub|data|record)\s+)*([^\s(){}:;.]+)(?:\s[^:\n=]*)?\s:\s", re.M)
# parameters and members that no declaration of the form above shows
MORE = {"case-text", "run-text", "lead-in", "low-left", "or-false", "table-means", "timetable-means"}
# names that would fall together with a library's or with a variant's
APART = {
    "bit-and": "bit-bit_and",
    "bit-or": "bit-bit_or",
    "bit-xor": "bit-bit_xor",
    "At-first": "IsAtFirst",
    "Now-only": "IsNowOnly",
    "With-next": "IsWithNext",
}
FUNCTION_FOLDER = re.compile(r"/proofs/(?!\w+\.antt$)")
# the ghost text of a .rt file begins with one of these
GHOST = re.compile(r"\bghost use\b[^;]*;|\b(?:requires|ensures|ghost)(?:\s+\w+)?\s*:?\s*(?=\{)|\bghost invariant\b[^{]*(?=\{)")


def new(name):
    if name in APART:
        return APART[name]
    parts = name.split("-")
    if name[0].isupper():
        return parts[0] + "".join(p[:1].upper() + p[1:] for p in parts[1:])
    return "_".join(parts)


def antt_files():
    return sorted(glob.glob("crates/*/specs/**/*.antt", recursive=True) + glob.glob("crates/*/proofs/**/*.antt", recursive=True))


def rt_files():
    return sorted(glob.glob("crates/*/src/**/*.rt", recursive=True))


def split_comment(line):
    """The code of a line of an .antt file, and its comment."""
    m = re.search(r"(^|(?<=\s))--(?=\s|$)", line)
    return (line[: m.start()], line[m.start() :]) if m else (line, "")


def names():
    found = set(MORE)
    for f in antt_files():
        if FUNCTION_FOLDER.search(f):
            continue
        code = "\n".join(split_comment(l)[0] for l in open(f).read().split("\n"))
        for m in DECLARED.finditer(code):
            if "-" in m[1] and re.match(r"[A-Za-zμ]", m[1]):
                found.add(m[1])
    return found


def respell(code, table):
    return TOKEN.sub(lambda m: table.get(m[0], m[0]), code)


def pieces(text):
    """The pieces of a .rt file, each with its kind: code, text (a string or a comment)."""
    for m in re.finditer(r'//[^\n]*|"(?:\\.|[^"\\])*"|b?\'(?:\\.|[^\'\\])\'|[^"/\'b]+|.', text, re.S):
        s = m[0]
        plain = s.startswith("//") or (len(s) > 1 and (s[0] in "\"'" or s[:2] == "b'"))
        yield s, "text" if plain else "code"


def ghost_spans(text):
    """Where the ghost text of a .rt file stands."""
    spans, at = [], 0
    while True:
        m = GHOST.search(text, at)
        if not m:
            return spans
        end = m.end()
        if end < len(text) and text[end] == "{":
            depth = 0
            while True:
                depth += {"{": 1, "}": -1}.get(text[end], 0)
                end += 1
                if not depth:
                    break
        spans.append((m.start(), end))
        at = end


def rust_names(text, spans):
    """The identifiers of a .rt file outside its ghost text, its strings and its comments."""
    left, at = [], 0
    for a, b in spans:
        left.append(text[at:a])
        at = b
    left.append(text[at:])
    bare = re.sub(r'//[^\n]*|"(?:\\.|[^"\\])*"', "", "".join(left))
    return set(re.findall(r"[A-Za-z_]\w*", bare))


def turn_rt(text, table):
    spans = ghost_spans(text)
    taken = rust_names(text, spans)
    out, at = [], 0
    own = dict(table)
    for m in re.finditer(r"\bghost use ([^;{]*)\.\{([^}]*)\};", text):
        for item in m[2].split(","):
            name, _, alias = item.strip().partition(" as ")
            if "-" in alias:
                own[alias] = new(alias)
            elif not alias and name in table and table[name] in taken:
                own[name] = "the_" + table[name]
    for a, b in spans:
        out.append(text[at:a])
        piece = text[a:b]
        if piece.startswith("ghost use"):
            head, rest = piece.split(".{", 1) if ".{" in piece else (piece, None)
            if rest is None:
                out.append(respell(piece, table))
            else:
                items = []
                for item in rest.rstrip().rstrip(";").rstrip("}").split(","):
                    item = item.strip()
                    first, _, alias = item.partition(" as ")
                    if alias:
                        items.append(f"{table.get(first, first)} as {alias.replace('-', '_') if alias[0].islower() else new(alias)}")
                    elif own.get(first, first) != table.get(first, first):
                        items.append(f"{table[first]} as {own[first]}")
                    else:
                        items.append(table.get(first, first))
                out.append(respell(head, table) + ".{" + ", ".join(items) + "};")
        else:
            piece = re.sub(r"\bthe-[a-z][\w-]*", lambda m: m[0].replace("-", "_"), piece)
            # a field keeps its name, whatever an import of that name is called
            piece = re.sub(r"(?<=\w\.)[\w'-]+|(?<=\)\.)[\w'-]+", lambda m: table.get(m[0], m[0]), piece)
            out.append(respell(piece, own))
        at = b
    out.append(text[at:])
    return "".join(out)


def rename_crate(old, to):
    os.rename(f"crates/{old}", f"crates/{to}")
    for f in antt_files() + rt_files() + ["crates.txt"]:
        text = open(f).read()
        out = re.sub(rf"\bRattle\.{old}\.", f"Rattle.{to}.", text)
        out = re.sub(rf"\buse {old}::", f"use {to}::", out)
        if f == "crates.txt":
            out = re.sub(rf"(?m)^(?!#)(.*)$", lambda m: re.sub(rf"\b{old}\b", to, m[1]), out)
        if out != text:
            open(f, "w").write(out)


def main(dry):
    table = {n: new(n) for n in names()}
    back = {}
    for n, w in sorted(table.items()):
        back.setdefault(w, []).append(n)
    for w, ns in back.items():
        if len(ns) > 1:
            print("fall together:", ns, "->", w)
    used = {}
    for f in antt_files():
        for m in TOKEN.finditer(open(f).read()):
            used.setdefault(m[0], set()).add(f)
    for n, w in sorted(table.items()):
        if w in used:
            print(f"{n} -> {w}, which stands already in", *sorted(used[w])[:4])
    if dry:
        return
    rename_crate("bytes", "forms")
    for f in antt_files():
        text = open(f).read()
        lines = []
        for l in text.split("\n"):
            code, comment = split_comment(l)
            comment = re.sub(r"`[^`]*`", lambda m: respell(m[0], table), comment)
            lines.append(respell(code, table) + comment)
        out = "\n".join(lines)
        if out != text:
            open(f, "w").write(out)
    for f in rt_files():
        text = open(f).read()
        out = turn_rt(text, table)
        if out != text:
            open(f, "w").write(out)
    for c in sorted(os.listdir("crates")):
        subprocess.run(["rt", "fmt"], cwd=os.path.join("crates", c), stdout=subprocess.DEVNULL)


if __name__ == "__main__":
    main("--dry" in sys.argv)
