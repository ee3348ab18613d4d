#!/usr/bin/env python3
"""Brings the names of this repository's own definitions and lemmas to the spelling of today's Rattle, after port.py.

usage: python3 tools/port/respell.py [FILE]   at the top of the repository, once, on what port.py left; FILE gets the old and new names

Words are in snake case, types and modules in camel case. In a lemma's name a dash joins the names of two definitions, and a plain word is added with `_`.
A lemma that would fall together with a definition ends in `_lem`. Functions of src/, exported names, strings, inputs and outputs are left alone.
"""
import collections
import glob
import os
import re
import sys

WORD = re.compile(r"(?<![\w'-])[A-Za-z_][A-Za-z0-9_\u2080-\u2089'-]*")
MARKS = r"(?:(?:unfoldable|abbrev|pub|private)\s+)*"
DECLARED = re.compile(r"^(\s*)(" + MARKS + r")([A-Za-z_][\w\u2080-\u2089'-]*)((?:\s+[\{\(][^:]*[\}\)])*)\s*:(?!:)")
CAMEL = re.compile(r"(^|-)[a-z][a-z0-9_\u2080-\u2089]*[A-Z]")
PLAIN = set("length take drop set get_or append suc zero cons map sum min max true false add mul sub div mod pow le lt eq eqb leb ltb not cond nil replicate".split())
BY_HAND = ("/Proof.antt", "/Answers.antt", "/Invariants.antt")
MOVED = [("contracts/specs/Contracts.antt", "contracts/specs/Forms.antt", "contracts.specs.Contracts", "contracts.specs.Forms")]


def files(*patterns):
    return sorted(f for p in patterns for f in glob.glob(p, recursive=True) if "/out/" not in f)


def read(f):
    with open(f, encoding="utf-8") as t:
        return t.read()


def write(f, text):
    with open(f, "w", encoding="utf-8") as t:
        t.write(text)


def snake(word):
    def part(p):
        if not re.match(r"[a-z]", p):
            return p
        p = re.sub(r"([a-z0-9\u2080-\u2089])([A-Z])", r"\1_\2", p)
        return p.lower() if re.search(r"[A-Z]", p) else p

    return "-".join(part(p) for p in word.split("-"))


def declared(f):
    for line in read(f).split("\n"):
        if line.lstrip().startswith("--") or re.match(r"(pub )?use ", line):
            continue
        m = DECLARED.match(line)
        if m:
            yield m.group(3)
        m = re.match(r"^\s*" + MARKS + r"(?:record|data)\s+([\w'-]+)", line)
        if m:
            yield m.group(1)


def renaming():
    specs, laws = set(), set()
    for f in files("crates/*/specs/**/*.antt"):
        specs.update(declared(f))
    for f in files("crates/*/proofs/**/*.antt"):
        if not f.endswith(BY_HAND):
            laws.update(declared(f))
    names = {snake(w) for w in specs} | PLAIN
    new = {w: snake(w) for w in specs}
    for w in laws - specs:
        c = snake(w).split("-")
        s = c[0]
        for a, b in zip(c, c[1:]):
            s += ("-" if a in names and b in names else "_") + b
        new[w] = s
    by = collections.defaultdict(list)
    for w, s in new.items():
        by[s].append(w)
    for s, ws in by.items():
        if len(ws) < 2:
            continue
        first = next((w for w in ws if w in specs), None) or next((w for w in sorted(ws) if w == s), sorted(ws)[0])
        others = [w for w in sorted(ws) if w != first]
        for n, w in enumerate(others):
            if w in specs:
                print(f"look: {w} and {first} are both definitions and fall together as {s}")
            new[w] = s + "_lem" + (str(n + 1) if n else "")
            if new[w] in by:
                print(f"look: {new[w]} stands already")
    return {w: s for w, s in new.items() if s != w}


def imported(text, own):
    """The names that a file takes from elsewhere than this repository's crates."""
    out = set()
    for m in re.finditer(r"^\s*(?:pub )?(?:ghost )?use ([\w.\u00b7:+-]+?)\.\{([^}]*)\}", text, re.M):
        crate = re.match(r"Rattle\.(\w+)\.", m.group(1) + ".")
        if not crate or crate.group(1) not in own:
            out.update(x.strip().split(" as ")[0] for x in m.group(2).split(","))
    return out


def turned(text, new, foreign, comment, by_hand=False, dashes=True):  # in a .rt file only words with a capital are turned: functions keep their names
    """The text with its words renamed. Comments are turned only in what stands between backticks."""

    def one(m):
        w = m.group(0)
        if w in foreign:
            return w
        after_dot = m.start() > 0 and m.string[m.start() - 1] == "."
        if "-" in w and (not dashes or (by_hand and after_dot)):
            return snake(w) if CAMEL.search(w) else w
        if w in new and (comment == "--" or CAMEL.search(w)):
            return new[w]
        return snake(w) if CAMEL.search(w) else w

    out = []
    for line in text.split("\n"):
        code, mark, rest = line, "", ""
        k = line.find(comment)
        if k >= 0 and line[:k].count('"') % 2 == 0:
            code, mark, rest = line[:k], comment, line[k + len(comment):]
            rest = re.sub(r"`([^`]*)`", lambda m: "`" + WORD.sub(one, m.group(1)) + "`", rest)
        parts = re.split(r'("(?:[^"\\]|\\.)*")', code)
        out.append("".join(p if p.startswith('"') and n % 2 else WORD.sub(one, p) for n, p in enumerate(parts)) + mark + rest)
    return "\n".join(out)


def main():
    own = {os.path.basename(os.path.dirname(f)) for f in glob.glob("crates/*/src")}
    new = renaming()
    for old_file, new_file, old_path, new_path in MOVED:
        os.rename("crates/" + old_file, "crates/" + new_file)
        lib = os.path.dirname("crates/" + new_file) + "/Lib.antt"
        a, b = (os.path.basename(x)[:-5] for x in (old_file, new_file))
        write(lib, read(lib).replace(f"pub mod {a}\n", f"pub mod {b}\n"))
    for f in files("crates/**/*.antt", "crates/**/*.rt"):
        text = read(f)
        for _, _, old_path, new_path in MOVED:
            text = text.replace(old_path, new_path)
        foreign = imported(text, own)
        words = set(WORD.findall(text))
        for w in sorted(words):
            s = new.get(w) or (snake(w) if CAMEL.search(w) else w)
            if s != w and w not in foreign and s in words and f.endswith(".antt"):
                print(f"look: {f}: {w} becomes {s}, which stands there too")
        if f.endswith(".antt"):
            write(f, turned(text, new, foreign, "--", by_hand=f.endswith(BY_HAND)))
        else:
            write(f, turned(text, new, foreign, "//"))
    for f in files("crates/*/must-fail/*.edit"):
        lines = read(f).split("\n")
        at = next((l[6:] for l in lines if l.startswith("file: ")), "")
        for n, l in enumerate(lines):
            if l.startswith(("old: ", "new: ")):
                lines[n] = l[:5] + turned(l[5:], new, set(), "--" if at.endswith("antt") else "//", by_hand=at.endswith(BY_HAND))
        text = "\n".join(lines)
        write(f, text)
    for to in sys.argv[1:]:
        with open(to, "w", encoding="utf-8") as t:
            for w in sorted(new):
                t.write(f"{w} {new[w]}\n")
    print(f"{len(new)} names respelled")


if __name__ == "__main__":
    sys.exit(main())
