#!/usr/bin/env python3
"""Brings this repository's own definitions and lemmas to today's spelling: words in snake case, a dash only where it joins two names, ' for a prime.

usage: tools/respell.py [--check]

Run once at the top, right after the kit's port.py. It turns names that files of specs/ and proofs/ declare, wherever antt, a clause, a comment,
an edit or a page names them. Names of Rust source, of C, strings and what Rattle makes for a goal stay. --check writes nothing and lists each
name that turns and each pair that would fall together.
"""
import collections
import glob
import os
import re
import sys

CHECK = "--check" in sys.argv[1:]
W = r"[^\s(){}.;,@\"«»\[\]\\`|]+"
DECL = re.compile(rf"^(\s*)((?:pub |abbrev |unfoldable |inline |opaque |instance |tabled )*)((?:data |record )?)({W})((?: \([^()]*\)| \{{[^{{}}]*\}})*) :(?= |$)")
CAMEL = re.compile(r"[a-z][A-Za-z0-9']*[A-Z][A-Za-z0-9']*")
GOALS = re.compile(r"/proofs/(.*/)?Proof\.antt$")
FROM_KIT = re.compile(r"^(?:mathlib|seplogic|Prim|native|lib|borrow|types|denote|memory|machine|Rattle\.std)\b")
MADE = re.compile(r"^(?:c|w|l|cs|κs?|c\d+|w\d+|at\d+|tie|goal)$")
OWN_AGAIN = {"invariant", "ensures", "requires", "args", "given", "new", "result", "old", "now"}


def read(p):
    with open(p, encoding="utf-8", newline="") as f:
        return f.read()


def snake(word):
    s = word.replace("′", "'")
    s = re.sub(r"(?<=[a-z0-9'])([A-Z]+)(?=$|[^A-Za-z])", lambda m: "_" + m[1].lower(), s)
    s = re.sub(r"(?<=[a-z0-9'])([A-Z])", lambda m: "_" + m[1].lower(), s)
    return re.sub(r"([A-Z])", lambda m: m[1].lower(), s) if s[:1].islower() else s


def files():
    antt = sorted(p for p in glob.glob("crates/*/*/**/*.antt", recursive=True) if p.split("/")[2] in ("specs", "proofs"))
    rt = sorted(glob.glob("crates/*/src/**/*.rt", recursive=True))
    return antt, rt


def strip_comments(text):
    return re.sub(r"(?m)(?<![^\s(){}.;,])--[^\n]*$", "", text)


def declared(antt):
    """The names that the repository declares: each with the files that do, and whether a file of specs/ does."""
    names = collections.defaultdict(set)
    words = set()
    for p in antt:
        if GOALS.search(p):
            continue
        for line in strip_comments(read(p)).splitlines():
            m = DECL.match(line)
            if m:
                names[m[4]].add(p)
                if "/specs/" in p and not m[1]:
                    words.add(m[4])
                continue
            # several constructors or fields of one line: 'a b c : T'
            m = re.match(rf"^(\s+)((?:pub )?)({W}(?: {W})+) : ", line)
            if m and not re.search(r"[=→λ≡↦]|\b(?:let|where|in)\b", m[3]):
                for n in m[3].split():
                    names[n].add(p)
    return names, words


KIT_WORDS = set("length take drop append concat map reverse replicate sets set get_or all sum min max".split())


def new_name(name, heads):
    """The name in today's spelling."""
    if not re.match(r"[a-z]", name) or re.search(r"[^A-Za-z0-9_'′-]", name):
        return name.replace("′", "'")
    parts = [snake(p) for p in name.split("-")]
    if "" in parts:
        return name.replace("′", "'")
    out, start = parts[0], 0
    for i in range(1, len(parts)):
        left = "_".join(parts[start:i])
        right = {"_".join(parts[i : i + k]) for k in range(1, len(parts) - i + 1)}
        if left in heads and right & heads:
            out, start = out + "-" + parts[i], i
        else:
            out += "_" + parts[i]
    return out


def turned(text, table, kept):
    """The text of an antt file or a clause with each name of the table turned. In a chain behind a step that Rattle makes, its labels stay."""
    aliases = set(re.findall(rf"\bas ({W})", text))

    def chain(m):
        whole = m[0]
        if whole.startswith("--"):
            return comment(whole, table, kept)
        if whole.startswith('"') or whole.startswith("Rattle."):
            return whole
        parts = whole.split(".")
        head = parts[0]
        generated = bool(MADE.match(head)) and head not in aliases
        out = []
        for i, p in enumerate(parts):
            if i == 0:
                out.append(table.get(p, p) if p not in kept else p)
                if "before" in parts and head not in aliases:
                    generated = True
                continue
            if generated:
                out.append(p)
                if p in OWN_AGAIN:
                    generated = False
                continue
            out.append(table.get(p, p) if p not in kept else p)
        return ".".join(out)

    token = rf'--[^\n]*|"(?:[^"\\\n]|\\.)*"|{W}(?:\.{W})*'
    out, at = [], 0
    for m in re.finditer(token, text):
        if m[0].startswith("--") and m.start() and text[m.start() - 1] not in " \n\t(){}":
            continue
        out += [text[at : m.start()], chain(m)]
        at = m.end()
    return "".join(out) + text[at:]


def comment(text, table, kept):
    """A comment: names in camel case or with a prime are names for sure; one with a dash is, where it stands between backquotes."""
    text = re.sub(r"(?<![\w.'-])[a-z][A-Za-z0-9]*[A-Z][A-Za-z0-9]*(?:-[a-z0-9-]+)?['′]*(?![\w-])", lambda m: table.get(m[0], m[0]) if m[0] not in kept else m[0], text)
    return re.sub(r"`([^`\n]+)`", lambda m: "`" + re.sub(W, lambda w: table.get(w[0], w[0]) if "-" in w[0] and w[0] not in kept else w[0], m[1]) + "`", text)


def imported_from_kit(text):
    """The names that a file has from the kit: they are the kit's there, and stay."""
    names = set()
    for m in re.finditer(r"use ([^\s;{]+)\.\{([^{}]*)\}", text):
        if FROM_KIT.match(m[1]):
            names |= {x.strip().split(" as ")[-1].strip() for x in m[2].split(",")}
    return names


CLAUSE = re.compile(r"(?m)(?:^|(?<=\s))(?:requires|ensures|ghost)\s*\*?\s*(?:\w+\s*:?\s*)?\{")


def turned_rt(text, table, kept):
    """Clauses, ghost items and comments of a source."""
    out, at = [], 0
    spans = [(m.start(), m.end()) for m in re.finditer(r"ghost use [^;]*;", text)]
    for m in CLAUSE.finditer(text):
        depth, i = 1, m.end()
        while depth and i < len(text):
            depth += (text[i] == "{") - (text[i] == "}")
            i += 1
        spans.append((m.end(), i - 1))
    spans += [(m.start(), m.end()) for m in re.finditer(r"(?m)//[^\n]*", text)]
    for a, b in sorted(spans):
        if a < at:
            continue
        part = text[a:b]
        out += [text[at:a], comment(part, table, kept) if part.startswith("//") else turned(part, table, kept)]
        at = b
    return "".join(out) + text[at:]


def main():
    antt, rt = files()
    names, words = declared(antt)
    heads = {snake(w.replace("-", "_")) for w in words} | KIT_WORDS
    table = {n: new_name(n, heads) for n in names}
    # Two names that stand in one file must not fall together: what is no word of a definition gets '_lem'.
    tokens = {p: set(re.findall(W, re.sub(r"\.(?=\S)", " ", read(p)))) for p in antt + rt}
    where = collections.defaultdict(set)
    for p, them in tokens.items():
        for n in them:
            where[n].add(p)
    by_new = collections.defaultdict(set)
    for n in names:
        by_new[table[n]].add(n)
    told = []
    for new, olds in sorted(by_new.items()):
        if len(olds) > 1 and any(where[a] & where[b] or {f.split("/")[1] for f in names[a]} & {f.split("/")[1] for f in names[b]} for a in olds for b in olds if a < b):
            first = [n for n in olds if n in words] or [n for n in olds if CAMEL.fullmatch(n)] or [new]
            for n in sorted(olds):
                if n != first[0] or len(first) > 1 and n != min(first):
                    table[n] = new + "_lem"
            told.append(f"together: {sorted(olds)} -> {new}; {[(n, table[n]) for n in sorted(olds)]} {sorted({f for o in olds for f in names[o]})[:4]}")
        elif len(olds) == 1 and new not in olds:
            old = next(iter(olds))
            both = where[old] & where[new]
            if both:
                told.append(f"shadow: {old} -> {new}: {sorted(both)[:4]}")
    table = {a: b for a, b in table.items() if a != b}
    if CHECK:
        print("\n".join(told))
    if CHECK:
        for a, b in sorted(table.items()):
            print(f"{a}\t{b}")
        print(f"{len(table)} names, {len(told)} to look at")
        return
    count = 0
    in_snake = {n: {f.split("/")[1] for f in names[n]} for n in table if "_" in n and "-" not in n and n == n.lower()}
    for p in antt + rt:
        text = read(p)
        kept = imported_from_kit(text) | {n for n, homes in in_snake.items() if p.endswith(".rt") or p.split("/")[1] not in homes}
        new = turned(text, table, kept) if p.endswith(".antt") else turned_rt(text, table, kept)
        if new != text:
            with open(p, "w", encoding="utf-8", newline="") as f:
                f.write(new)
            count += 1
    for p in sorted(glob.glob("crates/*/must-fail/*.edit") + glob.glob("crates/*/more-must-fail/*.edit")):
        text = read(p)
        out, file = [], ""
        for line in text.splitlines(keepends=True):
            if line.startswith("file: "):
                file = line[6:].strip()
            elif re.match(r"(?:old|new):", line):
                key, _, rest = line.partition(":")
                if file.endswith(".antt"):
                    rest = turned(rest, table, set())
                elif re.search(r"\b(?:requires|ensures|ghost)\b", rest):
                    rest = turned_rt(rest, table, set())
                line = key + ":" + rest
            out.append(line)
        new = "".join(out)
        if new != text:
            with open(p, "w", encoding="utf-8", newline="") as f:
                f.write(new)
            count += 1
    for p in sorted(glob.glob("docs/*.md") + ["README.md"] + glob.glob("*/README.md")):
        if os.path.basename(p) in ("PORT.md",):
            continue
        text = read(p)
        new = re.sub(r"`([^`\n]+)`", lambda m: "`" + re.sub(W, lambda w: table.get(w[0], w[0]), m[1]) + "`", text)
        if new != text:
            with open(p, "w", encoding="utf-8", newline="") as f:
                f.write(new)
            count += 1
    print(f"{count} files")


main()
