#!/usr/bin/env python3
"""Brings the repository's own definitions and lemmas to the spelling of today's Rattle: words in snake case, types and facts in
upper camel case. Run once, at the top, after the toolchain's own script. Names that Rattle makes keep their dashes, and so do
the words of its library. Prints what falls together.

usage: tools/respell.py [--dry]
"""

import glob
import os
import re
import sys

ATOM = re.compile(r"[^\s(){}\[\],;.:λ→×⊎↔@|\"`]+")
DECL = re.compile(r"^(\s*)((?:(?:pub|abbrev|unfoldable|record|data|infixl|infixr)\s+)*)(.+?)\s*(?:\{[^}]*\}\s*)?(?::|$|\(|(?=\{))")
KEEP = {"Type"}
# What would fall together with another name in some file, by hand.
BY_HAND = {}
# English that is spelled as a name of ours, and the original's name beside ours: comments keep them.
PROSE = {"part-write", "part-writes", "well-formed", "view-chunks", "valid"}
OPERATOR = re.compile(r"◌")


def camel(n):
    return "".join(p[:1].upper() + p[1:] for p in re.split(r"[-_]", n) if p)


def snake(n):
    # The toolchain's script made `get_or` of `getD`, but not in names of ours, and gave one of ours an ending.
    return n.replace("-", "_").replace("getD", "get_or").replace("get_d_tail", "get_or_tail").replace("number_of_lem", "number_of")


def own_files():
    for p in sorted(glob.glob("crates/*/specs/**/*.antt", recursive=True) + glob.glob("crates/*/proofs/**/*.antt", recursive=True)):
        yield p


def module_of(path):
    parts = path[: -len(".antt")].split("/")
    return "Rattle." + ".".join(parts[1:])


def signatures(text):
    """(indent, keywords, name, full signature text) of each declaration of a file; fields of records and constructors too."""
    lines = text.split("\n")
    i = 0
    while i < len(lines):
        l = lines[i]
        m = re.match(r"^(\s*)((?:(?:pub|abbrev|unfoldable|record|data)\s+)+)?(\S+)((?:\s+\S+)*)$", l)
        if l.strip().startswith("--") or not m or re.match(r"\s*(use|pub use|module|unfolding|mod|pub mod|infix\w*|ruleset|let|open)\b", l):
            i += 1
            continue
        indent, kw, name = len(m.group(1)), (m.group(2) or "").split(), m.group(3)
        rest = l[m.end(3):]
        if "record" in kw or "data" in kw:
            yield indent, kw, [name.rstrip(":")], "Type 0"
            i += 1
            continue
        # a signature: names, then ':' outside brackets
        m2 = re.match(r"^((?:\s+[^\s:(){}=]+)*)\s*(\{[^}]*\}\s*)?\s:(\s|$)", rest)
        if not m2 or name in ("(", "λ", "elim", "let", "rw", "|"):
            i += 1
            continue
        names = [name] + m2.group(1).split()
        sig = rest[m2.end():]
        j = i + 1
        while j < len(lines) and lines[j].strip() and not lines[j].strip().startswith("--") and len(lines[j]) - len(lines[j].lstrip()) > indent and not re.match(r"\s*unfolding\b", lines[j]):
            sig += " " + lines[j].strip()
            j += 1
        yield indent, kw, names, sig.strip()
        i += 1


def main():
    dry = "--dry" in sys.argv
    texts = {p: open(p, encoding="utf-8").read() for p in own_files()}
    mods, fields, reexport = {}, {}, {}
    for p, t in texts.items():
        in_walk = p.endswith("Proof.antt")
        decl = {}
        record_at = None
        for indent, kw, names, sig in signatures(t):
            for n in names:
                if OPERATOR.search(n) or n in KEEP:
                    continue
                if record_at is not None and indent > record_at and not ("abbrev" in kw or "unfoldable" in kw):
                    fields[n] = snake(n)
                    decl.setdefault(n, snake(n))
                    continue
                record_at = None
                is_type = not p.endswith("Computing.antt") and bool(re.search(r"(^|→\s*|\s)Type\s+(\d+|ℓ\S*|\([^)]*\))$", sig))
                decl[n] = BY_HAND.get((module_of(p), n)) or (camel(n) if is_type else snake(n))
                if "record" in kw or "data" in kw:
                    record_at = indent
        mods[module_of(p)] = decl
    # names passed on by 'pub use'
    for p, t in texts.items():
        for m in re.finditer(r"(?m)^pub use (Rattle\.[\w.+]+)\.\{([^}]*)\}", t):
            for n in m.group(2).split(","):
                n = n.strip()
                if n in mods.get(m.group(1), {}):
                    mods[module_of(p)][n] = mods[m.group(1)][n]
    every = {}
    for d in mods.values():
        for n, to in d.items():
            every.setdefault(n, set()).add(to)

    def scope_of(path, text):
        scope = dict(mods.get(module_of(path), {})) if path.endswith(".antt") else {}
        foreign = set()
        for m in re.finditer(r"(?m)^\s*(?:pub )?(?:ghost )?use ([\w.+·]+(?:\.[\w+]+)*)\.\{([^}]*)\}", text):
            for n in m.group(2).split(","):
                n = n.strip().split(" as ")[0].strip()
                to = mods.get(m.group(1), {}).get(n)
                if to:
                    scope[n] = to
                elif n:
                    foreign.add(n)
        return scope, foreign

    def turn(text, scope, foreign):
        def one(m):
            n = m.group(0)
            line = text[text.rfind("\n", 0, m.start()) + 1 : m.start()]
            if n in PROSE and re.search(r"--|//", line):
                return n
            before = text[: m.start()][-1:]
            if before == "." and n in fields and n not in ("",):
                return fields[n]
            if n in scope and before != ".":
                return scope[n]
            if "-" in n and n not in foreign:
                if n in fields:
                    return fields[n]
                if n in every and len(every[n]) == 1:
                    return next(iter(every[n]))
            return n
        return ATOM.sub(one, text)

    def bound(text, foreign):
        """The dashes that are left are of names that the text binds itself, or of modules that it names."""
        def one(m):
            n = m.group(0)
            dashed = re.search(r"[^\W\d_]-|-[^\W\d_]", n)
            return snake(n) if dashed and n not in foreign and m.string[: m.start()][-1:] != "." else n
        lines = text.split("\n")
        for i, l in enumerate(lines):
            code, dash, comment = l.partition("-- ") if not l.startswith("--") else ("", "", l)
            if re.match(r"\s*(pub )?use ", code):
                head, word, name = code.rpartition(" as ")
                code = head + word + snake(name) if word and "{" not in code else re.sub(r"( as )([^\s,}]+)", lambda m: m.group(1) + snake(m.group(2)), code)
            else:
                code = ATOM.sub(one, code)
            lines[i] = code + dash + comment
        return "\n".join(lines)

    clash = []
    for p, t in texts.items():
        scope, foreign = scope_of(p, t)
        new = turn(t, scope, foreign)
        if not p.endswith("Proof.antt"):
            new = bound(new, foreign)
        used = {}
        for n in set(ATOM.findall(re.sub(r"(?m)--.*$", "", t))):
            to = scope.get(n) or (fields.get(n) if n in fields and n not in foreign else None) or n
            used.setdefault(to, set()).add(n)
        for to, ns in used.items():
            if len(ns) > 1 and any(n in scope for n in ns):
                clash.append((p, to, sorted(ns)))
        texts[p] = new
    sources = {}
    for p in sorted(glob.glob("crates/*/src/**/*.rt", recursive=True)):
        t = open(p, encoding="utf-8").read()
        scope, foreign = scope_of(p, t)
        parts, at = [], 0
        # ghost use lines, comments and clauses alone: code keeps its names
        spans = []
        for m in re.finditer(r"(?m)^\s*ghost use .*$|//.*$", t):
            spans.append((m.start(), m.end()))
        for m in re.finditer(r"(?m)^\s*(?:requires|ensures|ghost)\b[^{\n]*\{", t):
            depth, k = 1, m.end()
            while depth:
                depth += {"{": 1, "}": -1}.get(t[k], 0)
                k += 1
            spans.append((m.end(), k))
        for a, b in sorted(spans):
            if a < at:
                continue
            parts += [t[at:a], turn(t[a:b], scope, foreign)]
            at = b
        sources[p] = "".join(parts) + t[at:]
        fns = set(re.findall(r"\bfn (\w+)|\b(?:struct|enum|const|static|mod) (\w+)", t) and [x for y in re.findall(r"\bfn (\w+)|\b(?:struct|enum|const|static|mod) (\w+)", t) for x in y if x])
        for n, to in scope.items():
            if to in fns:
                clash.append((p, to, [n, "an item of the source"]))
    for c in clash:
        print("together:", *c)
    print(len(texts), "proof texts,", len(sources), "sources,", sum(len(d) for d in mods.values()), "names,", len(clash), "fall together")
    if dry:
        return
    for p, t in list(texts.items()) + list(sources.items()):
        with open(p, "w", encoding="utf-8") as f:
            f.write(t)


main()
