#!/usr/bin/env python3
"""Brings the names that this repository declares in specs/ and proofs/ to today's spelling: words in snake case, facts and types in camel case.

usage: respell.py [--look]        at the top of the repository, once, after the kit's own port script; --look changes nothing

Goals and other names that Rattle makes stay, and so do names that a file imports from a library of the kit.
A name that would fall together with another one of the same file is told, and then nothing is written.
"""

import collections
import os
import re
import sys

NAME = r"[^\s(){}.;,@\"«»]+"
WORDS = r"(?:(?:abbrev|pub|unfoldable|record|data|mutual|ruleset|infix|infixl|infixr) )*"
DECLARES = re.compile(rf"^\s*{WORDS}({NAME})(?: [({{].*?[)}}])* :(?: (.*))?$")
LIST = re.compile(rf"^\s*{WORDS}({NAME}(?: {NAME})+) :(?: (.*))?$")
USE = re.compile(r"^\s*(?:ghost )?(?:pub )?use ([^\s;{]+?)(?:\.?\{([^}]*)\})?(?: as ([^\s;]+))?;?\s*$")
BOUND = re.compile(rf"(?:\blet |λ )({NAME})|[({{]({NAME}(?: {NAME})*) : ")
# Names whose plain respelling is a library's name in the files that declare them.
APART = {"bit-or": "bit_or_splits"}
CLAUSE = re.compile(r"\b(?:requires|ensures|ghost)\b\*?")


def crates():
    return set(os.listdir("crates"))


def files():
    for folder, dirs, names in os.walk("crates"):
        dirs[:] = sorted(d for d in dirs if d != "out")
        for n in sorted(names):
            if n.endswith((".antt", ".rt")):
                yield os.path.join(folder, n)


def of_a_function(path):
    return "/proofs/" in path and path.endswith(("Answers.antt", "Invariants.antt", "Proof.antt"))


def respelled(name, kind):
    """The name in today's spelling; kind is what it declares."""
    if "-" not in name and not re.match(r"[a-z]+[A-Z]", name):
        return name
    if re.match(r"[A-Z][a-z]", name) and re.search(r"Type \d$|Type$", kind):
        return "".join(w[:1].upper() + w[1:] for w in name.split("-"))
    name = re.sub(r"(?<=[a-z0-9])[A-Z](?=[a-z]|$)", lambda m: "_" + m[0].lower(), name)
    return name.replace("-", "_")


def lines_of(path):
    with open(path, encoding="utf-8") as f:
        return f.read().split("\n")


def library_use(line, own):
    """Whether the line imports from a library; the names that it brings, and the aliases that it makes."""
    m = USE.match(line)
    if not m:
        return None
    steps = m[1].split(".")
    mine = steps[0] == "Rattle" and len(steps) > 1 and steps[1] in own or steps[0] in ("package", "goal")
    brought, aliases = set(), set()
    for item in (m[2] or "").split(","):
        words = item.split()
        if len(words) == 3 and words[1] == "as":
            aliases.add(words[2])
        elif words:
            brought.add(words[0])
    if m[3]:
        aliases.add(m[3])
    return mine, brought, aliases


def declared():
    """Every name that the repository's own texts declare, with what it stands for."""
    own, names = crates(), collections.defaultdict(set)
    for path in files():
        for line in lines_of(path):
            use = library_use(line, own)
            if use:
                for a in use[2]:
                    names[a].add("")
                continue
            if path.endswith(".rt") or line.lstrip().startswith("--"):
                continue
            m = DECLARES.match(line)
            if m and not (m[2] or "").startswith("goal."):
                names[m[1]].add(m[2] or "")
            m = LIST.match(line)
            if m and not (m[2] or "").startswith("goal."):
                for n in m[1].split():
                    names[n].add(m[2] or "")
            for m in BOUND.finditer(line):
                for n in (m[1] or m[2]).split():
                    names[n].add("")
    return names


def new_names():
    out = {}
    for n, kinds in declared().items():
        if re.search(r"[^\w'◌∈⊆≡-]", n) or n.startswith("-"):
            continue
        to = APART.get(n) or respelled(n, max(kinds, key=len))
        if to != n:
            out[n] = to
    return out


def turned(path, table, own):
    """The text of the file with names respelled, and the names that fell together."""
    text, kept, seen, made = [], set(), set(), collections.defaultdict(set)
    one_thing = set()
    in_function = of_a_function(path)
    rust = path.endswith(".rt")
    for line in lines_of(path):
        use = library_use(line, own)
        if use and not use[0]:
            kept |= use[1]
        if use:
            # A name and its alias may become one.
            one_thing |= {b for a, b in re.findall(rf"({NAME}) as ({NAME})", line) if table.get(a, a) == table.get(b, b)}

    def turn(part):
        path_ends = re.match(r"\s*(?:ghost )?(?:pub )?use [^{]*", part)

        def one(m):
            n = m[0]
            before = part[: m.start()]
            if path_ends and m.end() <= path_ends.end() and n not in table:
                return n
            if n in kept or n not in table:
                if n not in one_thing:
                    seen.add(n)
                return n
            if re.search(r"\bgoal\.$", before) or in_function and re.search(r"(?<![\w.])[a-z]\.$", before):
                return n
            if n not in one_thing:
                made[table[n]].add(n)
            return table[n]

        return re.sub(NAME, one, part)

    depth = 0
    for line in lines_of(path):
        use = library_use(line, own)
        if use and not use[0]:
            m = re.sub(rf"( as )({NAME})", lambda k: k[1] + table.get(k[2], k[2]), line)
            text.append(m)
            continue
        if in_function and re.match(rf"\s*(?:abbrev )?(?:pub )?{NAME} : goal\.", line):
            text.append(line)
            kept.add(re.match(rf"\s*(?:abbrev )?(?:pub )?({NAME}) : goal\.", line)[1])
            continue
        if rust:
            code, note = (line, "") if "//" not in line else (line[: line.index("//")], line[line.index("//") :])
            note = re.sub(r"`[^`]*`", lambda m: turn(m[0]), note)
            if use or depth or CLAUSE.search(code):
                if not use:
                    start = 0 if depth else CLAUSE.search(code).start()
                    depth += code[start:].count("{") - code[start:].count("}")
                    depth = max(depth, 0)
                    code = code[:start] + "".join(t if t.startswith('"') else turn(t) for t in re.split(r'("[^"]*")', code[start:]))
                else:
                    code = turn(code)
            text.append(code + note)
            continue
        code, note = line, ""
        m = re.search(r"(?:^|\s)--(?:\s|$)", line)
        if m:
            code, note = line[: m.start()], line[m.start() :]
            note = re.sub(r"`[^`]*`", lambda k: turn(k[0]), note)
        text.append(turn(code) + note)
    clashes = {to: olds for to, olds in made.items() if len(olds) > 1 or to in seen}
    whole = re.sub(r"(?m)^((?:ghost )?(?:pub )?use .*)$", lambda m: re.sub(rf"({NAME}) as \1(?=[,}}])", r"\1", m[0]), "\n".join(text))
    return whole, clashes


def main(argv):
    own, table = crates(), new_names()
    results, bad = {}, 0
    for path in files():
        text, clashes = turned(path, table, own)
        results[path] = text
        for to, olds in sorted(clashes.items()):
            print(f"{path}: {', '.join(sorted(olds))} and {to} fall together")
            bad += 1
    if "--look" in argv:
        for n in sorted(table):
            print(n, table[n])
    elif bad:
        return 1
    else:
        for path, text in results.items():
            with open(path, encoding="utf-8") as f:
                old = f.read()
            if old != text:
                with open(path, "w", encoding="utf-8") as f:
                    f.write(text)
    print(f"{len(table)} names, {bad} that fall together")
    return 0


if __name__ == "__main__":
    sys.exit(main(sys.argv[1:]))
