#!/usr/bin/env python3
"""Respells the repository's own definitions and lemmas: words in snake case, as `number_of` and `list_exact`.

usage: tools/respell.py [FOLDER]

It was run once, right behind the kit's port.py, when the repository was brought to the kit that it is proved with now.
What turns: each name that a file of specs/ or proofs/ declares, where it begins in lower case and has a capital, a dash or a middle dot, in
every .antt file and in the clauses of every .rt file. A name that a file takes from a library stays there. Functions of src/, exported
names, types, strings and the names that Rattle makes for goals stay. A name in a comment turns only where it has a capital.
It says on a line 'meets:' where two names would fall together, and changes neither.
"""
import collections
import os
import re
import sys

WORD = re.compile(r'[^\s(){}.;,@"«»⌜⌝]+')
SIGNED = re.compile(
    r"(?m)^ *(?:(?:pub|abbrev|unfoldable|pattern|let|where|do) )*([^\s(){}.;,@\"«»:]+)(?: \{[^{}\n]*\})* :(?= |\n)"
)
SEVERAL = re.compile(r"(?m)^ +((?:pub )?[a-z][\w'′-]*(?: [a-z][\w'′-]*)+) :(?= |\n)")
TYPED = re.compile(r"[({]([^(){}:]+) : ")
LAMBDA = re.compile(r"λ ([^.(){}]+)\.")
GOAL = re.compile(r": *(?:tie|goal)\.")
USE = re.compile(r"(?m)^ *(?:pub )?(?:ghost )?use ([^\s;{]+?)\.?(\{[^}]*\})?(?: as (\S+?))?;?$")
CAPITAL = re.compile(r"[a-z0-9][A-Z]")
COMMENT = re.compile(r"(--|//).*")
# Lemmas that port.py has spelled as the functions that they speak of are spelled here, and functions into Type, which are types.
LEMMAS = {"got_number": "got_number_lem", "row_before": "row_before_lem", "ruleOf": "RuleOf", "is_bytes": "IsBytes", "isBytes": "IsBytes"}


def crates(top):
    with open(os.path.join(top, "crates.txt"), encoding="utf-8") as f:
        lines = (l.split("#")[0].strip() for l in f)
        return [re.split(r"[\s:]", l)[0] for l in lines if l]


def files(top, end):
    for folder, dirs, names in os.walk(os.path.join(top, "crates")):
        dirs[:] = sorted(d for d in dirs if d != "out")
        for n in sorted(names):
            if n.endswith(end):
                yield os.path.join(folder, n)


def read(path):
    with open(path, encoding="utf-8") as f:
        return f.read()


def snake(name):
    name = re.sub(r"([A-Z][A-Za-z]*)·", lambda m: m[1].lower() + "_", name)
    name = re.sub(r"(?<=[a-z0-9])[A-Z]", lambda m: "_" + m[0].lower(), name)
    return name.replace("-", "_").replace("·", "_").replace("′", "'")


def turns(name):
    if re.fullmatch(r"[A-Z][A-Za-z]*·[a-z]\w*", name):
        return True
    return re.fullmatch(r"[a-z][\w'′₀-₉-]*", name) is not None and (
        CAPITAL.search(name) is not None or "-" in name or "′" in name
    ) and not name.endswith("-")


def is_generated_home(path):
    """A folder of one function's proof, where a path into `c` is spelled by Rattle."""
    return os.path.basename(path) in ("Proof.antt", "Answers.antt", "Invariants.antt")


def declared(text, path):
    out = set()
    for m in SIGNED.finditer(text):
        line = text[m.start() : text.find("\n", m.start())]
        if is_generated_home(path) and GOAL.search(line):
            continue
        out.add(m[1])
    for m in (*SEVERAL.finditer(text), *TYPED.finditer(text)):
        out.update(m[1].split())
    for m in LAMBDA.finditer(text):
        out.update(m[1].split())
    return {n for n in out if turns(n)}


def fields(text):
    out = set()
    for m in re.finditer(r"(?ms)^ *(?:pub )?record .*?(?=\n\n|\Z)", text):
        out.update(re.findall(r"(?m)^ +(?:pub )?([^\s:(){}]+) : ", m[0]))
    return out


def from_libraries(text, own):
    """The names that a file takes from elsewhere than this repository's crates."""
    out = set()
    for m in USE.finditer(text):
        parts = m[1].split(".")
        if parts[0] == "Rattle" and len(parts) > 1 and parts[1] in own:
            continue
        for item in (m[2] or "").strip("{}").split(","):
            out.add(item.split(" as ")[-1].strip())
    return out


def main(argv):
    top = argv[0] if argv else "."
    own = set(crates(top))
    antt, rt = {}, {}
    for p in files(top, ".antt"):
        antt[p] = read(p)
    for p in files(top, ".rt"):
        rt[p] = read(p)
    names, members = set(), set()
    for p, t in antt.items():
        names |= declared(t, p)
        members |= fields(t)
    for t in (*antt.values(), *rt.values()):
        names |= {n for n in re.findall(r"\bas ([^\s,}]+)(?=[,}])", t) if turns(n)}
    to = {n: snake(n) for n in names}
    words = {p: set(WORD.findall(COMMENT.sub("", t))) for p, t in {**antt, **rt}.items()}

    # A lemma that would have the name of the function that it speaks of ends in _lem.
    for n in names:
        if "-" in n and not CAPITAL.search(n) and any(
            n in has and any(w != n and snake(w) == to[n] for w in has) for p, has in words.items() if p in antt and not is_generated_home(p)
        ):
            to[n] += "_lem"
    to.update(LEMMAS)

    # Two names of one file must not fall together.
    meets = set()
    for p, has in words.items():
        met = collections.defaultdict(set)
        for w in has:
            met[to.get(w, w)].add(w)
        for new, olds in met.items():
            if len(olds) > 1 and (p.endswith(".antt") or any(o in to for o in olds)):
                meets.add((p, new, tuple(sorted(olds))))
    for p, new, olds in sorted(meets):
        print(f"meets: {os.path.relpath(p, top)}: {' '.join(olds)} -> {new}")

    changed = 0
    for p, t in {**antt, **rt}.items():
        keep = from_libraries(t, own)
        home = is_generated_home(p)
        code = p.endswith(".rt")

        def turned(line, comment):
            def one(m):
                w = m[0]
                if w not in to or w in keep:
                    return w
                if comment and not CAPITAL.search(w):
                    return w
                before = line[: m.start()]
                if home and before.endswith(".") and w not in members:
                    return w
                if home and re.search(r"(?:tie|goal)\.$", before):
                    return w
                return to[w]

            return WORD.sub(one, line)

        out, inside = [], 0
        for line in t.split("\n"):
            c = COMMENT.search(line)
            if code and c and c[0].startswith("--"):
                c = None
            body, tail = (line[: c.start()], line[c.start() :]) if c else (line, "")
            if '"' in body:
                parts = re.split(r'("(?:[^"\\]|\\.)*")', body)
                body = "".join(x if i % 2 else turned(x, code) for i, x in enumerate(parts))
            else:
                body = turned(body, False)
            out.append(body + turned(tail, True))
        new = "\n".join(out)
        if new != t:
            changed += 1
            with open(p, "w", encoding="utf-8") as f:
                f.write(new)
    print(f"respell: {len(to)} names, {changed} files changed")


main(sys.argv[1:])
