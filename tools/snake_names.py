#!/usr/bin/env python3
"""Brings the repository's own names in antt to Rattle's spelling: definitions, lemmas, fields and constructors in snake case, types in upper camel case.

usage: python3 tools/snake_names.py [--list]

It goes over crates/*/specs, crates/*/proofs, the clauses of crates/*/src and the names in backquotes of comments, README.md and docs/.
A name is turned if the repository declares it and no library or generated module does. --list prints each old and new name and writes nothing.
"""

import collections
import os
import re
import sys

TOP = os.path.dirname(os.path.dirname(os.path.realpath(__file__)))
IDENT = r"[^\s(){}\[\];,.:\"`⟨⟩⌜⌝⦃⦄@=→←λ×≡∷∙Σ⊎|↦]+"
WORD = re.compile(IDENT)
MARKS = r"(?:(?:pattern|unfoldable|abbrev|pub|axiom)\s+)*"
DECLARED = re.compile(r"^\s*" + MARKS + r"((?:" + IDENT + r"\s+)*?" + IDENT + r")\s*(?:\{[^}]*\}\s*)?:\s")
HEAD = re.compile(r"^\s*" + MARKS + r"(?:record|data)\s+(" + IDENT + r")")
BINDER = re.compile(r"[({]((?:" + IDENT + r"\s+)*?" + IDENT + r")\s+:\s")
LET = re.compile(r"\blet\s+(" + IDENT + r")\s*(?::|=)")
USE = re.compile(r"^\s*(?:pub\s+)?use\s+([\w.·+'-]+)\.\{([^}]*)\}")
KEYWORDS = {"pattern", "unfoldable", "abbrev", "pub", "axiom", "record", "data", "module", "use", "let", "in", "where", "elim", "do"}
# what port.py capitalised, though it is no type
CHOSEN = {"Goes-ref": "goes_ref", "Node-at": "node_at", "Put-refused": "put_refused", "Signed-of": "signed_of", "List-ext": "list_ext"}
# what would fall together with another name
CHOSEN |= {"One-of": "IsOneOf", "Parts-done": "PartsAreDone"}
CHOSEN |= {f"{a}-reply": f"Is{a}Reply" for a in ("Drop", "Packet", "Read", "Reset", "Word", "Write")}


def files(*ends):
    for folder, dirs, names in os.walk(os.path.join(TOP, "crates")):
        dirs[:] = sorted(d for d in dirs if d != "out")
        for n in sorted(names):
            if n.endswith(ends):
                yield os.path.join(folder, n)


def text_of(path):
    with open(path, encoding="utf-8") as f:
        return f.read()


def own_crates():
    return set(os.listdir(os.path.join(TOP, "crates")))


def answers(path):
    """Is the file an answer file, whose names are those of goals?"""
    return os.path.basename(path) in ("Proof.antt", "Answers.antt", "Invariants.antt")


def declared():
    names = collections.Counter()
    for path in files(".antt"):
        for line in text_of(path).splitlines():
            if line.lstrip().startswith("--") or USE.match(line):
                continue
            if answers(path):
                m = DECLARED.match(line)
                if m and re.search(r":\s*(tie|goal|goals|given)\.", line):
                    continue
            for m in BINDER.finditer(line):
                for w in m.group(1).split():
                    names[w] += 1
            m = HEAD.match(line)
            if m:
                names[m.group(1)] += 1
                continue
            m = DECLARED.match(line)
            if m and not any(w in KEYWORDS for w in m.group(1).split()):
                for w in m.group(1).split():
                    names[w] += 1
            for m in LET.finditer(line):
                names[m.group(1)] += 1
            if not answers(path):
                for m in WORD.finditer(line):
                    if line[max(0, m.start() - 1) : m.start()] != ".":
                        names[m.group(0)] += 1
        for m in re.finditer(r"^use Rattle\.\S+ as (\S+)$", text_of(path), re.M):
            names[m.group(1)] += 1
    return names


def foreign():
    """Names that files import from modules which are not of this repository, or which Rattle makes."""
    own = own_crates()
    out = set()
    for path in files(".antt", ".rt"):
        for m in re.finditer(r"use\s+([^\s{};]+)\.\{([^}]*)\}", text_of(path)):
            parts = re.split(r"[.]", m.group(1))
            ours = parts[0] == "Rattle" and len(parts) > 1 and parts[1] in own
            if not ours:
                out |= {w.strip() for n in m.group(2).split(",") for w in n.split(" as ")}
    return out


def turned(name):
    if name in CHOSEN:
        return CHOSEN[name]
    if "-" not in name.strip("-") or not re.search(r"\w-\w|\w'-\w|[₀-₉]-\w", name):
        return name
    if name[0].isupper():
        return "".join(p[:1].upper() + p[1:] for p in re.split(r"[-_]", name))
    return name.replace("-", "_")


def table():
    names = declared()
    known = foreign()
    out = {}
    for n in sorted(names):
        t = turned(n)
        if t != n and n not in known:
            out[n] = t
    return out, names, known


def in_code(line, names):
    """The line with names turned; what stands behind 'tie.' or 'goal.' is Rattle's."""

    def one(m):
        w = m.group(0)
        before = line[: m.start()]
        if re.search(r"\b(tie|goal|goals|given)\.$", before):
            return w
        return names.get(w, w)

    return WORD.sub(one, line)


def quoted(line, names):
    return re.sub(r"`[^`]*`", lambda m: in_code(m.group(0), names), line)


def turn_antt(text, names):
    out = []
    for line in text.splitlines(keepends=True):
        code, dash, comment = line.partition("-- ") if line.lstrip().startswith("--") else (line, "", "")
        out.append(in_code(code, names) + dash + quoted(comment, names))
    return "".join(out)


def turn_rt(text, names):
    out = []
    for line in text.splitlines(keepends=True):
        bare = line.strip()
        if bare.startswith("//"):
            out.append(quoted(line, names))
        elif '"' in line:
            out.append(line)
        else:
            out.append(in_code(line, names))
    return "".join(out)


def main(argv):
    names, all_names, known = table()
    if argv == ["--list"]:
        for a, b in sorted(names.items()):
            note = "  FALLS TOGETHER" if b in all_names or b in known or list(names.values()).count(b) > 1 else ""
            print(f"{a}\t{b}{note}")
        return 0
    for path in files(".antt", ".rt"):
        old = text_of(path)
        new = turn_antt(old, names) if path.endswith(".antt") else turn_rt(old, names)
        if new != old:
            with open(path, "w", encoding="utf-8") as f:
                f.write(new)
    pages = [os.path.join(TOP, "README.md")] + [os.path.join(d, n) for d, _, ns in os.walk(os.path.join(TOP, "docs")) for n in ns if n.endswith(".md")]
    for path in pages:
        old = text_of(path)
        new = quoted(old, names)
        if new != old:
            with open(path, "w", encoding="utf-8") as f:
                f.write(new)
    return 0


if __name__ == "__main__":
    raise SystemExit(main(sys.argv[1:]))
