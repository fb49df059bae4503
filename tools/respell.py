#!/usr/bin/env python3
"""Brings the repository's own definitions and lemmas to snake case, once, right after port.py.

usage: tools/respell.py [--check]      at the top of the repository

port.py respells the names of the library and a few of ours. This turns what is left: a name of ours with a dash, as
`lent-after`, gets underscores, as `lent_after`, in every file of crates/ that port.py turns (.rt, .antt), in the
clauses of must-fail edits, and between backticks in README.md, docs/ and rust/README.md. A name that a file imports
from the library keeps its spelling there. Functions of src/, exported C names, strings, inputs and outputs are not
touched. It prints where two spellings of a name meet in one file: here only where an old proof names a step of the code
beside the module of the function that it calls. --check writes nothing. A library's name that is written with its whole
path, and a file's name in a page that is a lemma's too, are to be turned back by hand.
"""

import os
import re
import sys

NAME = re.compile(r"[^\s(){}\[\],;.«»\"@`:]+")
USE = re.compile(r"^(\s*(?:pub )?(?:ghost )?use )([^\s{;]+?)(?:\.\{([^{}]*)\})?(?: as (\S+?))?;?\s*$", re.M)
# Heads of the names that the checker makes for a function's proof; proofs that cite them are turned by hand.
MADE = ("Need", "After", "In", "At", "Then", "Else", "Joined", "Goes", "Arm", "Inv")


def own_crates():
    return {c for c in os.listdir("crates") if os.path.isdir(os.path.join("crates", c, "src"))}


def files():
    for root, dirs, names in os.walk("crates"):
        dirs[:] = sorted(d for d in dirs if d != "out")
        for name in sorted(names):
            yield os.path.join(root, name)


def read(path):
    with open(path, encoding="utf-8") as f:
        return f.read()


def is_dashed(token):
    """A name with a dash inside: letters or digits on both sides of it, and no operator."""
    parts = token.split("-")
    return len(parts) > 1 and all(re.search(r"[^\W_]", part) for part in parts)


def is_ours(path, ours):
    parts = path.split(".")
    return parts[0] == "Rattle" and len(parts) > 1 and parts[1] in ours


def foreign(text, ours):
    """The names with a dash that a file imports from the library, and the aliases of the library's modules."""
    names, aliases = set(), set()
    for m in USE.finditer(text):
        if is_ours(m.group(2), ours):
            continue
        for item in (m.group(3) or "").split(","):
            words = item.split()
            if words:
                names.add(words[0])
                names.add(words[-1])
        if m.group(3) is None:
            aliases.add(m.group(4) or m.group(2).split(".")[-1])
    return names, aliases


def comment_start(line):
    """Where antt's comment begins in a line, or its length."""
    m = re.search(r"(?:^|(?<=[\s(){}\[\],;]))--(?=\s|$|-)", line)
    return m.start() if m else len(line)


def snake(token):
    return token.replace("-", "_")


def turn_code(text, keep, aliases, declared, seen):
    """Respells the names of a stretch of antt."""
    out, last = [], 0
    for m in NAME.finditer(text):
        token = m.group(0)
        if not is_dashed(token) or token in keep or token not in declared:
            continue
        before = text[: m.start()]
        head = re.search(r"([\w'·]+)\.$", before)
        if head and (head.group(1) in aliases or head.group(1) in ("tie", "goal")):
            continue
        seen.add(token)
        out.append(text[last : m.start()] + snake(token))
        last = m.end()
    return "".join(out) + text[last:]


def turn_words(text, declared):
    """Respells names of ours in a comment or a page: those between backticks or guillemets."""
    def one(name):
        return snake(name.group(0)) if name.group(0) in declared else name.group(0)

    return re.sub(r"`[^`\n]*`|«[^»\n]*»", lambda m: NAME.sub(one, m.group(0)), text)


def turn_antt(text, ours, declared, seen):
    keep, aliases = foreign(text, ours)
    out = []
    for line in text.split("\n"):
        at = comment_start(line)
        m = USE.match(line)
        if m and not is_ours(m.group(2), ours):
            out.append(line)
            continue
        out.append(turn_code(line[:at], keep, aliases, declared, seen) + turn_words(line[at:], declared))
    return "\n".join(out)


def turn_clause(text, keep, declared, seen):
    """A clause of source: names in guillemets lose them where snake case needs none."""
    def one(name):
        return snake(name.group(1)) if name.group(1) in declared and name.group(1) not in keep else name.group(0)

    text = re.sub(r"«([^»\n]*)»", one, text)
    text = re.sub(r"«(\w*_\w*)»", r"\1", text)
    return turn_code(text, keep, set(), declared, seen)


def turn_rt(text, ours, declared, seen):
    keep, _ = foreign(text, ours)
    out = []
    for line in text.split("\n"):
        at = line.find("//")
        code, comment = (line, "") if at < 0 or '"' in line[:at] else (line[:at], line[at:])
        parts = re.split(r'("(?:[^"\\]|\\.)*")', code)
        parts = [p if p.startswith('"') else turn_clause(p, keep, declared, seen) for p in parts]
        out.append("".join(parts) + turn_words(comment, declared))
    return "\n".join(out)


def turn_edit(text, declared, seen):
    """An edit's texts are lines of source or of specs/."""
    out = []
    for line in text.split("\n"):
        m = re.match(r"(old: |new: )(.*)$", line)
        out.append(m.group(1) + turn_clause(m.group(2), set(), declared, seen) if m else line)
    return "\n".join(out)


def declared_names(ours):
    """Every name with a dash that stands in our antt as our own: not imported, and not made by the checker."""
    found = {}
    for path in files():
        if not path.endswith(".antt"):
            continue
        text = read(path)
        keep, aliases = foreign(text, ours)
        walk = path.endswith("Proof.antt")
        for line in text.split("\n"):
            m = USE.match(line)
            if m and not is_ours(m.group(2), ours):
                continue
            code = line[: comment_start(line)]
            for m in NAME.finditer(code):
                token = m.group(0)
                if not is_dashed(token) or token in keep:
                    continue
                head = re.search(r"([\w'·]+)\.$", code[: m.start()])
                if head and (head.group(1) in aliases or head.group(1) in ("tie", "goal")):
                    continue
                if walk and token.split("-")[0] in MADE:
                    continue
                found.setdefault(token, set()).add(path)
    return found


def main(argv):
    ours = own_crates()
    found = declared_names(ours)
    # names that fall together: two spellings of ours, or one of ours and a name that the file has already
    plain = {}
    for path in files():
        if path.endswith(".antt"):
            text = read(path)
            plain[path] = set(NAME.findall("\n".join(l[: comment_start(l)] for l in text.split("\n"))))
    for token, paths in sorted(found.items()):
        for path in sorted(paths):
            if snake(token) in plain[path]:
                print(f"falls together: {token} and {snake(token)} in {path}")
    seen, changed = set(), 0
    turned = {}
    for path in files():
        if path.endswith(".antt"):
            turned[path] = turn_antt(read(path), ours, found, seen)
        elif path.endswith(".rt"):
            turned[path] = turn_rt(read(path), ours, found, seen)
        elif path.endswith(".edit"):
            turned[path] = turn_edit(read(path), found, seen)
    pages = ["README.md", "rust/README.md"]
    pages += [os.path.join(root, n) for root, _, names in os.walk("docs") for n in names if n.endswith(".md")]
    for path in pages:
        if os.path.exists(path) and os.path.basename(path) != "PORT.md":
            turned[path] = turn_words(read(path), found)
    for path, text in turned.items():
        if text != read(path):
            changed += 1
            if "--check" not in argv:
                with open(path, "w", encoding="utf-8") as f:
                    f.write(text)
    print(f"respell: {len(seen)} names in {changed} files")


if __name__ == "__main__":
    sys.exit(main(sys.argv[1:]))
