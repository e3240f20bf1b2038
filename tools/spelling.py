#!/usr/bin/env python3
"""Brings the repository's own definitions and lemmas to one spelling: words in snake case, types and modules in camel case.

usage: tools/spelling.py [--list]      at the top, once, after the toolchain's own script; --list only prints each name beside its new one

A name counts as ours where a file of specs/ or proofs/ declares it. What a library exports under the same spelling stays as it is in the files that bring that in. Functions,
types, fields and constants of src/ keep their names. Where two names of one file would fall together, the one that changes gets '_lem'.
"""
import collections
import os
import re
import sys

NAME = r"[^\s(){}\[\].;,\"«»:=λ→∀|↦]+"
DECLARED = re.compile(r"^\s*(?:pub\s+)?(?:abbrev\s+|unfoldable\s+)?(?:pub\s+)?(%s(?:\s+%s)*)\s*:(?![=:])" % (NAME, NAME))
TOKEN = re.compile(NAME)
GOAL = re.compile(r":\s*tie\.(Need-|invariant-|decreases-)|:\s*tie\.(measure|Need)")


def files(ends):
    for folder, dirs, names in os.walk("crates"):
        dirs[:] = sorted(d for d in dirs if d != "out")
        for name in sorted(names):
            if name.endswith(ends):
                yield os.path.join(folder, name)


def read(path):
    with open(path, encoding="utf-8") as f:
        return f.read()


def bare(text):
    """The text without its comments."""
    return "\n".join(re.sub(r"(^|\s)--(\s.*|$)", r"\1", line) for line in text.split("\n"))


def foreign(text):
    """The names that a file brings in from a library."""
    found = set()
    ours = {d for d in os.listdir("crates")}
    for path, items in re.findall(r"use\s+([^\s{;]+)\.\{([^}]*)\}", text):
        parts = path.split(".")
        if not (parts[0] == "Rattle" and parts[1] in ours):
            for item in items.split(","):
                words = item.split()
                if words:
                    found.add(words[-1])
    return found


def spelled(name):
    if not re.match(r"[a-z₀-₉]", name):
        # a fact keeps its capital
        head = re.match(r"[A-Z][A-Za-z0-9]*'*$", name)
        return name.replace("′", "'") if head else name.replace("-", "_").replace("′", "'")
    name = name.replace("′", "'").replace("-", "_")
    return re.sub(r"([a-z0-9'])([A-Z])", lambda m: m.group(1) + "_" + m.group(2), name).lower()


def main():
    texts = {path: read(path) for path in files(".antt")}
    declared = collections.defaultdict(set)
    for path, text in texts.items():
        for line in bare(text).split("\n"):
            m = DECLARED.match(line)
            if m and not GOAL.search(line):
                for name in m.group(1).split():
                    declared[name].add(path)
    new = {name: spelled(name) for name in declared}
    new = {name: to for name, to in new.items() if to != name and "◌" not in name}

    # a place of a path, or a field, is no name of its own
    plain = lambda text: set(TOKEN.findall(re.sub(r"\.(?!\s)%s" % NAME, " ", re.sub(r"use\s+[^\s{;]+\.(?=\{)", "use ", text))))
    seen = {path: plain(bare(text)) for path, text in texts.items()}
    brought = {path: foreign(text) for path, text in texts.items()}
    for path in files(".rt"):
        text = read(path)
        seen[path] = plain("\n".join(re.findall(r"(?:ghost use|requires|ensures)[^\n]*", text)))
        brought[path] = foreign(text)
    falls = set()
    for path, tokens in seen.items():
        by = collections.defaultdict(set)
        for t in tokens:
            by[new[t] if t in new and t not in brought[path] else t].add(t)
        for to, froms in sorted(by.items()):
            if len(froms) > 1:
                # a definition has the plain name before a lemma, what a library or src/ names before both, and what is in snake case already before what is not
                definitions = {t for t in froms if re.match(r"[a-z][a-z0-9]*[A-Z]", t)}
                lemmas = {t for t in froms if t in declared and t not in brought[path]} - definitions
                taken = froms - definitions - lemmas
                falls |= (definitions if taken else set()) | (lemmas if definitions or taken else {t for t in lemmas if t != to})
                if "--list" in sys.argv:
                    print("together:", path, to, sorted(definitions), sorted(lemmas), sorted(taken))
    for t in falls:
        new[t] = new.get(t, t) + "_lem"
    if "--list" in sys.argv:
        for name in sorted(new):
            print(name, new[name])
        return

    for path in list(files(".antt")) + list(files(".rt")):
        text = read(path)
        out = []
        for line in text.split("\n"):
            antt = path.endswith(".antt")
            comment = re.search(r"(^|\s)--(\s|$)", line) if antt else re.search(r"(^|\s)//", line)
            code, said = (line[: comment.start()], line[comment.start():]) if comment else (line, "")
            if antt or re.search(r"ghost use|requires|ensures|^\s*(//|ghost )", line) or "≡" in line or "λ" in line:
                turn = lambda m: new[m.group(0)] if m.group(0) in new and m.group(0) not in brought[path] else m.group(0)
                code = TOKEN.sub(turn, code)
                said = re.sub(r"[a-z][A-Za-z0-9]*[A-Z][A-Za-z0-9]*", turn, said)
                said = re.sub(r"(?<=\blaw )[a-z]+(-[a-z]+)+|(?<=`)[a-z]+(-[a-z]+)+(?=`)", turn, said)
            out.append(code + said)
        with open(path, "w", encoding="utf-8") as f:
            f.write("\n".join(out))


main()
